//! Arguments of the calls that take sectors, each drawn for itself and good most of the time, so that a call often has two or
//! three reasons to refuse.

use super::input::Input;
use super::mixture::{kinds_of, lists, Mixture, KINDS};
use super::positions::SECTORS_MAX;
use crate::arguments::{disk, length, limit, number, side, spoil, BAD};
use crate::inputs::{random_grid, BLOCK_MAX};
use crate::random::Random;
use crate::sheets::{damaged, litter};
use crate::size::{Cut, Grid, Size};
use crate::{cores, Run};

/// Draws, in parts.
const PARTS: usize = 50;
const DRAWS: usize = 200;

/// A size and a sector of which each number is good, or now and then another.
fn any_cut(random: &mut Random, good: Cut) -> Cut {
    let Cut { size: Size { grid, block }, sector } = good;
    let grid = Grid::new(side(random, grid.rows), side(random, grid.columns));
    let lengths = [0, 1, sector + 1, 2 * sector, block, block + 1, 2 * block, block - sector / 2];
    let blocks = [0, block + 1, block + sector, BLOCK_MAX, BLOCK_MAX + 1];
    let size = Size { grid, block: number(random, block, &blocks) };
    Cut { size, sector: number(random, sector, &lengths) }
}

/// Sheets with the repairs of each position, now and then with something wrong or with leftovers, or random bytes.
fn sheets(random: &mut Random, input: &Input) -> Vec<u8> {
    let mut sheets = lists(random, input.cut, &input.map);
    for sheet in &mut sheets {
        if random.one_in(2 * BAD) {
            *sheet = damaged(random, input.grid(), sheet);
        }
        if random.one_in(2 * BAD) {
            litter(random, sheet);
        }
    }
    let mut sheets = if random.one_in(4) { input.sheets.clone() } else { sheets.concat() };
    sheets.resize(length(random, sheets.len()), 0);
    sheets
}

/// Positions of any kinds, or more often such that can be restored, some of them with a contradiction.
fn mixture(random: &mut Random, cut: Cut) -> Input {
    let any = kinds_of(random.between(1, (1 << KINDS.len()) - 1));
    let kinds = [any, vec![KINDS[1], KINDS[4]], vec![KINDS[1]], vec![KINDS[0], KINDS[1]]];
    let kinds = &kinds[random.below(kinds.len())];
    Mixture::draw(random, cut, kinds).input
}

fn draw(random: &mut Random) -> Input {
    let cut = Cut::new(random_grid(random), random.between(1, 6), random.between(1, 20));
    let mut input = mixture(random, cut);
    input.sheets = sheets(random, &input);
    input.map.resize(length(random, input.map.len()), 0);
    if random.one_in(BAD) {
        spoil(random, &mut input.map, 0);
    }
    input.array.resize(length(random, input.array.len()), 0);
    input.sectors = number(random, input.sectors, &[0, 1, input.sectors + 1, SECTORS_MAX, SECTORS_MAX + 1]);
    input.limit = limit(random);
    input.disk = disk(random, cut.size.grid);
    Input { cut: any_cut(random, cut), ..input }
}

pub fn statuses(run: &mut Run) {
    let input = draw(&mut run.random);
    input.plan(run);
    input.rebuild(run);
    input.follow(run);
    input.save(run);
}

pub fn looks(run: &mut Run) {
    draw(&mut run.random).look(run);
}

pub fn run(run: &mut Run, rounds: usize) {
    for (name, answers, one) in [
        (
            "sectors, arguments good and bad",
            &[0, 1, 2, 3, 4, 5, 6, 7, 10, 11, 12, 13, 14, 16][..],
            statuses as fn(&mut Run),
        ),
        ("sectors, arguments good and bad, look", &[0, 1], looks),
    ] {
        cores::share(run, name, rounds * PARTS, |run, _| (0..DRAWS).for_each(|_| one(run)));
        run.tally.report(name, answers);
    }
}

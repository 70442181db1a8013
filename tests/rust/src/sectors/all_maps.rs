//! All maps of the smallest grid with two sectors: plan for each, and for each the other calls on an array whose survivors
//! belong to a sealed one and on one where a survivor is damaged.

use super::input::Input;
use super::mixture::lists;
use super::turns::Start;
use crate::inputs::sealed_array;
use crate::losses;
use crate::rebuild::AT_ONCE;
use crate::sheet::SHEET;
use crate::size::{Cut, Grid};
use crate::{cores, Run};

const GRID: Grid = Grid::new(2, 2);
const SECTORS: usize = 2;
/// How many maps there are, and how many make a part, which shares an array.
const MAPS: usize = 1 << (9 * SECTORS);
const PART: usize = 1 << 10;
/// The limits of which one is tried in turns on each map, besides that of one repair; and one map in so many of those with
/// damages has turns too.
const LIMITS: [usize; 6] = [2, 3, 4, 5, 7, 9];
const DAMAGED: usize = 4;

/// The map of a set of sectors, one bit for each.
pub fn map_of_bits(set: usize) -> Vec<u8> {
    (0..GRID.disks() * SECTORS).map(|sector| (set >> sector & 1) as u8).collect()
}

/// Rebuild at once and save.
fn restored(run: &mut Run, input: &Input) {
    input.rebuild(run);
    input.save(run);
}

/// In turns of one repair and in turns of some more.
fn in_turns(run: &mut Run, input: &Input, sealed: Option<&[u8]>) {
    let start = Start::new(input, sealed);
    for limit in [1, run.random.pick(&LIMITS)] {
        start.compare(run, limit);
    }
}

fn one_map(run: &mut Run, cut: Cut, sealed: &[u8], set: usize) {
    let (map, mut array) = (map_of_bits(set), sealed.to_vec());
    losses::forget(&mut run.random, cut.position(), &mut array, &map);
    let sheets = run.random.bytes(SHEET * SECTORS);
    let mut input = Input { limit: AT_ONCE, ..Input::new(cut, array, map, sheets) };
    input.plan(run);
    restored(run, &input);
    in_turns(run, &input, Some(sealed));
    Input { sheets: lists(&mut run.random, cut, &input.map).concat(), ..input.clone() }.follow(run);
    losses::damage(&mut run.random, cut.size, &mut input.array);
    restored(run, &input);
    if run.random.one_in(DAMAGED) {
        in_turns(run, &input, None);
    }
}

/// Each disk of each map is looked at.
fn looks(run: &mut Run, cut: Cut, array: &[u8], set: usize) {
    let mut input = Input::new(cut, array.to_vec(), map_of_bits(set), Vec::new());
    for disk in 0..=GRID.disks() {
        input.disk = disk;
        input.look(run);
    }
}

fn each_map(run: &mut Run, name: &str, answers: &[usize], one: fn(&mut Run, Cut, &[u8], usize)) {
    cores::share(run, name, MAPS / PART, |run, part| {
        let cut = Cut::new(GRID, SECTORS, run.random.between(1, 3));
        let sealed = sealed_array(&mut run.random, cut.size);
        (part * PART..(part + 1) * PART).for_each(|set| one(run, cut, &sealed, set));
    });
    run.tally.report(name, answers);
}

pub fn run(run: &mut Run) {
    each_map(run, "sectors, all maps, 2 sectors", &[0, 6, 7, 11], one_map);
    each_map(run, "sectors, all maps looked at", &[0, 1], looks);
}

//! Every mixture of positions without a loss, restorable, fatal and contradictory, on all calls: at small sizes, at any, and
//! at boundary sizes with sectors that divide the block.

use super::input::Input;
use super::mixture::{any_cut, kinds_of, lists, small_cut, Mixture, KINDS};
use crate::inputs::sizes;
use crate::random::Random;
use crate::sheets;
use crate::size::{Cut, Size};
use crate::{cores, Run};

/// How often each mixture is drawn at small sizes, and how often at any.
const SMALL: usize = 300;
const ANY: usize = 60;
/// The largest numbers of rows and columns that are small.
const BOUND: usize = 4;
/// How many mixtures each boundary size has, and the most bytes of a map there.
const TIMES: usize = 2;
const MAP: usize = 4_096;
/// One sheet in so many has something wrong, and as many have leftovers.
const WRONG: usize = 8;

/// Sheets from elsewhere for all positions, some of them with something wrong.
fn from_elsewhere(random: &mut Random, cut: Cut, map: &[u8]) -> Vec<u8> {
    let mut lists = lists(random, cut, map);
    for sheet in &mut lists {
        if random.one_in(WRONG) {
            *sheet = sheets::damaged(random, cut.size.grid, sheet);
        }
        if random.one_in(WRONG) {
            sheets::litter(random, sheet);
        }
    }
    lists.concat()
}

/// Follow by plan's own sheets, by lists in any order, and by such of which some may be wrong. Where a position is fatal
/// there is no list for it.
fn followed(run: &mut Run, input: &Input) {
    let cut = input.cut;
    let planned = (run.calls.plan)(cut.size.grid, cut.sectors(), &input.map, &input.sheets);
    let planned = planned.map_or(Vec::new(), |planned| planned.outcome.written.concat());
    let listed = lists(&mut run.random, cut, &input.map).concat();
    let wrong = from_elsewhere(&mut run.random, cut, &input.map);
    for sheets in [planned, listed, wrong] {
        Input { sheets, ..input.clone() }.follow(run);
    }
}

/// All calls on one mixture, rebuild in one turn. Look is left to a comparison of its own.
pub fn all_calls(run: &mut Run, input: &Input) {
    input.plan(run);
    input.rebuild(run);
    input.save(run);
    followed(run, input);
}

/// A mixture of so many positions as it has kinds, or of some more.
fn sectors(random: &mut Random, kinds: usize) -> usize {
    kinds + random.pick(&[0, 0, 1, 3])
}

fn every_set(run: &mut Run, name: &str, times: usize, cut: fn(&mut Random, usize) -> Cut) {
    cores::share(run, name, (1 << KINDS.len()) - 1, |run, part| {
        let kinds = kinds_of(part + 1);
        for _ in 0..times {
            let sectors = sectors(&mut run.random, kinds.len());
            let cut = cut(&mut run.random, sectors);
            let mixture = Mixture::draw(&mut run.random, cut, &kinds);
            all_calls(run, &mixture.input);
        }
    });
    run.tally.report(name, &[0, 6, 7, 10, 11, 13, 14]);
}

/// The numbers of sectors that a block of this size can be cut into, few enough for the model.
fn divisors(size: Size) -> Vec<usize> {
    (1..=size.block).filter(|&sectors| size.block % sectors == 0 && sectors * size.disks() <= MAP).collect()
}

/// Mixtures of any kinds at each boundary size and at as many random ones.
fn boundary_sizes(run: &mut Run, rounds: usize) {
    let name = "sectors, boundary sizes";
    let sizes = sizes(&mut run.random);
    cores::share(run, name, rounds * TIMES * sizes.len(), |run, part| {
        let size = sizes[part % sizes.len()];
        let sectors = run.random.pick(&divisors(size));
        let cut = Cut { size, sector: size.block / sectors };
        let kinds = kinds_of(run.random.between(1, (1 << KINDS.len()) - 1));
        let mixture = Mixture::draw(&mut run.random, cut, &kinds);
        all_calls(run, &mixture.input);
    });
    run.tally.report(name, &[0, 6, 7, 10, 11, 13, 14]);
}

pub fn run(run: &mut Run, rounds: usize) {
    every_set(run, "sectors, every mixture, small", rounds * SMALL, |random, sectors| {
        small_cut(random, BOUND, sectors)
    });
    every_set(run, "sectors, every mixture, any size", rounds * ANY, |random, _| any_cut(random));
    boundary_sizes(run, rounds);
}

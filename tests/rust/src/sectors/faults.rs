//! Every refusal of the calls that take sectors alone, every pair of them, and every larger set: of those that apply, the
//! first in the call's list is due. What is wrong in the array, in the map or in the sheets is so at a position of its own.

use super::input::Input;
use super::mixture::lists;
use super::numbers::spoil;
use super::parts::joined;
use super::positions::SECTORS_MAX;
use crate::faults::{resize, wrong_side};
use crate::inputs::{place, random_grid, sealed_array};
use crate::losses::{forget, map_of, ring};
use crate::model::{LEFTOVERS, NOT_ALLOWED, OUT_OF_RANGE, TWICE};
use crate::random::Random;
use crate::rebuild::AT_ONCE;
use crate::sheet::SHEET;
use crate::size::Cut;
use crate::{arguments, cores, Run};

/// How often each set of faults is tried, each time with other values: one fault and two, and more.
const FEW: usize = 50;
const MANY: usize = 2;

/// A call with nothing wrong: a sealed array that has lost a row parity at each position, and sheets with the repairs.
fn faultless(random: &mut Random) -> Input {
    let cut = Cut::new(random_grid(random), random.between(2, 4), random.between(1, 6));
    let grid = cut.size.grid;
    let mut parity = || map_of(grid, &[grid.disk_at(random.below(grid.rows), grid.columns)]);
    let marks: Vec<Vec<u8>> = (0..cut.sectors()).map(|_| parity()).collect();
    let (map, mut array) = (joined(&marks, 1), sealed_array(random, cut.size));
    forget(random, cut.position(), &mut array, &map);
    let sheets = lists(random, cut, &map).concat();
    Input { disk: random.below(grid.disks()), ..Input::new(cut, array, map, sheets) }
}

/// The sheet of some position becomes one that gets this number.
fn spoil_one(random: &mut Random, input: &mut Input, number: usize) {
    let position = random.below(input.sectors);
    spoil(random, number, &mut input.sheets[position * SHEET..(position + 1) * SHEET]);
}

/// A length that is zero or does not divide the block; some of them would be the good one if they were shortened.
fn wrong_sector(random: &mut Random, cut: Cut) -> usize {
    let block = cut.size.block;
    let smaller: Vec<usize> = (1..block).filter(|sector| block % sector != 0).collect();
    let other = if smaller.is_empty() { 0 } else { random.pick(&smaller) };
    random.pick(&[0, other, block + 1, 2 * block, cut.sector + (1 << 16), cut.sector + (1 << 32), usize::MAX])
}

/// A number of sectors that is out of range.
fn wrong_sectors(random: &mut Random, good: usize) -> usize {
    random.pick(&[0, SECTORS_MAX + 1, good + (1 << 16), good + (1 << 32), usize::MAX])
}

/// What can be wrong, those of the contents first: they need the lengths to be right. Of these the leftovers come last, so
/// that they are off the chain as it is then.
const FAULTS: [fn(&mut Random, &mut Input); 14] = [
    // 7: a data disk is changed at some position. Its column then contradicts it.
    |random, a| {
        let (grid, block) = (a.grid(), a.cut.size.block);
        let disk = grid.disk_at(random.below(grid.rows), random.below(grid.columns));
        a.array[disk * block + place(random, block)] ^= random.between(1, 255) as u8;
    },
    // 6: the corners of a rectangle are lost at some position.
    |random, a| {
        let position = random.below(a.sectors);
        ring(random, a.grid(), 2, 0).iter().for_each(|&disk| a.map[disk * a.sectors + position] = 1);
    },
    // 11, 13, 10 and 14.
    |random, a| spoil_one(random, a, NOT_ALLOWED),
    |random, a| spoil_one(random, a, TWICE),
    |random, a| spoil_one(random, a, OUT_OF_RANGE),
    |random, a| spoil_one(random, a, LEFTOVERS),
    // 4, by a byte and by the length.
    |random, a| arguments::spoil(random, &mut a.map, 0),
    |random, a| resize(random, &mut a.map),
    // 5
    |random, a| resize(random, &mut a.sheets),
    // 16, by the length and for plan by the number.
    |random, a| (a.cut.sector, a.sectors) = (wrong_sector(random, a.cut), wrong_sectors(random, a.sectors)),
    // 3
    |random, a| resize(random, &mut a.array),
    // 2
    |random, a| {
        let good = a.cut.size.block;
        a.cut.size.block = random.pick(&[0, 4097, good + (1 << 16), good + (1 << 32), usize::MAX]);
    },
    // 1, by the rows and by the columns.
    |random, a| a.cut.size.grid.rows = wrong_side(random, a.grid().rows),
    |random, a| a.cut.size.grid.columns = wrong_side(random, a.grid().columns),
];

/// How many sets of faults there are.
pub const SETS: usize = 1 << FAULTS.len();

/// An input with one set of faults, given by its bits.
fn with_faults(random: &mut Random, set: usize) -> Input {
    let mut input = faultless(random);
    for (_, fault) in FAULTS.iter().enumerate().filter(|&(i, _)| set >> i & 1 == 1) {
        fault(random, &mut input);
    }
    input
}

/// The calls that return a status with one set of faults. 12, by the limit, is rebuild's alone.
pub fn statuses(run: &mut Run, set: usize) {
    let mut input = with_faults(&mut run.random, set);
    input.plan(run);
    for limit in [AT_ONCE, 0] {
        input.limit = limit;
        input.rebuild(run);
    }
    input.follow(run);
    input.save(run);
}

/// Look with one set of faults, at some disk and at one that had lost nothing before.
pub fn looks(run: &mut Run, set: usize) {
    let mut input = with_faults(&mut run.random, set);
    input.look(run);
    input.disk = 0;
    input.look(run);
}

pub fn run(run: &mut Run) {
    for (name, answers, one) in [
        (
            "sectors, every set of refusals",
            &[0, 1, 2, 3, 4, 5, 6, 7, 10, 11, 12, 13, 14, 16][..],
            statuses as fn(&mut Run, usize),
        ),
        ("sectors, every set of refusals, look", &[0, 1], looks),
    ] {
        cores::share(run, name, SETS, |run, set| {
            let times = if set.count_ones() <= 2 { FEW } else { MANY };
            (0..times).for_each(|_| one(run, set));
        });
        run.tally.report(name, answers);
    }
}

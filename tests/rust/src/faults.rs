//! Every refusal of plan, plan for one disk, rebuild, follow, save and tidy alone, every pair of them, and every larger set:
//! of those that apply, the first in the paper's list is due.

use crate::inputs::{random_grid, sealed_array};
use crate::random::Random;
use crate::rebuild::{self, AT_ONCE};
use crate::sheet::place_of;
use crate::size::Size;
use crate::wanted::Asked;
use crate::{arguments, branch, cores, follow, losses, plan, save, sheets, tidy, Run};

/// How often each set of faults is tried, each time with other values.
const TURNS: usize = 5;

/// The arguments of rebuild and follow, among which are those of plan, save and tidy, and one more for plan for one disk.
struct Arguments {
    size: Size,
    array: Vec<u8>,
    map: Vec<u8>,
    sheet: Vec<u8>,
    /// The number of an erased disk.
    disk: usize,
}

/// A call with nothing wrong: a sealed array that has lost one of its row parities, and a sheet with the repair.
fn faultless(random: &mut Random) -> Arguments {
    let size = Size { grid: random_grid(random), block: random.between(1, 20) };
    let grid = size.grid;
    let disk = grid.disk_at(random.below(grid.rows), grid.columns);
    let map = losses::map_of(grid, &[disk]);
    let mut array = sealed_array(random, size);
    losses::forget(random, size, &mut array, &map);
    let steps = sheets::any_order(random, grid, &map);
    Arguments { size, array, map, sheet: sheets::scattered(random, &steps), disk }
}

/// One byte more or less, or another wrong length.
pub fn resize(random: &mut Random, bytes: &mut Vec<u8>) {
    let right = bytes.len();
    while bytes.len() == right {
        let length = arguments::length(random, right);
        bytes.resize(length, 0);
    }
}

/// A number of rows or columns that is out of range; some of them would be the good one if they were shortened.
pub fn wrong_side(random: &mut Random, good: usize) -> usize {
    random.pick(&[0, 1, 16, good + 256, good + (1 << 32), usize::MAX - 1, usize::MAX])
}

/// Where the first record begins. A chain that was empty has record 1 then.
fn first_record(sheet: &mut [u8]) -> usize {
    sheet[1] = sheet[1].max(1);
    place_of(sheet[1] as usize)
}

/// What can be wrong, those of the contents first: they need the lengths to be right. Of these the leftovers come last, so
/// that they are off the chain as it is then; without them all is zero there. A ring stays one where the kind is another,
/// not where a number is out of range.
const FAULTS: [fn(&mut Random, &mut Arguments); 13] = [
    // 7: a data disk is changed. Its column then contradicts it.
    |random, a| {
        let Size { grid, block } = a.size;
        let disk = grid.disk_at(random.below(grid.rows), random.below(grid.columns));
        a.array[disk * block + random.below(block)] ^= random.between(1, 255) as u8;
    },
    // 6: the corners of a rectangle are lost, and one of them is wanted.
    |random, a| {
        let corners = losses::ring(random, a.size.grid, 2, 0);
        corners.iter().for_each(|&disk| a.map[disk] = 1);
        a.disk = random.pick(&corners);
    },
    // 11: another disk, a stripe that does not go through the disk, or no repair at all.
    |random, a| {
        let at = first_record(&mut a.sheet);
        match random.below(3) {
            0 => a.sheet[at] ^= 1,
            1 => a.sheet[at + 1] += 1,
            _ => a.sheet[1] = 0,
        }
        sheets::clean(&mut a.sheet);
    },
    // 13: the first record leads to itself.
    |_, a| {
        let at = first_record(&mut a.sheet);
        a.sheet[at + 2] = a.sheet[1];
    },
    // 10: another kind, or a first or next number that no record has.
    |random, a| {
        let (at, number) = (first_record(&mut a.sheet), random.between(33, 255) as u8);
        match random.below(3) {
            0 => a.sheet[0] = sheets::other_kind(random),
            1 => a.sheet[1] = number,
            _ => a.sheet[at + 2] = number,
        }
        sheets::clean(&mut a.sheet);
    },
    // 14: leftovers.
    |random, a| sheets::litter(random, &mut a.sheet),
    // 4, by a byte and by the length.
    |random, a| arguments::spoil(random, &mut a.map, 0),
    |random, a| resize(random, &mut a.map),
    // 5
    |random, a| resize(random, &mut a.sheet),
    // 3
    |random, a| resize(random, &mut a.array),
    // 2
    |random, a| {
        let good = a.size.block;
        a.size.block = random.pick(&[0, 4097, good + (1 << 16), good + (1 << 32), usize::MAX]);
    },
    // 1, by the rows and by the columns.
    |random, a| a.size.grid.rows = wrong_side(random, a.size.grid.rows),
    |random, a| a.size.grid.columns = wrong_side(random, a.size.grid.columns),
];

/// The number of a disk that is present or of none; some of them would be the good one if they were shortened.
fn wrong_disk(random: &mut Random, a: &Arguments) -> usize {
    let present = a.map.iter().position(|&mark| mark == 0).unwrap_or(usize::MAX);
    let disks = a.map.len();
    random.pick(&[present, present, disks, a.disk + 256, a.disk + (1 << 32), usize::MAX])
}

/// The calls with one set of faults, given by its bits.
fn one_set(run: &mut Run, set: usize) {
    for _ in 0..TURNS {
        let mut a = faultless(&mut run.random);
        for (i, fault) in FAULTS.iter().enumerate() {
            if set >> i & 1 == 1 {
                fault(&mut run.random, &mut a);
            }
        }
        plan::compare(&mut run.tally, a.size.grid, &a.map, &a.sheet);
        // 15, by the number, which the plan for one disk has alone.
        let asked = Asked::new(a.size.grid, &a.map, &a.sheet);
        for disk in [a.disk, wrong_disk(&mut run.random, &a)] {
            asked.compare(&mut run.tally, branch::shortest, disk);
        }
        // 12, by the limit, which is rebuild's alone.
        for limit in [AT_ONCE, 0] {
            rebuild::compare(&mut run.tally, a.size, &a.array, &a.map, &a.sheet, limit);
        }
        follow::compare(&mut run.tally, a.size, &a.array, &a.map, &a.sheet);
        save::compare(&mut run.tally, a.size, &a.array, &a.map);
        tidy::compare(&mut run.tally, &a.sheet);
    }
}

pub fn run(run: &mut Run) {
    let name = "every set of refusals";
    cores::share(run, name, 1 << FAULTS.len(), one_set);
    run.tally.report(name, &[0, 1, 2, 3, 4, 5, 6, 7, 10, 11, 12, 13, 14, 15]);
}

//! Sector lengths and numbers of sectors: every length for small blocks, every divisor of the largest block, and numbers from
//! none to more than there can be.

use super::input::Input;
use super::mixture::{lists, Mixture, KINDS};
use super::positions::{SECTORS_MAX, WRONG_SECTOR};
use crate::inputs::{sealed_array, BLOCK_MAX};
use crate::model::SUCCESS;
use crate::random::Random;
use crate::sheet::of_repairs;
use crate::size::{Cut, Grid, Size};
use crate::{cores, Run};

/// Blocks whose every sector length is tried.
const BLOCKS: [usize; 16] = [1, 2, 3, 4, 5, 6, 8, 12, 16, 17, 24, 30, 36, 60, 64, 100];
/// Grids of which each is tried.
const GRIDS: [Grid; 4] = [Grid::new(2, 2), Grid::new(2, 3), Grid::new(3, 2), Grid::new(3, 4)];
/// Numbers that can be lent a map, and how far apart those in between stand.
const LENDABLE: usize = 2 * SECTORS_MAX;
const STEP: usize = 131;

/// The calls that take a length and return a status.
pub fn statuses(run: &mut Run, input: &Input) {
    input.rebuild(run);
    input.follow(run);
    input.save(run);
}

/// Look at the first disk and at the last.
pub fn looks(run: &mut Run, input: &Input) {
    for disk in [0, input.grid().disks() - 1] {
        Input { disk, ..input.clone() }.look(run);
    }
}

/// Losses that can be restored at all positions, with sheets that do it.
fn restorable(random: &mut Random, cut: Cut) -> Input {
    let mut input = Mixture::draw(random, cut, &KINDS[..2]).input;
    input.sheets = lists(random, cut, &input.map).concat();
    input
}

/// Nothing is erased, and all buffers are as long as so many sectors ask for.
fn whole(random: &mut Random, cut: Cut, sectors: usize) -> Input {
    let (array, map) = (sealed_array(random, cut.size), vec![0; cut.size.disks() * sectors]);
    Input { cut, sectors, array, map, sheets: of_repairs(&[]).repeat(sectors), limit: 1, disk: 0 }
}

/// The lengths to try: all up to a bit more than the block, and such that would be one of these if they were shortened.
fn lengths(block: usize) -> impl Iterator<Item = usize> {
    let shortened = (0..=block).flat_map(|length| [length + (1 << 16), length + (1 << 32)]);
    (0..=block + 2).chain([2 * block, 3 * block, 1 << 63, usize::MAX - 1, usize::MAX]).chain(shortened)
}

/// The numbers of sectors that a call might take for those of a length: rounded down, rounded up, and one.
fn taken_for(block: usize, sector: usize) -> Vec<usize> {
    let down = block.checked_div(sector).unwrap_or(0);
    vec![down, down + 1, block.checked_div(sector & 0xffff).unwrap_or(1)]
}

/// Every length for one block: 16 is due exactly if it does not divide the block, whatever the other lengths agree with.
pub fn every_length(run: &mut Run, size: Size, judge: fn(&mut Run, &Input)) {
    for sector in lengths(size.block) {
        let cut = Cut { size, sector };
        if sector != 0 && size.block % sector == 0 {
            let input = restorable(&mut run.random, cut);
            judge(run, &input);
            continue;
        }
        for sectors in taken_for(size.block, sector) {
            let input = whole(&mut run.random, cut, sectors);
            judge(run, &input);
        }
    }
}

/// Every divisor of the largest block.
fn every_divisor(run: &mut Run, grid: Grid, judge: fn(&mut Run, &Input)) {
    for sector in (1..=BLOCK_MAX).filter(|sector| BLOCK_MAX % sector == 0) {
        let input = restorable(&mut run.random, Cut { size: Size { grid, block: BLOCK_MAX }, sector });
        judge(run, &input);
    }
}

/// The numbers to try for plan, and such that would be good if they were shortened.
fn numbers() -> Vec<usize> {
    let ends = (0..=70).chain(SECTORS_MAX - 5..=SECTORS_MAX + 5).chain([LENDABLE]);
    let great = [1, 3, SECTORS_MAX].into_iter().flat_map(|good| [good + (1 << 16), good + (1 << 32), good + (1 << 63)]);
    ends.chain((71..SECTORS_MAX).step_by(STEP)).chain(great).chain([usize::MAX]).collect()
}

/// A map and sheets for so many sectors, or where there are too many for the number shortened.
fn of_number(random: &mut Random, grid: Grid, sectors: usize) -> Input {
    let lent = if sectors <= LENDABLE { sectors } else { sectors & 0xffff };
    let lent = lent.min(LENDABLE);
    if lent == 0 {
        return Input { sectors, ..whole(random, Cut::new(grid, 1, 1), 0) };
    }
    let cut = Cut::new(grid, lent, 1);
    let input = Mixture::draw(random, cut, &KINDS[..2]).input;
    Input { sectors, ..input }
}

/// Every number on one grid: 16 is due exactly if it is out of range.
fn every_number(run: &mut Run, grid: Grid) {
    numbers().into_iter().for_each(|sectors| of_number(&mut run.random, grid, sectors).plan(run));
}

/// The numbers at either end of the range, and two that would be good if they were shortened.
pub fn some_numbers(run: &mut Run, grid: Grid) {
    for sectors in [0, 1, SECTORS_MAX, SECTORS_MAX + 1, (1 << 16) + 2, (1 << 32) + 2] {
        of_number(&mut run.random, grid, sectors).plan(run);
    }
}

fn every_block(run: &mut Run, name: &str, answers: &[usize], judge: fn(&mut Run, &Input)) {
    cores::share(run, name, GRIDS.len() * (BLOCKS.len() + 1), |run, part| {
        let grid = GRIDS[part % GRIDS.len()];
        match BLOCKS.get(part / GRIDS.len()) {
            Some(&block) => every_length(run, Size { grid, block }, judge),
            None => every_divisor(run, grid, judge),
        }
    });
    run.tally.report(name, answers);
}

pub fn run(run: &mut Run) {
    every_block(run, "sectors, every length", &[SUCCESS, WRONG_SECTOR], statuses);
    every_block(run, "sectors, every length, look", &[0, 1], looks);
    cores::share(run, "sectors, numbers for plan", GRIDS.len(), |run, part| every_number(run, GRIDS[part]));
    run.tally.report("sectors, numbers for plan", &[SUCCESS, WRONG_SECTOR]);
}

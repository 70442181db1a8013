//! Plan for one disk: the shortest list of repairs that ends with it, or where no list does plan's loop, which the disk need
//! not be on. On small losses the library is compared with the papers' words, by a search over sets of disks, and on all
//! others with the rule of branches. That the two agree is compared too.

use crate::inputs::{grids_up_to, random_grid, SIDE_MAX};
use crate::losses::{self, map_of, map_of_bits};
use crate::model::{erased_disks, Rule, FATAL};
use crate::outcome::Outcome;
use crate::random::Random;
use crate::sheet::{plans_order, SHEET};
use crate::size::{Grid, Size};
use crate::tally::{show, Tally};
use crate::{arguments, branch, by_hand, cores, ffi, model, planted, shortest, tidy, Run};

/// Maps of a small grid that make a part.
const MAPS: usize = 64;
/// How often each grid has its losses.
const TIMES: usize = 2;
/// Losses that are small enough to be searched on any grid, in parts.
const PARTS: usize = 20;
const SEARCHED: usize = 50;
/// The most disks on either branch there.
const MOST: usize = 6;

/// What is lent but for the number of the disk, and what plan makes of it by the model.
pub struct Asked<'a> {
    pub grid: Grid,
    pub map: &'a [u8],
    pub sheet: &'a [u8],
    pub due: Outcome,
    /// The disks that plan's order leaves erased.
    left: Vec<usize>,
}

impl<'a> Asked<'a> {
    pub fn new(grid: Grid, map: &'a [u8], sheet: &'a [u8]) -> Asked<'a> {
        let due = model::plan(grid, map, sheet);
        let left = if due.answer == FATAL { plans_order(grid, &erased_disks(map)).1 } else { Vec::new() };
        Asked { grid, map, sheet, due, left }
    }

    fn words(&self, disk: usize) -> String {
        format!("plan for disk {disk}, {}, map {}, sheet {}", self.grid, show(self.map), show(self.sheet))
    }

    pub fn expected(&self, rule: Rule, disk: usize) -> Outcome {
        let expected = model::plan_disk(&self.due, rule, self.grid, self.map, self.sheet, disk);
        // No list reaches a disk exactly if plan's order leaves it. A rule that denies it is nothing to compare with.
        assert_eq!(expected.answer == FATAL, self.left.contains(&disk), "reached or left, {}", self.words(disk));
        expected
    }

    /// Compares one call. A list that is due is tidy.
    pub fn compare(&self, tally: &mut Tally, rule: Rule, disk: usize) {
        let expected = self.expected(rule, disk);
        let input = || self.words(disk);
        tally.compare(input, &expected, || ffi::plan_disk(self.grid, self.map, self.sheet, disk));
        tidy::own_sheet(tally, &expected);
    }

    /// The rules agree on what is due.
    fn compare_rules(&self, tally: &mut Tally, disk: usize) {
        let expected = self.expected(shortest::by_sets, disk);
        for rule in [shortest::by_lists, branch::shortest] {
            let input = || format!("the rules, {}", self.words(disk));
            tally.compare(input, &expected, || Ok(self.expected(rule, disk)));
        }
    }

    /// Every erased disk, and then one that may be none.
    fn compare_each(&self, run: &mut Run, rule: Rule) {
        erased_disks(self.map).into_iter().for_each(|disk| self.compare(&mut run.tally, rule, disk));
        let any = arguments::disk(&mut run.random, self.grid);
        self.compare(&mut run.tally, rule, any);
    }
}

/// Every number up to three beyond the last disk, the greatest, and for each erased disk such as would be its number if they
/// were shortened or counted around.
pub fn numbers(grid: Grid, map: &[u8]) -> Vec<usize> {
    let around = [grid.disks(), 1 << 8, 1 << 16, 1 << 32, 1 << 63];
    let wrapping = erased_disks(map).into_iter().flat_map(|disk| around.map(|more| disk + more));
    (0..=grid.disks() + 2).chain([usize::MAX]).chain(wrapping).collect()
}

/// All maps of a small grid and all numbers, by the papers' words.
fn all_maps(run: &mut Run, grid: Grid) {
    let name = format!("plan for one disk, all maps, {grid}");
    cores::share(run, &name, (1 << grid.disks()) / MAPS, |run, part| {
        for set in part * MAPS..(part + 1) * MAPS {
            let (map, sheet) = (map_of_bits(grid, set), run.random.bytes(SHEET));
            let asked = Asked::new(grid, &map, &sheet);
            numbers(grid, &map).into_iter().for_each(|disk| asked.compare(&mut run.tally, shortest::by_sets, disk));
            erased_disks(&map).into_iter().for_each(|disk| asked.compare_rules(&mut run.tally, disk));
        }
    });
    run.tally.report(&name, &[0, 6, 15]);
}

/// Losses of all kinds, one of some disks up to one more than can be restored, and such as give the two ways to a disk as
/// many repairs as each other or nearly, without a loop on them and with one; and one with the longest list.
pub fn losses_of(random: &mut Random, grid: Grid) -> Vec<Vec<u8>> {
    let mut maps: Vec<Vec<u8>> = (0..losses::KINDS).map(|kind| losses::map(random, grid, kind)).collect();
    let count = random.between(1, grid.most_repairs() + 1);
    maps.push(map_of(grid, &losses::some(random, grid, count)));
    let half = random.between(0, (grid.rows + grid.columns) / 2);
    for lengths in [[half, half], [half, half + 1], [half + 1, half]] {
        for loops in [[false, false], [true, false], [false, true]] {
            maps.push(map_of(grid, &losses::two_branches(random, grid, lengths, loops)));
        }
    }
    maps.push(map_of(grid, &losses::hanging_on_a_rectangle(random, grid)));
    maps
}

/// Losses at every grid, each disk of them, by the rule of branches.
fn every_grid(run: &mut Run, rounds: usize) {
    let name = "plan for one disk, every grid";
    let grids: Vec<Grid> = grids_up_to(SIDE_MAX).collect();
    cores::share(run, name, TIMES * rounds * grids.len(), |run, part| {
        let grid = grids[part % grids.len()];
        for map in losses_of(&mut run.random, grid) {
            let sheet = run.random.bytes(SHEET);
            Asked::new(grid, &map, &sheet).compare_each(run, branch::shortest);
        }
    });
    run.tally.report(name, &[0, 6, 15]);
}

/// Losses of few disks on any grid, by the papers' words: longer lists than small grids have.
fn searched(run: &mut Run, rounds: usize) {
    let name = "plan for one disk, searched";
    cores::share(run, name, rounds * PARTS, |run, _| {
        for _ in 0..SEARCHED {
            let grid = random_grid(&mut run.random);
            let lengths = [0, 1].map(|_| run.random.between(0, MOST));
            let loops = [0, 1].map(|_| run.random.one_in(4));
            let map = map_of(grid, &losses::two_branches(&mut run.random, grid, lengths, loops));
            let sheet = run.random.bytes(SHEET);
            let asked = Asked::new(grid, &map, &sheet);
            asked.compare_each(run, shortest::by_sets);
            asked.compare_each(run, branch::shortest);
        }
    });
    run.tally.report(name, &[0, 6, 15]);
}

pub fn run(run: &mut Run, rounds: usize) {
    for (rows, columns) in [(2, 2), (2, 3), (3, 2)] {
        all_maps(run, Grid::new(rows, columns));
    }
    every_grid(run, rounds);
    searched(run, rounds);
    by_hand::run(run, rounds);
    planted::run(run);
}

/// All maps of further grids, at the smaller ones by the papers' words and with all numbers, at the others by the rule of
/// branches: they are part of the long tests only.
pub fn more_maps(run: &mut Run) {
    for (rows, columns) in [(3, 3), (2, 4), (4, 2)] {
        all_maps(run, Grid::new(rows, columns));
    }
    for (rows, columns) in [(3, 4), (4, 3)] {
        let grid = Grid::new(rows, columns);
        let name = format!("plan for each erased disk, all maps, {grid}");
        cores::share(run, &name, (1 << grid.disks()) / MAPS, |run, part| {
            for set in part * MAPS..(part + 1) * MAPS {
                let map = map_of_bits(grid, set);
                Asked::new(grid, &map, &[0; SHEET]).compare_each(run, branch::shortest);
            }
        });
        run.tally.report(&name, &[0, 6, 15]);
    }
}

/// One disk, mostly an erased one, by the rule of branches.
pub fn any_disk(run: &mut Run, grid: Grid, map: &[u8], sheet: &[u8]) {
    let disk = arguments::wanted(&mut run.random, grid, map);
    Asked::new(grid, map, sheet).compare(&mut run.tally, branch::shortest, disk);
}

/// Every erased disk, by the rule of branches, and one that may be none.
pub fn each_disk(run: &mut Run, grid: Grid, map: &[u8]) {
    let sheet = run.random.bytes(SHEET);
    Asked::new(grid, map, &sheet).compare_each(run, branch::shortest);
}

/// The call does not see the blocks, so that each size is one more occasion for its grid.
pub fn contents(run: &mut Run, size: Size) {
    for kind in 0..losses::KINDS {
        let map = losses::map(&mut run.random, size.grid, kind);
        let sheet = run.random.bytes(SHEET);
        any_disk(run, size.grid, &map, &sheet);
    }
}

/// Arguments good and bad. The disk is drawn for the grid that the map is made for.
pub fn refusals(run: &mut Run) {
    let drawn = arguments::array(&mut run.random);
    let map = arguments::map(&mut run.random, drawn.made_for.grid);
    let sheet = arguments::sheet(&mut run.random);
    let disk = arguments::wanted(&mut run.random, drawn.made_for.grid, &map);
    Asked::new(drawn.passed.grid, &map, &sheet).compare(&mut run.tally, branch::shortest, disk);
}

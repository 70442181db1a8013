//! Losses in bulk: all maps of the small grids, all losses of three disks at the largest grid and at the narrowest, and
//! many random ones.

use crate::inputs::{random_grid, sealed_array, LARGEST};
use crate::random::Random;
use crate::rebuild::{self, AT_ONCE};
use crate::sheet::SHEET;
use crate::size::{Grid, Size};
use crate::{cores, follow, losses, plan, save, turns, wanted, Run};

/// Random losses of four disks, and as many of other numbers, in parts.
const PARTS: usize = 20;
const PART: usize = 1_000;
/// Maps of a small grid that make a part, and that share an array.
const MAPS: usize = 4_096;
const SHARING: usize = 64;
/// One loss in so many is also rebuilt in turns.
const IN_TURNS: usize = 4;

/// Plan and plan for one disk, and rebuild, follow and save on a sealed array and on a damaged one, for one map. Some are
/// rebuilt in turns too.
pub fn loss(run: &mut Run, size: Size, sealed: &[u8], map: &[u8]) {
    let sheet = run.random.bytes(SHEET);
    plan::compare(&mut run.tally, size.grid, map, &sheet);
    wanted::any_disk(run, size.grid, map, &sheet);
    rebuild::sealed_and_damaged(run, size, sealed, map);
    if run.random.one_in(IN_TURNS) {
        turns::any_limit(run, size, sealed, map);
    }
    follow::sealed_and_damaged(run, size, sealed, map);
    save::sealed_and_damaged(run, size, sealed, map);
}

/// One part of the maps of a grid.
fn some_maps(run: &mut Run, grid: Grid, rebuilt: usize, sets: std::ops::Range<usize>) {
    let mut size = Size { grid, block: 1 };
    let mut sealed = Vec::new();
    for set in sets {
        if set % SHARING == 0 {
            size.block = run.random.between(1, 3);
            sealed = sealed_array(&mut run.random, size);
        }
        let map = losses::map_of_bits(grid, set);
        if run.random.one_in(rebuilt) {
            loss(run, size, &sealed, &map);
        } else {
            plan::compare(&mut run.tally, grid, &map, &[0; SHEET]);
        }
    }
}

/// Every map of a grid for plan, and one in so many for the other calls too, on arrays that change now and then.
fn all_maps(run: &mut Run, grid: Grid, rebuilt: usize) {
    let name = format!("all maps, {grid}");
    let sets = 1_usize << grid.disks();
    cores::share(run, &name, sets.div_ceil(MAPS), |run, part| {
        some_maps(run, grid, rebuilt, part * MAPS..sets.min((part + 1) * MAPS));
    });
    run.tally.report(&name, &[0, 6, 7, 10, 11, 13, 14]);
}

/// All losses of three disks of a grid: none is fatal. Those with the same highest disk are a part.
fn all_threes(run: &mut Run, grid: Grid) {
    let size = Size { grid, block: 1 };
    let name = format!("all losses of three disks, {grid}");
    cores::share(run, &name, grid.disks(), |run, highest| {
        let sealed = sealed_array(&mut run.random, size);
        let sheet = run.random.bytes(SHEET);
        losses::sets_up_to(highest, 3, &mut |disks| {
            let map = losses::map_of(grid, disks);
            plan::compare(&mut run.tally, grid, &map, &sheet);
            let mut array = sealed.clone();
            losses::forget(&mut run.random, size, &mut array, &map);
            rebuild::compare(&mut run.tally, size, &array, &map, &sheet, AT_ONCE);
        });
    });
    run.tally.report(&name, &[0]);
}

/// How a grid is drawn, and how a loss on it, by its turn.
type DrawGrid = fn(&mut Random) -> Grid;
type DrawMap = fn(&mut Random, Grid, usize) -> Vec<u8>;

/// Random losses, each on a grid of its own.
fn random_losses(run: &mut Run, name: &str, rounds: usize, grid: DrawGrid, map: DrawMap) {
    cores::share(run, name, rounds * PARTS, |run, _| {
        for turn in 0..PART {
            let size = Size { grid: grid(&mut run.random), block: 2 };
            let sealed = sealed_array(&mut run.random, size);
            let map = map(&mut run.random, size.grid, turn);
            loss(run, size, &sealed, &map);
        }
    });
    run.tally.report(name, &[0, 6, 7, 10, 11, 13, 14]);
}

/// Four disks, half of the time the corners of a rectangle, which is fatal.
fn four_disks(random: &mut Random, grid: Grid, turn: usize) -> Vec<u8> {
    let disks = if turn % 2 == 0 { losses::some(random, grid, 4) } else { losses::ring(random, grid, 2, 0) };
    losses::map_of(grid, &disks)
}

/// A loss of each kind in turn.
fn any_kind(random: &mut Random, grid: Grid, turn: usize) -> Vec<u8> {
    losses::map(random, grid, turn % losses::KINDS)
}

/// The maps of these grids are up to 33 million: they are part of the long tests only.
pub fn more_maps(run: &mut Run) {
    for (rows, columns) in [(2, 4), (4, 2), (3, 4), (4, 3), (4, 4)] {
        all_maps(run, Grid::new(rows, columns), 16);
    }
}

pub fn run(run: &mut Run, rounds: usize) {
    for (rows, columns) in [(2, 2), (2, 3), (3, 2), (3, 3)] {
        all_maps(run, Grid::new(rows, columns), 1);
    }
    for (rows, columns) in [(2, 15), (15, 2), (15, 15)] {
        all_threes(run, Grid::new(rows, columns));
    }
    for (words, grid) in [("the largest grid", (|_| LARGEST) as DrawGrid), ("any grid", random_grid)] {
        random_losses(run, &format!("losses of four disks, {words}"), rounds, grid, four_disks);
        random_losses(run, &format!("random losses, {words}"), rounds, grid, any_kind);
    }
}

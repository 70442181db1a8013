//! The smallest loop. The ways to find it are compared with each other, on all maps of small grids and on losses of any size
//! whose loops are hard to tell; on these the library is compared with the model too. And loops are chosen wrongly in several
//! ways, each of which has to show on the maps of a small grid.

use crate::every_loop::{self, ascending};
use crate::inputs::{random_grid, sealed_array, LARGEST};
use crate::losses::map_of_bits;
use crate::model::{erased_disks, SUCCESS};
use crate::random::Random;
use crate::rebuild::AT_ONCE;
use crate::sheet::{in_turn, is_loop, of_loop, plans_order, Record, RECORDS, SHEET};
use crate::size::{Grid, Size};
use crate::tally::{must, show};
use crate::{cores, exhaustive, loop_losses, plan, rebuild, wanted, ways, Run};
use std::cmp::Reverse;

/// Maps of a small grid that make a part.
const MAPS: usize = 512;
/// Losses with loops, in parts: as many at the largest grid as at any. On some the rules are compared.
const PARTS: usize = 20;
const PART: usize = 1_000;
const RULED: usize = 360;
/// One loss in so many goes through all calls, and of one in so many each disk is wanted.
const ALL_CALLS: usize = 8;
const EACH_DISK: usize = 64;
/// The grid whose maps have to show a wrong choice.
const GRID: Grid = Grid::new(3, 3);

/// How the smallest loop is found, for the erased disks in rising order. None where there is none.
type Rule = fn(Grid, &[usize]) -> Option<Vec<Record>>;

/// The rules say the same, there is a loop exactly if plan's order leaves disks, and it is one by paper 01's rule. Its length
/// counts as the answer that is due.
fn compare_rules(run: &mut Run, grid: Grid, map: &[u8], rules: &[Rule]) {
    let erased = erased_disks(map);
    let smallest = ways::smallest(grid, &erased);
    let input = || format!("the smallest loop, {grid}, map {}", show(map));
    run.tally.judge(input, smallest.as_ref().map_or(0, Vec::len), || {
        let (_, left) = plans_order(grid, &erased);
        must(smallest.is_none() == left.is_empty(), "there is a loop, but no disk is left, or the other way around")?;
        smallest.iter().try_for_each(|records| is_loop(grid, map, &of_loop(records)))?;
        must(rules.iter().all(|rule| rule(grid, &erased) == smallest), "the rules choose different loops")
    });
}

/// No loop, and each length that a loop can have on a grid.
fn lengths(grid: Grid) -> Vec<usize> {
    let longest = 2 * (grid.rows.min(grid.columns) + 1);
    [0].into_iter().chain((4..=longest).step_by(2)).collect()
}

/// The maps of a grid, or one in so many: by every loop, and by all loops of the first length that has any.
fn all_maps(run: &mut Run, grid: Grid, chances: usize) {
    let name = format!("the length of the smallest loop, maps, {grid}");
    cores::share(run, &name, (1 << grid.disks()) / MAPS, |run, part| {
        for set in part * MAPS..(part + 1) * MAPS {
            if run.random.one_in(chances) {
                compare_rules(run, grid, &map_of_bits(grid, set), &[every_loop::smallest, every_loop::by_length]);
            }
        }
    });
    run.tally.report(&name, &lengths(grid));
}

/// Losses whose smallest loop is hard to tell, by all loops of the first length that has any; not those of most disks, which
/// have too many.
fn hard_rules(run: &mut Run, rounds: usize) {
    let name = "the length of the smallest loop, losses with loops";
    cores::share(run, name, rounds * PARTS, |run, part| {
        for turn in part * RULED..(part + 1) * RULED {
            let grid = if run.random.one_in(2) { LARGEST } else { random_grid(&mut run.random) };
            let map = loop_losses::map(&mut run.random, grid, turn);
            if 2 * erased_disks(&map).len() <= grid.disks() {
                compare_rules(run, grid, &map, &[every_loop::by_length]);
            }
        }
    });
    run.tally.report(name, &lengths(LARGEST));
}

/// Plan, and rebuild with any limit.
fn shown(run: &mut Run, size: Size, sealed: &[u8], map: &[u8]) {
    let (sheet, any) = (run.random.bytes(SHEET), run.random.between(1, RECORDS));
    let limit = run.random.pick(&[1, any, AT_ONCE]);
    plan::compare(&mut run.tally, size.grid, map, &sheet);
    rebuild::compare(&mut run.tally, size, sealed, map, &sheet, limit);
}

/// One loss on plan and rebuild, or on all calls, now and then with every disk wanted.
fn hard_loss(run: &mut Run, grid: Grid, turn: usize) {
    let size = Size { grid, block: run.random.between(1, 3) };
    let (map, sealed) = (loop_losses::map(&mut run.random, grid, turn), sealed_array(&mut run.random, size));
    if run.random.one_in(ALL_CALLS) {
        exhaustive::loss(run, size, &sealed, &map);
    } else {
        shown(run, size, &sealed, &map);
    }
    if run.random.one_in(EACH_DISK) {
        wanted::each_disk(run, grid, &map);
    }
}

/// The library on such losses.
fn hard_losses(run: &mut Run, words: &str, rounds: usize, grid: fn(&mut Random) -> Grid) {
    let name = format!("losses with loops, {words}");
    cores::share(run, &name, rounds * PARTS, |run, part| {
        for turn in part * PART..(part + 1) * PART {
            let grid = grid(&mut run.random);
            hard_loss(run, grid, turn);
        }
    });
    run.tally.report(&name, &[0, 6, 7, 10, 11, 13, 14, 15]);
}

/// Makes a choice among all loops of a loss, each of them with its disks in its own order.
type Choose = fn(&[Vec<usize>]) -> Option<&Vec<usize>>;

/// The right choice, and wrong ones.
const RIGHT: (&str, Choose) =
    ("the smallest", |loops| loops.iter().min_by_key(|disks| (disks.len(), ascending(disks))));
const WRONG: [(&str, Choose); 9] = [
    ("the first that is found", |loops| loops.first()),
    ("the longest", |loops| loops.iter().max_by_key(|disks| (disks.len(), Reverse(ascending(disks))))),
    ("the least numbers, whatever the length", |loops| loops.iter().min_by_key(|disks| ascending(disks))),
    ("the shortest through the lowest disk", |loops| {
        loops.iter().min_by_key(|disks| (disks[0], disks.len(), ascending(disks)))
    }),
    ("the last of the shortest", |loops| loops.iter().min_by_key(|disks| (disks.len(), Reverse(ascending(disks))))),
    ("the shortest by its highest numbers", |loops| {
        loops.iter().min_by_key(|disks| (disks.len(), ascending(disks).into_iter().rev().collect::<Vec<usize>>()))
    }),
    ("the shortest by the numbers in its own order", |loops| loops.iter().min_by_key(|disks| (disks.len(), *disks))),
    ("the shortest by the sum of its numbers", |loops| {
        loops.iter().min_by_key(|disks| (disks.len(), disks.iter().sum::<usize>(), ascending(disks)))
    }),
    ("the shortest by its first three numbers", |loops| {
        loops.iter().min_by_key(|disks| (disks.len(), ascending(disks)[..3].to_vec(), Reverse(ascending(disks))))
    }),
];

/// On how many maps each choice gives another loop than is due.
fn times_wrong(choices: &[(&str, Choose)]) -> Vec<u64> {
    let mut times = vec![0; choices.len()];
    for set in 0..1 << GRID.disks() {
        let (erased, mut loops) = (erased_disks(&map_of_bits(GRID, set)), Vec::new());
        every_loop::each(GRID, &erased, RECORDS, &mut |disks| loops.push(disks.to_vec()));
        let due = ways::smallest(GRID, &erased);
        for (times, (_, choose)) in times.iter_mut().zip(choices) {
            *times += u64::from(choose(&loops).map(|disks| in_turn(GRID, disks)) != due);
        }
    }
    times
}

/// Each wrong choice shows on some map, and the right one on none.
fn choices(run: &mut Run) {
    let name = "the smallest loop, wrong choices";
    let choices = [&WRONG[..], &[RIGHT]].concat();
    for ((choice, _), times) in choices.iter().zip(times_wrong(&choices)) {
        println!("{name}: {choice}, shown by {times} maps");
        let complaint = if *choice == RIGHT.0 { "the right choice is not due" } else { "no map shows it" };
        let as_due = (times == 0) == (*choice == RIGHT.0);
        run.tally.judge(|| format!("{name}: {choice}"), SUCCESS, || must(as_due, complaint));
    }
    run.tally.report(name, &[0]);
}

pub fn run(run: &mut Run, rounds: usize) {
    for (rows, columns) in [(2, 2), (2, 3), (3, 2), (3, 3)] {
        all_maps(run, Grid::new(rows, columns), 1);
    }
    choices(run);
    hard_rules(run, rounds);
    hard_losses(run, "the largest grid", rounds, |_| LARGEST);
    hard_losses(run, "any grid", rounds, random_grid);
}

/// The maps of further grids, of the largest of them one in 16: they are part of the long tests only.
pub fn more_maps(run: &mut Run) {
    for (rows, columns, chances) in [(2, 4, 1), (4, 2, 1), (3, 4, 1), (4, 3, 1), (4, 4, 16)] {
        all_maps(run, Grid::new(rows, columns), chances);
    }
}

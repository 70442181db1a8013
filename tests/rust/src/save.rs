//! Save: every erased disk that is not lost gets its block, and the blocks of lost disks keep their bytes; or the survivors
//! belong to no sealed array. It is compared with the model, and then held to what is promised of it together with plan and
//! rebuild, without the model.

use crate::equations::{checks, crosses};
use crate::inputs::place;
use crate::losses;
use crate::model::{erased_disks, CONTRADICTORY, FATAL, SUCCESS};
use crate::outcome::Outcome;
use crate::rebuild::AT_ONCE;
use crate::sheet::SHEET;
use crate::size::{Grid, Size};
use crate::tally::{must, show, Tally};
use crate::{arguments, model, whole, Run};

/// Random sizes, each with a loss of each kind, in parts.
const PARTS: usize = 40;

fn words(size: Size, array: &[u8], map: &[u8]) -> String {
    let (array, map) = (show(array), show(map));
    format!("save, {size}, map {map}, array {array}")
}

/// Compares one call, and says which answer is due.
pub fn compare(tally: &mut Tally, size: Size, array: &[u8], map: &[u8]) -> usize {
    let expected = model::save(size, array, map);
    tally.compare(|| words(size, array, map), &expected, || whole::save(size, array, map));
    expected.answer
}

/// A sealed array that has lost the disks of the map, then the same with damages.
pub fn sealed_and_damaged(run: &mut Run, size: Size, sealed: &[u8], map: &[u8]) {
    let mut array = sealed.to_vec();
    losses::forget(&mut run.random, size, &mut array, map);
    compare(&mut run.tally, size, &array, map);
    losses::damage(&mut run.random, size, &mut array);
    compare(&mut run.tally, size, &array, map);
}

/// One survivor is damaged on each set of stripes whose survivors must add up to zero, on one after another. The damage
/// shows, whatever else is erased there.
fn damaged_on_each_check(run: &mut Run, size: Size, array: &[u8], map: &[u8]) {
    for set in checks(size.grid, &erased_disks(map)) {
        let on = |&disk: &usize| map[disk] == 0 && crosses(size.grid, set, disk);
        let disks: Vec<usize> = (0..size.disks()).filter(on).collect();
        if disks.is_empty() {
            continue;
        }
        let mut damaged = array.to_vec();
        let at = run.random.pick(&disks) * size.block + place(&mut run.random, size.block);
        damaged[at] ^= run.random.between(1, 255) as u8;
        let due = compare(&mut run.tally, size, &damaged, map);
        // A model that takes a damaged array for sound would be nothing to compare with.
        assert_eq!(due, CONTRADICTORY, "a damage does not show, {}", words(size, &damaged, map));
    }
}

/// Of a loss that is not fatal save makes what rebuild makes of it at once.
fn as_rebuild(run: &mut Run, size: Size, array: &[u8], map: &[u8]) {
    let due = model::save(size, array, map).answer;
    run.tally.judge(
        || words(size, array, map),
        due,
        || {
            let rebuilt = whole::rebuild(size, array, map, &[0; SHEET], AT_ONCE)?;
            let Outcome { answer, out, written } = whole::save(size, array, map)?;
            let same = (answer, out, &written[0]) == (rebuilt.answer, rebuilt.out, &rebuilt.written[0]);
            must(same || rebuilt.answer == FATAL, "save and rebuild differ on a loss that is not fatal")
        },
    );
}

/// Whether plan's counts say that an erased disk is not lost: without it the loss is as fatal as with it.
fn told_by_plan(grid: Grid, map: &[u8], disk: usize) -> Result<bool, String> {
    let mut without = map.to_vec();
    without[disk] = 0;
    let [with, without] = [map, &without].map(|map| whole::plan(grid, map, &[0; SHEET]));
    let (with, without) = (with?, without?);
    must(with.answer == FATAL || with.answer == SUCCESS, "plan refuses a map")?;
    must(without.answer != FATAL || without.out <= with.out, "more disks are lost where fewer are erased")?;
    Ok(with.answer == SUCCESS || (without.answer, without.out) == (with.answer, with.out))
}

/// The disks whose blocks save restores are those of which plan's counts say so, and all others keep what they held: before
/// the call every byte of an erased block is wrong.
fn found_by_plan(run: &mut Run, size: Size, sealed: &[u8], map: &[u8]) {
    let mut array = sealed.to_vec();
    for disk in erased_disks(map) {
        array[disk * size.block..(disk + 1) * size.block].iter_mut().for_each(|byte| *byte = !*byte);
    }
    run.tally.judge(
        || words(size, &array, map),
        SUCCESS,
        || {
            let saved = whole::save(size, &array, map)?;
            let (mut expected, mut count) = (array.clone(), 0);
            for disk in erased_disks(map) {
                if told_by_plan(size.grid, map, disk)? {
                    let block = disk * size.block..(disk + 1) * size.block;
                    expected[block.clone()].copy_from_slice(&sealed[block]);
                    count += 1;
                }
            }
            let expected = Outcome { answer: SUCCESS, out: Some(count), written: vec![expected] };
            must(saved == expected, "plan's counts tell of other disks than those that save restores")
        },
    );
}

/// All of the above for one map.
fn one_map(run: &mut Run, size: Size, sealed: &[u8], map: &[u8]) {
    let mut array = sealed.to_vec();
    losses::forget(&mut run.random, size, &mut array, map);
    compare(&mut run.tally, size, &array, map);
    damaged_on_each_check(run, size, &array, map);
    as_rebuild(run, size, &array, map);
    found_by_plan(run, size, sealed, map);
    losses::damage(&mut run.random, size, &mut array);
    as_rebuild(run, size, &array, map);
}

pub fn run(run: &mut Run, rounds: usize) {
    for (rows, columns) in [(2, 2), (2, 3), (3, 2), (3, 3)] {
        let grid = Grid::new(rows, columns);
        let name = format!("save, all maps, {grid}");
        losses::of_all_maps(run, &name, grid, one_map);
        run.tally.report(&name, &[0, 7]);
    }
    losses::of_random_sizes(run, "save, random losses", rounds * PARTS, one_map);
    run.tally.report("save, random losses", &[0, 7]);
}

pub fn contents(run: &mut Run, size: Size) {
    losses::of_each_kind(run, size, sealed_and_damaged);
}

/// Arguments good and bad.
pub fn refusals(run: &mut Run) {
    let drawn = arguments::mostly_sealed(&mut run.random);
    let map = arguments::map(&mut run.random, drawn.made_for.grid);
    compare(&mut run.tally, drawn.passed, &drawn.bytes, &map);
}

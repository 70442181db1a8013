//! Follow: the repairs of a sheet from elsewhere are made, or the sheet is refused before any block is changed.

use crate::model::{FATAL, LEFTOVERS, NOT_ALLOWED, OUT_OF_RANGE};
use crate::outcome::Outcome;
use crate::rebuild::AT_ONCE;
use crate::sheet::SHEET;
use crate::size::Size;
use crate::tally::{show, Tally};
use crate::{arguments, losses, model, sheets, whole, Run};

pub fn words(size: Size, array: &[u8], map: &[u8], sheet: &str) -> String {
    let (array, map) = (show(array), show(map));
    format!("follow, {size}, map {map}, sheet {sheet}, array {array}")
}

/// Compares one call, and says what is due.
pub fn compare(tally: &mut Tally, size: Size, array: &[u8], map: &[u8], sheet: &[u8]) -> Outcome {
    let expected = model::follow(size, array, map, sheet);
    let input = || words(size, array, map, &show(sheet));
    tally.compare(input, &expected, || whole::follow(size, array, map, sheet));
    expected
}

/// What follow must do if it is to leave the array as rebuild does, which the model finds without any sheet. A sheet for a
/// fatal loss gets the status given.
fn as_rebuild(rebuilt: &Outcome, fatal: usize) -> Outcome {
    let array = rebuilt.written[0].clone();
    if rebuilt.answer == FATAL {
        return Outcome::writing(fatal, array);
    }
    Outcome { answer: rebuilt.answer, out: rebuilt.out, written: vec![array] }
}

/// Any allowed order with its records anywhere, without leftovers and with them. Without, follow does as rebuild.
fn scattered(run: &mut Run, size: Size, array: &[u8], map: &[u8], rebuilt: &Outcome) {
    let steps = sheets::any_order(&mut run.random, size.grid, map);
    let mut sheet = sheets::scattered(&mut run.random, &steps);
    let due = compare(&mut run.tally, size, array, map, &sheet);
    // The paper says so. A model that contradicts itself would be nothing to compare with.
    let same = due == as_rebuild(rebuilt, NOT_ALLOWED);
    assert!(same, "repairs and elimination differ, {}", words(size, array, map, &show(&sheet)));
    damaged(run, size, array, map, &sheet);
    sheets::litter(&mut run.random, &mut sheet);
    let due = compare(&mut run.tally, size, array, map, &sheet);
    assert_eq!(due.answer, LEFTOVERS, "leftovers are not seen, sheet {sheet:?}");
}

/// A sheet with something wrong, without leftovers and with them.
fn damaged(run: &mut Run, size: Size, array: &[u8], map: &[u8], sheet: &[u8]) {
    let damaged = sheets::damaged(&mut run.random, size.grid, sheet);
    compare(&mut run.tally, size, array, map, &damaged);
    let mut damaged = sheets::damaged(&mut run.random, size.grid, sheet);
    sheets::litter(&mut run.random, &mut damaged);
    compare(&mut run.tally, size, array, map, &damaged);
}

/// Plan's own sheet, whose loop for a fatal loss is no list of repairs; then the others.
fn several_sheets(run: &mut Run, size: Size, array: &[u8], map: &[u8]) {
    let rebuilt = model::rebuild(size, array, map, &[0; SHEET], AT_ONCE);
    let input = || words(size, array, map, "of plan");
    run.tally.compare(input, &as_rebuild(&rebuilt, OUT_OF_RANGE), || {
        let planned = whole::plan(size.grid, map, &[0; SHEET])?.written.remove(0);
        whole::follow(size, array, map, &planned)
    });
    scattered(run, size, array, map, &rebuilt);
}

/// A sealed array that has lost the disks of the map, then the same with damages.
pub fn sealed_and_damaged(run: &mut Run, size: Size, sealed: &[u8], map: &[u8]) {
    let mut array = sealed.to_vec();
    losses::forget(&mut run.random, size, &mut array, map);
    several_sheets(run, size, &array, map);
    losses::damage(&mut run.random, size, &mut array);
    several_sheets(run, size, &array, map);
}

pub fn contents(run: &mut Run, size: Size) {
    losses::of_each_kind(run, size, sealed_and_damaged);
}

/// Arguments good and bad.
pub fn refusals(run: &mut Run) {
    let drawn = arguments::mostly_sealed(&mut run.random);
    let map = arguments::map(&mut run.random, drawn.made_for.grid);
    let sheet = arguments::repairs(&mut run.random, drawn.made_for.grid, &map);
    compare(&mut run.tally, drawn.passed, &drawn.bytes, &map, &sheet);
}

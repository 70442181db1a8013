//! Rebuild: erased blocks are restored, or the loss is fatal, or the survivors belong to no sealed array.

use crate::inputs::sealed_array;
use crate::outcome::Outcome;
use crate::sheet::SHEET;
use crate::size::Size;
use crate::tally::{show, Tally};
use crate::{arguments, losses, model, tidy, turns, whole, Run};

/// A limit that leaves nothing for a second turn.
pub const AT_ONCE: usize = usize::MAX;

/// Compares one turn. What the library has answered and left is handed back, none where it touched what is not lent.
pub fn compare(tally: &mut Tally, size: Size, array: &[u8], map: &[u8], sheet: &[u8], limit: usize) -> Option<Outcome> {
    let input = || {
        let (array, map, sheet) = (show(array), show(map), show(sheet));
        format!("rebuild, {size}, limit {limit}, map {map}, sheet {sheet}, array {array}")
    };
    let expected = model::rebuild(size, array, map, sheet, limit);
    let mut left = None;
    tally.compare(input, &expected, || Ok(left.insert(whole::rebuild(size, array, map, sheet, limit)?).clone()));
    left
}

/// A sealed array that has lost the disks of the map, then the same with damages. Sheets with repairs are tidy.
pub fn sealed_and_damaged(run: &mut Run, size: Size, sealed: &[u8], map: &[u8]) {
    let mut array = sealed.to_vec();
    losses::forget(&mut run.random, size, &mut array, map);
    let sheet = run.random.bytes(SHEET);
    let intact = compare(&mut run.tally, size, &array, map, &sheet, AT_ONCE);
    losses::damage(&mut run.random, size, &mut array);
    let damaged = compare(&mut run.tally, size, &array, map, &sheet, AT_ONCE);
    intact.iter().chain(&damaged).for_each(|rebuilt| tidy::own_sheet(&mut run.tally, rebuilt));
}

/// At once with a loss of each kind, and in turns with one of many disks that can be restored.
pub fn contents(run: &mut Run, size: Size) {
    losses::of_each_kind(run, size, sealed_and_damaged);
    let map = losses::map(&mut run.random, size.grid, 2);
    let sealed = sealed_array(&mut run.random, size);
    turns::any_limit(run, size, &sealed, &map);
}

/// Arguments good and bad.
pub fn refusals(run: &mut Run) {
    let drawn = arguments::mostly_sealed(&mut run.random);
    let map = arguments::map(&mut run.random, drawn.made_for.grid);
    let sheet = arguments::sheet(&mut run.random);
    let limit = arguments::limit(&mut run.random);
    compare(&mut run.tally, drawn.passed, &drawn.bytes, &map, &sheet, limit);
}

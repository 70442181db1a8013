//! The calls that take sectors, on blocks that are one sector each: they do what they did before blocks had sectors. With 6
//! the position is 0, the only one; else it is left alone.

use crate::ffi;
use crate::model::FATAL;
use crate::outcome::{Outcome, Placed};
use crate::size::{Cut, Grid, Size};
use crate::tally::must;

/// The outcome without its position, which is known.
fn only_position(found: Placed) -> Result<Outcome, String> {
    let due = (found.outcome.answer == FATAL).then_some(0);
    must(found.position == due, &format!("position {:?} instead of {due:?}", found.position))?;
    Ok(found.outcome)
}

pub fn look(size: Size, array: &[u8], map: &[u8], disk: usize) -> Result<Outcome, String> {
    ffi::look(Cut::whole(size), array, map, disk)
}

pub fn plan(grid: Grid, map: &[u8], sheet: &[u8]) -> Result<Outcome, String> {
    only_position(ffi::plan(grid, 1, map, sheet)?)
}

pub fn rebuild(size: Size, array: &[u8], map: &[u8], sheet: &[u8], limit: usize) -> Result<Outcome, String> {
    only_position(ffi::rebuild(Cut::whole(size), array, map, sheet, limit)?)
}

pub fn follow(size: Size, array: &[u8], map: &[u8], sheet: &[u8]) -> Result<Outcome, String> {
    ffi::follow(Cut::whole(size), array, map, sheet)
}

pub fn save(size: Size, array: &[u8], map: &[u8]) -> Result<Outcome, String> {
    ffi::save(Cut::whole(size), array, map)
}

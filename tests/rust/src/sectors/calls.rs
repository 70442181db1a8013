//! The calls that take sectors as a table, so that the same comparison can be made with a fault planted in one of them.

use crate::ffi;
use crate::outcome::{Outcome, Placed};
use crate::size::{Cut, Grid};

/// What a call answers and leaves, or what it touched that is not its own.
pub type Found = Result<Outcome, String>;
pub type FoundAt = Result<Placed, String>;
type Rebuild = fn(Cut, &[u8], &[u8], &[u8], usize) -> FoundAt;

#[derive(Clone, Copy)]
pub struct Calls {
    pub look: fn(Cut, &[u8], &[u8], usize) -> Found,
    pub plan: fn(Grid, usize, &[u8], &[u8]) -> FoundAt,
    pub rebuild: Rebuild,
    pub follow: fn(Cut, &[u8], &[u8], &[u8]) -> Found,
    pub save: fn(Cut, &[u8], &[u8]) -> Found,
}

pub const LIBRARY: Calls =
    Calls { look: ffi::look, plan: ffi::plan, rebuild: ffi::rebuild, follow: ffi::follow, save: ffi::save };

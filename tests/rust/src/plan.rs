//! Plan: the repairs in its order, on a sheet that is tidy, or the smallest loop.

use crate::sheet::SHEET;
use crate::size::{Grid, Size};
use crate::tally::{show, Tally};
use crate::{arguments, losses, model, tidy, whole, Run};

pub fn compare(tally: &mut Tally, grid: Grid, map: &[u8], sheet: &[u8]) {
    let input = || format!("plan, {grid}, map {}, sheet {}", show(map), show(sheet));
    let expected = model::plan(grid, map, sheet);
    tally.compare(input, &expected, || whole::plan(grid, map, sheet));
    tidy::own_sheet(tally, &expected);
}

/// Plan does not see the blocks, so that each size is one more occasion for its grid.
pub fn contents(run: &mut Run, size: Size) {
    for kind in 0..losses::KINDS {
        let map = losses::map(&mut run.random, size.grid, kind);
        let sheet = run.random.bytes(SHEET);
        compare(&mut run.tally, size.grid, &map, &sheet);
    }
}

pub fn refusals(run: &mut Run) {
    let drawn = arguments::array(&mut run.random);
    let map = arguments::map(&mut run.random, drawn.made_for.grid);
    let sheet = arguments::sheet(&mut run.random);
    compare(&mut run.tally, drawn.passed.grid, &map, &sheet);
}

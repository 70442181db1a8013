//! What the calls that take sectors are lent, and each of them compared with the model on it.

use super::positions;
use crate::outcome::{Outcome, Placed};
use crate::rebuild::AT_ONCE;
use crate::size::{Cut, Grid};
use crate::tally::show;
use crate::Run;

/// The arguments of all calls together.
#[derive(Clone)]
pub struct Input {
    pub cut: Cut,
    /// The number of sectors, which plan takes in place of their length.
    pub sectors: usize,
    pub array: Vec<u8>,
    pub map: Vec<u8>,
    pub sheets: Vec<u8>,
    pub limit: usize,
    pub disk: usize,
}

/// Judges an answer of plan or rebuild by what is expected.
pub fn judge(expected: &Placed, found: &Placed) -> Result<(), String> {
    if found == expected {
        return Ok(());
    }
    Err(expected.difference(found))
}

impl Input {
    pub fn new(cut: Cut, array: Vec<u8>, map: Vec<u8>, sheets: Vec<u8>) -> Input {
        Input { cut, sectors: cut.sectors(), array, map, sheets, limit: AT_ONCE, disk: 0 }
    }

    pub fn grid(&self) -> Grid {
        self.cut.size.grid
    }

    pub fn words(&self, call: &str) -> String {
        let (array, map, sheets) = (show(&self.array), show(&self.map), show(&self.sheets));
        format!("{call}, {}, map {map}, sheets {sheets}, array {array}", self.cut)
    }

    pub fn plan(&self, run: &mut Run) {
        let Input { sectors, map, sheets, .. } = self;
        let input = || format!("plan, {}, {sectors} sectors, map {}, sheets {}", self.grid(), show(map), show(sheets));
        let expected = positions::plan(self.grid(), *sectors, map, sheets);
        let call = run.calls.plan;
        run.tally
            .judge(input, expected.outcome.answer, || judge(&expected, &call(self.grid(), *sectors, map, sheets)?));
    }

    /// Compares one turn. What was answered and left is handed back, none where something not lent was touched.
    pub fn rebuild(&self, run: &mut Run) -> Option<Placed> {
        let Input { cut, array, map, sheets, limit, .. } = self;
        let expected = positions::rebuild(*cut, array, map, sheets, *limit);
        let (call, mut left) = (run.calls.rebuild, None);
        run.tally.judge(
            || self.words(&format!("rebuild, limit {limit}")),
            expected.outcome.answer,
            || judge(&expected, left.insert(call(*cut, array, map, sheets, *limit)?)),
        );
        left
    }

    /// Compares one call, and says what is due.
    pub fn follow(&self, run: &mut Run) -> Outcome {
        let Input { cut, array, map, sheets, .. } = self;
        let expected = positions::follow(*cut, array, map, sheets);
        let call = run.calls.follow;
        run.tally.compare(|| self.words("follow"), &expected, || call(*cut, array, map, sheets));
        expected
    }

    pub fn save(&self, run: &mut Run) -> Outcome {
        let Input { cut, array, map, .. } = self;
        let expected = positions::save(*cut, array, map);
        let call = run.calls.save;
        run.tally.compare(|| self.words("save"), &expected, || call(*cut, array, map));
        expected
    }

    /// Look answers a length. It counts as 1 where a block is handed back, whatever its length.
    pub fn look(&self, run: &mut Run) {
        let Input { cut, array, map, disk, .. } = self;
        let expected = positions::look(*cut, array, map, *disk);
        let call = run.calls.look;
        let due = usize::from(expected.answer > 0);
        run.tally.judge(
            || self.words(&format!("look, disk {disk}")),
            due,
            || {
                let found = call(*cut, array, map, *disk)?;
                if found == expected {
                    return Ok(());
                }
                Err(expected.difference(&found))
            },
        );
    }
}

//! Three disks at each position always come back, whichever they are and however many positions there are, in one turn, in
//! turns of some limit, by plan's sheets and by save. This is judged without the model.

use super::calls::Calls;
use super::mixture::any_cut;
use super::parts::joined;
use crate::inputs::sealed_array;
use crate::losses::{forget, map_of, some};
use crate::model::SUCCESS;
use crate::outcome::{Outcome, Placed};
use crate::rebuild::AT_ONCE;
use crate::sheet::SHEET;
use crate::size::Cut;
use crate::tally::must;
use crate::{cores, Run};

/// Losses, in parts.
const PARTS: usize = 100;
const LOSSES: usize = 200;

/// A sealed array that has lost three disks at each position.
struct Loss {
    cut: Cut,
    sealed: Vec<u8>,
    array: Vec<u8>,
    map: Vec<u8>,
}

impl Loss {
    fn draw(run: &mut Run) -> Loss {
        let cut = any_cut(&mut run.random);
        let grid = cut.size.grid;
        let marks: Vec<Vec<u8>> = (0..cut.sectors()).map(|_| map_of(grid, &some(&mut run.random, grid, 3))).collect();
        let (sealed, map) = (sealed_array(&mut run.random, cut.size), joined(&marks, 1));
        let mut array = sealed.clone();
        forget(&mut run.random, cut.position(), &mut array, &map);
        Loss { cut, sealed, array, map }
    }

    /// All sectors repaired.
    fn restored(&self) -> Outcome {
        Outcome { answer: SUCCESS, out: Some(3 * self.cut.sectors()), written: vec![self.sealed.clone()] }
    }

    /// Turn after turn. The counts of all of them add up to the number of sectors.
    fn judge_turns(&self, calls: &Calls, limit: usize) -> Result<(), String> {
        let (mut array, mut map, mut count) = (self.array.clone(), self.map.clone(), 0);
        let (sheets, all) = (vec![0; SHEET * self.cut.sectors()], 3 * self.cut.sectors());
        for _ in 0..all.div_ceil(limit) {
            let Placed { outcome, position } = (calls.rebuild)(self.cut, &array, &map, &sheets, limit)?;
            must(outcome.answer == SUCCESS && position.is_none(), "a turn is refused")?;
            count += outcome.out.unwrap_or(0);
            [array, map] = [outcome.written[0].clone(), outcome.written[1].clone()];
        }
        let restored = array == self.sealed && count == all && !map.contains(&1);
        must(restored, "the turns do not restore the array")
    }

    fn judge(&self, calls: &Calls, limit: usize) -> Result<(), String> {
        let (grid, sectors) = (self.cut.size.grid, self.cut.sectors());
        let planned = (calls.plan)(grid, sectors, &self.map, &vec![0; SHEET * sectors])?;
        let numbers = (planned.outcome.answer, planned.outcome.out, planned.position);
        must(numbers == (SUCCESS, Some(3 * sectors), None), "plan does not list three repairs at each position")?;
        let followed = (calls.follow)(self.cut, &self.array, &self.map, &planned.outcome.written[0])?;
        must(followed == self.restored(), "plan's sheets do not restore the array")?;
        must((calls.save)(self.cut, &self.array, &self.map)? == self.restored(), "save does not restore the array")?;
        self.judge_turns(calls, AT_ONCE)?;
        self.judge_turns(calls, limit)
    }
}

pub fn run(run: &mut Run, rounds: usize) {
    let name = "sectors, three disks at each position";
    cores::share(run, name, rounds * PARTS, |run, _| {
        for _ in 0..LOSSES {
            let loss = Loss::draw(run);
            let (limit, calls) = (run.random.between(1, 3 * loss.cut.sectors()), run.calls);
            let input = || format!("three disks at each position, {}, limit {limit}, map {:?}", loss.cut, loss.map);
            run.tally.judge(input, SUCCESS, || loss.judge(&calls, limit));
        }
    });
    run.tally.report(name, &[0]);
}

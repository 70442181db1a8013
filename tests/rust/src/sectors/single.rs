//! A single sector of as many bytes as the block changes nothing: the calls answer and leave what the model's calls without
//! sectors do, and so does the model with sectors.

use super::calls::FoundAt;
use super::input::{judge, Input};
use super::positions;
use crate::model::{self, FATAL};
use crate::outcome::{Outcome, Placed};
use crate::random::Random;
use crate::size::Cut;
use crate::tally::must;
use crate::{arguments, cores, Run};

/// Arguments good and bad, in parts.
const PARTS: usize = 40;
const DRAWS: usize = 500;

/// An outcome without sectors: with 6 the only position is named.
fn only(outcome: Outcome) -> Placed {
    let position = (outcome.answer == FATAL).then_some(0);
    Placed { outcome, position }
}

/// What the model without sectors says, what the one with them says, and what is due.
struct Due {
    without: Placed,
    with: Placed,
    answer: usize,
}

impl Due {
    fn new(without: Placed, with: Placed) -> Due {
        let answer = without.outcome.answer;
        Due { without, with, answer }
    }

    /// Both agree, and the library with them.
    fn compare(&self, run: &mut Run, input: &Input, call: &str, library: impl FnOnce() -> FoundAt) {
        let words = || input.words(&format!("{call}, a single sector, limit {}, disk {}", input.limit, input.disk));
        run.tally.judge(words, self.answer, || {
            must(self.with == self.without, "the model with sectors says something else")?;
            judge(&self.without, &library()?)
        });
    }
}

/// The calls that return a status.
fn statuses(run: &mut Run, input: &Input) {
    let (calls, grid, cut, size, limit) = (run.calls, input.grid(), input.cut, input.cut.size, input.limit);
    let Input { array, map, sheets, .. } = input;
    let without = only(model::plan(grid, map, sheets));
    let due = Due::new(without, positions::plan(grid, 1, map, sheets));
    due.compare(run, input, "plan", || (calls.plan)(grid, 1, map, sheets));
    let without = only(model::rebuild(size, array, map, sheets, limit));
    let due = Due::new(without, positions::rebuild(cut, array, map, sheets, limit));
    due.compare(run, input, "rebuild", || (calls.rebuild)(cut, array, map, sheets, limit));
    let outcomes = [model::follow(size, array, map, sheets), positions::follow(cut, array, map, sheets)];
    let [without, with] = outcomes.map(Placed::nowhere);
    let library = || (calls.follow)(cut, array, map, sheets).map(Placed::nowhere);
    Due::new(without, with).compare(run, input, "follow", library);
    let [without, with] = [model::save(size, array, map), positions::save(cut, array, map)].map(Placed::nowhere);
    let library = || (calls.save)(cut, array, map).map(Placed::nowhere);
    Due::new(without, with).compare(run, input, "save", library);
}

/// Look, which counts as 1 where a block is handed back.
fn looks(run: &mut Run, input: &Input) {
    let (Input { cut, array, map, disk, .. }, calls) = (input, run.calls);
    let outcomes = [model::look(cut.size, array, map, *disk), positions::look(*cut, array, map, *disk)];
    let [without, with] = outcomes.map(Placed::nowhere);
    let answer = usize::from(without.outcome.answer > 0);
    let library = || (calls.look)(*cut, array, map, *disk).map(Placed::nowhere);
    Due { without, with, answer }.compare(run, input, "look", library);
}

/// Any arguments, with a list of repairs in the sheet half of the time.
fn draw(random: &mut Random) -> Input {
    let drawn = arguments::mostly_sealed(random);
    let grid = drawn.made_for.grid;
    let map = arguments::map(random, grid);
    let sheets = if random.one_in(2) { arguments::sheet(random) } else { arguments::repairs(random, grid, &map) };
    let (limit, disk) = (arguments::limit(random), arguments::disk(random, grid));
    Input { cut: Cut::whole(drawn.passed), sectors: 1, array: drawn.bytes, map, sheets, limit, disk }
}

pub fn run(run: &mut Run, rounds: usize) {
    for (name, answers, one) in [
        ("a single sector", &[0, 1, 2, 3, 4, 5, 6, 7, 10, 11, 12, 13, 14][..], statuses as fn(&mut Run, &Input)),
        ("a single sector, look", &[0, 1], looks),
    ] {
        cores::share(run, name, rounds * PARTS, |run, _| {
            for _ in 0..DRAWS {
                let input = draw(&mut run.random);
                one(run, &input);
            }
        });
        run.tally.report(name, answers);
    }
}

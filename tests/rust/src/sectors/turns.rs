//! Rebuild in turns over positions: each turn is compared with the model, and then all of them are held to what is promised
//! of turns one after another, without the model. Lists are read in rising order of position.

use super::calls::Calls;
use super::input::Input;
use super::mixture::{any_cut, kinds_of, small_cut, Loss, Mixture, KINDS};
use super::positions::{self, Step};
use crate::model::{CONTRADICTORY, FATAL, NOT_ALLOWED, NO_REPAIRS, SUCCESS};
use crate::outcome::{Outcome, Placed};
use crate::random::Random;
use crate::rebuild::AT_ONCE;
use crate::sheet::SHEET;
use crate::size::Cut;
use crate::tally::must;
use crate::turns::{repairs_of, GREAT};
use crate::{cores, Run};

/// Mixtures at small sizes, with every limit, and at any size, with some limits, in parts.
const PARTS: usize = 100;
const SMALL: usize = 20;
const ANY: usize = 20;
/// The largest numbers of rows and columns that are small, and the most sectors there.
const BOUND: usize = 4;
const SECTORS: usize = 6;

/// How many sectors a map has as erased.
fn erased(map: &[u8]) -> usize {
    map.iter().filter(|&&mark| mark == 1).count()
}

/// The repairs of all sheets, position after position.
fn steps_of(sheets: &[u8]) -> Result<Vec<Step>, String> {
    let mut steps = Vec::new();
    for (position, sheet) in sheets.chunks_exact(SHEET).enumerate() {
        steps.extend(repairs_of(sheet)?.into_iter().map(|repair| (position, repair)));
    }
    Ok(steps)
}

/// The lists of these turns, one after another, are these repairs, and each turn counts its own.
fn list(turns: &[Placed], steps: &[Step]) -> Result<(), String> {
    let lists = turns.iter().map(|turn| steps_of(&turn.outcome.written[2])).collect::<Result<Vec<_>, String>>()?;
    let counted = turns.iter().zip(&lists).all(|(turn, list)| turn.outcome.out == Some(list.len()));
    must(counted, "a turn counts other repairs than it lists")?;
    must(lists.concat() == steps, "the lists one after another are not those of plan")
}

/// What the first turn is lent.
pub struct Start<'a> {
    input: &'a Input,
    /// The array as it was before the loss. None where survivors may be damaged.
    sealed: Option<&'a [u8]>,
    /// What the last turn answers, by the model.
    due: usize,
}

impl<'a> Start<'a> {
    pub fn new(input: &'a Input, sealed: Option<&'a [u8]>) -> Start<'a> {
        let due = positions::rebuild(input.cut, &input.array, &input.map, &input.sheets, AT_ONCE).outcome.answer;
        Start { input, sealed, due }
    }

    /// The array and the map after these turns.
    fn after<'b>(&'b self, turns: &'b [Placed]) -> (&'b [u8], &'b [u8]) {
        let Input { array, map, .. } = self.input;
        turns.last().map_or((array, map), |turn| (&turn.outcome.written[0], &turn.outcome.written[1]))
    }

    /// Turn after turn until the map is clear or a turn is refused, each compared with the model. One turn for each erased
    /// sector is enough, and a library that makes no repairs gets no more.
    fn turns(&self, run: &mut Run, limit: usize) -> Vec<Placed> {
        let mut turns: Vec<Placed> = Vec::new();
        for _ in 0..erased(&self.input.map).max(1) {
            let (array, map) = self.after(&turns);
            let sheets = run.random.bytes(self.input.sheets.len());
            let lent = Input { array: array.to_vec(), map: map.to_vec(), sheets, limit, ..*self.input };
            let Some(turn) = lent.rebuild(run) else {
                break;
            };
            let over = turn.outcome.answer != SUCCESS || !turn.outcome.written[1].contains(&1);
            turns.push(turn);
            if over {
                break;
            }
        }
        turns
    }

    /// A single turn with this answer, count and position that leaves array and map as they were.
    fn is_refused(&self, turns: &[Placed], answer: usize, planned: Option<&Placed>) -> bool {
        let kept = self.after(turns) == (&self.input.array[..], &self.input.map[..]);
        let numbers = |turn: &Placed| (turn.outcome.out, turn.position);
        let due = planned.map_or((None, None), numbers);
        kept && turns.len() == 1 && turns[0].outcome.answer == answer && numbers(&turns[0]) == due
    }

    /// A turn refused by 7: all sectors still erased and all sheets are zero, and all else stays.
    fn undone(&self, last: &Placed, earlier: &[Placed]) -> Result<(), String> {
        let (array, map) = self.after(earlier);
        let mut zeroed = array.to_vec();
        for (at, _) in map.iter().enumerate().filter(|&(_, &mark)| mark == 1) {
            zeroed[at * self.input.cut.sector..(at + 1) * self.input.cut.sector].fill(0);
        }
        let written = vec![zeroed, map.to_vec(), vec![0; self.input.sheets.len()]];
        let due = Placed::nowhere(Outcome { answer: CONTRADICTORY, out: None, written });
        must(*last == due, "7 leaves something else")
    }

    /// With the array and the map from before a turn, follow makes its repairs if they clear the map, and else refuses them.
    fn judge_sheets(&self, calls: &Calls, turns: &[Placed]) -> Result<(), String> {
        for (number, turn) in turns.iter().enumerate() {
            let (array, map) = self.after(&turns[..number]);
            let Outcome { out, written, .. } = &turn.outcome;
            let due = match written[1].contains(&1) {
                true => Outcome::writing(NOT_ALLOWED, array.to_vec()),
                false => Outcome { answer: SUCCESS, out: *out, written: vec![written[0].clone()] },
            };
            must((calls.follow)(self.input.cut, array, map, &written[2])? == due, "follow does otherwise than a turn")?;
        }
        Ok(())
    }

    /// Turns for a loss that is fatal at no position, whose repairs plan lists in these sheets.
    fn judge_repairs(&self, calls: &Calls, limit: usize, turns: &[Placed], sheets: &[u8]) -> Result<(), String> {
        let (last, earlier) = turns.split_last().ok_or("no turn keeps to what it is lent")?;
        let Input { cut, array, map, .. } = self.input;
        let (erased, steps) = (erased(map), steps_of(sheets)?);
        must(steps.len() == erased, "plan lists more or fewer sectors than are erased")?;
        must(turns.len() == erased.div_ceil(limit).max(1), "another number of turns")?;
        let full = |turn: &Placed| turn.outcome.answer == SUCCESS && turn.outcome.out == Some(limit);
        must(earlier.iter().all(full), "a turn before the last does not make as many repairs as it may")?;
        must(turns.iter().all(|turn| turn.position.is_none()), "a position is named without 6")?;
        let followed = (calls.follow)(*cut, array, map, sheets)?;
        must(last.outcome.answer == followed.answer, "follow judges the survivors otherwise")?;
        if last.outcome.answer == CONTRADICTORY {
            must(self.sealed.is_none(), "survivors of a sealed array are refused")?;
            list(earlier, &steps[..limit * earlier.len()])?;
            self.judge_sheets(calls, earlier)?;
            return self.undone(last, earlier);
        }
        list(turns, &steps)?;
        self.judge_sheets(calls, turns)?;
        must(last.outcome.written[0] == self.sealed.unwrap_or(&followed.written[0]), "another array")?;
        must(last.outcome.written[1].iter().all(|&mark| mark == 0), "the map is not clear")
    }

    /// All turns with one limit, by what plan says of the loss.
    fn judge(&self, calls: &Calls, limit: usize, turns: &[Placed]) -> Result<(), String> {
        let Input { cut, sectors, map, sheets, .. } = self.input;
        let planned = (calls.plan)(cut.size.grid, *sectors, map, sheets)?;
        if limit == 0 {
            return must(self.is_refused(turns, NO_REPAIRS, None), "a limit of 0 is not refused");
        }
        let shown = &planned.outcome.written[0];
        if planned.outcome.answer == FATAL {
            let same = turns.iter().all(|turn| turn.outcome.written[2] == *shown);
            let refused = same && self.is_refused(turns, FATAL, Some(&planned));
            return must(refused, "a fatal loss is not refused as plan does");
        }
        self.judge_repairs(calls, limit, turns, shown)
    }

    pub fn compare(&self, run: &mut Run, limit: usize) {
        let turns = self.turns(run, limit);
        let (due, calls) = (if limit == 0 { NO_REPAIRS } else { self.due }, run.calls);
        let input = || self.input.words(&format!("all turns of rebuild, limit {limit}"));
        run.tally.judge(input, due, || self.judge(&calls, limit, &turns));
    }
}

/// A mixture of any kinds but fatal ones, half of the time but contradictory ones too; now and then of any.
fn draw(random: &mut Random, cut: Cut) -> Mixture {
    let mut kinds = kinds_of(random.between(1, (1 << KINDS.len()) - 1));
    let (sealed, any) = (random.one_in(2), random.one_in(4));
    kinds.retain(|kind| any || kind.loss != Loss::Fatal && !(sealed && kind.contradictory));
    if !any {
        kinds.push(KINDS[1]);
    }
    Mixture::draw(random, cut, &kinds)
}

/// Every limit from 0 to one above the number of erased sectors, and a great one.
pub fn every_limit(run: &mut Run) {
    let sectors = run.random.between(1, SECTORS);
    let cut = small_cut(&mut run.random, BOUND, sectors);
    let mixture = draw(&mut run.random, cut);
    let start = Start::new(&mixture.input, mixture.sealed());
    let great = run.random.pick(&GREAT);
    (0..=erased(&mixture.input.map) + 1).chain([great]).for_each(|limit| start.compare(run, limit));
}

/// A limit of many repairs, one around the number of erased sectors, and one of a few.
fn some_limits(run: &mut Run) {
    let cut = any_cut(&mut run.random);
    let mixture = draw(&mut run.random, cut);
    let start = Start::new(&mixture.input, mixture.sealed());
    let all = erased(&mixture.input.map);
    let limits = [run.random.between(1, all + 1), (all + run.random.below(3)).max(1) - 1, run.random.between(5, 40)];
    limits.into_iter().chain([AT_ONCE]).for_each(|limit| start.compare(run, limit));
}

pub fn run(run: &mut Run, rounds: usize) {
    for (name, times, one) in [
        ("sectors, turns of every limit", SMALL, every_limit as fn(&mut Run)),
        ("sectors, turns, any size", ANY, some_limits),
    ] {
        cores::share(run, name, rounds * PARTS, |run, _| (0..times).for_each(|_| one(run)));
        run.tally.report(name, &[0, 6, 7, 12]);
    }
}

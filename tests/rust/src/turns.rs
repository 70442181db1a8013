//! Rebuild in turns: each turn is compared with the model, and then all of them are held to what is promised of turns one
//! after another, without the model. The list of each turn is tidy.

use crate::losses;
use crate::model::{erased_disks, CONTRADICTORY, FATAL, NO_REPAIRS, SUCCESS};
use crate::outcome::Outcome;
use crate::rebuild::{self, AT_ONCE};
use crate::sheet::{self, Record, RECORDS, SHEET};
use crate::size::{Grid, Size};
use crate::tally::{must, show};
use crate::{model, tidy, whole, Run};

/// Random sizes, each with a loss of each kind, in parts.
const PARTS: usize = 10;
/// Limits that are 0 or 1 where they are shortened, and the greatest.
pub const GREAT: [usize; 6] = [1 << 8, 1 << 16, 1 << 32, (1 << 32) + 1, 1 << 63, AT_ONCE];

/// The repairs that a sheet lists.
pub fn repairs_of(sheet: &[u8]) -> Result<Vec<Record>, String> {
    match model::chain_refusal(sheet) {
        SUCCESS => Ok(sheet::list(sheet)),
        _ => Err(format!("no list of repairs: {}", show(sheet))),
    }
}

/// The lists of these turns, one after another, are these repairs, and each turn counts its own.
fn list(turns: &[Outcome], repairs: &[Record]) -> Result<(), String> {
    let lists = turns.iter().map(|turn| repairs_of(&turn.written[2])).collect::<Result<Vec<_>, String>>()?;
    let counted = turns.iter().zip(&lists).all(|(turn, list)| turn.out == Some(list.len()));
    must(counted, "a turn counts other repairs than it lists")?;
    must(lists.concat() == repairs, "the lists one after another are not that of plan")
}

/// What the first turn is lent.
struct Start<'a> {
    size: Size,
    array: &'a [u8],
    map: &'a [u8],
    /// The array as it was before the loss. None where survivors may be damaged.
    sealed: Option<&'a [u8]>,
    /// What the last turn answers, by the model.
    due: usize,
}

impl<'a> Start<'a> {
    fn new(size: Size, array: &'a [u8], map: &'a [u8], sealed: Option<&'a [u8]>) -> Start<'a> {
        let due = model::rebuild(size, array, map, &[0; SHEET], AT_ONCE).answer;
        Start { size, array, map, sealed, due }
    }

    /// The array and the map after these turns.
    fn after<'b>(&'b self, turns: &'b [Outcome]) -> (&'b [u8], &'b [u8]) {
        turns.last().map_or((self.array, self.map), |turn| (&turn.written[0], &turn.written[1]))
    }

    /// Turn after turn until the map is clear or a turn is refused, each compared with the model. One turn for each erased
    /// disk is enough, and a library that makes no repairs gets no more.
    fn turns(&self, run: &mut Run, limit: usize) -> Vec<Outcome> {
        let mut turns: Vec<Outcome> = Vec::new();
        for _ in 0..erased_disks(self.map).len().max(1) {
            let (array, map) = self.after(&turns);
            let sheet = run.random.bytes(SHEET);
            let Some(turn) = rebuild::compare(&mut run.tally, self.size, array, map, &sheet, limit) else {
                break;
            };
            let over = turn.answer != SUCCESS || !turn.written[1].contains(&1);
            turns.push(turn);
            if over {
                break;
            }
        }
        turns
    }

    /// A single turn with this answer and count that leaves array and map as they were.
    fn is_refused(&self, turns: &[Outcome], answer: usize, count: Option<usize>) -> bool {
        let kept = self.after(turns) == (self.array, self.map);
        kept && turns.len() == 1 && (turns[0].answer, turns[0].out) == (answer, count)
    }

    /// A turn refused by 7: the blocks of the disks still erased and the whole sheet are zero, and all else stays.
    fn undone(&self, last: &Outcome, earlier: &[Outcome]) -> Result<(), String> {
        let (array, map) = self.after(earlier);
        let mut zeroed = array.to_vec();
        for disk in erased_disks(map) {
            zeroed[disk * self.size.block..(disk + 1) * self.size.block].fill(0);
        }
        let written = vec![zeroed, map.to_vec(), vec![0; SHEET]];
        must(*last == Outcome { answer: CONTRADICTORY, out: None, written }, "7 leaves something else")
    }

    /// Turns for a loss that is not fatal, whose repairs plan lists in this sheet.
    fn judge_repairs(&self, limit: usize, turns: &[Outcome], sheet: &[u8]) -> Result<(), String> {
        let (last, earlier) = turns.split_last().ok_or("no turn keeps to what it is lent")?;
        let (erased, repairs) = (erased_disks(self.map).len(), repairs_of(sheet)?);
        must(repairs.len() == erased, "plan lists more or fewer disks than are erased")?;
        must(turns.len() == erased.div_ceil(limit).max(1), "another number of turns")?;
        let full = |turn: &Outcome| turn.answer == SUCCESS && turn.out == Some(limit);
        must(earlier.iter().all(full), "a turn before the last does not make as many repairs as it may")?;
        let followed = whole::follow(self.size, self.array, self.map, sheet)?;
        must(last.answer == followed.answer, "follow judges the survivors otherwise")?;
        if last.answer == CONTRADICTORY {
            must(self.sealed.is_none(), "survivors of a sealed array are refused")?;
            list(earlier, &repairs[..limit * earlier.len()])?;
            return self.undone(last, earlier);
        }
        list(turns, &repairs)?;
        must(last.written[0] == self.sealed.unwrap_or(&followed.written[0]), "another array")?;
        must(last.written[1].iter().all(|&mark| mark == 0), "the map is not clear")
    }

    /// All turns with one limit, by what plan says of the loss.
    fn judge(&self, limit: usize, turns: &[Outcome]) -> Result<(), String> {
        let planned = whole::plan(self.size.grid, self.map, &[0; SHEET])?;
        if limit == 0 {
            return must(self.is_refused(turns, NO_REPAIRS, None), "a limit of 0 is not refused");
        }
        if planned.answer == FATAL {
            let shown = turns.iter().all(|turn| turn.written[2] == planned.written[0]);
            return must(
                shown && self.is_refused(turns, FATAL, planned.out),
                "a fatal loss is not refused as plan does",
            );
        }
        self.judge_repairs(limit, turns, &planned.written[0])
    }

    fn compare(&self, run: &mut Run, limit: usize) {
        let input = || {
            let (array, map) = (show(self.array), show(self.map));
            format!("all turns of rebuild, {}, limit {limit}, map {map}, array {array}", self.size)
        };
        let turns = self.turns(run, limit);
        let due = if limit == 0 { NO_REPAIRS } else { self.due };
        run.tally.judge(input, due, || self.judge(limit, &turns));
        turns.iter().for_each(|turn| tidy::own_sheet(&mut run.tally, turn));
    }
}

/// A sealed array that has lost the disks of the map, then the same with damages, each in turns with these limits.
fn sealed_and_damaged(run: &mut Run, size: Size, sealed: &[u8], map: &[u8], limits: &[usize]) {
    let mut array = sealed.to_vec();
    losses::forget(&mut run.random, size, &mut array, map);
    let start = Start::new(size, &array, map, Some(sealed));
    limits.iter().for_each(|&limit| start.compare(run, limit));
    losses::damage(&mut run.random, size, &mut array);
    let start = Start::new(size, &array, map, None);
    limits.iter().for_each(|&limit| start.compare(run, limit));
}

/// Every limit from 0 to one above the number of erased disks, or of records if that is less, and a great one.
fn every_limit(run: &mut Run, size: Size, sealed: &[u8], map: &[u8]) {
    let erased = erased_disks(map).len().min(RECORDS);
    let great = run.random.pick(&GREAT);
    let limits: Vec<usize> = (0..=erased + 1).chain([great]).collect();
    sealed_and_damaged(run, size, sealed, map, &limits);
}

/// Any limit from 1 to one above the number of erased disks.
pub fn any_limit(run: &mut Run, size: Size, sealed: &[u8], map: &[u8]) {
    let limit = run.random.between(1, erased_disks(map).len() + 1);
    sealed_and_damaged(run, size, sealed, map, &[limit]);
}

fn all_maps(run: &mut Run, grid: Grid) {
    let name = format!("turns, all maps, {grid}");
    losses::of_all_maps(run, &name, grid, every_limit);
    run.tally.report(&name, &[0, 6, 7, 12]);
}

pub fn run(run: &mut Run, rounds: usize) {
    for (rows, columns) in [(2, 2), (2, 3), (3, 2)] {
        all_maps(run, Grid::new(rows, columns));
    }
    losses::of_random_sizes(run, "turns, random losses", rounds * PARTS, every_limit);
    run.tally.report("turns, random losses", &[0, 6, 7, 12]);
}

//! Demand 3 over the whole array, without the model: a loss is fatal exactly if two different sealed arrays agree on every
//! surviving sector; the position named is the lowest at which two such arrays differ; and what is not fatal is restored
//! exactly if the survivors belong to a sealed array.

use super::bits::{bits_of, bytes_of, has, unsealed, Bits, Unknowns, MOST};
use super::calls::Calls;
use super::mixture::{kinds_of, Mixture, KINDS};
use super::parts::part;
use crate::inputs::sealed_array;
use crate::model::{erased_disks, CONTRADICTORY, FATAL, SUCCESS};
use crate::outcome::{Outcome, Placed};
use crate::random::Random;
use crate::rebuild::AT_ONCE;
use crate::sheet::{clears, of_loop, SHEET};
use crate::size::{Cut, Grid};
use crate::tally::must;
use crate::turns::repairs_of;
use crate::{cores, ways, Run};

/// Where all maps are tried with all sealed arrays, and how many of them make a part.
const GRID: Grid = Grid::new(2, 2);
const SECTORS: usize = 2;
const PART: usize = 1 << 12;
/// Random losses at sizes for which there are bits enough, in parts.
const PARTS: usize = 100;
const LOSSES: usize = 200;
/// The largest numbers of rows and columns there.
const BOUND: usize = 7;

/// An array of one bit to a sector.
struct Array {
    cut: Cut,
    erased: Bits,
    ones: Bits,
    /// The sectors in which two sealed arrays differ that agree on every sector that survives.
    open: Bits,
    /// The ones among the erased sectors of a sealed array with these survivors, if there is such an array.
    solution: Option<Bits>,
}

impl Array {
    fn bytes(&self, bits: Bits) -> Vec<u8> {
        bytes_of(bits, self.cut.map_bytes())
    }

    /// The lowest position that is ambiguous, and how many disks are so there.
    fn ambiguous(&self) -> Option<(usize, usize)> {
        let sectors = self.cut.sectors();
        let open =
            |position: usize| (0..self.cut.size.disks()).filter(move |disk| has(self.open, disk * sectors + position));
        let counts = (0..sectors).map(|position| (position, open(position).count()));
        counts.into_iter().find(|&(_, count)| count > 0)
    }

    /// The sheets show the smallest loop of this position and are zero elsewhere.
    fn judge_loop(&self, sheets: &[u8], position: usize) -> Result<(), String> {
        let marks = part(&self.bytes(self.erased), 1, self.cut.sectors(), position);
        let (own, mut others) = (position * SHEET..(position + 1) * SHEET, sheets.to_vec());
        others[own.clone()].fill(0);
        must(others.iter().all(|&byte| byte == 0), "another sheet is not zero")?;
        let smallest = ways::smallest(self.cut.size.grid, &erased_disks(&marks)).ok_or("there is no loop")?;
        must(sheets[own] == of_loop(&smallest), "another loop is shown than the smallest")
    }

    /// The sheets list allowed repairs, after which no sector is erased.
    fn judge_lists(&self, sheets: &[u8]) -> Result<(), String> {
        for (position, sheet) in sheets.chunks_exact(SHEET).enumerate() {
            let marks = part(&self.bytes(self.erased), 1, self.cut.sectors(), position);
            let cleared = clears(self.cut.size.grid, &erased_disks(&marks), &repairs_of(sheet)?);
            must(cleared, "a list is not one of allowed repairs of all erased disks")?;
        }
        Ok(())
    }

    fn judge_plan(&self, planned: &Placed) -> Result<(), String> {
        let Placed { outcome: Outcome { answer, out, written }, position } = planned;
        let found = (*answer, *out, *position);
        match self.ambiguous() {
            Some((lowest, count)) => {
                let due = (FATAL, Some(count), Some(lowest));
                must(found == due, "an ambiguous loss is not called fatal, or not rightly")?;
                self.judge_loop(&written[0], lowest)
            }
            None => {
                let due = (SUCCESS, Some(self.erased.count_ones() as usize), None);
                must(found == due, "a loss that is not ambiguous is called fatal, or not counted")?;
                self.judge_lists(&written[0])
            }
        }
    }

    /// The array with these ones in some of the erased sectors.
    fn with(&self, some: Bits, ones: Bits) -> Vec<u8> {
        self.bytes(self.ones & !some | ones & some)
    }

    /// Restored, refused by 7 or refused as plan does.
    fn judge_rebuild(&self, planned: &Placed, rebuilt: &Placed) -> Result<(), String> {
        let (array, map, sheets) = (self.bytes(self.ones), self.bytes(self.erased), &planned.outcome.written[0]);
        let (answer, out, written) = match self.solution {
            _ if self.open != 0 => (FATAL, planned.outcome.out, vec![array, map, sheets.clone()]),
            Some(ones) => {
                let written = vec![self.with(self.erased, ones), vec![0; map.len()], sheets.clone()];
                (SUCCESS, planned.outcome.out, written)
            }
            None => (CONTRADICTORY, None, vec![self.with(self.erased, 0), map, vec![0; sheets.len()]]),
        };
        let due = Placed { outcome: Outcome { answer, out, written }, position: planned.position };
        must(*rebuilt == due, "rebuild does something else")
    }

    /// What every sealed array with the survivors has in common is saved.
    fn judge_save(&self, saved: &Outcome) -> Result<(), String> {
        let determined = self.erased & !self.open;
        let due = match self.solution {
            Some(ones) => {
                let out = Some(determined.count_ones() as usize);
                Outcome { answer: SUCCESS, out, written: vec![self.with(determined, ones)] }
            }
            None => Outcome::writing(CONTRADICTORY, self.with(self.erased, 0)),
        };
        must(*saved == due, "save does something else")
    }

    fn judge(&self, calls: &Calls) -> Result<(), String> {
        let (array, map) = (self.bytes(self.ones), self.bytes(self.erased));
        let sheets = vec![77; SHEET * self.cut.sectors()];
        let planned = (calls.plan)(self.cut.size.grid, self.cut.sectors(), &map, &sheets)?;
        self.judge_plan(&planned)?;
        self.judge_rebuild(&planned, &(calls.rebuild)(self.cut, &array, &map, &sheets, AT_ONCE)?)?;
        self.judge_save(&(calls.save)(self.cut, &array, &map)?)
    }

    fn compare(&self, run: &mut Run) {
        let due = match self.solution {
            _ if self.open != 0 => FATAL,
            Some(_) => SUCCESS,
            None => CONTRADICTORY,
        };
        let input = || format!("{}, erased {:?}, ones {:?}", self.cut, self.bytes(self.erased), self.bytes(self.ones));
        let calls = run.calls;
        run.tally.judge(input, due, || self.judge(&calls));
    }
}

/// A sealed array, with no sector changed, with one or two, or with any in all.
fn any_ones(random: &mut Random, cut: Cut) -> Bits {
    let mut ones = bits_of(&sealed_array(random, cut.size));
    for _ in 0..random.pick(&[0, 0, 1, 2]) {
        ones ^= 1 << random.below(cut.map_bytes());
    }
    if random.one_in(8) {
        ones = bits_of(&random.bytes(cut.map_bytes()));
    }
    ones
}

/// All sealed arrays: those on which every equation holds.
fn all_sealed() -> Vec<Bits> {
    (0..1 << (GRID.disks() * SECTORS)).filter(|&ones| unsealed(GRID, SECTORS, ones) == 0).collect()
}

/// Of all maps and all sealed arrays: those whose ones are all erased are the differences of two that agree on the survivors,
/// and the survivors belong to those that have the same.
fn by_all_sealed(cut: Cut, sealed: &[Bits], erased: Bits, ones: Bits) -> Array {
    let open = sealed.iter().filter(|&set| set & !erased == 0).fold(0, |open, set| open | set);
    let solution = sealed.iter().find(|&set| set & !erased == ones & !erased).map(|set| set & erased);
    Array { cut, erased, ones, open, solution }
}

/// The same by elimination.
fn by_equations(cut: Cut, erased: Bits, ones: Bits) -> Array {
    let unknowns = Unknowns::new(cut.size.grid, cut.sectors(), erased);
    Array { cut, erased, ones, open: unknowns.open, solution: unknowns.solve(ones & !erased) }
}

fn all_maps(run: &mut Run) {
    let (name, sealed) = ("sectors, sealed arrays that agree, all maps", all_sealed());
    // As many as there are data of one bit.
    assert_eq!(sealed.len(), 1 << (GRID.rows * GRID.columns * SECTORS), "another number of sealed arrays");
    let cut = Cut::new(GRID, SECTORS, 1);
    cores::share(run, name, (1 << cut.map_bytes()) / PART, |run, part| {
        for erased in part * PART..(part + 1) * PART {
            let (erased, ones) = (erased as Bits, any_ones(&mut run.random, cut));
            let array = by_all_sealed(cut, &sealed, erased, ones);
            let other = by_equations(cut, erased, ones);
            // Two ways to the same. One that contradicts the other would be nothing to compare with.
            let same = (array.open, array.solution.is_some()) == (other.open, other.solution.is_some());
            assert!(same, "sealed arrays and equations differ, erased {erased:b}, ones {ones:b}");
            array.compare(run);
        }
    });
    run.tally.report(name, &[0, 6, 7]);
}

/// Any kinds of losses at sizes of up to 128 sectors.
fn some_losses(run: &mut Run, rounds: usize) {
    let name = "sectors, equations of the whole array";
    cores::share(run, name, rounds * PARTS, |run, _| {
        for _ in 0..LOSSES {
            let grid = Grid::new(run.random.between(2, BOUND), run.random.between(2, BOUND));
            let cut = Cut::new(grid, run.random.between(1, MOST / grid.disks()), 1);
            let kinds = kinds_of(run.random.between(1, (1 << KINDS.len()) - 1));
            let map = Mixture::draw(&mut run.random, cut, &kinds).input.map;
            let ones = any_ones(&mut run.random, cut);
            by_equations(cut, bits_of(&map), ones).compare(run);
        }
    });
    run.tally.report(name, &[0, 6, 7]);
}

pub fn run(run: &mut Run, rounds: usize) {
    all_maps(run);
    some_losses(run, rounds);
}

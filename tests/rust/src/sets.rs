//! All losses of three and of four disks of some grids, 177 million at the largest. The model is too slow for them:
//! plan is judged by a rule and by a simulation of plan's order on at most four disks. The fatal ones and a sample of
//! the others also go the usual way, through plan for one disk, rebuild, follow and save.

use crate::inputs::sealed_array;
use crate::losses::{choose, map_of, rectangles, sets_up_to};
use crate::model::FATAL;
use crate::sheet::{LOOP, REPAIRS, SHEET};
use crate::size::{Grid, Size};
use crate::{cores, exhaustive, ffi, Run};
use std::sync::atomic::{AtomicU64, Ordering};

/// One loss in so many is also rebuilt and followed, and so is each fatal one.
const SAMPLED: usize = 1_024;
/// Guard bytes on each side of the map and of the sheet, and what they and the sheet hold before a call.
const GUARD: usize = 64;
const FILL: u8 = 0xa5;
const BEFORE: usize = 0x5aa5_c33c_9669_0ff0;
/// Where the count and the position stand among five numbers.
const COUNT: usize = 1;
const POSITION: usize = 3;

/// The row and the column of each disk of a grid.
struct Places {
    of: Vec<(usize, usize)>,
}

impl Places {
    /// Disks are numbered row by row.
    fn new(grid: Grid) -> Places {
        Places { of: (0..=grid.rows).flat_map(|r| (0..=grid.columns).map(move |c| (r, c))).collect() }
    }

    fn row(&self, disk: usize) -> usize {
        self.of[disk].0
    }

    fn column(&self, disk: usize) -> usize {
        self.of[disk].1
    }

    /// The corners of a rectangle, given in rising order: no other loss of up to four disks is fatal.
    fn is_rectangle(&self, disks: &[usize]) -> bool {
        let &[a, b, c, d] = disks else {
            return false;
        };
        let rows = self.row(a) == self.row(b) && self.row(c) == self.row(d);
        rows && self.column(a) == self.column(c) && self.column(b) == self.column(d)
    }

    /// The stripe by which a disk can be repaired while these are erased: its row if that is allowed, else its column.
    fn stripe_for(&self, disk: usize, erased: &[usize]) -> Option<usize> {
        let (row, column) = self.of[disk];
        if erased.iter().filter(|&&other| self.row(other) == row).count() == 1 {
            return Some(row);
        }
        let alone = erased.iter().filter(|&&other| self.column(other) == column).count() == 1;
        alone.then_some(16 + column)
    }

    /// The sheet of plan's repairs for disks in rising order: at each step the first that can be repaired. None where
    /// some remain.
    fn repairs(&self, disks: &[usize]) -> Option<[u8; SHEET]> {
        let mut sheet = [0; SHEET];
        sheet[0] = REPAIRS;
        let mut left = [0; 4];
        left[..disks.len()].copy_from_slice(disks);
        for number in 1..=disks.len() {
            let erased = &left[..=disks.len() - number];
            let (i, stripe) =
                erased.iter().enumerate().find_map(|(i, &disk)| Some((i, self.stripe_for(disk, erased)?)))?;
            // The number of record 1 stands in byte 1, and that of each other in the record before it.
            sheet[3 * number - 2..=3 * number].copy_from_slice(&[number as u8, left[i] as u8, stripe as u8]);
            left.copy_within(i + 1.., i);
        }
        Some(sheet)
    }

    /// The sheet of a rectangle, the only loop of four disks, which are given in rising order: along the upper row, down,
    /// back along the lower row, and up.
    fn rectangle(&self, disks: &[usize]) -> [u8; SHEET] {
        let (stripe, mut sheet) =
            (|turn: usize, disk: usize| [self.row(disk), 16 + self.column(disk)][turn % 2], [0; SHEET]);
        sheet[0] = LOOP;
        for (turn, disk) in [disks[0], disks[1], disks[3], disks[2]].into_iter().enumerate() {
            let record = [turn + 1, disk, stripe(turn, disk)].map(|number| number as u8);
            sheet[3 * turn + 1..=3 * turn + 3].copy_from_slice(&record);
        }
        sheet
    }
}

/// What plan is lent, again and again: a map and a sheet between guards.
struct Planner {
    grid: Grid,
    map: Vec<u8>,
    sheet: [u8; SHEET + 2 * GUARD],
    blank: Vec<u8>,
    /// How many losses were planned, and how many of them plan called fatal.
    planned: u64,
    fatal: u64,
}

impl Planner {
    fn new(grid: Grid) -> Planner {
        let mut blank = vec![FILL; grid.disks() + 2 * GUARD];
        blank[GUARD..GUARD + grid.disks()].fill(0);
        Planner { grid, map: blank.clone(), sheet: [FILL; SHEET + 2 * GUARD], blank, planned: 0, fatal: 0 }
    }

    /// Calls plan for a loss with two of five numbers, and takes the loss out of the map again.
    fn call(&mut self, disks: &[usize], numbers: &mut [usize; 5]) -> usize {
        let Grid { rows, columns } = self.grid;
        self.sheet.fill(FILL);
        disks.iter().for_each(|&disk| self.map[GUARD + disk] = 1);
        let (map, sheet) = (self.map[GUARD..].as_mut_ptr(), self.sheet[GUARD..].as_mut_ptr());
        let len = self.grid.disks();
        let numbers = numbers.as_mut_ptr();
        let status = unsafe {
            let (count, position) = (numbers.add(COUNT), numbers.add(POSITION));
            ffi::raid2d_plan(rows, columns, 1, map, len, sheet, SHEET, count, position)
        };
        disks.iter().for_each(|&disk| self.map[GUARD + disk] ^= 1);
        status as usize
    }

    /// Plan's status and count for a loss. Its sheet is left behind; nothing else may have changed.
    fn plan(&mut self, disks: &[usize]) -> Result<(usize, usize), String> {
        let mut numbers = [BEFORE; 5];
        let status = self.call(disks, &mut numbers);
        self.planned += 1;
        self.fatal += u64::from(status == FATAL);
        let beside = [&self.sheet[..GUARD], &self.sheet[GUARD + SHEET..]];
        if self.map != self.blank || beside.iter().any(|bytes| **bytes != [FILL; GUARD]) {
            self.map.copy_from_slice(&self.blank);
            return Err("a byte of the map or beside the map or the sheet was changed".to_string());
        }
        let position = if status == FATAL { 0 } else { BEFORE };
        if numbers != [BEFORE, numbers[COUNT], BEFORE, position, BEFORE] {
            return Err("the position is wrong, or a number beside it or the count was changed".to_string());
        }
        Ok((status, numbers[COUNT]))
    }

    /// Makes the call and judges all it answers and leaves.
    fn judge(&mut self, disks: &[usize], due: usize, expected: &[u8; SHEET]) -> Result<(), String> {
        let answer = self.plan(disks)?;
        if answer != (due, disks.len()) {
            return Err(format!("answer and count are {answer:?} instead of {:?}", (due, disks.len())));
        }
        let sheet = &self.sheet[GUARD..GUARD + SHEET];
        if sheet == expected {
            return Ok(());
        }
        Err(format!("another sheet than that of plan's order or of the rectangle: {sheet:?}"))
    }
}

fn one(run: &mut Run, planner: &mut Planner, places: &Places, sealed: &[u8], disks: &[usize]) {
    let grid = planner.grid;
    let repairs = places.repairs(disks);
    // Two ways to say what is fatal. A rule that contradicts itself would be nothing to compare with.
    assert_eq!(repairs.is_none(), places.is_rectangle(disks), "rule and repairs differ, {grid}, disks {disks:?}");
    let due = if repairs.is_some() { 0 } else { FATAL };
    let expected = repairs.unwrap_or_else(|| places.rectangle(disks));
    let input = || format!("plan, {grid}, erased disks {disks:?}");
    run.tally.judge(input, due, || planner.judge(disks, due, &expected));
    if due == FATAL || run.random.one_in(SAMPLED) {
        exhaustive::loss(run, Size { grid, block: 1 }, sealed, &map_of(grid, disks));
    }
}

/// All losses of so many disks; those with the same highest disk are a part. How many there are, and how many of them
/// are fatal, is known.
fn all_losses(run: &mut Run, grid: Grid, count: usize, fatal: u64, answers: &[usize]) {
    let name = format!("all losses of {count} disks, {grid}");
    let places = Places::new(grid);
    let (planned, called_fatal) = (AtomicU64::new(0), AtomicU64::new(0));
    cores::share(run, &name, grid.disks(), |run, highest| {
        let sealed = sealed_array(&mut run.random, Size { grid, block: 1 });
        let mut planner = Planner::new(grid);
        sets_up_to(highest, count, &mut |disks| one(run, &mut planner, &places, &sealed, disks));
        planned.fetch_add(planner.planned, Ordering::Relaxed);
        called_fatal.fetch_add(planner.fatal, Ordering::Relaxed);
    });
    run.tally.number(&format!("{name}, in all"), choose(grid.disks(), count), planned.into_inner());
    run.tally.number(&format!("{name}, called fatal by plan"), fatal, called_fatal.into_inner());
    run.tally.report(&name, answers);
}

/// The narrowest grids, which take no time, the largest, and two between them.
pub fn run(run: &mut Run) {
    for (rows, columns) in [(2, 15), (15, 2), (15, 15), (9, 15), (15, 9)] {
        let grid = Grid::new(rows, columns);
        all_losses(run, grid, 3, 0, &[0, 7, 10, 11, 14]);
        all_losses(run, grid, 4, rectangles(grid), &[0, 6, 7, 10, 11, 13, 14]);
    }
}

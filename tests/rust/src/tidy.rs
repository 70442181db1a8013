//! Tidy: the records that the chain of a sheet visits become records 1, 2, 3 in its order, and all else zero. It is compared
//! with the model, and then held to what is promised of tidy sheets, alone and together with follow.

use crate::inputs::{random_grid, sealed_array};
use crate::model::SUCCESS;
use crate::outcome::Outcome;
use crate::random::Random;
use crate::sheet::{list, off_chain, Record, RECORDS, REPAIRS, SHEET};
use crate::size::{Grid, Size};
use crate::tally::{must, show, Tally};
use crate::{arguments, cores, ffi, follow, losses, model, sheets, whole, Run};

/// Lists that are compared with others, in parts.
const PARTS: usize = 20;
const LISTS: usize = 200;
/// Sheets with leftovers at several places for each list of a small grid.
const LITTERED: usize = 6;
/// How often each length is tried: an empty sheet is a null pointer about half of the time.
const TURNS: usize = 10;

fn words(sheet: &[u8]) -> String {
    format!("tidy, sheet {}", show(sheet))
}

/// Tidying a tidy sheet changes nothing.
fn unchanged(tally: &mut Tally, sheet: &[u8]) {
    tally.compare(|| words(sheet), &Outcome::writing(SUCCESS, sheet.to_vec()), || ffi::tidy(sheet));
}

/// Compares one call, and where a tidy sheet is due, one more on that.
pub fn compare(tally: &mut Tally, sheet: &[u8]) {
    let expected = model::tidy(sheet);
    tally.compare(|| words(sheet), &expected, || ffi::tidy(sheet));
    if expected.answer == SUCCESS {
        unchanged(tally, &expected.written[0]);
    }
}

/// The sheet of plan or of a turn of rebuild, which is their last buffer, is tidy where it lists repairs.
pub fn own_sheet(tally: &mut Tally, outcome: &Outcome) {
    if outcome.answer == SUCCESS {
        unchanged(tally, outcome.written.last().expect("the sheet is written"));
    }
}

/// The array and the map that follow is lent with a sheet.
struct Loss<'a> {
    size: Size,
    array: &'a [u8],
    map: &'a [u8],
}

impl Loss<'_> {
    fn compare(&self, tally: &mut Tally, sheet: &[u8]) {
        follow::compare(tally, self.size, self.array, self.map, sheet);
        compare(tally, sheet);
    }

    /// Of what tidy writes follow makes what the list alone says, whatever was off the chain before.
    fn compare_tidied(&self, tally: &mut Tally, sheet: &[u8]) {
        let Loss { size, array, map } = *self;
        let expected = model::follow_list(size, array, map, &list(sheet));
        let input = || follow::words(size, array, map, &format!("tidied from {}", show(sheet)));
        tally.compare(input, &expected, || {
            let tidied = ffi::tidy(sheet)?.written.remove(0);
            whole::follow(size, array, map, &tidied)
        });
    }

    fn compare_all(&self, tally: &mut Tally, sheet: &[u8]) {
        self.compare(tally, sheet);
        self.compare_tidied(tally, sheet);
    }

    /// A list of repairs with its records anywhere: without leftovers, with one at each place off the chain, and with more.
    fn every_leftover(&self, run: &mut Run) {
        let steps = sheets::any_order(&mut run.random, self.size.grid, self.map);
        let clean = sheets::scattered(&mut run.random, &steps);
        self.compare_all(&mut run.tally, &clean);
        for place in off_chain(&clean) {
            let mut sheet = clean.clone();
            sheet[place] = run.random.between(1, 255) as u8;
            self.compare_all(&mut run.tally, &sheet);
        }
        for _ in 0..LITTERED {
            let mut sheet = clean.clone();
            sheets::litter(&mut run.random, &mut sheet);
            self.compare_all(&mut run.tally, &sheet);
        }
    }
}

/// On a sealed array that has lost the disks of the map, then on the same with damages.
fn one_map(run: &mut Run, size: Size, sealed: &[u8], map: &[u8]) {
    let mut array = sealed.to_vec();
    losses::forget(&mut run.random, size, &mut array, map);
    Loss { size, array: &array, map }.every_leftover(run);
    losses::damage(&mut run.random, size, &mut array);
    Loss { size, array: &array, map }.every_leftover(run);
}

/// So many records: of any disks and stripes, or of so few that records are often alike.
fn records(random: &mut Random, count: usize) -> Vec<Record> {
    let bound = random.pick(&[2, 256]);
    (0..count).map(|_| (random.below(bound), random.below(bound))).collect()
}

/// A list of any length but 0, the shortest and the longest more often.
fn any_list(random: &mut Random) -> Vec<Record> {
    let any = random.between(1, RECORDS);
    let count = random.pick(&[1, 2, RECORDS - 1, RECORDS, any, any, any]);
    records(random, count)
}

/// A sheet with this list, its records anywhere, with leftovers half of the time.
fn any_sheet(random: &mut Random, list: &[Record]) -> Vec<u8> {
    let mut sheet = sheets::scattered(random, list);
    if random.one_in(2) {
        sheets::litter(random, &mut sheet);
    }
    sheet
}

/// What another list can have otherwise, at one of its records. Where records are alike it may be nothing.
const CHANGES: [fn(&mut Random, &mut Vec<Record>, usize); 6] = [
    // Nothing.
    |_, _, _| (),
    // The disk.
    |random, list, at| list[at].0 ^= random.between(1, 255),
    // The stripe.
    |random, list, at| list[at].1 ^= random.between(1, 255),
    // The order of two records.
    |random, list, at| {
        let other = random.below(list.len());
        list.swap(at, other);
    },
    // One record more, before it or at the end. A full list has one less first. Disk 0 and stripe 0 show in a number alone.
    |random, list, at| {
        list.truncate(RECORDS - 1);
        let (place, any) = (random.pick(&[at, list.len()]), (random.below(256), random.below(256)));
        list.insert(place, random.pick(&[(0, 0), any]));
    },
    // One record less.
    |_, list, at| {
        list.remove(at);
    },
];

/// Two sheets have the same tidy form exactly if they list the same disks and stripes in the same order.
fn pair(run: &mut Run, one: &[u8], other: &[u8]) {
    let same = list(one) == list(other);
    run.tally.judge(
        || format!("tidy, sheet {}, and sheet {}", show(one), show(other)),
        SUCCESS,
        || {
            let (one, other) = (ffi::tidy(one)?, ffi::tidy(other)?);
            must(one.answer == SUCCESS && other.answer == SUCCESS, "a list is refused")?;
            must((one == other) == same, if same { "one list, two tidy forms" } else { "two lists, one tidy form" })
        },
    );
}

/// A list and others that have one thing otherwise, each on two sheets.
fn pairs(run: &mut Run) {
    let list = any_list(&mut run.random);
    let sheet = any_sheet(&mut run.random, &list);
    compare(&mut run.tally, &sheet);
    for change in CHANGES {
        let (mut other, at) = (list.clone(), run.random.below(list.len()));
        change(&mut run.random, &mut other, at);
        let other = any_sheet(&mut run.random, &other);
        pair(run, &sheet, &other);
    }
}

/// The place of the number after the last record.
fn end_of(sheet: &[u8]) -> usize {
    *sheets::links(sheet).last().expect("a chain has a first number")
}

/// The number after the last record set to each value: the end, one more record, a ring to each record, and what no record
/// has; each with another kind too, and with leftovers.
fn every_end(run: &mut Run, loss: &Loss, sheet: &[u8]) {
    let end = end_of(sheet);
    for number in 0..=255 {
        for kind in [REPAIRS, sheets::other_kind(&mut run.random)] {
            let mut changed = sheet.to_vec();
            (changed[0], changed[end]) = (kind, number);
            loss.compare(&mut run.tally, &changed);
            sheets::litter(&mut run.random, &mut changed);
            loss.compare(&mut run.tally, &changed);
        }
    }
}

/// Every kind, on a chain that ends and on one that leads back to its first record.
fn every_kind(run: &mut Run, loss: &Loss, sheet: &[u8]) {
    let mut ring = sheet.to_vec();
    ring[end_of(sheet)] = sheet[1];
    for kind in 0..=255 {
        for mut changed in [sheet.to_vec(), ring.clone()] {
            changed[0] = kind;
            loss.compare(&mut run.tally, &changed);
        }
    }
}

/// Chains of each length through the records from the first on, from the last down, and anywhere.
fn every_chain(run: &mut Run) {
    cores::share(run, "each chain", RECORDS + 1, |run, length| {
        let size = Size::new(2, 2, 1);
        let (array, map) = (sealed_array(&mut run.random, size), losses::map(&mut run.random, size.grid, 2));
        let loss = Loss { size, array: &array, map: &map };
        let list = records(&mut run.random, length);
        for numbers in [(1..=RECORDS).collect(), (1..=RECORDS).rev().collect(), sheets::any_numbers(&mut run.random)] {
            let sheet = sheets::placed(&list, &numbers);
            every_end(run, &loss, &sheet);
            every_kind(run, &loss, &sheet);
        }
    });
    run.tally.report("each chain", &[0, 10, 11, 13, 14]);
}

/// Every length up to two sheets and one byte: all but one are refused, whatever the bytes are.
fn every_length(run: &mut Run) {
    for length in 0..=2 * SHEET + 1 {
        for _ in 0..TURNS {
            let list = any_list(&mut run.random);
            let mut sheet = any_sheet(&mut run.random, &list);
            sheet.resize(length, 0);
            compare(&mut run.tally, &sheet);
        }
    }
    run.tally.report("each length of a sheet", &[0, 5]);
}

pub fn run(run: &mut Run, rounds: usize) {
    every_length(run);
    every_chain(run);
    losses::of_all_maps(run, "tidy, all maps", Grid::new(2, 2), one_map);
    run.tally.report("tidy, all maps", &[0, 7, 11, 14]);
    cores::share(run, "tidy forms", rounds * PARTS, |run, _| (0..LISTS).for_each(|_| pairs(run)));
    run.tally.report("tidy forms", &[0]);
}

/// Tidy sees no block, so that each size is one more occasion for lists of its repairs, and for such with something wrong.
pub fn contents(run: &mut Run, size: Size) {
    for kind in 0..losses::KINDS {
        let map = losses::map(&mut run.random, size.grid, kind);
        let steps = sheets::any_order(&mut run.random, size.grid, &map);
        let sheet = any_sheet(&mut run.random, &steps);
        compare(&mut run.tally, &sheet);
        let damaged = sheets::damaged(&mut run.random, size.grid, &sheet);
        compare(&mut run.tally, &damaged);
    }
}

/// Lists good and bad, and random bytes, half of them as repairs.
pub fn refusals(run: &mut Run) {
    let grid = random_grid(&mut run.random);
    let map = arguments::map(&mut run.random, grid);
    let listed = arguments::repairs(&mut run.random, grid, &map);
    compare(&mut run.tally, &listed);
    let mut bytes = arguments::sheet(&mut run.random);
    if run.random.one_in(2) {
        bytes.iter_mut().take(1).for_each(|kind| *kind = REPAIRS);
    }
    compare(&mut run.tally, &bytes);
}

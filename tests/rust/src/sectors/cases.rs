//! Cases by hand, after those of paper 01: blocks of two sectors of one byte. At position 0 stands the paper's array A, at
//! position 1 its bytes times 16. What is stated here is expected of the library and of the model.

use super::calls::{Found, FoundAt};
use super::positions;
use crate::model::FATAL;
use crate::outcome::{Outcome, Placed};
use crate::rebuild::AT_ONCE;
use crate::sheet::SHEET;
use crate::size::{Cut, Grid};
use crate::tally::must;
use crate::Run;

const CUT: Cut = Cut::new(Grid::new(2, 2), 2, 1);
const SEALED: [u8; 18] = [1, 16, 2, 32, 3, 48, 4, 64, 8, 128, 12, 192, 5, 80, 10, 160, 15, 240];
/// What stands in the sheets before a call.
const OLD: [u8; 2 * SHEET] = [77; 2 * SHEET];

/// The cards that are marked at position 0, and those at position 1.
type Marked<'a> = [&'a [usize]; 2];

const NONE: [usize; 0] = [];
const THREE: [usize; 3] = [0, 2, 6];
const STAIR: [usize; 3] = [0, 4, 8];
const FOUR: [usize; 4] = [0, 2, 6, 8];
const SQUARE: [usize; 4] = [0, 1, 3, 4];

/// Their sheets: three lists of repairs and two loops.
const NO_SHEET: [u8; 1] = [1];
const THREE_SHEET: [u8; 11] = [1, 1, 2, 18, 2, 0, 0, 3, 6, 2, 0];
const STAIR_SHEET: [u8; 11] = [1, 1, 0, 0, 2, 4, 1, 3, 8, 2, 0];
const FOUR_LOOP: [u8; 14] = [2, 1, 0, 0, 2, 2, 18, 3, 8, 2, 4, 6, 16, 0];
const SQUARE_LOOP: [u8; 14] = [2, 1, 0, 0, 2, 1, 17, 3, 4, 1, 4, 3, 16, 0];

fn map(marked: Marked) -> Vec<u8> {
    let mut map = vec![0; 18];
    for (position, cards) in marked.iter().enumerate() {
        cards.iter().for_each(|card| map[2 * card + position] = 1);
    }
    map
}

/// An array with a value in each marked sector.
fn with(array: &[u8], marked: Marked, value: u8) -> Vec<u8> {
    array.iter().zip(map(marked)).map(|(&byte, mark)| if mark == 1 { value } else { byte }).collect()
}

/// The sealed array with 99 in each marked sector.
fn lost(marked: Marked) -> Vec<u8> {
    with(&SEALED, marked, 99)
}

/// Two sheets that begin with these bytes, then zeros.
fn sheets(begin: [&[u8]; 2]) -> Vec<u8> {
    begin.map(|bytes| [bytes, &vec![0; SHEET - bytes.len()]].concat()).concat()
}

fn stated(run: &mut Run, case: &str, expected: Placed, library: impl FnOnce() -> FoundAt, model: Placed) {
    let (due, judge) = (expected.outcome.answer, |found: Placed| must(found == expected, &expected.difference(&found)));
    run.tally.judge(|| format!("sectors, case {case}, the library"), due, || judge(library()?));
    run.tally.judge(|| format!("sectors, case {case}, the model"), due, || judge(model));
}

fn nowhere(run: &mut Run, case: &str, expected: Outcome, library: impl FnOnce() -> Found, model: Outcome) {
    let [expected, model] = [expected, model].map(Placed::nowhere);
    stated(run, case, expected, || library().map(Placed::nowhere), model);
}

/// Rebuild of an array, with what it leaves.
fn rebuild(run: &mut Run, case: &str, array: &[u8], marked: Marked, limit: usize, expected: Placed) {
    let map = map(marked);
    let call = run.calls.rebuild;
    let library = || call(CUT, array, &map, &OLD, limit);
    let model = positions::rebuild(CUT, array, &map, &OLD, limit);
    stated(run, &format!("{case}, rebuild, limit {limit}"), expected, library, model);
}

fn follow(run: &mut Run, case: &str, array: &[u8], marked: Marked, sheets: &[u8], expected: Outcome) {
    let map = map(marked);
    let call = run.calls.follow;
    let library = || call(CUT, array, &map, sheets);
    nowhere(run, &format!("{case}, follow"), expected, library, positions::follow(CUT, array, &map, sheets));
}

fn save(run: &mut Run, case: &str, array: &[u8], marked: Marked, expected: Outcome) {
    let map = map(marked);
    let call = run.calls.save;
    let library = || call(CUT, array, &map);
    nowhere(run, &format!("{case}, save"), expected, library, positions::save(CUT, array, &map));
}

fn plan(run: &mut Run, case: &str, marked: Marked, expected: Placed) {
    let (grid, map) = (CUT.size.grid, map(marked));
    let call = run.calls.plan;
    let library = || call(grid, 2, &map, &OLD);
    stated(run, &format!("{case}, plan"), expected, library, positions::plan(grid, 2, &map, &OLD));
}

/// A turn that leaves these of the marked cards, and lists the repairs of the others.
fn turn(run: &mut Run, case: &str, marked: Marked, limit: usize, left: Marked, begin: [&[u8]; 2]) {
    let [before, after] = [marked, left].map(|cards| cards[0].len() + cards[1].len());
    let written = vec![lost(left), map(left), sheets(begin)];
    let expected = Placed::nowhere(Outcome { answer: 0, out: Some(before - after), written });
    rebuild(run, case, &lost(marked), marked, limit, expected);
}

/// All calls bring back the sealed array.
fn restored(run: &mut Run, case: &str, marked: Marked, begin: [&[u8]; 2]) {
    let (sheets, out) = (sheets(begin), Some(marked[0].len() + marked[1].len()));
    plan(run, case, marked, Placed::nowhere(Outcome { answer: 0, out, written: vec![sheets.clone()] }));
    turn(run, case, marked, AT_ONCE, [&NONE, &NONE], begin);
    let expected = Outcome { answer: 0, out, written: vec![SEALED.to_vec()] };
    follow(run, case, &lost(marked), marked, &sheets, expected.clone());
    save(run, case, &lost(marked), marked, expected);
}

/// Plan and rebuild name the position, whose four cards are lost, and show its loop. Save brings back these cards.
fn fatal(run: &mut Run, case: &str, marked: Marked, position: usize, begin: [&[u8]; 2], saved: Marked) {
    let (kept, sheets) = (lost(marked), sheets(begin));
    let placed = |written: Vec<Vec<u8>>| Placed {
        outcome: Outcome { answer: FATAL, out: Some(4), written },
        position: Some(position),
    };
    plan(run, case, marked, placed(vec![sheets.clone()]));
    for limit in [1, 3, 4, AT_ONCE] {
        let expected = placed(vec![kept.clone(), map(marked), sheets.clone()]);
        rebuild(run, case, &kept, marked, limit, expected);
    }
    let after =
        kept.iter().zip(map(saved)).zip(SEALED).map(|((&byte, mark), sealed)| if mark == 1 { sealed } else { byte });
    let out = Some(saved[0].len() + saved[1].len());
    save(run, case, &kept, marked, Outcome { answer: 0, out, written: vec![after.collect()] });
}

fn losses(run: &mut Run) {
    restored(run, "nothing marked", [&NONE, &NONE], [&NO_SHEET, &NO_SHEET]);
    restored(run, "3 at position 0", [&THREE, &NONE], [&THREE_SHEET, &NO_SHEET]);
    restored(run, "3 at position 1", [&NONE, &THREE], [&NO_SHEET, &THREE_SHEET]);
    restored(run, "3 and 6", [&THREE, &STAIR], [&THREE_SHEET, &STAIR_SHEET]);
    restored(run, "6 and 3", [&STAIR, &THREE], [&STAIR_SHEET, &THREE_SHEET]);
    fatal(run, "4 at position 0", [&FOUR, &NONE], 0, [&FOUR_LOOP, &[]], [&NONE, &NONE]);
    fatal(run, "4 at position 1", [&NONE, &FOUR], 1, [&[], &FOUR_LOOP], [&NONE, &NONE]);
    fatal(run, "3 and 4", [&THREE, &FOUR], 1, [&[], &FOUR_LOOP], [&THREE, &NONE]);
    fatal(run, "5 and 6", [&SQUARE, &STAIR], 0, [&SQUARE_LOOP, &[]], [&NONE, &STAIR]);
    fatal(run, "4 and 5", [&FOUR, &SQUARE], 0, [&FOUR_LOOP, &[]], [&NONE, &NONE]);
    fatal(run, "5 and 4", [&SQUARE, &FOUR], 0, [&SQUARE_LOOP, &[]], [&NONE, &NONE]);
}

/// Cases 3 and 6 in turns: position 0 first, and a turn may end within a position or go on with the next.
fn turns(run: &mut Run) {
    let case = "3 and 6 in turns";
    turn(run, case, [&THREE, &STAIR], 1, [&[0, 6], &STAIR], [&[1, 1, 2, 18, 0], &NO_SHEET]);
    turn(run, case, [&[0, 6], &STAIR], 1, [&[6], &STAIR], [&[1, 1, 0, 0, 0], &NO_SHEET]);
    turn(run, case, [&[6], &STAIR], 1, [&NONE, &STAIR], [&[1, 1, 6, 2, 0], &NO_SHEET]);
    turn(run, case, [&NONE, &STAIR], 1, [&NONE, &[4, 8]], [&NO_SHEET, &[1, 1, 0, 0, 0]]);
    turn(run, case, [&THREE, &STAIR], 3, [&NONE, &STAIR], [&THREE_SHEET, &NO_SHEET]);
    turn(run, case, [&THREE, &STAIR], 4, [&NONE, &[4, 8]], [&THREE_SHEET, &[1, 1, 0, 0, 0]]);
    turn(run, case, [&[6], &STAIR], 2, [&NONE, &[4, 8]], [&[1, 1, 6, 2, 0], &[1, 1, 0, 0, 0]]);
    turn(run, case, [&[6], &STAIR], 4, [&NONE, &NONE], [&[1, 1, 6, 2, 0], &STAIR_SHEET]);
    turn(run, case, [&NONE, &[4, 8]], 2, [&NONE, &NONE], [&NO_SHEET, &[1, 1, 4, 1, 2, 8, 2, 0]]);
}

/// All of rebuild, follow and save give 7, and zero every marked sector.
fn contradicted(run: &mut Run, case: &str, array: &[u8], marked: Marked, begin: [&[u8]; 2]) {
    let (lost, zeroed) = (with(array, marked, 99), with(array, marked, 0));
    let written = vec![zeroed.clone(), map(marked), vec![0; OLD.len()]];
    rebuild(run, case, &lost, marked, AT_ONCE, Placed::nowhere(Outcome { answer: 7, out: None, written }));
    follow(run, case, &lost, marked, &sheets(begin), Outcome::writing(7, zeroed.clone()));
    save(run, case, &lost, marked, Outcome::writing(7, zeroed));
}

/// Case 8 at either position, while card 0 is marked at one, at both or at none. In turns only the last one finds it, and
/// zeroes no more than it repaired.
fn contradictions(run: &mut Run) {
    let (one, none) = ([1, 1, 0, 0, 0], NO_SHEET);
    for place in [16, 17] {
        let mut array = SEALED;
        array[place] ^= 16;
        let case = format!("8 at position {}", place - 16);
        contradicted(run, &case, &array, [&[0], &NONE], [&one, &none]);
        contradicted(run, &case, &array, [&NONE, &[0]], [&none, &one]);
        contradicted(run, &case, &array, [&[0], &[0]], [&one, &one]);
        contradicted(run, &case, &array, [&NONE, &NONE], [&none, &none]);
        // By its row card 0 is 1 and 16: card 8 is not in it.
        let (before, after) = (with(&array, [&[0], &[0]], 99), with(&array, [&NONE, &[0]], 99));
        let written = vec![after, map([&NONE, &[0]]), sheets([&one, &none])];
        let expected = Placed::nowhere(Outcome { answer: 0, out: Some(1), written });
        rebuild(run, &format!("{case}, in turns"), &before, [&[0], &[0]], 1, expected);
    }
}

/// Case 3's list with some bytes changed: as it is, and so that it gets each number.
const CHANGED: [(usize, &[(usize, u8)]); 5] =
    [(10, &[(0, 2)]), (13, &[(10, 1)]), (14, &[(97, 1)]), (11, &[(3, 17)]), (0, &[])];

/// Each two of follow's numbers at the two positions: the one that stands first in its list is given.
fn numbers(run: &mut Run) {
    for (first, (number, changes)) in CHANGED.iter().enumerate() {
        for (second, (other, others)) in CHANGED.iter().enumerate() {
            let mut listed = sheets([&THREE_SHEET, &THREE_SHEET]);
            changes.iter().for_each(|&(at, byte)| listed[at] = byte);
            others.iter().for_each(|&(at, byte)| listed[SHEET + at] = byte);
            let marked: Marked = [&THREE, &THREE];
            let due = if first <= second { *number } else { *other };
            let expected = match due {
                0 => Outcome { answer: 0, out: Some(6), written: vec![SEALED.to_vec()] },
                _ => Outcome::writing(due, lost(marked)),
            };
            follow(run, &format!("{number} and {other}"), &lost(marked), marked, &listed, expected);
        }
    }
}

/// The block of a card only if both its sectors are there.
fn looks(run: &mut Run) {
    for (card, marked, found) in [
        (0, [&NONE[..], &NONE[..]], Some(0)),
        (8, [&[0, 7], &[0]], Some(16)),
        (3, [&[3], &NONE], None),
        (3, [&NONE, &[3]], None),
        (3, [&[3], &[3]], None),
        (3, [&[2], &[4]], Some(6)),
        (9, [&NONE, &NONE], None),
    ] {
        let map = map(marked);
        let expected = Outcome::reading(if found.is_some() { 2 } else { 0 }, found);
        let call = run.calls.look;
        let library = || call(CUT, &SEALED, &map, card);
        nowhere(run, &format!("look at card {card}"), expected, library, positions::look(CUT, &SEALED, &map, card));
    }
}

/// Each call refuses this sector length, array, map, sheets and limit, and leaves all as it is.
fn refused(run: &mut Run, sector: usize, lent: [&[u8]; 3], limit: usize, due: usize) {
    let (cut, [array, map, sheets]) = (Cut { sector, ..CUT }, lent);
    let case = format!("sector {sector}, lengths {:?}, limit {limit}", lent.map(<[u8]>::len));
    let written = vec![array.to_vec(), map.to_vec(), sheets.to_vec()];
    let expected = Placed::nowhere(Outcome { answer: due, out: None, written });
    let call = run.calls.rebuild;
    let library = || call(cut, array, map, sheets, limit);
    let model = positions::rebuild(cut, array, map, sheets, limit);
    stated(run, &format!("{case}, rebuild"), expected, library, model);
    let kept = Outcome::writing(due, array.to_vec());
    let call = run.calls.follow;
    let library = || call(cut, array, map, sheets);
    let model = positions::follow(cut, array, map, sheets);
    nowhere(run, &format!("{case}, follow"), kept.clone(), library, model);
    let call = run.calls.save;
    let library = || call(cut, array, map);
    nowhere(run, &format!("{case}, save"), kept, library, positions::save(cut, array, map));
    let call = run.calls.look;
    let (library, model) = (|| call(cut, array, map, 0), positions::look(cut, array, map, 0));
    nowhere(run, &format!("{case}, look"), Outcome::reading(0, None), library, model);
}

/// 16 stands between 3 and 4.
fn refusals(run: &mut Run) {
    let (fits, two, mut wrong) = (vec![0; 18], sheets([&NO_SHEET, &NO_SHEET]), vec![0; 18]);
    wrong[17] = 2;
    for sector in [0, 3, 4, 5, (1 << 32) + 1, (1 << 32) + 2, usize::MAX] {
        refused(run, sector, [&SEALED, &fits, &two], 1, 16);
        refused(run, sector, [&SEALED, &wrong, &OLD[..7]], 0, 16);
        refused(run, sector, [&SEALED[..17], &wrong, &two], 0, 3);
    }
    refused(run, 1, [&SEALED, &fits[..9], &two[..SHEET]], 0, 4);
    refused(run, 2, [&SEALED, &fits, &two], 1, 4);
    refused(run, 1, [&SEALED, &wrong, &two], 0, 4);
    // 12 stands before 6.
    let marked: Marked = [&NONE, &FOUR];
    let written = vec![lost(marked), map(marked), OLD.to_vec()];
    let expected = Placed::nowhere(Outcome { answer: 12, out: None, written });
    rebuild(run, "4 at position 1", &lost(marked), marked, 0, expected);
}

/// Plan takes the number of sectors: 16 stands between 1 and 4.
fn numbers_of_sectors(run: &mut Run) {
    for (rows, sectors, length, due) in [
        (2, 0, 0, 16),
        (2, 0, 18, 16),
        (2, 4097, 9 * 4097, 16),
        (2, (1 << 32) + 2, 18, 16),
        (2, (1 << 16) + 2, 18, 16),
        (1, 0, 18, 1),
        (2, 1, 18, 4),
        (2, 3, 18, 4),
        (2, 4096, 18, 4),
    ] {
        let (grid, map) = (Grid::new(rows, 2), vec![0; length]);
        let expected = Placed::nowhere(Outcome { answer: due, out: None, written: vec![OLD.to_vec()] });
        let call = run.calls.plan;
        let library = || call(grid, sectors, &map, &OLD);
        let model = positions::plan(grid, sectors, &map, &OLD);
        stated(run, &format!("rows {rows}, {sectors} sectors, map of {length}, plan"), expected, library, model);
    }
}

pub fn run(run: &mut Run) {
    losses(run);
    turns(run);
    contradictions(run);
    numbers(run);
    looks(run);
    refusals(run);
    numbers_of_sectors(run);
    run.tally.report("sectors, cases by hand", &[0, 1, 3, 4, 6, 7, 10, 11, 12, 13, 14, 16]);
}

//! The cases of paper 01, which has only squares, and the like on a grid wider than high and on one higher than wide.
//! What is stated here is expected of the library and of the model, which ties the model to the papers.

use crate::inputs::{grids_up_to, BLOCK_MAX, LARGEST, SIDE_MAX};
use crate::losses::{hanging_on_a_rectangle, map_of, map_of_bits, rectangles, sets_up_to};
use crate::model::{erased_disks, Rule, FATAL, NOT_ERASED, NO_REPAIRS, OUT_OF_RANGE};
use crate::outcome::Outcome;
use crate::rebuild::AT_ONCE;
use crate::sheet::SHEET;
use crate::size::{Grid, Size};
use crate::{branch, ffi, model, shortest, whole, Run};

/// An array of known bytes, sealed but where it is called damaged.
#[derive(Clone, Copy)]
struct Known<'a> {
    size: Size,
    array: &'a [u8],
}

/// The paper's sealed array A.
const A: Known<'static> = Known { size: Size::new(2, 2, 1), array: &[1, 2, 3, 4, 8, 12, 5, 10, 15] };
/// Data 1 2 4 / 8 16 32, and the same with rows for columns.
const WIDE: Known<'static> = Known { size: Size::new(2, 3, 1), array: &[1, 2, 4, 7, 8, 16, 32, 56, 9, 18, 36, 63] };
const HIGH: Known<'static> = Known { size: Size::new(3, 2, 1), array: &[1, 8, 9, 2, 16, 18, 4, 32, 36, 7, 56, 63] };

/// Data 1 2 4 / 8 16 32 / 64 128 27, the size of the nine dead cards.
const SQUARE: Known<'static> =
    Known { size: Size::new(3, 3, 1), array: &[1, 2, 4, 7, 8, 16, 32, 56, 64, 128, 27, 219, 73, 146, 63, 228] };
const NINE: [usize; 9] = [0, 1, 4, 5, 6, 10, 11, 14, 15];

type Found = Result<Outcome, String>;

fn stated(run: &mut Run, case: &str, expected: Outcome, library: impl FnOnce() -> Found, model: Outcome) {
    run.tally.compare(|| format!("case {case}, the library"), &expected, library);
    run.tally.compare(|| format!("case {case}, the model"), &expected, || Ok(model));
}

fn seal(run: &mut Run, case: &str, size: Size, array: &[u8], status: usize, after: &[u8]) {
    let expected = Outcome::writing(status, after.to_vec());
    stated(run, case, expected, || ffi::seal(size, array), model::seal(size, array));
}

/// Seals to the known array, which is then found sealed.
fn seals(run: &mut Run, case: &str, known: Known, array: &[u8]) {
    seal(run, case, known.size, array, 0, known.array);
    let (found, model) = (|| ffi::check(known.size, known.array), model::check(known.size, known.array));
    stated(run, &format!("{case}, checked"), Outcome::reading(0, None), found, model);
}

/// Writes 9 to a disk of the known array.
fn write(run: &mut Run, case: &str, known: Known, disk: usize, status: usize, after: &[u8]) {
    let Known { size, array } = known;
    let expected = Outcome::writing(status, after.to_vec());
    stated(run, case, expected, || ffi::write(size, array, disk, &[9]), model::write(size, array, disk, &[9]));
}

/// A sheet that begins with these bytes, then zeros.
fn sheet(begins: &[u8]) -> Vec<u8> {
    let mut sheet = begins.to_vec();
    sheet.resize(SHEET, 0);
    sheet
}

/// How a sheet of this kind with these cards and lines begins, as far as its last line.
fn records(kind: u8, records: &[(u8, u8)]) -> Vec<u8> {
    let numbered = (1..).zip(records).flat_map(|(number, &(card, line))| [number, card, line]);
    [kind].into_iter().chain(numbered).collect()
}

/// How a sheet with a loop begins.
fn shows(cards: &[(u8, u8)]) -> Vec<u8> {
    records(2, cards)
}

/// What is in the sheet before a call.
const OLD: [u8; SHEET] = [77; SHEET];

/// The outcome stated is expected of plan.
fn plan(run: &mut Run, case: &str, grid: Grid, map: &[u8], status: usize, count: usize, begins: &[u8]) {
    let expected = Outcome { answer: status, out: Some(count), written: vec![sheet(begins)] };
    let model = model::plan(grid, map, &OLD);
    stated(run, &format!("{case}, plan"), expected, || whole::plan(grid, map, &OLD), model);
}

/// As many disks can be searched.
const FEW: usize = 9;

/// The same of the plan for one disk, by each of the rules where few disks are erased, and else by that of branches.
fn plan_disk(run: &mut Run, case: &str, grid: Grid, map: &[u8], disk: usize, expected: Outcome) {
    let case = format!("case {case}, plan for disk {disk}");
    let planned = model::plan(grid, map, &OLD);
    let rules: [Rule; 3] = [branch::shortest, shortest::by_sets, shortest::by_lists];
    let known = if erased_disks(map).len() <= FEW { rules.len() } else { 1 };
    run.tally.compare(|| format!("{case}, the library"), &expected, || ffi::plan_disk(grid, map, &OLD, disk));
    for &rule in &rules[..known] {
        let model = model::plan_disk(&planned, rule, grid, map, &OLD, disk);
        run.tally.compare(|| format!("{case}, the model"), &expected, || Ok(model));
    }
}

/// The list for a disk that is wanted, while these cards are marked.
fn wanted(run: &mut Run, grid: Grid, marked: &[usize], disk: usize, repairs: &[(u8, u8)]) {
    let expected = Outcome { answer: 0, out: Some(repairs.len()), written: vec![sheet(&records(1, repairs))] };
    plan_disk(run, &format!("marked {marked:?}"), grid, &map_of(grid, marked), disk, expected);
}

/// The array with 99 on the marked cards.
fn lost(size: Size, array: &[u8], map: &[u8]) -> Vec<u8> {
    let mut lost = array.to_vec();
    for (block, _) in lost.chunks_mut(size.block).zip(map).filter(|(_, &mark)| mark == 1) {
        block.fill(99);
    }
    lost
}

/// The same of rebuild with a limit.
fn rebuild(run: &mut Run, case: &str, size: Size, array: &[u8], map: &[u8], limit: usize, expected: Outcome) {
    let lost = lost(size, array, map);
    let model = model::rebuild(size, &lost, map, &OLD, limit);
    let case = format!("{case}, rebuild, limit {limit}");
    stated(run, &case, expected, || whole::rebuild(size, &lost, map, &OLD, limit), model);
}

/// A turn of rebuild on the known array that leaves these of the marked cards, and lists the repairs of the others.
fn turn(run: &mut Run, case: &str, known: Known, marked: &[usize], limit: usize, left: &[usize], begins: &[u8]) {
    let Known { size, array } = known;
    let (before, after) = (map_of(size.grid, marked), map_of(size.grid, left));
    let written = vec![lost(size, array, &after), after, sheet(begins)];
    let expected = Outcome { answer: 0, out: Some(marked.len() - left.len()), written };
    rebuild(run, case, size, array, &before, limit, expected);
}

/// A limit of no repairs is refused by 12, which leaves all as it was.
fn no_repairs(run: &mut Run, case: &str, known: Known, marked: &[usize]) {
    let Known { size, array } = known;
    let map = map_of(size.grid, marked);
    let written = vec![lost(size, array, &map), map.clone(), OLD.to_vec()];
    rebuild(run, case, size, array, &map, 0, Outcome { answer: NO_REPAIRS, out: None, written });
}

/// The same of follow on plan's sheet: the loop of a fatal loss is refused by 10, and otherwise it does as rebuild.
fn follow(run: &mut Run, case: &str, size: Size, array: &[u8], map: &[u8], begins: &[u8], expected: Outcome) {
    let (lost, sheet) = (lost(size, array, map), sheet(begins));
    let model = model::follow(size, &lost, map, &sheet);
    stated(run, &format!("{case}, follow"), expected, || whole::follow(size, &lost, map, &sheet), model);
}

/// The same of tidy, on a sheet from elsewhere.
fn tidy(run: &mut Run, case: &str, sheet: &[u8], expected: Outcome) {
    stated(run, &format!("{case}, tidy"), expected, || ffi::tidy(sheet), model::tidy(sheet));
}

/// The same of save.
fn save(run: &mut Run, case: &str, size: Size, array: &[u8], map: &[u8], expected: Outcome) {
    let lost = lost(size, array, map);
    let model = model::save(size, &lost, map);
    stated(run, &format!("{case}, save"), expected, || whole::save(size, &lost, map), model);
}

/// Save on the known array brings back all marked cards but those left, which are lost.
fn saved(run: &mut Run, case: &str, known: Known, marked: &[usize], left: &[usize]) {
    let Known { size, array } = known;
    let written = vec![lost(size, array, &map_of(size.grid, left))];
    let expected = Outcome { answer: 0, out: Some(marked.len() - left.len()), written };
    save(run, case, size, array, &map_of(size.grid, marked), expected);
}

fn restored(run: &mut Run, case: &str, known: Known, marked: &[usize], begins: &[u8]) {
    let Known { size, array } = known;
    let (map, out) = (map_of(size.grid, marked), Some(marked.len()));
    plan(run, case, size.grid, &map, 0, marked.len(), begins);
    turn(run, case, known, marked, AT_ONCE, &[], begins);
    follow(run, case, size, array, &map, begins, Outcome { answer: 0, out, written: vec![array.to_vec()] });
    saved(run, case, known, marked, &[]);
    tidy(run, case, &sheet(begins), Outcome::writing(0, sheet(begins)));
}

/// Plan and rebuild count these of the marked cards as lost and show this loop. Save brings back the others.
fn fatal_but(run: &mut Run, case: &str, known: Known, marked: &[usize], left: &[usize], begins: &[u8]) {
    let Known { size, array } = known;
    let (map, out) = (map_of(size.grid, marked), Some(left.len()));
    let kept = lost(size, array, &map);
    plan(run, case, size.grid, &map, FATAL, left.len(), begins);
    let rebuilt = Outcome { answer: FATAL, out, written: vec![kept.clone(), map.clone(), sheet(begins)] };
    for limit in [1, marked.len(), AT_ONCE] {
        rebuild(run, case, size, array, &map, limit, rebuilt.clone());
    }
    no_repairs(run, case, known, marked);
    follow(run, case, size, array, &map, begins, Outcome::writing(OUT_OF_RANGE, kept));
    saved(run, case, known, marked, left);
    tidy(run, case, &sheet(begins), Outcome::writing(OUT_OF_RANGE, sheet(begins)));
}

/// All marked cards are lost.
fn fatal(run: &mut Run, case: &str, known: Known, marked: &[usize], begins: &[u8]) {
    fatal_but(run, case, known, marked, marked, begins);
}

/// Cases 2 to 8. The paper gives no sheets for 5 and 7: there is one loop in 5, and 7 follows plan's order by hand.
fn losses(run: &mut Run) {
    restored(run, "2", A, &[], &[1]);
    restored(run, "3", A, &[0, 2, 6], &[1, 1, 2, 18, 2, 0, 0, 3, 6, 2, 0]);
    fatal(run, "4", A, &[0, 2, 6, 8], &[2, 1, 0, 0, 2, 2, 18, 3, 8, 2, 4, 6, 16, 0]);
    fatal(run, "5", A, &[0, 1, 3, 4], &[2, 1, 0, 0, 2, 1, 17, 3, 4, 1, 4, 3, 16, 0]);
    restored(run, "6", A, &[0, 4, 8], &[1, 1, 0, 0, 2, 4, 1, 3, 8, 2, 0]);
    restored(run, "7", A, &[0, 1, 2, 3, 6], &[1, 1, 1, 17, 2, 2, 18, 3, 0, 0, 4, 3, 1, 5, 6, 2, 0]);
    let (contradictory, zeroed) = ([1, 2, 3, 4, 8, 12, 5, 10, 14], vec![0, 2, 3, 4, 8, 12, 5, 10, 14]);
    let map = map_of(A.size.grid, &[0]);
    let written = vec![zeroed.clone(), map.clone(), sheet(&[])];
    rebuild(run, "8", A.size, &contradictory, &map, AT_ONCE, Outcome { answer: 7, out: None, written });
    follow(run, "8", A.size, &contradictory, &map, &[1, 1, 0, 0, 0], Outcome::writing(7, zeroed.clone()));
    save(run, "8", A.size, &contradictory, &map, Outcome::writing(7, zeroed));
}

/// Case 3's list in records 32, 5 and 1.
const ELSEWHERE: [(usize, [u8; 3]); 3] = [(95, [2, 18, 5]), (14, [0, 0, 1]), (2, [6, 2, 0])];

/// Case 3's list in other records, with some bytes changed. Follow gives this status and tidy that. Where tidy refuses
/// nothing it makes the sheet of case 3, with the stripe that the first record has now.
fn from_elsewhere(run: &mut Run, changes: &[(usize, u8)], follows: usize, tidies: usize) {
    let mut from = sheet(&[1, 32]);
    ELSEWHERE.iter().for_each(|&(at, record)| from[at..at + 3].copy_from_slice(&record));
    changes.iter().for_each(|&(at, byte)| from[at] = byte);
    let (case, map) = (format!("3 from elsewhere, changes {changes:?}"), map_of(A.size.grid, &[0, 2, 6]));
    let followed = match follows {
        0 => Outcome { answer: 0, out: Some(3), written: vec![A.array.to_vec()] },
        refusal => Outcome::writing(refusal, lost(A.size, A.array, &map)),
    };
    follow(run, &case, A.size, A.array, &map, &from, followed);
    let tidied = if tidies == 0 { sheet(&[1, 1, 2, from[96], 2, 0, 0, 3, 6, 2, 0]) } else { from.clone() };
    tidy(run, &case, &from, Outcome::writing(tidies, tidied));
}

/// Tidy sheets. Bytes 0 and 1 and records 1, 5 and 32 are on the chain: 5, 13, 17 and 94 are bytes beside them.
fn tidy_sheets(run: &mut Run) {
    from_elsewhere(run, &[], 0, 0);
    for leftover in [(5, 1), (13, 255), (17, 128), (94, 1)] {
        from_elsewhere(run, &[leftover], 14, 0);
        from_elsewhere(run, &[leftover, (96, 17)], 14, 0);
        from_elsewhere(run, &[leftover, (4, 32)], 13, 13);
        from_elsewhere(run, &[leftover, (0, 2)], 10, 10);
    }
    // A step that is not allowed: the column does not go through the card.
    from_elsewhere(run, &[(96, 17)], 11, 0);
    // The last record leads to the first, to itself, or nowhere; or the kind is another, ring or not.
    for (changes, refusal) in [
        (&[(4, 32)][..], 13),
        (&[(4, 1)], 13),
        (&[(4, 33)], 10),
        (&[(1, 33)], 10),
        (&[(0, 0)], 10),
        (&[(0, 2)], 10),
        (&[(0, 2), (4, 32)], 10),
    ] {
        from_elsewhere(run, changes, refusal, refusal);
    }
    // Nothing is listed, with leftovers and without.
    for from in [sheet(&[1]), sheet(&[1, 0, 2, 18]), [[1, 0].to_vec(), vec![7; 96]].concat()] {
        tidy(run, "2 from elsewhere", &from, Outcome::writing(0, sheet(&[1])));
    }
}

/// Cards that are not lost after all. Of the nine dead cards plan counts eight as lost, and save brings back card 6. Without
/// card 6 every stripe has marked cards, and yet survivors can contradict each other: those of rows 0 and 1 and of columns 0
/// and 1. With it they cannot.
fn nine_cards(run: &mut Run) {
    let Known { size, array } = SQUARE;
    let eight: Vec<usize> = NINE.into_iter().filter(|&card| card != 6).collect();
    seals(run, "the nine cards, sealed", SQUARE, &[1, 2, 4, 99, 8, 16, 32, 99, 64, 128, 27, 99, 99, 99, 99, 99]);
    saved(run, "the nine cards", SQUARE, &NINE, &eight);
    saved(run, "eight of the nine cards", SQUARE, &eight, &eight);
    for (cards, erased) in [(&NINE[..], "nine"), (&eight, "eight")] {
        let counts = planned(size.grid, &map_of(size.grid, cards)).map(|outcome| outcome.out.unwrap_or(0));
        number(run, &format!("lost cards of {erased}"), FATAL, 8, counts);
    }
    for card in (0..size.disks()).filter(|card| !NINE.contains(card)) {
        let mut damaged = array.to_vec();
        damaged[card] ^= 16;
        let map = map_of(size.grid, &eight);
        let zeroed = damaged.iter().zip(&map).map(|(&byte, &mark)| if mark == 1 { 0 } else { byte }).collect();
        save(run, "eight of the nine cards, contradicted", size, &damaged, &map, Outcome::writing(7, zeroed));
        // The nine agree with any survivors: the change goes over to card 6 where its sum has the changed card.
        let mut after = lost(size, &damaged, &map_of(size.grid, &NINE));
        after[6] = array[6] ^ if [2, 3, 7, 8, 9, 12, 13].contains(&card) { 16 } else { 0 };
        let expected = Outcome { answer: 0, out: Some(1), written: vec![after] };
        save(run, "the nine cards, a survivor changed", size, &damaged, &map_of(size.grid, &NINE), expected);
    }
}

/// All sealed arrays of one bit to a block, as sets of the disks that have a 1.
fn sealed_sets(grid: Grid) -> Vec<usize> {
    let size = Size { grid, block: 1 };
    let sealed = |data: usize| {
        let bits: Vec<u8> = (0..grid.rows * grid.columns).map(|bit| (data >> bit & 1) as u8).collect();
        let array =
            sealed_by_hand(size, |disk, _| bits[disk / (grid.columns + 1) * grid.columns + disk % (grid.columns + 1)]);
        array.iter().rev().fold(0, |set, &bit| set << 1 | bit as usize)
    };
    (0..1 << (grid.rows * grid.columns)).map(sealed).collect()
}

/// A card is lost exactly if two sealed arrays agree on all survivors and differ in it; they differ by a sealed array that
/// has zeros on the survivors. So the lost cards of every map are counted from all sealed arrays.
fn lost_by_definition(run: &mut Run) {
    for grid in grids_up_to(3) {
        let sealed = sealed_sets(grid);
        for marked in 0..1 << grid.disks() {
            let lost = sealed.iter().filter(|&set| set & !marked == 0).fold(0, |lost, set| lost | set);
            let known: u32 = usize::count_ones(lost);
            if known > 0 {
                let counts = planned(grid, &map_of_bits(grid, marked)).map(|outcome| outcome.out.unwrap_or(0));
                number(run, &format!("lost cards, {grid}, set {marked}"), FATAL, known as usize, counts);
            }
        }
    }
}

/// Case 3 in turns, and once more with 9 for 8 on card 4, which row 1 contradicts: only the turn that restores the last
/// card finds it, and zeroes no more than its own cards.
fn turns(run: &mut Run) {
    let damaged = Known { array: &[1, 2, 3, 4, 9, 12, 5, 10, 15], ..A };
    for known in [A, damaged] {
        turn(run, "3 in turns", known, &[0, 2, 6], 1, &[0, 6], &[1, 1, 2, 18, 0]);
        turn(run, "3 in turns", known, &[0, 6], 1, &[6], &[1, 1, 0, 0, 0]);
        turn(run, "3 in turns", known, &[0, 2, 6], 2, &[6], &[1, 1, 2, 18, 2, 0, 0, 0]);
        no_repairs(run, "3 in turns", known, &[0, 2, 6]);
    }
    for limit in [1, 2, 1 << 32] {
        turn(run, "3 in turns, the last", A, &[6], limit, &[], &[1, 1, 6, 2, 0]);
        turn(run, "3 in turns, nothing left", A, &[], limit, &[], &[1]);
    }
    for (marked, zeroed) in [
        (vec![0, 2, 6], [0, 2, 0, 4, 9, 12, 0, 10, 15]),
        (vec![0, 6], [0, 2, 3, 4, 9, 12, 0, 10, 15]),
        (vec![6], [1, 2, 3, 4, 9, 12, 0, 10, 15]),
        (vec![], [1, 2, 3, 4, 9, 12, 5, 10, 15]),
    ] {
        let map = map_of(A.size.grid, &marked);
        let expected = Outcome { answer: 7, out: None, written: vec![zeroed.to_vec(), map.clone(), sheet(&[])] };
        rebuild(run, "3 in turns, contradicted", A.size, damaged.array, &map, 3, expected);
    }
}

/// Paper 02 gives no lists: these follow its words by hand. Where the two ways are as long the row's is taken, also where its
/// numbers are higher, and a longer row's is not; steps go by lowest number among those that are possible.
fn wanted_disks(run: &mut Run) {
    let grid = A.size.grid;
    wanted(run, grid, &[0], 0, &[(0, 0)]);
    wanted(run, grid, &[0, 1], 1, &[(1, 17)]);
    wanted(run, grid, &[0, 3], 3, &[(3, 1)]);
    wanted(run, grid, &[0, 1, 3], 0, &[(1, 17), (0, 0)]);
    wanted(run, grid, &[0, 1, 2, 3], 0, &[(3, 1), (0, 16)]);
    wanted(run, grid, &[1, 2, 3, 4, 6], 4, &[(6, 2), (3, 16), (4, 1)]);
    for (size, stair, by_row) in [
        (A.size, [0, 1, 4, 5, 8], [(8, 2), (5, 18), (4, 1)]),
        (WIDE.size, [0, 1, 5, 6, 10], [(10, 2), (6, 18), (5, 1)]),
        (HIGH.size, [0, 3, 4, 7, 8], [(0, 0), (3, 16), (4, 1)]),
    ] {
        wanted(run, size.grid, &stair, stair[2], &by_row);
    }
    wanted(run, WIDE.size.grid, &[0, 1, 5, 6, 10], 6, &[(10, 2), (6, 18)]);
    wanted(run, WIDE.size.grid, &[0, 1, 5, 6, 10], 1, &[(0, 16), (1, 0)]);
    // Row 0 and column 0 of the largest grid: the cards of the row go by their columns.
    let cross: Vec<usize> = (0..16).chain((1..16).map(|r| 16 * r)).collect();
    let row: Vec<(u8, u8)> = (1..16).map(|c| (c, 16 + c)).chain([(0, 0)]).collect();
    wanted(run, LARGEST, &cross, 0, &row);
    wanted(run, LARGEST, &cross, 240, &[(240, 15)]);
}

/// With a loop on cards 0, 1, 3 and 4, card 8 can be repaired all the same. Any other number is no marked card, which is said
/// before 6, or 6 with plan's sheet and count.
fn wanted_in_a_loop(run: &mut Run) {
    let (grid, marked) = (A.size.grid, [0, 1, 3, 4, 8]);
    let map = map_of(grid, &marked);
    wanted(run, grid, &marked, 8, &[(8, 2)]);
    for disk in [0, 1, 3, 4] {
        let written = vec![sheet(&[2, 1, 0, 0, 2, 1, 17, 3, 4, 1, 4, 3, 16, 0])];
        plan_disk(run, "5 and card 8", grid, &map, disk, Outcome { answer: FATAL, out: Some(4), written });
    }
    let kept = Outcome { answer: NOT_ERASED, out: None, written: vec![OLD.to_vec()] };
    for disk in [2, 5, 6, 7, 9, 10, 255, 256, 264, (1 << 32) + 8, usize::MAX] {
        plan_disk(run, "5 and card 8", grid, &map, disk, kept.clone());
        plan_disk(run, "2", grid, &[0; 9], disk, kept.clone());
    }
}

/// Paper 02 gives no loops: these follow its words by hand. Three ways of three cards between a row and a column are three
/// loops of six; in the first case the loop that starts 0, 1, 9 has the higher numbers in ascending order. Of two
/// rectangles with the same lowest card the second number decides, though the rows of the other are lower.
fn smallest_loops(run: &mut Run) {
    let ways = [(0, 0), (1, 17), (13, 3), (14, 18), (6, 1), (4, 16)];
    fatal(run, "three ways", SQUARE, &[0, 1, 4, 6, 7, 9, 11, 13, 14], &shows(&ways));
    let ways = [(1, 0), (3, 19), (15, 3), (12, 16), (4, 1), (5, 17)];
    fatal(run, "three other ways", SQUARE, &[1, 3, 4, 5, 6, 10, 11, 12, 15], &shows(&ways));
    let (marked, left) = ([0, 1, 2, 3, 4, 6, 8, 9], [0, 1, 2, 4, 6, 8, 9]);
    let rectangle = shows(&[(0, 0), (1, 17), (9, 2), (8, 16)]);
    fatal_but(run, "two rectangles", SQUARE, &marked, &left, &rectangle);
    fatal(run, "two rectangles, wide", WIDE, &left, &rectangle);
    fatal(run, "two rectangles, high", HIGH, &[0, 1, 2, 3, 5, 9, 10], &shows(&[(0, 0), (1, 17), (10, 3), (9, 16)]));
    fatal(run, "two rectangles apart", WIDE, &[0, 2, 4, 6, 1, 3, 9, 11], &shows(&[(0, 0), (2, 18), (6, 1), (4, 16)]));
    fatal(run, "all cards", A, &[0, 1, 2, 3, 4, 5, 6, 7, 8], &shows(&[(0, 0), (1, 17), (4, 1), (3, 16)]));
    // The loop is that of the whole map, also where the wanted card is on others only.
    let (grid, map) = (SQUARE.size.grid, map_of(SQUARE.size.grid, &marked));
    wanted(run, grid, &marked, 3, &[(3, 19)]);
    for card in left {
        let written = vec![sheet(&rectangle)];
        plan_disk(run, "two rectangles", grid, &map, card, Outcome { answer: FATAL, out: Some(7), written });
    }
    let (map, written) = (map_of(grid, &NINE), vec![sheet(&shows(&[(0, 0), (1, 17), (5, 1), (4, 16)]))]);
    plan_disk(run, "the nine cards", grid, &map, 6, Outcome { answer: FATAL, out: Some(8), written });
}

/// The longest loop there is, of 32 cards, and all cards of the largest grid.
fn largest_loops(run: &mut Run) {
    let stair: Vec<(u8, u8)> =
        (0..15).flat_map(|i| [(17 * i, i), (17 * i + 1, 17 + i)]).chain([(255, 15), (240, 16)]).collect();
    let cards: Vec<usize> = stair.iter().map(|&(card, _)| card as usize).collect();
    plan(run, "a loop of 32", LARGEST, &map_of(LARGEST, &cards), FATAL, 32, &shows(&stair));
    let rectangle = shows(&[(0, 0), (1, 17), (17, 1), (16, 16)]);
    plan(run, "all cards of the largest grid", LARGEST, &[1; 256], FATAL, 256, &rectangle);
}

/// The like of cases 1, 3, 4, 7, 9 and 11 on a grid of two rows and three columns.
fn wider_than_high(run: &mut Run) {
    seals(run, "wide 1", WIDE, &[1, 2, 4, 99, 8, 16, 32, 7, 6, 5, 4, 3]);
    restored(run, "wide 3", WIDE, &[0, 3, 8], &[1, 1, 3, 19, 2, 0, 0, 3, 8, 2, 0]);
    fatal(run, "wide 4", WIDE, &[0, 3, 8, 11], &[2, 1, 0, 0, 2, 3, 19, 3, 11, 2, 4, 8, 16, 0]);
    let full = [1, 1, 1, 17, 2, 2, 18, 3, 3, 19, 4, 0, 0, 5, 4, 1, 6, 8, 2, 0];
    restored(run, "wide 7, the full six", WIDE, &[0, 1, 2, 3, 4, 8], &full);
    write(run, "wide 9", WIDE, 6, 0, &[1, 2, 4, 7, 8, 16, 9, 17, 9, 18, 13, 22]);
    for parity in [3, 7, 8, 9, 10, 11] {
        write(run, "wide 11", WIDE, parity, 8, WIDE.array);
    }
}

/// The same with rows for columns.
fn higher_than_wide(run: &mut Run) {
    seals(run, "high 1", HIGH, &[1, 8, 99, 2, 16, 7, 4, 32, 6, 5, 4, 3]);
    restored(run, "high 3", HIGH, &[0, 2, 9], &[1, 1, 2, 18, 2, 0, 0, 3, 9, 3, 0]);
    fatal(run, "high 4", HIGH, &[0, 2, 9, 11], &[2, 1, 0, 0, 2, 2, 18, 3, 11, 3, 4, 9, 16, 0]);
    let full = [1, 1, 1, 17, 2, 2, 18, 3, 0, 0, 4, 3, 1, 5, 6, 2, 6, 9, 3, 0];
    restored(run, "high 7, the full six", HIGH, &[0, 1, 2, 3, 6, 9], &full);
    write(run, "high 9", HIGH, 7, 0, &[1, 8, 9, 2, 16, 18, 4, 9, 13, 7, 17, 22]);
    for parity in [2, 5, 8, 9, 10, 11] {
        write(run, "high 11", HIGH, parity, 8, HIGH.array);
    }
}

/// Cases 10 and 11 for plan, rebuild, follow and save: sizes, a map byte of 2.
fn refused(run: &mut Run, case: &str, size: Size, map: &[u8], status: usize) {
    let array = vec![7; map.len() * size.block];
    for limit in [AT_ONCE, 0] {
        let written = vec![array.clone(), map.to_vec(), OLD.to_vec()];
        let expected = Outcome { answer: status, out: None, written };
        let model = model::rebuild(size, &array, map, &OLD, limit);
        let case = format!("{case}, rebuild, limit {limit}");
        stated(run, &case, expected, || whole::rebuild(size, &array, map, &OLD, limit), model);
    }
    let expected = Outcome::writing(status, array.clone());
    let model = model::follow(size, &array, map, &OLD);
    stated(run, &format!("{case}, follow"), expected.clone(), || whole::follow(size, &array, map, &OLD), model);
    let model = model::save(size, &array, map);
    stated(run, &format!("{case}, save"), expected, || whole::save(size, &array, map), model);
    if status != 2 {
        let expected = Outcome { answer: status, out: None, written: vec![OLD.to_vec()] };
        let model = model::plan(size.grid, map, &OLD);
        stated(run, &format!("{case}, plan"), expected.clone(), || whole::plan(size.grid, map, &OLD), model);
        plan_disk(run, case, size.grid, map, 0, expected);
    }
}

/// Look at disk 0 of a size that is refused: nothing is handed back.
fn empty(run: &mut Run, case: &str, size: Size, array: &[u8], map: &[u8]) {
    let model = model::look(size, array, map, 0);
    stated(run, &format!("{case}, look"), Outcome::reading(0, None), || whole::look(size, array, map, 0), model);
}

/// Case 10 for all calls, with each number too small or too large alone and with both so.
fn sides(run: &mut Run) {
    let wrong = [(1, 1), (16, 16), (1, 2), (2, 1), (0, 15), (15, 0), (16, 2), (2, 16), (16, 15), (15, 16), (1, 16)];
    for size in wrong.map(|(rows, columns)| Size::new(rows, columns, 1)) {
        let (case, map, array) = (format!("10, {size}"), vec![0; size.disks()], vec![7; size.bytes()]);
        seal(run, &format!("{case}, seal"), size, &array, 1, &array);
        let (found, model) = (|| ffi::check(size, &array), model::check(size, &array));
        stated(run, &format!("{case}, check"), Outcome::reading(1, None), found, model);
        let (found, model) = (|| ffi::write(size, &array, 0, &[9]), model::write(size, &array, 0, &[9]));
        stated(run, &format!("{case}, write"), Outcome::writing(1, array.clone()), found, model);
        empty(run, &case, size, &array, &map);
        refused(run, &case, size, &map, 1);
    }
}

/// The parities of an array whose data is given by disk and place: each data byte is added to its row's, its column's
/// and the corner's.
fn sealed_by_hand(size: Size, data: impl Fn(usize, usize) -> u8) -> Vec<u8> {
    let (grid, mut array) = (size.grid, vec![0; size.bytes()]);
    for (r, c) in (0..grid.rows).flat_map(|r| (0..grid.columns).map(move |c| (r, c))) {
        for place in 0..size.block {
            for (row, column) in [(r, c), (r, grid.columns), (grid.rows, c), (grid.rows, grid.columns)] {
                array[grid.disk_at(row, column) * size.block + place] ^= data(grid.disk_at(r, c), place);
            }
        }
    }
    array
}

/// Case 10: the largest array, sealed from parities of 99 at every place, written to, and restored from the loss
/// of a row and a column, which is the longest list of repairs.
fn largest(run: &mut Run) {
    let size = Size { grid: LARGEST, block: BLOCK_MAX };
    let data = |disk: usize, place: usize| (7 * disk + 13 * place + disk * place / 64) as u8;
    let array = sealed_by_hand(size, data);
    let parities: Vec<u8> = (0..size.disks()).map(|disk| u8::from(disk % 16 == 15 || disk >= 240)).collect();
    seals(run, "10, the largest array", Known { size, array: &array }, &lost(size, &array, &parities));
    let block = vec![9; size.block];
    let after = sealed_by_hand(size, |disk, place| if disk == 238 { 9 } else { data(disk, place) });
    let (found, model) = (|| ffi::write(size, &array, 238, &block), model::write(size, &array, 238, &block));
    stated(run, "10, the largest array, written", Outcome::writing(0, after.clone()), found, model);
    let (cross, mut begins) = ((0..16).chain((1..16).map(|r| 16 * r)).collect::<Vec<usize>>(), vec![1, 1]);
    let columns = (1..16).map(|c| (c, 16 + c));
    let rows = (0..16).map(|r| (16 * r, r));
    for (step, (disk, stripe)) in (1..).zip(columns.chain(rows)) {
        begins.extend([disk, stripe, if step < 31 { step + 1 } else { 0 }].map(|number: usize| number as u8));
    }
    restored(run, "10, the largest array", Known { size, array: &after }, &cross, &begins);
}

/// Case 10: blocks that are too short or too long.
fn blocks(run: &mut Run) {
    for size in [0, BLOCK_MAX + 1].map(|block| Size::new(2, 2, block)) {
        let (case, array) = (format!("10, {size}"), vec![7; size.bytes()]);
        seal(run, &format!("{case}, seal"), size, &array, 2, &array);
        refused(run, &case, size, &[0; 9], 2);
    }
}

/// What plan answers, by the library and by the model.
fn planned(grid: Grid, map: &[u8]) -> [Outcome; 2] {
    let none = |_| Outcome::reading(usize::MAX, None);
    [whole::plan(grid, map, &OLD).unwrap_or_else(none), model::plan(grid, map, &OLD)]
}

/// A number that is counted is expected of the library and of the model.
fn number(run: &mut Run, case: &str, status: usize, known: usize, [library, model]: [usize; 2]) {
    let found = |count: usize| Outcome::reading(status, Some(count));
    stated(run, case, found(known), || Ok(found(library)), found(model));
}

/// How many losses of so many cards are fatal.
fn fatal_sets(grid: Grid, cards: usize) -> [usize; 2] {
    let mut fatal = [0; 2];
    for highest in 0..grid.disks() {
        sets_up_to(highest, cards, &mut |marked| {
            let answers = planned(grid, &map_of(grid, marked)).map(|outcome| outcome.answer);
            fatal = [0, 1].map(|i| fatal[i] + usize::from(answers[i] == FATAL));
        });
    }
    fatal
}

/// Case 12: of the sets of four the rectangles are fatal, a(a+1)b(b+1)/4 with a rows and b columns; of the sets of
/// three none.
fn counted(run: &mut Run) {
    for grid in grids_up_to(5) {
        number(run, &format!("12, {grid}, sets of 3"), FATAL, 0, fatal_sets(grid, 3));
        let known = grid.rows * (grid.rows + 1) * grid.columns * (grid.columns + 1) / 4;
        assert_eq!(known as u64, rectangles(grid), "two ways to count rectangles differ, {grid}");
        number(run, &format!("12, {grid}, sets of 4"), FATAL, known, fatal_sets(grid, 4));
    }
}

/// The most repairs that are planned for any map: a+b+1.
fn limit(run: &mut Run) {
    for grid in grids_up_to(3) {
        let repairs = |outcome: Outcome| outcome.out.filter(|_| outcome.answer == 0).unwrap_or(0);
        let plans = (0..1 << grid.disks()).map(|set| planned(grid, &map_of_bits(grid, set)).map(repairs));
        let most = plans.fold([0; 2], |most, repairs| [0, 1].map(|i| repairs[i].max(most[i])));
        number(run, &format!("the limit of repairs, {grid}"), 0, grid.rows + grid.columns + 1, most);
    }
}

/// The count of the plan for one disk, by the library and by the model; 0 where there is no list.
fn list_length(grid: Grid, map: &[u8], disk: usize) -> [usize; 2] {
    let none = |_| Outcome::reading(usize::MAX, None);
    let model = model::plan_disk(&model::plan(grid, map, &OLD), branch::shortest, grid, map, &OLD, disk);
    [ffi::plan_disk(grid, map, &OLD, disk).unwrap_or_else(none), model]
        .map(|outcome| outcome.out.filter(|_| outcome.answer == 0).unwrap_or(0))
}

/// The longest list for one disk: half of a+b and one more where both ways are open, a+b-2 where one leads to a loop.
fn longest_list(run: &mut Run) {
    for grid in [(2, 2), (2, 3), (3, 2)].map(|(rows, columns)| Grid::new(rows, columns)) {
        let maps = (0..1 << grid.disks()).map(|set| map_of_bits(grid, set));
        let lengths =
            maps.flat_map(|map| erased_disks(&map).into_iter().map(move |disk| list_length(grid, &map, disk)));
        let most = lengths.fold([0; 2], |most, length| [0, 1].map(|i| length[i].max(most[i])));
        number(run, &format!("the longest list for one disk, {grid}"), 0, (grid.rows + grid.columns) / 2 + 1, most);
    }
    for grid in grids_up_to(SIDE_MAX) {
        let disks = hanging_on_a_rectangle(&mut run.random, grid);
        let lengths = list_length(grid, &map_of(grid, &disks), disks[0]);
        number(run, &format!("a list past a loop, {grid}"), 0, grid.rows + grid.columns - 2, lengths);
    }
}

pub fn run(run: &mut Run) {
    seals(run, "1", A, &[1, 2, 99, 4, 8, 7, 6, 5, 4]);
    losses(run);
    turns(run);
    tidy_sheets(run);
    wanted_disks(run);
    wanted_in_a_loop(run);
    nine_cards(run);
    smallest_loops(run);
    largest_loops(run);
    write(run, "9", A, 0, 0, &[9, 2, 11, 4, 8, 12, 13, 10, 7]);
    wider_than_high(run);
    higher_than_wide(run);
    sides(run);
    largest(run);
    blocks(run);
    write(run, "11", A, 2, 8, A.array);
    refused(run, "11", A.size, &[0, 0, 0, 0, 2, 0, 0, 0, 0], 4);
    counted(run);
    limit(run);
    longest_list(run);
    lost_by_definition(run);
}

//! The array by the words of papers 01 and 02, in the plainest way: every sum is taken over a stripe as they define it,
//! and every refusal is tested in their order. Nothing here is taken from the library.
//!
//! The papers' words: a disk is their card, a stripe their line, an erased disk a marked card.

use crate::equations::{sums_of_survivors, Equations};
use crate::outcome::Outcome;
use crate::sheet::{self, Record};
use crate::size::{Grid, Size};
use crate::ways;

/// The status of a call that refuses nothing.
pub const SUCCESS: usize = 0;
/// The status of a loss that is fatal.
pub const FATAL: usize = 6;
/// The status of survivors that belong to no sealed array.
pub const CONTRADICTORY: usize = 7;
/// The status of a sheet whose kind, or a number on its chain, is out of range.
pub const OUT_OF_RANGE: usize = 10;
/// The status of repairs that are not allowed or leave a disk erased.
pub const NOT_ALLOWED: usize = 11;
/// The status of a limit of no repairs.
pub const NO_REPAIRS: usize = 12;
/// The status of a chain that reaches a record twice.
pub const TWICE: usize = 13;
/// The status of bytes off the chain that are not zero.
pub const LEFTOVERS: usize = 14;
/// The status of a wanted disk that the grid has not, or that is not erased.
pub const NOT_ERASED: usize = 15;
/// What check answers for an array that is not sealed. Paper 01 gives no number; the C interface does.
const NOT_SEALED: usize = 64;
/// Column c is stripe 16 + c.
const FIRST_COLUMN: usize = 16;

/// The first `count` disks of row r.
fn row(grid: Grid, r: usize, count: usize) -> Vec<usize> {
    (0..count).map(|c| grid.disk_at(r, c)).collect()
}

/// The first `count` disks of column c.
fn column(grid: Grid, c: usize, count: usize) -> Vec<usize> {
    (0..count).map(|r| grid.disk_at(r, c)).collect()
}

/// All disks of a stripe.
pub fn stripe_disks(grid: Grid, stripe: usize) -> Vec<usize> {
    if stripe < FIRST_COLUMN {
        row(grid, stripe, grid.columns + 1)
    } else {
        column(grid, stripe - FIRST_COLUMN, grid.rows + 1)
    }
}

fn block_of(array: &[u8], block: usize, disk: usize) -> &[u8] {
    &array[disk * block..(disk + 1) * block]
}

fn set_block(array: &mut [u8], block: usize, disk: usize, bytes: &[u8]) {
    array[disk * block..(disk + 1) * block].copy_from_slice(bytes);
}

fn exclusive_or(a: &[u8], b: &[u8]) -> Vec<u8> {
    a.iter().zip(b).map(|(x, y)| x ^ y).collect()
}

/// The exclusive or over some disks, at each byte place of the block.
fn sum(array: &[u8], block: usize, disks: &[usize]) -> Vec<u8> {
    disks.iter().fold(vec![0; block], |sum, &disk| exclusive_or(&sum, block_of(array, block, disk)))
}

/// Refusal 1, with which every call begins; 0 where it does not apply.
pub fn side_refusal(grid: Grid) -> usize {
    let fits = |side: usize| (2..=15).contains(&side);
    if fits(grid.rows) && fits(grid.columns) {
        SUCCESS
    } else {
        1
    }
}

/// Refusals 1, 2 and 3, with which the calls on an array begin; 0 where none applies.
pub fn array_refusal(size: Size, array: &[u8]) -> usize {
    if side_refusal(size.grid) != SUCCESS {
        return side_refusal(size.grid);
    }
    if !(1..=4096).contains(&size.block) {
        return 2;
    }
    if array.len() != size.bytes() {
        return 3;
    }
    SUCCESS
}

/// Fills P with the sum of its row's data, Q with that of its column's data, and S with the sum of all P.
pub fn seal(size: Size, array: &[u8]) -> Outcome {
    let refusal = array_refusal(size, array);
    let mut sealed = array.to_vec();
    if refusal != SUCCESS {
        return Outcome::writing(refusal, sealed);
    }
    let (grid, block) = (size.grid, size.block);
    let (rows, columns) = (grid.rows, grid.columns);
    for r in 0..rows {
        set_block(&mut sealed, block, grid.disk_at(r, columns), &sum(array, block, &row(grid, r, columns)));
    }
    for c in 0..columns {
        set_block(&mut sealed, block, grid.disk_at(rows, c), &sum(array, block, &column(grid, c, rows)));
    }
    let superparity = sum(&sealed, block, &column(grid, columns, rows));
    set_block(&mut sealed, block, grid.disk_at(rows, columns), &superparity);
    Outcome::writing(SUCCESS, sealed)
}

/// The lowest stripe whose sum is not zero at some place, none for a sealed array.
fn lowest_unsealed(size: Size, array: &[u8]) -> Option<usize> {
    let rows = 0..=size.grid.rows;
    let columns = FIRST_COLUMN..=FIRST_COLUMN + size.grid.columns;
    let sum_of = |stripe: usize| sum(array, size.block, &stripe_disks(size.grid, stripe));
    rows.chain(columns).find(|&stripe| sum_of(stripe).iter().any(|&byte| byte != 0))
}

pub fn check(size: Size, array: &[u8]) -> Outcome {
    let refusal = array_refusal(size, array);
    if refusal != SUCCESS {
        return Outcome::reading(refusal, None);
    }
    match lowest_unsealed(size, array) {
        Some(stripe) => Outcome::reading(NOT_SEALED, Some(stripe)),
        None => Outcome::reading(SUCCESS, None),
    }
}

/// The row and the column of a data disk, none for a parity disk or a number outside the grid.
fn data_place(grid: Grid, disk: usize) -> Option<(usize, usize)> {
    let mut places = (0..grid.rows).flat_map(|r| (0..grid.columns).map(move |c| (r, c)));
    places.find(|&(r, c)| grid.disk_at(r, c) == disk)
}

fn write_refusal(size: Size, array: &[u8], disk: usize, data: &[u8]) -> usize {
    let refusal = array_refusal(size, array);
    if refusal != SUCCESS {
        return refusal;
    }
    if data_place(size.grid, disk).is_none() {
        return 8;
    }
    if data.len() != size.block {
        return 9;
    }
    SUCCESS
}

/// Stores the new block; P, Q and S of the disk change by the same difference.
pub fn write(size: Size, array: &[u8], disk: usize, data: &[u8]) -> Outcome {
    let refusal = write_refusal(size, array, disk, data);
    let mut written = array.to_vec();
    if refusal != SUCCESS {
        return Outcome::writing(refusal, written);
    }
    let (grid, block) = (size.grid, size.block);
    let (r, c) = data_place(grid, disk).expect("refusal 8 has been tested");
    let difference = exclusive_or(block_of(array, block, disk), data);
    let (rows, columns) = (grid.rows, grid.columns);
    for changed in [disk, grid.disk_at(r, columns), grid.disk_at(rows, c), grid.disk_at(rows, columns)] {
        let bytes = exclusive_or(block_of(array, block, changed), &difference);
        set_block(&mut written, block, changed, &bytes);
    }
    Outcome::writing(SUCCESS, written)
}

fn map_fits(grid: Grid, map: &[u8]) -> bool {
    map.len() == grid.disks() && map.iter().all(|&mark| mark <= 1)
}

/// The block of one present disk, by its length and its place in the array; length 0 where anything is wrong.
pub fn look(size: Size, array: &[u8], map: &[u8], disk: usize) -> Outcome {
    let empty = Outcome::reading(0, None);
    if array_refusal(size, array) != SUCCESS {
        return empty;
    }
    if !map_fits(size.grid, map) {
        return empty;
    }
    if disk >= size.disks() || map[disk] == 1 {
        return empty;
    }
    Outcome::reading(size.block, Some(disk * size.block))
}

/// Refusals 4 and 5, which come after those of the size and the array.
fn map_refusal(grid: Grid, map: &[u8], sheet: &[u8]) -> usize {
    if !map_fits(grid, map) {
        return 4;
    }
    if sheet.len() != sheet::SHEET {
        return 5;
    }
    SUCCESS
}

/// Refusals 1 to 5, with which rebuild and follow begin.
fn restore_refusal(size: Size, array: &[u8], map: &[u8], sheet: &[u8]) -> usize {
    match array_refusal(size, array) {
        SUCCESS => map_refusal(size.grid, map, sheet),
        refusal => refusal,
    }
}

/// The erased disks in rising order.
pub fn erased_disks(map: &[u8]) -> Vec<usize> {
    (0..map.len()).filter(|&disk| map[disk] == 1).collect()
}

/// A loss: the stripe equations say whether it is fatal, plan's order how it is repaired.
struct Loss {
    grid: Grid,
    erased: Vec<usize>,
    fatal: bool,
    equations: Equations,
    /// The repairs that can be made, in plan's order.
    repairs: Vec<Record>,
    /// The disks in which two sealed arrays with the same survivors differ.
    lost: Vec<usize>,
}

impl Loss {
    fn new(grid: Grid, map: &[u8]) -> Loss {
        let erased = erased_disks(map);
        let mut equations = Equations::new(grid);
        let independent = erased.iter().filter(|&&disk| equations.add(disk)).count();
        let fatal = independent < erased.len();
        let lost: Vec<usize> = erased.iter().copied().filter(|&disk| equations.leave_open(disk)).collect();
        let (repairs, left) = sheet::plans_order(grid, &erased);
        // Demand 3 and the limit of repairs say so. A model that contradicts itself would be nothing to compare with.
        assert_eq!(fatal, !left.is_empty(), "rank and repairs differ, {grid}, map {map:?}");
        assert_eq!(fatal, !lost.is_empty(), "rank and lost disks differ, {grid}, map {map:?}");
        assert!(lost.iter().all(|disk| left.contains(disk)), "a lost disk is repaired, {grid}, map {map:?}");
        assert!(repairs.len() <= grid.most_repairs(), "too many repairs, {grid}, map {map:?}");
        Loss { grid, erased, fatal, equations, repairs, lost }
    }

    /// The status of plan, its count and its sheet. A fatal loss shows its smallest loop.
    fn planned(&self) -> (usize, Option<usize>, Vec<u8>) {
        if self.fatal {
            let smallest = ways::smallest(self.grid, &self.erased).expect("a fatal loss has a loop");
            return (FATAL, Some(self.lost.len()), sheet::of_loop(&smallest));
        }
        (SUCCESS, Some(self.repairs.len()), sheet::of_repairs(&self.repairs))
    }
}

/// The repairs in plan's order and their number, or the smallest loop and the number of lost disks.
pub fn plan(grid: Grid, map: &[u8], sheet: &[u8]) -> Outcome {
    let mut refusal = side_refusal(grid);
    if refusal == SUCCESS {
        refusal = map_refusal(grid, map, sheet);
    }
    if refusal != SUCCESS {
        return Outcome { answer: refusal, out: None, written: vec![sheet.to_vec()] };
    }
    let (answer, out, listed) = Loss::new(grid, map).planned();
    Outcome { answer, out, written: vec![listed] }
}

/// How the list that ends with a wanted disk is found, for the erased disks in rising order. None where no list does.
pub type Rule = fn(Grid, &[usize], usize) -> Option<Vec<Record>>;

/// The list that ends with a wanted disk and its number of repairs, or what plan says. Refusals 1, 4 and 5 are those of plan,
/// whose outcome for this map and sheet is given; 15 stands between them and 6.
pub fn plan_disk(planned: &Outcome, rule: Rule, grid: Grid, map: &[u8], sheet: &[u8], disk: usize) -> Outcome {
    if planned.answer != SUCCESS && planned.answer != FATAL {
        return planned.clone();
    }
    if disk >= grid.disks() || map[disk] == 0 {
        return Outcome { answer: NOT_ERASED, out: None, written: vec![sheet.to_vec()] };
    }
    match rule(grid, &erased_disks(map), disk) {
        Some(repairs) => {
            Outcome { answer: SUCCESS, out: Some(repairs.len()), written: vec![sheet::of_repairs(&repairs)] }
        }
        None => planned.clone(),
    }
}

/// The array with other blocks on the erased disks.
fn with_erased(block: usize, array: &[u8], map: &[u8], erased: &[u8]) -> Vec<u8> {
    let mut changed = array.to_vec();
    for (disk, bytes) in changed.chunks_exact_mut(block).enumerate().filter(|&(disk, _)| map[disk] == 1) {
        bytes.copy_from_slice(block_of(erased, block, disk));
    }
    changed
}

/// Sets the block of a disk to the sum of the other disks of a stripe.
pub fn repair(size: Size, array: &mut [u8], disk: usize, stripe: usize) {
    let mut others = stripe_disks(size.grid, stripe);
    others.retain(|&other| other != disk);
    let bytes = sum(array, size.block, &others);
    set_block(array, size.block, disk, &bytes);
}

/// A turn that leaves disks erased: these repairs are made, and nothing is checked.
fn unchecked_turn(size: Size, array: &[u8], map: &[u8], repairs: &[Record]) -> Outcome {
    let (mut restored, mut left) = (array.to_vec(), map.to_vec());
    for &(disk, stripe) in repairs {
        repair(size, &mut restored, disk, stripe);
        left[disk] = 0;
    }
    let written = vec![restored, left, sheet::of_repairs(repairs)];
    Outcome { answer: SUCCESS, out: Some(repairs.len()), written }
}

/// A turn after which no disk is erased: the sealed array to which the survivors belong, found without any repair. With 7
/// the erased blocks and the whole sheet are zero, and the map stays.
fn clearing_turn(size: Size, array: &[u8], map: &[u8], loss: &Loss) -> Outcome {
    match loss.equations.solve(sums_of_survivors(size, array, map)) {
        Some(erased) => {
            let (answer, out, listed) = loss.planned();
            let restored = with_erased(size.block, array, map, &erased);
            Outcome { answer, out, written: vec![restored, vec![0; map.len()], listed] }
        }
        None => {
            let zeroed = with_erased(size.block, array, map, &vec![0; array.len()]);
            Outcome { answer: CONTRADICTORY, out: None, written: vec![zeroed, map.to_vec(), vec![0; sheet::SHEET]] }
        }
    }
}

/// One turn: the first repairs of plan's order, at most so many.
pub fn rebuild(size: Size, array: &[u8], map: &[u8], sheet: &[u8], limit: usize) -> Outcome {
    let kept = |answer: usize, out: Option<usize>, sheet: Vec<u8>| Outcome {
        answer,
        out,
        written: vec![array.to_vec(), map.to_vec(), sheet],
    };
    let refusal = restore_refusal(size, array, map, sheet);
    if refusal != SUCCESS {
        return kept(refusal, None, sheet.to_vec());
    }
    if limit == 0 {
        return kept(NO_REPAIRS, None, sheet.to_vec());
    }
    let loss = Loss::new(size.grid, map);
    if loss.fatal {
        let (answer, out, listed) = loss.planned();
        return kept(answer, out, listed);
    }
    if limit < loss.repairs.len() {
        return unchecked_turn(size, array, map, &loss.repairs[..limit]);
    }
    clearing_turn(size, array, map, &loss)
}

/// Refusals 10 and 13, which come after those of the lengths. Each is judged over the whole chain.
pub fn chain_refusal(sheet: &[u8]) -> usize {
    let (_, after) = sheet::chain(sheet);
    if sheet[0] != sheet::REPAIRS || after > sheet::RECORDS {
        return OUT_OF_RANGE;
    }
    if after != 0 {
        return TWICE;
    }
    SUCCESS
}

/// Refusals 1 to 5, 10, 13 and 14 of follow.
fn follow_refusal(size: Size, array: &[u8], map: &[u8], sheet: &[u8]) -> usize {
    let mut refusal = restore_refusal(size, array, map, sheet);
    if refusal == SUCCESS {
        refusal = chain_refusal(sheet);
    }
    if refusal == SUCCESS && sheet::off_chain(sheet).iter().any(|&place| sheet[place] != 0) {
        refusal = LEFTOVERS;
    }
    refusal
}

/// The repairs of a list made one after another. With 7 the erased blocks are zero.
pub fn follow_list(size: Size, array: &[u8], map: &[u8], steps: &[Record]) -> Outcome {
    if !sheet::clears(size.grid, &erased_disks(map), steps) {
        return Outcome::writing(NOT_ALLOWED, array.to_vec());
    }
    let mut restored = array.to_vec();
    steps.iter().for_each(|&(disk, stripe)| repair(size, &mut restored, disk, stripe));
    if lowest_unsealed(size, &restored).is_some() {
        return Outcome::writing(CONTRADICTORY, with_erased(size.block, array, map, &vec![0; array.len()]));
    }
    Outcome { answer: SUCCESS, out: Some(steps.len()), written: vec![restored] }
}

/// What the list of a sheet says, if nothing is wrong with the sheet itself.
pub fn follow(size: Size, array: &[u8], map: &[u8], sheet: &[u8]) -> Outcome {
    match follow_refusal(size, array, map, sheet) {
        SUCCESS => follow_list(size, array, map, &sheet::list(sheet)),
        refusal => Outcome::writing(refusal, array.to_vec()),
    }
}

/// The list of a sheet as records 1, 2, 3, and zeros elsewhere.
pub fn tidy(sheet: &[u8]) -> Outcome {
    let refusal = if sheet.len() == sheet::SHEET { chain_refusal(sheet) } else { 5 };
    match refusal {
        SUCCESS => Outcome::writing(SUCCESS, sheet::of_repairs(&sheet::list(sheet))),
        refusal => Outcome::writing(refusal, sheet.to_vec()),
    }
}

/// Every marked card that is not lost gets its block, and lost blocks keep their bytes. With 7 all marked blocks are zero.
pub fn save(size: Size, array: &[u8], map: &[u8]) -> Outcome {
    let mut refusal = array_refusal(size, array);
    if refusal == SUCCESS && !map_fits(size.grid, map) {
        refusal = 4;
    }
    if refusal != SUCCESS {
        return Outcome::writing(refusal, array.to_vec());
    }
    let loss = Loss::new(size.grid, map);
    let Some(erased) = loss.equations.solve(sums_of_survivors(size, array, map)) else {
        return Outcome::writing(CONTRADICTORY, with_erased(size.block, array, map, &vec![0; array.len()]));
    };
    let mut saved = map.to_vec();
    loss.lost.iter().for_each(|&disk| saved[disk] = 0);
    let out = Some(erased_disks(&saved).len());
    Outcome { answer: SUCCESS, out, written: vec![with_erased(size.block, array, &saved, &erased)] }
}

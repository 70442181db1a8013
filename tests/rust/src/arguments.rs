//! Arguments that are good most of the time. Each is drawn for itself, so that a call often has two or three reasons
//! to refuse and the order of the refusals is seen.

use crate::inputs::{random_grid, BLOCK_MAX, SIDE_MAX, SIDE_MIN};
use crate::random::Random;
use crate::sheet::{RECORDS, SHEET};
use crate::size::{Grid, Size};
use crate::{losses, model, sheets};

/// Buffers in these tests are no longer than this.
const LONGEST: usize = 1 << 21;

/// One argument in so many is bad.
pub const BAD: usize = 6;

/// Numbers that become the good one, or nearly, where a call narrows them or lets a product overflow.
fn wrapping(random: &mut Random, good: usize) -> usize {
    let bit = random.pick(&[8, 12, 13, 16, 24, 31, 32, 48, 56, 60, 62, 63]);
    let any = random.next() as usize;
    let wild = [good.wrapping_add(1 << bit), good.wrapping_neg(), !good, usize::MAX, (1 << 32) - 1, any];
    random.pick(&wild)
}

/// The good number, or now and then one of the near misses or one that wraps.
pub fn number(random: &mut Random, good: usize, misses: &[usize]) -> usize {
    if !random.one_in(BAD) {
        return good;
    }
    if random.one_in(2) {
        return random.pick(misses);
    }
    wrapping(random, good)
}

/// Rows or columns: the good number, or now and then another.
pub fn side(random: &mut Random, good: usize) -> usize {
    number(random, good, &[0, 1, SIDE_MIN, SIDE_MAX, SIDE_MAX + 1, SIDE_MAX + 2, 255, 256])
}

/// A size of which each number is good, or now and then another.
pub fn any_size(random: &mut Random) -> Size {
    let grid = random_grid(random);
    let block = random.between(1, BLOCK_MAX);
    let block = number(random, block, &[0, 1, BLOCK_MAX, BLOCK_MAX + 1]);
    Size { grid: Grid::new(side(random, grid.rows), side(random, grid.columns)), block }
}

/// The number of a record, or now and then one that no record has.
pub fn any_record(random: &mut Random) -> usize {
    let record = random.between(1, RECORDS);
    number(random, record, &[0, 1, RECORDS, RECORDS + 1, 255, 256])
}

/// The length of a buffer whose right length is given: right, or now and then wrong, wrapping included.
pub fn length(random: &mut Random, right: usize) -> usize {
    if !random.one_in(BAD) {
        return right;
    }
    let below = right.saturating_sub(1);
    let any = random.below(2 * right + 2);
    let wrong = [0, below, right + 1, right + 256, right + (1 << 16), 2 * right, right / 2, any];
    random.pick(&wrong)
}

/// The size with which a call begins, and an array.
pub struct Array {
    /// The size for which the array is made, and all else that is lent with it.
    pub made_for: Size,
    /// The size that is passed. It may be something else.
    pub passed: Size,
    pub bytes: Vec<u8>,
}

/// Whether a map and an array of this size can be lent.
fn can_be_lent(size: Size) -> bool {
    let rows = size.grid.rows.checked_add(1);
    let columns = size.grid.columns.checked_add(1);
    let disks = rows.zip(columns).and_then(|(rows, columns)| rows.checked_mul(columns));
    let bytes = disks.and_then(|disks| disks.checked_mul(size.block.max(1)));
    bytes.is_some_and(|bytes| bytes <= LONGEST)
}

pub fn array(random: &mut Random) -> Array {
    let largest = random.pick(&[1, 2, 16, 17, 40, 130]);
    let good = Size { grid: random_grid(random), block: random.between(1, largest) };
    let grid = Grid::new(side(random, good.grid.rows), side(random, good.grid.columns));
    let block = number(random, good.block, &[0, BLOCK_MAX + 1, BLOCK_MAX + 2, 2 * BLOCK_MAX]);
    let passed = Size { grid, block };
    // A wrong number has to be refused for itself too, where the lengths of all buffers agree with it.
    let made_for = if can_be_lent(passed) && random.one_in(2) { passed } else { good };
    let bytes = length(random, made_for.bytes());
    Array { made_for, passed, bytes: random.bytes(bytes) }
}

/// Most of the arrays that fit are sealed, so that calls with a map meet each of their answers.
pub fn mostly_sealed(random: &mut Random) -> Array {
    let mut drawn = array(random);
    if !random.one_in(4) {
        drawn.bytes = model::seal(drawn.passed, &drawn.bytes).written.remove(0);
    }
    drawn
}

/// A disk's number: any disk of the grid, or now and then one outside it.
pub fn disk(random: &mut Random, grid: Grid) -> usize {
    let good = random.below(grid.disks());
    number(random, good, &[grid.disks(), grid.disks() + 1, 255, 256, 256 + good])
}

/// The number of a disk that is wanted: one that the map has as erased, or now and then any other.
pub fn wanted(random: &mut Random, grid: Grid, map: &[u8]) -> usize {
    let (any, erased) = (disk(random, grid), model::erased_disks(map));
    if erased.is_empty() {
        return any;
    }
    let good = random.pick(&erased);
    number(random, good, &[any, grid.disks(), 256 + good])
}

/// A loss of any kind; none on a grid that no call takes.
fn any_loss(random: &mut Random, grid: Grid) -> Vec<u8> {
    let good = |side: usize| (SIDE_MIN..=SIDE_MAX).contains(&side);
    let kind = if good(grid.rows) && good(grid.columns) { random.below(losses::KINDS) } else { losses::NONE };
    losses::map(random, grid, kind)
}

/// A map for a grid: a loss, or now and then one of a wrong length or with a byte above 1.
pub fn map(random: &mut Random, grid: Grid) -> Vec<u8> {
    let mut map = any_loss(random, grid);
    map.resize(length(random, grid.disks()), 0);
    if random.one_in(BAD) {
        spoil(random, &mut map, 0);
    }
    map
}

/// Spoils one byte of a map: its first, its last, that of the disk, or any.
pub fn spoil(random: &mut Random, map: &mut [u8], disk: usize) {
    if map.is_empty() {
        return;
    }
    let any = random.below(map.len());
    let at = random.pick(&[0, map.len() - 1, disk % map.len(), any]);
    let value = random.between(2, 255) as u8;
    map[at] = random.pick(&[2, 3, 128, 255, value]);
}

/// A sheet of random bytes, now and then of a wrong length.
pub fn sheet(random: &mut Random) -> Vec<u8> {
    let length = length(random, SHEET);
    random.bytes(length)
}

/// A limit of repairs: enough for all of them half of the time, and now and then none, or a number that is less or none
/// where it is shortened.
pub fn limit(random: &mut Random) -> usize {
    let some = random.between(1, RECORDS);
    let good = random.pick(&[some, usize::MAX]);
    number(random, good, &[0, 1 << 8, 1 << 16, 1 << 32, 1 << 63])
}

/// A list of repairs for the map, now and then with something wrong, with leftovers or of a wrong length.
pub fn repairs(random: &mut Random, grid: Grid, map: &[u8]) -> Vec<u8> {
    let steps = sheets::any_order(random, grid, map);
    let mut sheet = sheets::scattered(random, &steps);
    if random.one_in(BAD) {
        sheet = sheets::damaged(random, grid, &sheet);
    }
    if random.one_in(BAD) {
        sheets::litter(random, &mut sheet);
    }
    sheet.resize(length(random, SHEET), 0);
    sheet
}

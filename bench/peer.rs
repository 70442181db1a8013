//! The Rust peer: slices and iterators, as one writes them in Rust, compiled for release.

mod planner;

use planner::{plan, Planned};
use std::slice::{from_raw_parts, from_raw_parts_mut};

const FIRST_COLUMN: usize = 16;
const FATAL: u32 = 6;
const CONTRADICTORY: u32 = 7;
const NOT_SEALED: u32 = 64;
/// Check and rebuild sum this many bytes at a time.
const STRETCH: usize = 256;

fn xor_into(sum: &mut [u8], bytes: &[u8]) {
    for (sum, byte) in sum.iter_mut().zip(bytes) {
        *sum ^= byte;
    }
}

/// Sets `sum` to the sum of the blocks, each as long as `sum`.
fn sum_blocks(sum: &mut [u8], blocks: &[u8]) {
    sum.fill(0);
    for block in blocks.chunks_exact(sum.len()) {
        xor_into(sum, block);
    }
}

/// # Safety
/// The array is valid for its length, which is that of the size.
#[no_mangle]
pub unsafe extern "C" fn rust_seal(
    rows: usize,
    columns: usize,
    block: usize,
    array: *mut u8,
    array_len: usize,
) -> u32 {
    let array = from_raw_parts_mut(array, array_len);
    let row_len = (columns + 1) * block;
    let (data_rows, last_row) = array.split_at_mut(rows * row_len);
    for row in data_rows.chunks_exact_mut(row_len) {
        let (data, parity) = row.split_at_mut(columns * block);
        sum_blocks(parity, data);
    }
    sum_blocks(last_row, data_rows);
    0
}

/// Whether the sum of a stripe, whose blocks begin `step` bytes apart, is zero at every place.
fn is_zero(array: &[u8], first: usize, step: usize, count: usize, block: usize) -> bool {
    (0..block).step_by(STRETCH).all(|at| {
        let width = STRETCH.min(block - at);
        let mut space = [0; STRETCH];
        let sum = &mut space[..width];
        for k in 0..count {
            xor_into(sum, &array[first + k * step + at..][..width]);
        }
        sum.iter().fold(0, |any, byte| any | byte) == 0
    })
}

/// The lowest stripe whose sum is not zero.
fn lowest_stripe(array: &[u8], rows: usize, columns: usize, block: usize) -> Option<usize> {
    let (down, across) = (rows + 1, columns + 1);
    let row_len = across * block;
    let row = (0..down).find(|r| !is_zero(array, r * row_len, block, across, block));
    let column = || (0..across).find(|c| !is_zero(array, c * block, row_len, down, block)).map(|c| FIRST_COLUMN + c);
    row.or_else(column)
}

/// # Safety
/// The array is valid for its length, which is that of the size; the stripe is valid.
#[no_mangle]
pub unsafe extern "C" fn rust_check(
    rows: usize,
    columns: usize,
    block: usize,
    array: *const u8,
    array_len: usize,
    stripe: *mut usize,
) -> u32 {
    match lowest_stripe(from_raw_parts(array, array_len), rows, columns, block) {
        Some(lowest) => {
            *stripe = lowest;
            NOT_SEALED
        }
        None => 0,
    }
}

/// # Safety
/// The array and the data are valid for their lengths, which are those of the size; the disk is a data disk.
#[no_mangle]
pub unsafe extern "C" fn rust_write(
    rows: usize,
    columns: usize,
    block: usize,
    array: *mut u8,
    array_len: usize,
    disk: usize,
    data: *const u8,
    data_len: usize,
) -> u32 {
    let array = from_raw_parts_mut(array, array_len);
    let data = from_raw_parts(data, data_len);
    let across = columns + 1;
    let (row, column) = (disk / across, disk % across);
    let (before, superparity) = array.split_at_mut((rows * across + columns) * block);
    let (before, last_row) = before.split_at_mut(rows * across * block);
    let (before, from_parity) = before.split_at_mut((row * across + columns) * block);
    let old = &mut before[disk * block..][..block];
    let row_parity = &mut from_parity[..block];
    let column_parity = &mut last_row[column * block..][..block];
    let parities = row_parity.iter_mut().zip(column_parity).zip(superparity);
    for ((old, new), ((p, q), s)) in old.iter_mut().zip(data).zip(parities) {
        let difference = *old ^ new;
        *old = *new;
        *p ^= difference;
        *q ^= difference;
        *s ^= difference;
    }
    0
}

/// # Safety
/// The map and the sheet are valid for their lengths, which are that of the size and 98; the count is valid.
#[no_mangle]
pub unsafe extern "C" fn rust_plan(
    rows: usize,
    columns: usize,
    map: *const u8,
    map_len: usize,
    sheet: *mut u8,
    sheet_len: usize,
    count: *mut usize,
) -> u32 {
    let (map, sheet) = (from_raw_parts(map, map_len), from_raw_parts_mut(sheet, sheet_len));
    let (status, number) = match plan(rows + 1, columns + 1, map, sheet) {
        Planned::Repairs(made) => (0, made),
        Planned::Fatal(lost) => (FATAL, lost),
    };
    *count = number;
    status
}

/// The block of a disk becomes the sum of the others of its stripe.
fn repair(array: &mut [u8], rows: usize, columns: usize, block: usize, disk: usize, stripe: usize) {
    let (down, across) = (rows + 1, columns + 1);
    let (first, step, count, own) = match stripe.checked_sub(FIRST_COLUMN) {
        None => (stripe * across * block, block, across, disk % across),
        Some(column) => (column * block, across * block, down, disk / across),
    };
    for at in (0..block).step_by(STRETCH) {
        let width = STRETCH.min(block - at);
        let mut space = [0; STRETCH];
        let sum = &mut space[..width];
        for k in (0..count).filter(|&k| k != own) {
            xor_into(sum, &array[first + k * step + at..][..width]);
        }
        array[disk * block + at..][..width].copy_from_slice(sum);
    }
}

/// # Safety
/// The array, the map and the sheet are valid for their lengths, which are those of the size, and 98; the count is
/// valid.
#[no_mangle]
pub unsafe extern "C" fn rust_rebuild(
    rows: usize,
    columns: usize,
    block: usize,
    array: *mut u8,
    array_len: usize,
    map: *mut u8,
    map_len: usize,
    sheet: *mut u8,
    sheet_len: usize,
    limit: usize,
    count: *mut usize,
) -> u32 {
    let array = from_raw_parts_mut(array, array_len);
    let map = from_raw_parts_mut(map, map_len);
    let sheet = from_raw_parts_mut(sheet, sheet_len);
    let planned = match plan(rows + 1, columns + 1, map, sheet) {
        Planned::Repairs(planned) => planned,
        Planned::Fatal(lost) => {
            *count = lost;
            return FATAL;
        }
    };
    let made = planned.min(limit);
    for record in sheet[2..].chunks_exact(3).take(made) {
        repair(array, rows, columns, block, record[0].into(), record[1].into());
    }
    if made == planned && lowest_stripe(array, rows, columns, block).is_some() {
        let disks = array.chunks_exact_mut(block).zip(map);
        disks.filter(|(_, erased)| **erased != 0).for_each(|(disk, _)| disk.fill(0));
        sheet.fill(0);
        return CONTRADICTORY;
    }
    for record in sheet[2..].chunks_exact(3).take(made) {
        map[usize::from(record[0])] = 0;
    }
    if made < planned {
        sheet[3 * made + 1..].fill(0);
    }
    *count = made;
    0
}

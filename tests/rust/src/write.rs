//! Write: the new block is stored, and P, Q and S change by the same difference, on a sealed array or any other.

use crate::inputs::{random_array, sealed_array};
use crate::size::Size;
use crate::tally::{show, Tally};
use crate::{arguments, ffi, model, Run};

pub fn compare(tally: &mut Tally, size: Size, array: &[u8], disk: usize, data: &[u8]) {
    let input = || {
        let (array, data) = (show(array), show(data));
        format!("write, {size}, disk {disk}, data {data}, array {array}")
    };
    tally.compare(input, &model::write(size, array, disk, data), || ffi::write(size, array, disk, data));
}

/// Random data on every data disk, first and last included.
fn every_disk(run: &mut Run, size: Size, array: &[u8]) {
    let grid = size.grid;
    for disk in (0..grid.rows).flat_map(|r| (0..grid.columns).map(move |c| grid.disk_at(r, c))) {
        let data = run.random.bytes(size.block);
        compare(&mut run.tally, size, array, disk, &data);
    }
}

/// Data equal to what stands there, and data that differs in one bit.
fn small_differences(run: &mut Run, size: Size, array: &[u8]) {
    let (r, c) = (run.random.below(size.grid.rows), run.random.below(size.grid.columns));
    let disk = size.grid.disk_at(r, c);
    let mut data = array[disk * size.block..(disk + 1) * size.block].to_vec();
    compare(&mut run.tally, size, array, disk, &data);
    let place = run.random.below(size.block);
    data[place] ^= 1 << run.random.below(8);
    compare(&mut run.tally, size, array, disk, &data);
}

pub fn contents(run: &mut Run, size: Size) {
    for array in [sealed_array(&mut run.random, size), random_array(&mut run.random, size)] {
        every_disk(run, size, &array);
        small_differences(run, size, &array);
    }
}

pub fn refusals(run: &mut Run) {
    let drawn = arguments::array(&mut run.random);
    let disk = arguments::disk(&mut run.random, drawn.made_for.grid);
    let length = arguments::length(&mut run.random, drawn.made_for.block);
    let data = run.random.bytes(length);
    compare(&mut run.tally, drawn.passed, &drawn.bytes, disk, &data);
}

//! Look: the block of one present disk as that part of the array, or an empty part.

use crate::inputs::random_array;
use crate::size::Size;
use crate::tally::{show, Tally};
use crate::{arguments, model, whole, Run};

pub fn compare(tally: &mut Tally, size: Size, array: &[u8], map: &[u8], disk: usize) {
    let input = || {
        let (array, map) = (show(array), show(map));
        format!("look, {size}, disk {disk}, map {map}, array {array}")
    };
    tally.compare(input, &model::look(size, array, map, disk), || whole::look(size, array, map, disk));
}

/// A map of zeros and ones: none erased, all erased, or some.
fn map(run: &mut Run, disks: usize) -> Vec<u8> {
    match run.random.below(6) {
        0 => vec![0; disks],
        1 => vec![1; disks],
        _ => {
            let chances = run.random.between(2, 6);
            (0..disks).map(|_| run.random.one_in(chances) as u8).collect()
        }
    }
}

/// Every disk erased, present, and now and then present under a spoiled map; then the first numbers outside the grid.
pub fn contents(run: &mut Run, size: Size) {
    let array = random_array(&mut run.random, size);
    for disk in 0..size.disks() {
        let mut map = map(run, size.disks());
        for mark in [1, 0] {
            map[disk] = mark;
            compare(&mut run.tally, size, &array, &map, disk);
        }
        if run.random.one_in(8) {
            arguments::spoil(&mut run.random, &mut map, disk);
            compare(&mut run.tally, size, &array, &map, disk);
        }
    }
    for disk in [size.disks(), size.disks() + 1] {
        let map = map(run, size.disks());
        compare(&mut run.tally, size, &array, &map, disk);
    }
}

pub fn refusals(run: &mut Run) {
    let drawn = arguments::array(&mut run.random);
    let disk = arguments::disk(&mut run.random, drawn.made_for.grid);
    let length = arguments::length(&mut run.random, drawn.made_for.disks());
    let mut map = map(run, length);
    if run.random.one_in(5) {
        arguments::spoil(&mut run.random, &mut map, disk);
    }
    compare(&mut run.tally, drawn.passed, &drawn.bytes, &map, disk);
}

//! Seal: parities are filled whatever they held, and data keeps its bytes.

use crate::inputs::{random_array, sealed_array};
use crate::size::Size;
use crate::tally::{show, Tally};
use crate::{arguments, ffi, model, Run};

pub fn compare(tally: &mut Tally, size: Size, array: &[u8]) {
    let input = || format!("seal, {size}, array {}", show(array));
    tally.compare(input, &model::seal(size, array), || ffi::seal(size, array));
}

/// A sealed array with every parity byte inverted: none of them may stay.
fn inverted_parities(array: &[u8], size: Size) -> Vec<u8> {
    let (rows, columns) = (size.grid.rows, size.grid.columns);
    let is_parity = |disk: usize| disk / (columns + 1) == rows || disk % (columns + 1) == columns;
    array.iter().enumerate().map(|(at, &byte)| if is_parity(at / size.block) { !byte } else { byte }).collect()
}

pub fn contents(run: &mut Run, size: Size) {
    let sealed = sealed_array(&mut run.random, size);
    let inverted = inverted_parities(&sealed, size);
    let random = random_array(&mut run.random, size);
    for array in [sealed, inverted, random, vec![0; size.bytes()], vec![255; size.bytes()]] {
        compare(&mut run.tally, size, &array);
    }
}

pub fn refusals(run: &mut Run) {
    let drawn = arguments::array(&mut run.random);
    compare(&mut run.tally, drawn.passed, &drawn.bytes);
}

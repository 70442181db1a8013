//! Sheets in bulk: each byte of a sheet set to each value, for follow and tidy, and each first step of each loss of a small
//! grid, for follow.

use crate::equations::STRIPES;
use crate::inputs::sealed_array;
use crate::losses::{self, map_of_bits};
use crate::sheet::{of_repairs, plans_order, SHEET};
use crate::size::{Grid, Size};
use crate::{cores, follow, model, sheets, tidy, Run};

/// Where each byte of a sheet is set to each value.
const SIZES: [Size; 5] =
    [Size::new(2, 2, 1), Size::new(3, 3, 2), Size::new(2, 15, 1), Size::new(15, 2, 1), Size::new(15, 15, 1)];
/// Maps of a small grid that make a part.
const MAPS: usize = 64;
/// One sheet in so many is followed with leftovers too.
const LITTERED: usize = 4;

/// Every byte of a sheet, on the chain or off it, set to every value.
fn every_byte(run: &mut Run, size: Size, sheet: &[u8], array: &[u8], map: &[u8]) {
    for place in 0..SHEET {
        let mut changed = sheet.to_vec();
        for value in 0..=255 {
            changed[place] = value;
            follow::compare(&mut run.tally, size, array, map, &changed);
            tidy::compare(&mut run.tally, &changed);
        }
    }
}

/// On plan's own sheet and on one with its records anywhere, without leftovers and with them, for a loss of many disks that
/// can be restored.
fn every_byte_at(run: &mut Run, size: Size) {
    let map = losses::map(&mut run.random, size.grid, 2);
    let mut array = sealed_array(&mut run.random, size);
    losses::forget(&mut run.random, size, &mut array, &map);
    let (planned, _) = plans_order(size.grid, &model::erased_disks(&map));
    let steps = sheets::any_order(&mut run.random, size.grid, &map);
    let scattered = sheets::scattered(&mut run.random, &steps);
    let mut littered = scattered.clone();
    sheets::litter(&mut run.random, &mut littered);
    for sheet in [of_repairs(&planned), scattered, littered] {
        every_byte(run, size, &sheet, &array, &map);
    }
}

/// The numbers below a bound, that bound, and the largest that a byte can hold.
fn numbers(bound: usize) -> impl Iterator<Item = usize> {
    (0..=bound).chain([255])
}

/// Any disk by any stripe, and then what is left of the loss in an allowed order: it depends on the first step alone
/// whether the sheet can be followed.
fn every_first_step(run: &mut Run, size: Size, array: &[u8], map: &[u8]) {
    for disk in numbers(size.disks()) {
        let mut left = map.to_vec();
        left.iter_mut().skip(disk).take(1).for_each(|mark| *mark = 0);
        for stripe in numbers(STRIPES) {
            let mut steps = vec![(disk, stripe)];
            steps.extend(sheets::any_order(&mut run.random, size.grid, &left));
            let mut sheet = sheets::scattered(&mut run.random, &steps);
            follow::compare(&mut run.tally, size, array, map, &sheet);
            if run.random.one_in(LITTERED) {
                sheets::litter(&mut run.random, &mut sheet);
                follow::compare(&mut run.tally, size, array, map, &sheet);
            }
        }
    }
}

/// Every first step for one map in so many of a grid.
fn first_steps(run: &mut Run, grid: Grid, chances: usize) {
    let size = Size { grid, block: 1 };
    let name = format!("each first step, {grid}");
    cores::share(run, &name, (1 << grid.disks()) / MAPS, |run, part| {
        let sealed = sealed_array(&mut run.random, size);
        for set in part * MAPS..(part + 1) * MAPS {
            if run.random.one_in(chances) {
                let (map, mut array) = (map_of_bits(grid, set), sealed.clone());
                losses::forget(&mut run.random, size, &mut array, &map);
                every_first_step(run, size, &array, &map);
            }
        }
    });
    run.tally.report(&name, &[0, 11, 14]);
}

pub fn run(run: &mut Run) {
    cores::share(run, "each byte of a sheet", SIZES.len(), |run, part| every_byte_at(run, SIZES[part]));
    run.tally.report("each byte of a sheet", &[0, 10, 11, 13, 14]);
    first_steps(run, Grid::new(2, 2), 1);
    first_steps(run, Grid::new(2, 3), 8);
    first_steps(run, Grid::new(3, 2), 8);
}

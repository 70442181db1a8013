//! Check: sealed, or the lowest stripe whose sum is not zero; it writes nowhere.

use crate::inputs::{place, random_array, sealed_array};
use crate::size::Size;
use crate::tally::{show, Tally};
use crate::{arguments, ffi, model, Run};

pub fn compare(tally: &mut Tally, size: Size, array: &[u8]) {
    let input = || format!("check, {size}, array {}", show(array));
    tally.compare(input, &model::check(size, array), || ffi::check(size, array));
}

/// One difference at one place of one disk's block.
struct Damage {
    disk: usize,
    place: usize,
    difference: u8,
}

/// A sealed array that is damaged, compared, and mended again by the same changes.
struct Damaged {
    size: Size,
    array: Vec<u8>,
}

impl Damaged {
    fn compare(&mut self, run: &mut Run, damages: &[Damage]) {
        self.change(damages);
        compare(&mut run.tally, self.size, &self.array);
        self.change(damages);
    }

    fn change(&mut self, damages: &[Damage]) {
        for damage in damages {
            self.array[damage.disk * self.size.block + damage.place] ^= damage.difference;
        }
    }

    /// The same difference at the same place of several disks, each given by its row and its column.
    fn equally(&mut self, run: &mut Run, places: &[(usize, usize)]) {
        let place = place(&mut run.random, self.size.block);
        let difference = run.random.between(1, 255) as u8;
        let disk_at = |&(r, c): &(usize, usize)| self.size.grid.disk_at(r, c);
        let damages: Vec<Damage> = places.iter().map(disk_at).map(|disk| Damage { disk, place, difference }).collect();
        self.compare(run, &damages);
    }
}

/// One damage on each disk names every row.
fn single_damages(run: &mut Run, damaged: &mut Damaged) {
    let grid = damaged.size.grid;
    for place in (0..=grid.rows).flat_map(|r| (0..=grid.columns).map(move |c| (r, c))) {
        damaged.equally(run, &[place]);
    }
}

/// Two equal damages in one row show only in columns: each column is the lower one once.
fn damages_in_a_row(run: &mut Run, damaged: &mut Damaged) {
    let grid = damaged.size.grid;
    for left in 0..grid.columns {
        let (r, right) = (run.random.between(0, grid.rows), run.random.between(left + 1, grid.columns));
        damaged.equally(run, &[(r, left), (r, right)]);
    }
}

/// Two equal damages in one column show only in rows: each row is the lower one once.
fn damages_in_a_column(run: &mut Run, damaged: &mut Damaged) {
    let grid = damaged.size.grid;
    for top in 0..grid.rows {
        let (c, bottom) = (run.random.between(0, grid.columns), run.random.between(top + 1, grid.rows));
        damaged.equally(run, &[(top, c), (bottom, c)]);
    }
}

/// Four equal damages in a rectangle do not show at all.
fn damages_in_a_rectangle(run: &mut Run, damaged: &mut Damaged) {
    let grid = damaged.size.grid;
    for top in 0..grid.rows {
        let bottom = run.random.between(top + 1, grid.rows);
        let (left, right) = (run.random.between(0, grid.columns), run.random.between(0, grid.columns));
        damaged.equally(run, &[(top, left), (top, right), (bottom, left), (bottom, right)]);
    }
}

/// Two equal damages on one disk: no place makes up for another, and only the same place twice is no damage.
fn damages_in_one_block(run: &mut Run, damaged: &mut Damaged) {
    let places = [place(&mut run.random, damaged.size.block), place(&mut run.random, damaged.size.block)];
    let disk = run.random.below(damaged.size.disks());
    let difference = 1 << run.random.below(8);
    damaged.compare(run, &places.map(|place| Damage { disk, place, difference }));
}

pub fn contents(run: &mut Run, size: Size) {
    let array = sealed_array(&mut run.random, size);
    compare(&mut run.tally, size, &array);
    let mut damaged = Damaged { size, array };
    single_damages(run, &mut damaged);
    damages_in_a_row(run, &mut damaged);
    damages_in_a_column(run, &mut damaged);
    damages_in_a_rectangle(run, &mut damaged);
    damages_in_one_block(run, &mut damaged);
    let array = random_array(&mut run.random, size);
    compare(&mut run.tally, size, &array);
}

/// Arguments good and bad. Half of the arrays that fit are sealed first, so that each answer is met.
pub fn refusals(run: &mut Run) {
    let mut drawn = arguments::array(&mut run.random);
    if run.random.one_in(2) {
        drawn.bytes = model::seal(drawn.passed, &drawn.bytes).written.remove(0);
    }
    compare(&mut run.tally, drawn.passed, &drawn.bytes);
}

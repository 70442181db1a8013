//! The smallest loop by the papers' words alone: every loop of erased disks is listed, and of all of them the shortest is
//! taken; of equal ones, that whose disk numbers in ascending order come first. It is for losses that have few loops. The
//! other way lists the loops of four disks, then those of up to six, and so on until there are any: it is for losses whose
//! loops are short.

use crate::equations::stripes_through;
use crate::sheet::{in_turn, Record, RECORDS};
use crate::size::Grid;

/// The fewest disks of a loop.
const FEWEST: usize = 4;

/// A list of disks that may become a loop: the first is the lowest, the first and the second share a row, the second and
/// the third a column, and so on in turn.
struct Begun<'a> {
    grid: Grid,
    erased: &'a [usize],
    most: usize,
    disks: Vec<usize>,
}

impl Begun<'_> {
    fn touches(&self, stripe: usize) -> bool {
        self.disks.iter().any(|&disk| stripes_through(self.grid, disk).contains(&stripe))
    }

    /// Every loop that begins with this list. Each stripe touched has to hold exactly two of its disks: the one that leads on
    /// from the last disk has only that one so far, or it is the column of the first, and then the loop is closed.
    fn each(&mut self, each: &mut impl FnMut(&[usize])) {
        let (first, last) = (self.disks[0], self.disks[self.disks.len() - 1]);
        let closing = stripes_through(self.grid, first)[1];
        // 0 where a row leads on, 1 where a column does.
        let turn = (self.disks.len() + 1) % 2;
        let shared = stripes_through(self.grid, last)[turn];
        if shared == closing {
            return each(&self.disks);
        }
        if self.disks.len() == self.most {
            return;
        }
        for &next in self.erased.iter().filter(|&&disk| disk > first && disk != last) {
            let stripes = stripes_through(self.grid, next);
            let other = stripes[1 - turn];
            if stripes[turn] == shared && (other == closing || !self.touches(other)) {
                self.disks.push(next);
                self.each(each);
                self.disks.pop();
            }
        }
    }
}

/// Every loop of at most so many of the erased disks, once each: it begins with its lowest disk.
pub fn each(grid: Grid, erased: &[usize], most: usize, each: &mut impl FnMut(&[usize])) {
    for &first in erased {
        Begun { grid, erased, most, disks: vec![first] }.each(each);
    }
}

/// The numbers in ascending order.
pub fn ascending(disks: &[usize]) -> Vec<usize> {
    let mut numbers = disks.to_vec();
    numbers.sort_unstable();
    numbers
}

/// The smallest of all loops of at most so many disks.
fn of_at_most(grid: Grid, erased: &[usize], most: usize) -> Option<Vec<Record>> {
    let mut loops: Vec<Vec<usize>> = Vec::new();
    each(grid, erased, most, &mut |disks| loops.push(disks.to_vec()));
    let smallest = loops.into_iter().min_by_key(|disks| (disks.len(), ascending(disks)))?;
    Some(in_turn(grid, &smallest))
}

/// The smallest of all loops. None where there is none.
pub fn smallest(grid: Grid, erased: &[usize]) -> Option<Vec<Record>> {
    of_at_most(grid, erased, RECORDS)
}

/// The same, found among the loops of as few disks as can be.
pub fn by_length(grid: Grid, erased: &[usize]) -> Option<Vec<Record>> {
    (FEWEST..=RECORDS).step_by(2).find_map(|most| of_at_most(grid, erased, most))
}

//! The smallest loop of any loss, without a list of loops: by the least way between each two stripes, a disk being the way
//! between its row and its column. Ways may lead through no stripe at first, then through the first stripe too, then through
//! the second, and so on. Each loop is met at the last of its stripes: it is a way between two stripes before that one, with
//! the two disks that they share with it. That this is what the papers say is compared on all small losses.

use crate::equations::{stripes_through, STRIPES};
use crate::sheet::{in_turn, Record};
use crate::size::Grid;
use std::cmp::Reverse;

/// Some disks, and which ones: disk 0 is the highest bit of the first number. A way is less than another if it has fewer
/// disks, or as many and the lowest in which the two differ. So the numbers of the lesser in ascending order come first.
#[derive(Clone, Copy, PartialEq, Eq, PartialOrd, Ord)]
struct Way {
    count: usize,
    disks: Reverse<[u64; 4]>,
}

/// Stands for no way, and for no loop.
const NONE: Way = Way { count: usize::MAX / 4, disks: Reverse([0; 4]) };

impl Way {
    fn of(disk: usize) -> Way {
        let mut disks = [0; 4];
        disks[disk / 64] = 1 << (63 - disk % 64);
        Way { count: 1, disks: Reverse(disks) }
    }

    /// One way after another. If they share a disk, this is no least way: there is one of fewer disks.
    fn and(self, other: Way) -> Way {
        let mut disks = self.disks.0;
        disks.iter_mut().zip(other.disks.0).for_each(|(own, more)| *own |= more);
        Way { count: self.count + other.count, disks: Reverse(disks) }
    }

    fn has(self, disk: usize) -> bool {
        self.disks.0[disk / 64] >> (63 - disk % 64) & 1 == 1
    }
}

/// The least way between each two of some stripes, and the smallest loop so far.
struct Ways {
    least: Vec<Vec<Way>>,
    smallest: Way,
}

impl Ways {
    /// The disks alone. A stripe with one of them is on no loop. Rows and columns come in turn, so that loops are met early.
    fn new(grid: Grid, erased: &[usize]) -> Ways {
        let mut on = [0; STRIPES];
        erased.iter().flat_map(|&disk| stripes_through(grid, disk)).for_each(|stripe| on[stripe] += 1);
        let mut stripes: Vec<usize> = (0..STRIPES).filter(|&stripe| on[stripe] > 1).collect();
        stripes.sort_by_key(|stripe| stripe % 16);
        let mut least = vec![vec![NONE; stripes.len()]; stripes.len()];
        let mut at = [None; STRIPES];
        stripes.iter().enumerate().for_each(|(place, &stripe)| at[stripe] = Some(place));
        for &disk in erased {
            if let [Some(row), Some(column)] = stripes_through(grid, disk).map(|stripe| at[stripe]) {
                (least[row][column], least[column][row]) = (Way::of(disk), Way::of(disk));
            }
        }
        Ways { least, smallest: NONE }
    }

    /// Meets the loops whose last stripe is this one.
    fn close(&mut self, last: usize) {
        let beside: Vec<usize> = (0..last).filter(|&stripe| self.least[last][stripe].count == 1).collect();
        for (i, &one) in beside.iter().enumerate() {
            for &other in &beside[..i] {
                let way = self.least[one][other];
                if way.count + 2 <= self.smallest.count {
                    let disks = self.least[one][last].and(self.least[last][other]);
                    self.smallest = self.smallest.min(disks.and(way));
                }
            }
        }
    }

    /// Lets ways lead through this stripe. One with too many disks for a loop as short as the shortest so far is left out:
    /// two more disks would close it.
    fn open(&mut self, through: usize) {
        let most = self.smallest.count - 2;
        let reached = |count: usize| count < most;
        let ends: Vec<usize> =
            (0..self.least.len()).filter(|&end| end != through && reached(self.least[end][through].count)).collect();
        for (i, &one) in ends.iter().enumerate() {
            for &other in &ends[..i] {
                let count = self.least[one][through].count + self.least[through][other].count;
                if count <= most.min(self.least[one][other].count) {
                    let way = self.least[one][through].and(self.least[through][other]).min(self.least[one][other]);
                    (self.least[one][other], self.least[other][one]) = (way, way);
                }
            }
        }
    }
}

/// The disks of a loop in its order: from the lowest along its row, then along the column of the next, and so on in turn.
fn around(grid: Grid, disks: &[usize]) -> Vec<usize> {
    let mut order = vec![disks[0]];
    while order.len() < disks.len() {
        let last = order[order.len() - 1];
        let shared = stripes_through(grid, last)[(order.len() - 1) % 2];
        let next = |&&disk: &&usize| disk != last && stripes_through(grid, disk).contains(&shared);
        order.push(*disks.iter().find(next).expect("each stripe of a loop holds two of its disks"));
    }
    order
}

/// The smallest loop of the erased disks. None where there is none.
pub fn smallest(grid: Grid, erased: &[usize]) -> Option<Vec<Record>> {
    let mut ways = Ways::new(grid, erased);
    for stripe in 0..ways.least.len() {
        ways.close(stripe);
        ways.open(stripe);
    }
    if ways.smallest.count >= NONE.count {
        return None;
    }
    let disks: Vec<usize> = erased.iter().copied().filter(|&disk| ways.smallest.has(disk)).collect();
    Some(in_turn(grid, &around(grid, &disks)))
}

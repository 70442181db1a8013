//! The stripe equations, solved by elimination over one bit. The unknowns are the erased disks; each equation says that
//! the sum over a stripe is zero. Nothing here repairs disk by disk: whether a loss is fatal and what the erased blocks
//! were is decided without plan's order.

use crate::size::{Grid, Size};

/// Stripe numbers lie below this.
pub const STRIPES: usize = 32;

/// A set of disks, by their bits.
type Disks = [u64; 4];

/// Some of the unknowns, added up: the stripes on which they do not cancel, of which one is the pivot.
struct Kept {
    disks: Disks,
    stripes: u32,
    pivot: usize,
}

/// The unknowns that are independent so far, each reduced by those before it. So no pivot occurs in a later one.
pub struct Equations {
    grid: Grid,
    kept: Vec<Kept>,
    /// The unknowns that occur in a sum that cancels on every stripe. The sums found span all such sums, so these are all
    /// unknowns that can be changed, together with others, without a change of any stripe's sum.
    free: Disks,
}

impl Equations {
    pub fn new(grid: Grid) -> Equations {
        Equations { grid, kept: Vec::new(), free: [0; 4] }
    }

    /// Adds the block of a disk as an unknown. It is left out, and the answer is no, if its column of the equations
    /// is a sum of those before it.
    pub fn add(&mut self, disk: usize) -> bool {
        let mut disks = [0; 4];
        disks[disk / 64] = 1 << (disk % 64);
        let [row, column] = stripes_through(self.grid, disk);
        let mut stripes = 1 << row | 1 << column;
        for kept in &self.kept {
            if stripes >> kept.pivot & 1 == 1 {
                stripes ^= kept.stripes;
                (0..4).for_each(|i| disks[i] ^= kept.disks[i]);
            }
        }
        if stripes != 0 {
            self.kept.push(Kept { disks, stripes, pivot: stripes.trailing_zeros() as usize });
        } else {
            (0..4).for_each(|i| self.free[i] |= disks[i]);
        }
        stripes != 0
    }

    /// Whether the equations leave the block of an unknown open: two solutions differ in it.
    pub fn leave_open(&self, disk: usize) -> bool {
        has(&self.free, disk)
    }

    /// The blocks of the unknowns that make every stripe's sum zero, for these sums of the other disks: an array with
    /// them, and zeros on all other disks. None where no blocks do.
    pub fn solve(&self, mut sums: Vec<Vec<u8>>) -> Option<Vec<u8>> {
        let block = sums[0].len();
        let mut solution = vec![0; self.grid.disks() * block];
        for kept in &self.kept {
            let value = sums[kept.pivot].clone();
            for (stripe, sum) in sums.iter_mut().enumerate() {
                if kept.stripes >> stripe & 1 == 1 {
                    add(sum, &value);
                }
            }
            for (disk, bytes) in solution.chunks_exact_mut(block).enumerate() {
                if has(&kept.disks, disk) {
                    add(bytes, &value);
                }
            }
        }
        sums.iter().flatten().all(|&byte| byte == 0).then_some(solution)
    }
}

fn has(disks: &Disks, disk: usize) -> bool {
    disks[disk / 64] >> (disk % 64) & 1 == 1
}

/// Sets of stripes, one bit for each stripe, on which no erased disk counts: it lies on none or on two stripes of a set. So
/// the survivors that lie on just one add up to zero in a sealed array. All such sets are sums of these.
pub fn checks(grid: Grid, erased: &[usize]) -> Vec<u32> {
    let mut kept: Vec<(Disks, usize, u32)> = Vec::new();
    let mut checks = Vec::new();
    for stripe in (0..=grid.rows).chain(16..=16 + grid.columns) {
        let (mut disks, mut set) = ([0; 4], 1 << stripe);
        for &disk in erased.iter().filter(|&&disk| stripes_through(grid, disk).contains(&stripe)) {
            disks[disk / 64] |= 1 << (disk % 64);
        }
        for (others, pivot, stripes) in &kept {
            if has(&disks, *pivot) {
                set ^= stripes;
                (0..4).for_each(|i| disks[i] ^= others[i]);
            }
        }
        match (0..grid.disks()).find(|&disk| has(&disks, disk)) {
            Some(pivot) => kept.push((disks, pivot, set)),
            None => checks.push(set),
        }
    }
    checks
}

/// Whether a disk lies on just one stripe of a set.
pub fn crosses(grid: Grid, set: u32, disk: usize) -> bool {
    stripes_through(grid, disk).iter().filter(|&&stripe| set >> stripe & 1 == 1).count() == 1
}

/// The two stripes through a disk: row r is stripe r, column c is stripe 16 + c.
pub fn stripes_through(grid: Grid, disk: usize) -> [usize; 2] {
    [disk / (grid.columns + 1), 16 + disk % (grid.columns + 1)]
}

/// The sum of each stripe over the disks that are not erased.
pub fn sums_of_survivors(size: Size, array: &[u8], map: &[u8]) -> Vec<Vec<u8>> {
    let mut sums = vec![vec![0; size.block]; STRIPES];
    for (disk, bytes) in array.chunks_exact(size.block).enumerate() {
        if map[disk] == 0 {
            stripes_through(size.grid, disk).iter().for_each(|&stripe| add(&mut sums[stripe], bytes));
        }
    }
    sums
}

pub fn add(to: &mut [u8], bytes: &[u8]) {
    to.iter_mut().zip(bytes).for_each(|(x, y)| *x ^= y);
}

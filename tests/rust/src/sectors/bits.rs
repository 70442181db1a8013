//! The equations of the whole array with one bit to a sector, solved by elimination over one bit. No position is taken out of
//! it: an unknown is an erased sector, and an equation says that a stripe sums to zero at a place of the block.

use crate::size::Grid;

/// Sectors by their places in the map, or equations, one bit for each.
pub type Bits = u128;
/// The most sectors of an array here.
pub const MOST: usize = 128;

pub fn has(bits: Bits, at: usize) -> bool {
    bits >> at & 1 == 1
}

/// The places of the sectors of a map that are erased, and of an array that hold a 1.
pub fn bits_of(bytes: &[u8]) -> Bits {
    bytes.iter().rev().fold(0, |bits, &byte| bits << 1 | Bits::from(byte & 1))
}

pub fn bytes_of(bits: Bits, length: usize) -> Vec<u8> {
    (0..length).map(|at| u8::from(has(bits, at))).collect()
}

/// The equations in which a sector occurs: those of its row and of its column, at its own place of the block.
fn equations_with(grid: Grid, sectors: usize, at: usize) -> Bits {
    let (disk, place) = (at / sectors, at % sectors);
    let (row, column) = (disk / (grid.columns + 1), disk % (grid.columns + 1));
    1 << (row * sectors + place) | 1 << ((grid.rows + 1 + column) * sectors + place)
}

/// The equations that do not hold where these sectors have a 1.
pub fn unsealed(grid: Grid, sectors: usize, ones: Bits) -> Bits {
    let places = (0..grid.disks() * sectors).filter(|&at| has(ones, at));
    places.fold(0, |sums, at| sums ^ equations_with(grid, sectors, at))
}

/// The erased sectors, reduced by one another.
pub struct Unknowns {
    grid: Grid,
    sectors: usize,
    /// Sums of some erased sectors, given by the equations on which they do not cancel, and by the sectors. The lowest of
    /// these equations occurs in no later sum.
    kept: Vec<(Bits, Bits)>,
    /// The erased sectors that occur in a sum which cancels everywhere. Such a sum is the difference of two sealed arrays
    /// that agree on every other sector, and those found span all.
    pub open: Bits,
}

impl Unknowns {
    pub fn new(grid: Grid, sectors: usize, erased: Bits) -> Unknowns {
        let mut unknowns = Unknowns { grid, sectors, kept: Vec::new(), open: 0 };
        for at in (0..grid.disks() * sectors).filter(|&at| has(erased, at)) {
            match unknowns.reduced(equations_with(grid, sectors, at), 1 << at) {
                (0, sum) => unknowns.open |= sum,
                sum => unknowns.kept.push(sum),
            }
        }
        unknowns
    }

    /// Equations and sectors with the sums that were kept added where their lowest equation occurs.
    fn reduced(&self, mut equations: Bits, mut sum: Bits) -> (Bits, Bits) {
        for (others, with) in &self.kept {
            if has(equations, others.trailing_zeros() as usize) {
                equations ^= others;
                sum ^= with;
            }
        }
        (equations, sum)
    }

    /// The ones among the erased sectors that make an array with these survivors sealed. None where nothing does.
    pub fn solve(&self, survivors: Bits) -> Option<Bits> {
        match self.reduced(unsealed(self.grid, self.sectors, survivors), 0) {
            (0, erased) => Some(erased),
            _ => None,
        }
    }
}

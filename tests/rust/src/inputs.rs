//! The sizes and array contents on which the calls are compared.

use crate::model;
use crate::random::Random;
use crate::size::{Grid, Size};

/// The range of rows and that of columns, and how many numbers that is.
pub const SIDE_MIN: usize = 2;
pub const SIDE_MAX: usize = 15;
const SIDES: usize = SIDE_MAX - SIDE_MIN + 1;
/// The largest block.
pub const BLOCK_MAX: usize = 4096;

pub const LARGEST: Grid = Grid::new(SIDE_MAX, SIDE_MAX);
/// The grids in which each number is as small or as large as can be.
const EXTREMES: [Grid; 4] =
    [Grid::new(SIDE_MIN, SIDE_MIN), Grid::new(SIDE_MIN, SIDE_MAX), Grid::new(SIDE_MAX, SIDE_MIN), LARGEST];

/// Block lengths around the widths at which a fast loop may change its step.
const BLOCKS: [usize; 21] =
    [1, 2, 15, 16, 17, 31, 32, 33, 127, 128, 129, 143, 144, 145, 255, 256, 257, 511, 512, 4095, 4096];

/// Every grid in which neither number is above a bound.
pub fn grids_up_to(bound: usize) -> impl Iterator<Item = Grid> {
    (SIDE_MIN..=bound).flat_map(move |rows| (SIDE_MIN..=bound).map(move |columns| Grid::new(rows, columns)))
}

/// Every number of rows once and every number of columns once. Another shift puts them together in another way, and as
/// many shifts in turn as there are numbers give every grid.
fn paired(shift: usize) -> impl Iterator<Item = Grid> {
    (0..SIDES).map(move |side| Grid::new(SIDE_MIN + side, SIDE_MIN + (side + shift) % SIDES))
}

/// Every boundary block with every number of rows and every number of columns, and with the extremes of both. Each
/// block has its own shift, so that every grid occurs. Small blocks come first so that the first failure printed is
/// short.
fn boundary_sizes(random: &mut Random) -> Vec<Size> {
    let first = random.below(SIDES);
    let grids = |turn: usize| paired(first + turn).chain(EXTREMES);
    let sizes = |(turn, &block)| grids(turn).map(move |grid| Size { grid, block });
    BLOCKS.iter().enumerate().flat_map(sizes).collect()
}

/// Any grid: the two numbers are drawn each for itself.
pub fn random_grid(random: &mut Random) -> Grid {
    Grid::new(random.between(SIDE_MIN, SIDE_MAX), random.between(SIDE_MIN, SIDE_MAX))
}

/// Any size, small blocks as often as large ones.
fn random_size(random: &mut Random) -> Size {
    let most = random.pick(&[8, 64, 300, BLOCK_MAX]);
    Size { grid: random_grid(random), block: random.between(1, most) }
}

/// The boundary sizes and then as many random ones.
pub fn sizes(random: &mut Random) -> Vec<Size> {
    let mut sizes = boundary_sizes(random);
    sizes.extend((0..sizes.len()).map(|_| random_size(random)).collect::<Vec<Size>>());
    sizes
}

pub fn random_array(random: &mut Random, size: Size) -> Vec<u8> {
    random.bytes(size.bytes())
}

/// A sealed array with random data, sealed by the model.
pub fn sealed_array(random: &mut Random, size: Size) -> Vec<u8> {
    let data = random_array(random, size);
    model::seal(size, &data).written.remove(0)
}

/// A byte place in the block: its first, its last, or any.
pub fn place(random: &mut Random, block: usize) -> usize {
    let any = random.below(block);
    random.pick(&[0, block - 1, any])
}

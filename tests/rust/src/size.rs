//! The size of an array: its grid and its block, and the length of the sectors that blocks are cut into. Each may be one
//! that the calls refuse.

use std::fmt;

/// Data rows and data columns (paper 02: a and b). The grid has one more row and one more column, of parities.
#[derive(Clone, Copy)]
pub struct Grid {
    pub rows: usize,
    pub columns: usize,
}

impl Grid {
    pub const fn new(rows: usize, columns: usize) -> Grid {
        Grid { rows, columns }
    }

    /// How many disks the grid has.
    pub fn disks(self) -> usize {
        (self.rows + 1) * (self.columns + 1)
    }

    /// The number of the disk in row r and column c.
    pub fn disk_at(self, r: usize, c: usize) -> usize {
        r * (self.columns + 1) + c
    }

    /// No loss of more disks can be restored.
    pub fn most_repairs(self) -> usize {
        self.rows + self.columns + 1
    }
}

impl fmt::Display for Grid {
    fn fmt(&self, to: &mut fmt::Formatter) -> fmt::Result {
        write!(to, "rows {}, columns {}", self.rows, self.columns)
    }
}

#[derive(Clone, Copy)]
pub struct Size {
    pub grid: Grid,
    /// Bytes in a block.
    pub block: usize,
}

impl Size {
    pub const fn new(rows: usize, columns: usize, block: usize) -> Size {
        Size { grid: Grid::new(rows, columns), block }
    }

    pub fn disks(self) -> usize {
        self.grid.disks()
    }

    /// The right length of the array.
    pub fn bytes(self) -> usize {
        self.disks() * self.block
    }
}

impl fmt::Display for Size {
    fn fmt(&self, to: &mut fmt::Formatter) -> fmt::Result {
        write!(to, "{}, block {}", self.grid, self.block)
    }
}

/// A size and the sectors that its blocks are cut into. Sector k of each block is at position k.
#[derive(Clone, Copy)]
pub struct Cut {
    pub size: Size,
    /// Bytes in a sector.
    pub sector: usize,
}

impl Cut {
    pub const fn new(grid: Grid, sectors: usize, sector: usize) -> Cut {
        Cut { size: Size { grid, block: sectors * sector }, sector }
    }

    /// Blocks that are one sector each.
    pub fn whole(size: Size) -> Cut {
        Cut { size, sector: size.block }
    }

    /// How many sectors a block has.
    pub fn sectors(self) -> usize {
        self.size.block / self.sector
    }

    /// The right length of the map, which has a byte for each sector.
    pub fn map_bytes(self) -> usize {
        self.size.disks() * self.sectors()
    }

    /// The size of the array that each position is by itself.
    pub fn position(self) -> Size {
        Size { block: self.sector, ..self.size }
    }
}

impl fmt::Display for Cut {
    fn fmt(&self, to: &mut fmt::Formatter) -> fmt::Result {
        write!(to, "{}, sector {}", self.size, self.sector)
    }
}

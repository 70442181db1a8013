//! The plan for one disk by a rule that needs no search, for losses of any number of disks. Before the disk can be repaired
//! by a stripe, all other disks of that stripe have to be, and for each of these all others of its other stripe, and so on:
//! the branch of the stripe. Nothing else is needed. That the papers' words come to this is compared on small losses.

use crate::equations::{stripes_through, STRIPES};
use crate::sheet::Record;
use crate::size::Grid;

/// The erased disks that lie on a stripe, or share a stripe with one of these, and so on, but for the wanted disk, over which
/// nothing is connected.
pub fn of(grid: Grid, erased: &[usize], wanted: usize, stripe: usize) -> Vec<usize> {
    let others = || erased.iter().copied().filter(|&disk| disk != wanted);
    let touches = |reached: u32, disk: usize| stripes_through(grid, disk).iter().any(|&own| reached >> own & 1 == 1);
    let mut reached = 0;
    let mut more = 1 << stripe;
    while more != reached {
        reached = more;
        for disk in others().filter(|&disk| touches(reached, disk)) {
            stripes_through(grid, disk).iter().for_each(|&own| more |= 1 << own);
        }
    }
    others().filter(|&disk| touches(reached, disk)).collect()
}

/// The list that ends by this stripe: the whole branch, each time the lowest-numbered disk that can be repaired, and then
/// the wanted disk. None where a disk of the branch remains or the last repair is not allowed.
pub fn list_by(grid: Grid, erased: &[usize], wanted: usize, stripe: usize) -> Option<Vec<Record>> {
    let mut on = [0; STRIPES];
    erased.iter().flat_map(|&disk| stripes_through(grid, disk)).for_each(|stripe| on[stripe] += 1);
    let mut left = of(grid, erased, wanted, stripe);
    let mut list = Vec::new();
    let alone = |on: &[usize], disk: usize| stripes_through(grid, disk).into_iter().find(|&own| on[own] == 1);
    while let Some((at, by)) = left.iter().enumerate().find_map(|(at, &disk)| Some((at, alone(&on, disk)?))) {
        let disk = left.remove(at);
        stripes_through(grid, disk).iter().for_each(|&own| on[own] -= 1);
        list.push((disk, by));
    }
    list.push((wanted, stripe));
    (left.is_empty() && on[stripe] == 1).then_some(list)
}

/// The shorter of the two lists, that by the row where both are as short.
pub fn shortest(grid: Grid, erased: &[usize], wanted: usize) -> Option<Vec<Record>> {
    let [row, column] = stripes_through(grid, wanted).map(|stripe| list_by(grid, erased, wanted, stripe));
    match (row, column) {
        (Some(row), Some(column)) => Some(if column.len() < row.len() { column } else { row }),
        (row, column) => row.or(column),
    }
}

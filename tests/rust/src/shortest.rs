//! The plan for one disk by paper 02's words alone: the shortest list of allowed repairs that ends with it, its row before
//! its column, and the steps before it by lowest number. It is found in two ways, for small losses only: by a search over the
//! sets of disks that can still be erased, and by trying all lists.

use crate::equations::stripes_through;
use crate::sheet::{allowed, Record};
use crate::size::Grid;
use std::collections::BTreeSet;

/// Sets of disks that are still erased, each in rising order.
type Sets = BTreeSet<Vec<usize>>;

fn without(disks: &[usize], disk: usize) -> Vec<usize> {
    disks.iter().copied().filter(|&other| other != disk).collect()
}

/// The repairs that are allowed while these disks are erased, but not that of the wanted disk.
fn allowed_before(grid: Grid, left: &[usize], wanted: usize) -> impl Iterator<Item = Record> + '_ {
    allowed(grid, left).filter(move |&(disk, _)| disk != wanted)
}

/// The sets that one more repair leaves.
fn one_more(grid: Grid, sets: &Sets, wanted: usize) -> Sets {
    let mut more = Sets::new();
    for left in sets {
        more.extend(allowed_before(grid, left, wanted).map(|(disk, _)| without(left, disk)));
    }
    more
}

/// The sets after no repair, after one, after two, and so on as long as there are any.
fn levels(grid: Grid, erased: &[usize], wanted: usize) -> Vec<Sets> {
    let start = Sets::from([erased.to_vec()]);
    let levels = std::iter::successors(Some(start), |sets| Some(one_more(grid, sets, wanted)));
    levels.take_while(|sets| !sets.is_empty()).collect()
}

/// What is still erased as soon as the last repair can be made, after as few others as can be. None where it never can.
fn left_before(grid: Grid, levels: &[Sets], last: Record) -> Option<&Vec<usize>> {
    let can = |left: &&Vec<usize>| allowed(grid, left).any(|repair| repair == last);
    let ends = levels.iter().map(|sets| sets.iter().filter(can).collect::<Vec<_>>());
    let ends = ends.into_iter().find(|ends| !ends.is_empty())?;
    // The paper orders the repairs of one list and chooses between none. Two sets would make the rule a choice.
    assert_eq!(ends.len(), 1, "several shortest lists, {grid}, last {last:?}, left {ends:?}");
    Some(ends[0])
}

/// The repair of the lowest-numbered disk that can be repaired, but for those that are to be left.
fn lowest(grid: Grid, now: &[usize], left: &[usize]) -> Record {
    let mut can = allowed(grid, now).filter(|(disk, _)| !left.contains(disk));
    let repair = can.next().expect("any order of these repairs ends");
    // By which stripe a step before the last goes, the papers do not say. It never has two.
    let next = can.next().filter(|next| next.0 == repair.0);
    assert_eq!(next, None, "two stripes for disk {}, {grid}, erased {now:?}, left {left:?}", repair.0);
    repair
}

/// The repairs of all disks but those left, each time of the lowest-numbered that can be repaired, and the last one.
fn by_lowest_number(grid: Grid, erased: &[usize], left: &[usize], last: Record) -> Vec<Record> {
    let (mut now, mut repairs) = (erased.to_vec(), Vec::new());
    while now != left {
        let repair = lowest(grid, &now, left);
        now = without(&now, repair.0);
        repairs.push(repair);
    }
    repairs.push(last);
    repairs
}

/// By the sets: the shorter of the two lists that end by the row and by the column, that by the row where both are as short.
pub fn by_sets(grid: Grid, erased: &[usize], wanted: usize) -> Option<Vec<Record>> {
    let levels = levels(grid, erased, wanted);
    let lists = stripes_through(grid, wanted).into_iter().filter_map(|stripe| {
        let left = left_before(grid, &levels, (wanted, stripe))?;
        Some(by_lowest_number(grid, erased, left, (wanted, stripe)))
    });
    lists.min_by_key(Vec::len)
}

/// The first list of so many repairs that ends with this one, if lists are tried by their lowest numbers from the left.
fn first_list(grid: Grid, left: &[usize], repairs: usize, last: Record) -> Option<Vec<Record>> {
    if repairs == 1 {
        return allowed(grid, left).any(|repair| repair == last).then(|| vec![last]);
    }
    allowed_before(grid, left, last.0).find_map(|repair| {
        let rest = first_list(grid, &without(left, repair.0), repairs - 1, last)?;
        Some([vec![repair], rest].concat())
    })
}

/// By the lists: all of one repair, then all of two, and so on, each time those that end by the row first.
pub fn by_lists(grid: Grid, erased: &[usize], wanted: usize) -> Option<Vec<Record>> {
    let stripes = stripes_through(grid, wanted);
    let mut tried = (1..=erased.len()).flat_map(|repairs| stripes.map(|stripe| (repairs, stripe)));
    tried.find_map(|(repairs, stripe)| first_list(grid, erased, repairs, (wanted, stripe)))
}

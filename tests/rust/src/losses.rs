//! Maps to try plan, plan for one disk, rebuild, follow and save on, and what a lost array holds.

use crate::equations::{stripes_through, Equations};
use crate::inputs::{place, random_grid, sealed_array};
use crate::random::Random;
use crate::size::{Grid, Size};
use crate::{cores, Run};

/// The map that says of these disks that they are erased.
pub fn map_of(grid: Grid, disks: &[usize]) -> Vec<u8> {
    let mut map = vec![0; grid.disks()];
    disks.iter().for_each(|&disk| map[disk] = 1);
    map
}

/// The map of a set of disks, one bit for each disk.
pub fn map_of_bits(grid: Grid, set: usize) -> Vec<u8> {
    (0..grid.disks()).map(|disk| (set >> disk & 1) as u8).collect()
}

/// All sets of as many disks that agree with these from a place on; the disks stand in rising order.
fn all_below(disks: &mut [usize], place: usize, each: &mut impl FnMut(&[usize])) {
    if place == 0 {
        return each(disks);
    }
    for disk in 0..disks[place] {
        disks[place - 1] = disk;
        all_below(disks, place - 1, each);
    }
}

/// All sets of so many disks with this highest one, each in rising order.
pub fn sets_up_to(highest: usize, count: usize, each: &mut impl FnMut(&[usize])) {
    let mut disks = vec![0; count];
    disks[count - 1] = highest;
    all_below(&mut disks, count - 1, each);
}

/// How many sets of so many there are among these.
pub fn choose(among: usize, count: usize) -> u64 {
    (0..count).fold(1, |sets, i| sets * (among - i) as u64 / (i as u64 + 1))
}

/// How many sets of four disks are the corners of a rectangle, which has two of the rows and two of the columns.
pub fn rectangles(grid: Grid) -> u64 {
    choose(grid.rows + 1, 2) * choose(grid.columns + 1, 2)
}

/// The numbers below a bound in random order.
pub fn shuffled(random: &mut Random, bound: usize) -> Vec<usize> {
    let mut numbers: Vec<usize> = (0..bound).collect();
    for i in (1..bound).rev() {
        numbers.swap(i, random.below(i + 1));
    }
    numbers
}

/// So many disks, any of them.
pub fn some(random: &mut Random, grid: Grid, count: usize) -> Vec<usize> {
    let mut disks = shuffled(random, grid.disks());
    disks.truncate(count);
    disks
}

/// So many disks without a loop, or as many as can be repaired: random ones, each of them left out where it would close
/// a loop.
fn forest(random: &mut Random, grid: Grid, count: usize) -> Vec<usize> {
    let mut equations = Equations::new(grid);
    let mut disks = shuffled(random, grid.disks());
    disks.retain(|&disk| equations.add(disk));
    assert_eq!(disks.len(), grid.most_repairs(), "the limit of repairs is not the rank, {grid}");
    disks.truncate(count);
    disks
}

/// As many as can be restored, and one more: the loss is fatal by a single loop.
fn one_loop(random: &mut Random, grid: Grid) -> Vec<usize> {
    let mut disks = forest(random, grid, grid.most_repairs());
    let others: Vec<usize> = (0..grid.disks()).filter(|disk| !disks.contains(disk)).collect();
    disks.push(random.pick(&others));
    disks
}

/// Loops that share no row and no column, each through so many rows and as many columns.
pub fn rings(random: &mut Random, grid: Grid, rows: usize, loops: usize) -> Vec<usize> {
    let (r, c) = (shuffled(random, grid.rows + 1), shuffled(random, grid.columns + 1));
    let row = |first: usize, i: usize| [0, 1].map(|next| grid.disk_at(r[first + i], c[first + (i + next) % rows]));
    (0..loops).flat_map(|number| (0..rows).flat_map(move |i| row(number * rows, i))).collect()
}

/// A loop through so many rows and as many columns, and some disks more.
pub fn ring(random: &mut Random, grid: Grid, rows: usize, more: usize) -> Vec<usize> {
    let mut disks = rings(random, grid, rows, 1);
    disks.extend(some(random, grid, more));
    disks
}

/// These disks and so many more, or as many as close no further loop.
pub fn and_trees(random: &mut Random, grid: Grid, mut disks: Vec<usize>, more: usize) -> Vec<usize> {
    let mut equations = Equations::new(grid);
    for &disk in &disks {
        equations.add(disk);
    }
    let others = shuffled(random, grid.disks()).into_iter().filter(|disk| !disks.contains(disk));
    let others: Vec<usize> = others.filter(|&disk| equations.add(disk)).take(more).collect();
    disks.extend(others);
    disks
}

/// Rectangles that share no row and no column, and so many disks more, or as many as close no further loop: these are not
/// lost, though no repair reaches those that stand between two rectangles.
pub fn rectangles_and_more(random: &mut Random, grid: Grid, rectangles: usize, more: usize) -> Vec<usize> {
    let disks = rings(random, grid, 2, rectangles);
    and_trees(random, grid, disks, more)
}

/// Disks that grow on some stripes: each new one lies on a stripe that was reached and on one that was free.
struct Tree {
    reached: Vec<usize>,
    disks: Vec<usize>,
}

impl Tree {
    fn on(stripe: usize) -> Tree {
        Tree { reached: vec![stripe], disks: Vec::new() }
    }

    /// One disk more, if a row and a column are left for it.
    fn grow(&mut self, random: &mut Random, grid: Grid, free: &mut Vec<usize>) {
        let crossing = |&(one, other): &(usize, usize)| (one < 16) != (other < 16);
        let pairs = self.reached.iter().flat_map(|&one| free.iter().map(move |&other| (one, other)));
        let pairs: Vec<(usize, usize)> = pairs.filter(crossing).collect();
        if !pairs.is_empty() {
            let (one, other) = random.pick(&pairs);
            free.retain(|&stripe| stripe != other);
            self.reached.push(other);
            self.disks.push(grid.disk_at(one.min(other), one.max(other) - 16));
        }
    }

    /// One disk more that closes a loop, if the stripes reached have one that is not there yet.
    fn close(&mut self, random: &mut Random, grid: Grid) {
        let inside = |disk: &usize| stripes_through(grid, *disk).iter().all(|stripe| self.reached.contains(stripe));
        let closing = |disk: &usize| inside(disk) && !self.disks.contains(disk);
        let closing: Vec<usize> = (0..grid.disks()).filter(closing).collect();
        if !closing.is_empty() {
            self.disks.push(random.pick(&closing));
        }
    }
}

/// A disk with so many disks that hang on its row and so many that hang on its column, or as many as there is room for, and
/// then a loop on either where one is asked for. So the ways to repair it by its row and by its column are as long as these
/// numbers, and one that has a loop is none.
pub fn two_branches(random: &mut Random, grid: Grid, lengths: [usize; 2], loops: [bool; 2]) -> Vec<usize> {
    let disk = random.below(grid.disks());
    let own = stripes_through(grid, disk);
    let mut free: Vec<usize> = (0..=grid.rows).chain(16..=16 + grid.columns).collect();
    free.retain(|stripe| !own.contains(stripe));
    let mut branches = own.map(Tree::on);
    for length in 0..lengths[0].max(lengths[1]) {
        for (branch, _) in branches.iter_mut().zip(lengths).filter(|&(_, most)| length < most) {
            branch.grow(random, grid, &mut free);
        }
    }
    for (branch, _) in branches.iter_mut().zip(loops).filter(|&(_, closed)| closed) {
        branch.close(random, grid);
    }
    branches.into_iter().flat_map(|branch| branch.disks).chain([disk]).collect()
}

/// A rectangle with a disk on one of its rows or columns, and on the other stripe of that disk all that can hang there: the
/// longest list that a plan for one disk can need, on a grid that is large enough. It is that of the first disk.
pub fn hanging_on_a_rectangle(random: &mut Random, grid: Grid) -> Vec<usize> {
    let (r, c) = (shuffled(random, grid.rows + 1), shuffled(random, grid.columns + 1));
    let (disk, other) = random.pick(&[(grid.disk_at(r[0], c[2]), 16 + c[2]), (grid.disk_at(r[2], c[0]), r[2])]);
    let taken = [r[0], r[1], 16 + c[0], 16 + c[1], other];
    let mut free: Vec<usize> = (0..=grid.rows).chain(16..=16 + grid.columns).collect();
    free.retain(|stripe| !taken.contains(stripe));
    let mut tree = Tree::on(other);
    (0..grid.most_repairs()).for_each(|_| tree.grow(random, grid, &mut free));
    let corners = [(0, 0), (0, 1), (1, 0), (1, 1)].map(|(x, y)| grid.disk_at(r[x], c[y]));
    [disk].into_iter().chain(corners).chain(tree.disks).collect()
}

/// How many kinds of losses there are below, and which of them is none.
pub const KINDS: usize = 10;
pub const NONE: usize = 0;

/// A random loss of one kind; the first five can be restored.
pub fn map(random: &mut Random, grid: Grid, kind: usize) -> Vec<u8> {
    let most = grid.most_repairs();
    let disks = match kind {
        NONE => Vec::new(),
        1 => {
            let count = random.between(1, 3);
            some(random, grid, count)
        }
        2 => {
            let count = random.between(4, most);
            forest(random, grid, count)
        }
        3 => forest(random, grid, most),
        4 => {
            // A data disk with both its parities.
            let (r, c) = (random.below(grid.rows), random.below(grid.columns));
            vec![grid.disk_at(r, c), grid.disk_at(r, grid.columns), grid.disk_at(grid.rows, c)]
        }
        5 => one_loop(random, grid),
        6 => {
            let shorter = grid.rows.min(grid.columns);
            let (rows, more) = (random.between(2, shorter + 1), random.below(shorter));
            ring(random, grid, rows, more)
        }
        7 => {
            let count = random.between(4, grid.disks());
            some(random, grid, count)
        }
        8 => {
            let most_rectangles = (grid.rows.min(grid.columns) + 1) / 2;
            let (rectangles, more) = (random.between(1, most_rectangles), random.between(1, most));
            rectangles_and_more(random, grid, rectangles, more)
        }
        _ => (0..grid.disks()).collect(),
    };
    map_of(grid, &disks)
}

/// A sealed array of a size with a map of each kind, in turn.
pub fn of_each_kind(run: &mut Run, size: Size, judge: fn(&mut Run, Size, &[u8], &[u8])) {
    let sealed = sealed_array(&mut run.random, size);
    for kind in 0..KINDS {
        let map = map(&mut run.random, size.grid, kind);
        judge(run, size, &sealed, &map);
    }
}

/// Maps of a small grid that make a part, and share an array.
const MAPS: usize = 64;
/// Random sizes that make a part.
const SIZES: usize = 5;

/// Every map of a small grid, on sealed arrays that change now and then.
pub fn of_all_maps(run: &mut Run, name: &str, grid: Grid, judge: fn(&mut Run, Size, &[u8], &[u8])) {
    cores::share(run, name, (1 << grid.disks()) / MAPS, |run, part| {
        let size = Size { grid, block: run.random.between(1, 3) };
        let sealed = sealed_array(&mut run.random, size);
        for set in part * MAPS..(part + 1) * MAPS {
            judge(run, size, &sealed, &map_of_bits(grid, set));
        }
    });
}

/// A loss of each kind at random sizes, so many parts of them.
pub fn of_random_sizes(run: &mut Run, name: &str, parts: usize, judge: fn(&mut Run, Size, &[u8], &[u8])) {
    cores::share(run, name, parts, |run, _| {
        for _ in 0..SIZES {
            let size = Size { grid: random_grid(&mut run.random), block: run.random.between(1, 20) };
            of_each_kind(run, size, judge);
        }
    });
}

/// Puts random bytes on the erased disks: they count for nothing. Where the map has a byte for each sector, the size is that
/// of a position.
pub fn forget(random: &mut Random, size: Size, array: &mut [u8], map: &[u8]) {
    for (disk, bytes) in array.chunks_exact_mut(size.block).enumerate() {
        if map[disk] == 1 {
            bytes.copy_from_slice(&random.bytes(size.block));
        }
    }
}

/// Damages on survivors and elsewhere: one; two equal ones in a row, which show only in columns; two in a column; or
/// random bytes everywhere. Where they are on erased disks they are none.
pub fn damage(random: &mut Random, size: Size, array: &mut [u8]) {
    let grid = size.grid;
    let (at, difference) = (place(random, size.block), random.between(1, 255) as u8);
    let (r, c) = (random.between(0, grid.rows), random.between(0, grid.columns));
    let (r2, c2) = (random.between(0, grid.rows), random.between(0, grid.columns));
    let second = match random.below(5) {
        0 => Some(grid.disk_at(r, c2)),
        1 => Some(grid.disk_at(r2, c)),
        2 => {
            let bytes = random.bytes(array.len());
            array.copy_from_slice(&bytes);
            None
        }
        _ => None,
    };
    for disk in second.into_iter().chain([grid.disk_at(r, c)]) {
        array[disk * size.block + at] ^= difference;
    }
}

//! Losses whose smallest loop is hard to tell: loops of every length with trees on them, many of one length, and as many
//! disks as there can be without a shorter loop.

use crate::equations::{stripes_through, STRIPES};
use crate::losses::{and_trees, map_of, rings, shuffled, some};
use crate::random::Random;
use crate::size::Grid;

/// The disk on a row and a column, given in any order.
fn disk_on(grid: Grid, one: usize, other: usize) -> usize {
    grid.disk_at(one.min(other), one.max(other) - 16)
}

/// Ways of so many disks each between two stripes, at least two if there is room for them: each two ways are a loop, and all
/// of these are of one length.
fn equal_ways(random: &mut Random, grid: Grid, length: usize) -> Vec<usize> {
    let rows = shuffled(random, grid.rows + 1);
    let columns: Vec<usize> = shuffled(random, grid.columns + 1).into_iter().map(|column| 16 + column).collect();
    let mut free = [rows, columns];
    let side = random.below(2);
    let ends = [side, (side + length) % 2].map(|side| free[side].pop().expect("each side has three stripes"));
    let mut disks = Vec::new();
    for _ in 0..random.between(2, 16) {
        let mut stripe = ends[0];
        let mut way = Vec::new();
        for step in 1..length {
            let Some(next) = free[(side + step) % 2].pop() else {
                return disks;
            };
            way.push(disk_on(grid, stripe, next));
            stripe = next;
        }
        way.push(disk_on(grid, stripe, ends[1]));
        disks.extend(way);
    }
    disks
}

/// Whether fewer disks than so many lead from one stripe to the other, for the stripes beside each stripe.
fn are_near(beside: &[u32; STRIPES], [one, other]: [usize; 2], steps: usize) -> bool {
    let mut reached = 1_u32 << one;
    for _ in 1..steps {
        let last = reached;
        (0..STRIPES).filter(|stripe| last >> stripe & 1 == 1).for_each(|stripe| reached |= beside[stripe]);
    }
    reached >> other & 1 == 1
}

/// Random disks, as many as there can be without a loop of fewer disks than so many: each is left out that would close one.
fn without_short_loops(random: &mut Random, grid: Grid, fewest: usize) -> Vec<usize> {
    let mut beside = [0; STRIPES];
    let mut disks = shuffled(random, grid.disks());
    disks.retain(|&disk| {
        let [row, column] = stripes_through(grid, disk);
        let kept = !are_near(&beside, [row, column], fewest - 1);
        if kept {
            beside[row] |= 1 << column;
            beside[column] |= 1 << row;
        }
        kept
    });
    disks
}

/// How many kinds of losses there are below. Those before `UNSURE` have a loop.
const KINDS: usize = 8;
const UNSURE: usize = 4;

/// The disks of a loss of one kind. Its loops, or the shortest of them, go through so many rows where the kind asks for it.
fn disks(random: &mut Random, grid: Grid, kind: usize, rows: usize) -> Vec<usize> {
    let (side, more) = (grid.rows.min(grid.columns) + 1, random.between(0, grid.most_repairs()));
    match kind {
        // One loop.
        0 => {
            let disks = rings(random, grid, rows, 1);
            and_trees(random, grid, disks, more)
        }
        // Some of one length that share nothing, and some that share disks.
        1 => {
            let loops = random.between(1, side / rows);
            let disks = rings(random, grid, rows, loops);
            and_trees(random, grid, disks, more)
        }
        2 => {
            let disks = equal_ways(random, grid, rows);
            and_trees(random, grid, disks, more)
        }
        3 => (0..grid.disks()).collect(),
        4 => without_short_loops(random, grid, 2 * rows),
        // The same and one disk more, or some of them and a few more.
        5 => [without_short_loops(random, grid, 2 * rows), some(random, grid, 1)].concat(),
        6 => {
            let mut disks = without_short_loops(random, grid, 2 * rows);
            disks.truncate(disks.len() - random.below(disks.len() / 2));
            [disks, some(random, grid, more / 8)].concat()
        }
        // Each disk by chance.
        _ => {
            let chances = random.between(2, 5);
            (0..grid.disks()).filter(|_| random.one_in(chances)).collect()
        }
    }
}

/// A loss of each kind in turn, and of each kind with loops through 2 rows, 3 rows and so on in turn.
pub fn map(random: &mut Random, grid: Grid, turn: usize) -> Vec<u8> {
    let lengths = grid.rows.min(grid.columns);
    map_of(grid, &disks(random, grid, turn % KINDS, 2 + turn / KINDS % lengths))
}

/// A loss that is fatal.
pub fn fatal(random: &mut Random, grid: Grid) -> Vec<u8> {
    let (kind, rows) = (random.below(UNSURE), random.between(2, grid.rows.min(grid.columns) + 1));
    map_of(grid, &disks(random, grid, kind, rows))
}

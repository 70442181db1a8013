//! Plan of the Rust peer: erased disks with a counter for each stripe, and for a fatal loss searches from stripe to
//! stripe, for its smallest loop and for its lost disks.

use crate::FIRST_COLUMN;

const STRIPES: usize = 32;

/// The outcome of a plan, and how many repairs it has or disks it loses.
pub enum Planned {
    Repairs(usize),
    Fatal(usize),
}

struct Erased {
    down: usize,
    across: usize,
    left: [u8; 256],
    on: [u8; STRIPES],
}

/// Record number k + 1 at the end of the chain.
fn put_record(sheet: &mut [u8], k: usize, disk: usize, stripe: usize) {
    sheet[3 * k + 1..][..3].copy_from_slice(&[(k + 1) as u8, disk as u8, stripe as u8]);
}

impl Erased {
    fn new(down: usize, across: usize, map: &[u8]) -> Self {
        let mut erased = Erased { down, across, left: [0; 256], on: [0; STRIPES] };
        erased.left[..map.len()].copy_from_slice(map);
        for (r, row) in map.chunks_exact(across).enumerate() {
            erased.on[r] = row.iter().sum();
            for (on, byte) in erased.on[FIRST_COLUMN..].iter_mut().zip(row) {
                *on += byte;
            }
        }
        erased
    }

    fn count(&self) -> usize {
        self.on[..FIRST_COLUMN].iter().map(|&on| usize::from(on)).sum()
    }

    /// The lowest disk that can be repaired, and its row if that has no other, else its column.
    fn next(&self) -> Option<(usize, usize)> {
        let (rows, columns) = self.on.split_at(FIRST_COLUMN);
        let lines = self.left.chunks_exact(self.across).zip(rows).enumerate();
        lines.filter(|(_, (_, &on))| on != 0).find_map(|(r, (line, &on))| {
            let c = line.iter().zip(columns).position(|(&left, &column)| left != 0 && (on == 1 || column == 1))?;
            Some((r * self.across + c, if on == 1 { r } else { FIRST_COLUMN + c }))
        })
    }

    fn repair(&mut self, disk: usize) {
        self.left[disk] = 0;
        self.on[disk / self.across] -= 1;
        self.on[FIRST_COLUMN + disk % self.across] -= 1;
    }

    /// The disks that are left.
    fn disks(&self) -> impl Iterator<Item = usize> + '_ {
        (0..self.down * self.across).filter(|&disk| self.left[disk] != 0)
    }

    fn stripes(&self, disk: usize) -> [usize; 2] {
        [disk / self.across, FIRST_COLUMN + disk % self.across]
    }

    fn crossing(&self, stripe: usize, other: usize) -> usize {
        stripe.min(other) * self.across + stripe.max(other) - FIRST_COLUMN
    }

    /// The stripes across each stripe with which it shares one of these disks, a bit for each.
    fn others(&self, disks: impl Iterator<Item = usize>) -> [u32; STRIPES] {
        let mut others = [0; STRIPES];
        for [row, column] in disks.map(|disk| self.stripes(disk)) {
            others[row] |= 1 << column;
            others[column] |= 1 << row;
        }
        others
    }
}

/// The stripes of a set.
fn bits(mut set: u32) -> impl Iterator<Item = usize> {
    std::iter::from_fn(move || {
        let bit = (set != 0).then(|| set.trailing_zeros() as usize)?;
        set &= set - 1;
        Some(bit)
    })
}

/// The stripes that share a disk with one of a set.
fn beside(others: &[u32; STRIPES], set: u32) -> u32 {
    bits(set).fold(0, |all, stripe| all | others[stripe])
}

/// In how many steps, at most so many, a way leads from one stripe to another.
fn steps(others: &[u32; STRIPES], from: usize, to: usize, most: usize) -> Option<usize> {
    let (mut front, mut seen) = (1 << from, 1 << from);
    let mut fronts = (1..=most).map(|step| {
        front = beside(others, front) & !seen;
        seen |= front;
        (step, front)
    });
    let found = fronts.find(|&(_, front)| front == 0 || front >> to & 1 == 1);
    found.filter(|&(_, front)| front != 0).map(|(step, _)| step)
}

/// A set of disks with the lowest in the highest bit: of sets of one size the greatest is the one whose numbers in
/// ascending order come first.
type Disks = [u128; 2];

fn with(mut disks: Disks, disk: usize) -> Disks {
    disks[disk / 128] |= 1 << (127 - disk % 128);
    disks
}

fn contains(disks: &Disks, disk: usize) -> bool {
    disks[disk / 128] >> (127 - disk % 128) & 1 == 1
}

impl Erased {
    /// The disks of the smallest loop. For each disk a shortest way leads from its row to its column over those above
    /// it; no loop has less than four disks.
    fn smallest(&self) -> Disks {
        let mut others = self.others(self.disks());
        let mut best = STRIPES;
        let mut smallest = [0; 2];
        for disk in self.disks() {
            let [row, column] = self.stripes(disk);
            others[row] ^= 1 << column;
            others[column] ^= 1 << row;
            if let Some(steps) = steps(&others, row, column, best - 1) {
                best = steps;
                smallest = with(self.first_way(&others, row, column), disk);
            }
            if best == 3 {
                break;
            }
        }
        smallest
    }

    /// The disks of the shortest way that comes first: step by step each stripe keeps the first one that leads to it.
    fn first_way(&self, others: &[u32; STRIPES], from: usize, to: usize) -> Disks {
        let mut ways = [[0; 2]; STRIPES];
        let (mut front, mut seen) = (1 << from, 1 << from);
        while seen >> to & 1 == 0 {
            let next = beside(others, front) & !seen;
            for stripe in bits(next) {
                let near = bits(others[stripe] & front);
                let all = near.map(|before| with(ways[before], self.crossing(before, stripe)));
                ways[stripe] = all.max().expect("a step leads here");
            }
            (front, seen) = (next, seen | next);
        }
        ways[to]
    }

    /// Lists a loop from its lowest disk along the row, then along a column, and so on in turn.
    fn put_loop(&self, disks: &Disks, sheet: &mut [u8]) {
        let of_loop = || self.disks().filter(|&disk| contains(disks, disk));
        let others = self.others(of_loop());
        let first = of_loop().next().expect("a loop has disks");
        let [mut stripe, last] = self.stripes(first);
        let mut before = last;
        put_record(sheet, 0, first, stripe);
        for k in 1.. {
            let next = (others[stripe] & !(1 << before)).trailing_zeros() as usize;
            put_record(sheet, k, self.crossing(stripe, next), next);
            if next == last {
                break;
            }
            (before, stripe) = (stripe, next);
        }
    }
}

/// A search for disks that are the only way between two stripes.
#[derive(Default)]
struct Search {
    others: [u32; STRIPES],
    /// When a stripe was reached, from 1 on, and the earliest stripe to which a way leads from behind it.
    reached: [u32; STRIPES],
    earliest: [u32; STRIPES],
    time: u32,
    bridges: usize,
}

impl Search {
    /// Goes on from a stripe to all behind it. A disk is the only way if none leads from behind it to its near side.
    fn visit(&mut self, stripe: usize, from: Option<usize>) {
        let mut left = self.others[stripe] & !from.map_or(0, |from| 1 << from);
        self.time += 1;
        (self.reached[stripe], self.earliest[stripe]) = (self.time, self.time);
        while left != 0 {
            let next = left.trailing_zeros() as usize;
            left &= left - 1;
            if self.reached[next] == 0 {
                self.visit(next, Some(stripe));
                self.bridges += usize::from(self.earliest[next] > self.reached[stripe]);
            }
            self.earliest[stripe] = self.earliest[stripe].min(self.earliest[next]);
        }
    }
}

impl Erased {
    /// How many of the disks that are left are lost: the others join two parts of the stripes that nothing else joins.
    fn lost(&self) -> usize {
        let mut search = Search { others: self.others(self.disks()), ..Search::default() };
        for row in 0..self.down {
            if search.reached[row] == 0 {
                search.visit(row, None);
            }
        }
        self.disks().count() - search.bridges
    }
}

/// Writes the repairs in plan's order, or the smallest loop, into the sheet.
pub fn plan(down: usize, across: usize, map: &[u8], sheet: &mut [u8]) -> Planned {
    let mut erased = Erased::new(down, across, map);
    let count = erased.count();
    let mut made = 0;
    sheet.fill(0);
    sheet[0] = 1;
    while let Some((disk, stripe)) = erased.next() {
        erased.repair(disk);
        put_record(sheet, made, disk, stripe);
        made += 1;
    }
    if made == count {
        return Planned::Repairs(made);
    }
    sheet.fill(0);
    sheet[0] = 2;
    erased.put_loop(&erased.smallest(), sheet);
    Planned::Fatal(erased.lost())
}

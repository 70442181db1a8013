//! Sheets to try follow and tidy on: repairs in any allowed order, with records anywhere, with leftovers off the chain, and
//! sheets with something wrong.

use crate::equations::{stripes_through, STRIPES};
use crate::losses::shuffled;
use crate::model::erased_disks;
use crate::random::Random;
use crate::sheet::{allowed, chain, off_chain, place_of, Record, RECORDS, REPAIRS, SHEET};
use crate::size::Grid;

/// Repairs that are allowed one after another, each chosen at random, until none is.
pub fn any_order(random: &mut Random, grid: Grid, map: &[u8]) -> Vec<Record> {
    let mut left = erased_disks(map);
    left.retain(|&disk| disk < grid.disks());
    let mut steps = Vec::new();
    loop {
        let allowed: Vec<Record> = allowed(grid, &left).collect();
        if allowed.is_empty() {
            return steps;
        }
        let step = random.pick(&allowed);
        left.retain(|&disk| disk != step.0);
        steps.push(step);
    }
}

/// A repair sheet with these steps in the records of these numbers, one after another, and zeros off the chain.
pub fn placed(steps: &[Record], numbers: &[usize]) -> Vec<u8> {
    let mut sheet = vec![0; SHEET];
    sheet[0] = REPAIRS;
    let mut link = 1;
    for (&(disk, stripe), &number) in steps.iter().zip(numbers) {
        let at = place_of(number);
        sheet[link] = number as u8;
        (sheet[at], sheet[at + 1]) = (disk as u8, stripe as u8);
        link = at + 2;
    }
    sheet
}

/// The numbers of all records in random order.
pub fn any_numbers(random: &mut Random) -> Vec<usize> {
    shuffled(random, RECORDS).into_iter().map(|number| number + 1).collect()
}

/// A repair sheet with its records at random places, and zeros off the chain.
pub fn scattered(random: &mut Random, steps: &[Record]) -> Vec<u8> {
    placed(steps, &any_numbers(random))
}

/// Zeros off the chain.
pub fn clean(sheet: &mut [u8]) {
    off_chain(sheet).into_iter().for_each(|place| sheet[place] = 0);
}

/// Puts leftovers on a sheet, at some of these places.
type Leave = fn(&mut Random, &mut [u8], &[usize]);

/// What can be left off the chain.
const LEFTOVERS: [Leave; 3] = [
    // One byte.
    |random, sheet, places| sheet[random.pick(places)] = random.between(1, 255) as u8,
    // Two that cancel each other, in a sum and in an exclusive or.
    |random, sheet, places| (0..2).for_each(|_| sheet[random.pick(places)] = 128),
    // Bytes at most places.
    |random, sheet, places| places.iter().for_each(|_| sheet[random.pick(places)] = random.between(1, 255) as u8),
];

/// Puts leftovers off the chain. There are none where it visits every record.
pub fn litter(random: &mut Random, sheet: &mut [u8]) {
    let places = off_chain(sheet);
    if !places.is_empty() {
        LEFTOVERS[random.below(LEFTOVERS.len())](random, sheet, &places);
    }
}

/// The places of the numbers of a chain: that of the first record, and that of each next one, the 0 at the end too.
pub fn links(sheet: &[u8]) -> Vec<usize> {
    let (visited, _) = chain(sheet);
    [1].into_iter().chain(visited.into_iter().map(|number| place_of(number) + 2)).collect()
}

/// Where some record of the chain begins; the first record's place where the chain has none.
fn record(random: &mut Random, sheet: &[u8]) -> usize {
    let links = links(sheet);
    random.pick(links.get(1..).filter(|links| !links.is_empty()).unwrap_or(&[4])) - 2
}

/// Sets some number of the chain.
fn relink(random: &mut Random, sheet: &mut [u8], number: usize) {
    sheet[random.pick(&links(sheet))] = number as u8;
}

/// Any kind but that of repairs.
pub fn other_kind(random: &mut Random) -> u8 {
    let any = random.between(2, 255) as u8;
    random.pick(&[0, 2, 3, 255, any])
}

/// What can be wrong with a sheet, each damage on a chain that ends.
const DAMAGES: [fn(&mut Random, Grid, &mut [u8]); 10] = [
    // Another kind.
    |random, _, sheet| sheet[0] = other_kind(random),
    // A number that no record has.
    |random, _, sheet| {
        let number = random.between(RECORDS + 1, 255);
        let number = random.pick(&[RECORDS + 1, 255, number]);
        relink(random, sheet, number);
    },
    // The chain ends too early, or goes on somewhere else.
    |random, _, sheet| relink(random, sheet, 0),
    |random, _, sheet| {
        let number = random.between(1, RECORDS);
        relink(random, sheet, number);
    },
    // A ring: the last record leads to one of the chain, its own number included.
    |random, _, sheet| {
        let links = links(sheet);
        let back = links[random.below(links.len().max(2) - 1)];
        sheet[links[links.len() - 1]] = sheet[back].max(1);
    },
    // Another disk: one of the grid, the next disk, one outside the grid.
    |random, grid, sheet| {
        let disk = random.below(grid.disks()) as u8;
        let at = record(random, sheet);
        sheet[at] = random.pick(&[disk, sheet[at].wrapping_add(1), grid.disks() as u8, 255]);
    },
    // The disk of another record: it comes twice, and its own is left over.
    |random, _, sheet| {
        let other = record(random, sheet);
        let at = record(random, sheet);
        sheet[at] = sheet[other];
    },
    // Another stripe: any, the disk's other one, or one that the grid has not.
    |random, grid, sheet| {
        let stripe = random.below(STRIPES) as u8;
        let at = record(random, sheet);
        let [row, column] = stripes_through(grid, sheet[at] as usize).map(|stripe| stripe as u8);
        let (below, beside) = ((grid.rows + 1) as u8, (17 + grid.columns) as u8);
        sheet[at + 1] = random.pick(&[stripe, row, column, below, beside, STRIPES as u8, 255]);
    },
    // Two records change places, so that the repairs come in another order.
    |random, _, sheet| {
        let (a, b) = (record(random, sheet), record(random, sheet));
        sheet.swap(a, b);
        sheet.swap(a + 1, b + 1);
    },
    // Random bytes in all of it, with numbers that records have.
    |random, grid, sheet| {
        sheet.copy_from_slice(&random.bytes(SHEET));
        (sheet[0], sheet[1]) = (REPAIRS, random.between(0, RECORDS) as u8);
        for number in 1..=RECORDS {
            let disk = random.below(grid.disks());
            let stripe = random.pick(&stripes_through(grid, disk));
            let next = random.below(RECORDS + 2);
            let at = place_of(number);
            sheet[at..at + 3].copy_from_slice(&[disk as u8, stripe as u8, next as u8]);
        }
    },
];

/// A sheet whose chain ends, with one thing wrong. It may be none: a record may change places with itself. Records that
/// are on the chain no longer are leftovers half of the time, and else cleared.
pub fn damaged(random: &mut Random, grid: Grid, sheet: &[u8]) -> Vec<u8> {
    let mut damaged = sheet.to_vec();
    DAMAGES[random.below(DAMAGES.len())](random, grid, &mut damaged);
    if random.one_in(2) {
        clean(&mut damaged);
    }
    damaged
}

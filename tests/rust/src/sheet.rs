//! Sheets by paper 01: repairs in plan's order, the chain of a sheet from elsewhere and the rule for its steps, and the
//! rule for a loop and the list of its disks. Which loop is due, paper 02 says: see every_loop.rs and ways.rs.

use crate::equations::{stripes_through, STRIPES};
use crate::size::Grid;

pub const SHEET: usize = 98;
/// Records are numbered from 1 to this.
pub const RECORDS: usize = 32;

pub const REPAIRS: u8 = 1;
pub const LOOP: u8 = 2;

/// A record of a sheet: a disk and a stripe.
pub type Record = (usize, usize);

fn lies_on(grid: Grid, disk: usize, stripe: usize) -> bool {
    stripes_through(grid, disk).contains(&stripe)
}

fn count_on(grid: Grid, disks: &[usize], stripe: usize) -> usize {
    disks.iter().filter(|&&disk| lies_on(grid, disk, stripe)).count()
}

/// The repairs that are allowed while these disks are erased, disk by disk, by its row and then by its column. A stripe is
/// allowed if no other disk on it is still erased.
pub fn allowed(grid: Grid, erased: &[usize]) -> impl Iterator<Item = Record> + '_ {
    let mut on = [0; STRIPES];
    erased.iter().flat_map(|&disk| stripes_through(grid, disk)).for_each(|stripe| on[stripe] += 1);
    let repairs = erased.iter().flat_map(move |&disk| stripes_through(grid, disk).map(|stripe| (disk, stripe)));
    repairs.filter(move |&(_, stripe)| on[stripe] == 1)
}

/// Plan's order, step by step: the repairs, and the disks that remain. The erased disks are given in rising order, so that
/// the first repair that is allowed is that of the lowest-numbered disk, by its row if that is allowed.
pub fn plans_order(grid: Grid, erased: &[usize]) -> (Vec<Record>, Vec<usize>) {
    let mut left = erased.to_vec();
    let mut repairs = Vec::new();
    loop {
        let next = allowed(grid, &left).next();
        let Some((disk, stripe)) = next else {
            return (repairs, left);
        };
        repairs.push((disk, stripe));
        left.retain(|&other| other != disk);
    }
}

/// A sheet of this kind: records 1, 2, 3 in chain order and zeros elsewhere.
fn of_records(kind: u8, records: &[Record]) -> Vec<u8> {
    let mut sheet = vec![0; SHEET];
    sheet[0] = kind;
    for (i, &(disk, stripe)) in records.iter().enumerate() {
        // The number of record 1 stands in byte 1, and that of each other in the record before it.
        sheet[1 + 3 * i] = i as u8 + 1;
        sheet[2 + 3 * i] = disk as u8;
        sheet[3 + 3 * i] = stripe as u8;
    }
    sheet
}

/// A repair sheet.
pub fn of_repairs(repairs: &[Record]) -> Vec<u8> {
    of_records(REPAIRS, repairs)
}

/// A sheet that shows a loop.
pub fn of_loop(records: &[Record]) -> Vec<u8> {
    of_records(LOOP, records)
}

/// The records of a loop whose disks are given in its order: each has the stripe that it shares with the next, a row first,
/// rows and columns in turn.
pub fn in_turn(grid: Grid, disks: &[usize]) -> Vec<Record> {
    disks.iter().enumerate().map(|(i, &disk)| (disk, stripes_through(grid, disk)[i % 2])).collect()
}

/// Where a record begins, by its number.
pub fn place_of(record: usize) -> usize {
    2 + 3 * (record - 1)
}

/// The chain of a sheet: the numbers of the records that it visits, in its order, and the number that stands after them.
/// That is the 0 at its end, a number that no record has, or that of a record visited before.
pub fn chain(sheet: &[u8]) -> (Vec<usize>, usize) {
    let mut visited = Vec::new();
    let mut number = sheet[1] as usize;
    while (1..=RECORDS).contains(&number) && !visited.contains(&number) {
        visited.push(number);
        number = sheet[place_of(number) + 2] as usize;
    }
    (visited, number)
}

/// What a sheet lists: the disks and stripes of the records that its chain visits, in its order.
pub fn list(sheet: &[u8]) -> Vec<Record> {
    let fields = |number: usize| (sheet[place_of(number)] as usize, sheet[place_of(number) + 1] as usize);
    chain(sheet).0.into_iter().map(fields).collect()
}

/// The places of the bytes off the chain: all three of each record that it does not visit. The kind and the first number
/// are never off it.
pub fn off_chain(sheet: &[u8]) -> Vec<usize> {
    let (visited, _) = chain(sheet);
    let others = (1..=RECORDS).filter(|number| !visited.contains(number));
    others.flat_map(|number| place_of(number)..place_of(number) + 3).collect()
}

/// The disks that are still erased after these steps; none where a step is not an allowed repair at its turn. A repair is
/// allowed if its disk is still erased, its stripe goes through the disk, and no other disk on the stripe is still erased.
pub fn left_after(grid: Grid, erased: &[usize], steps: &[Record]) -> Option<Vec<usize>> {
    let mut left = erased.to_vec();
    for &(disk, stripe) in steps {
        if !left.contains(&disk) || !lies_on(grid, disk, stripe) || count_on(grid, &left, stripe) != 1 {
            return None;
        }
        left.retain(|&other| other != disk);
    }
    Some(left)
}

/// Whether every step is an allowed repair at its turn, and no disk remains erased at the end.
pub fn clears(grid: Grid, erased: &[usize], steps: &[Record]) -> bool {
    left_after(grid, erased, steps).is_some_and(|left| left.is_empty())
}

/// The records 1, 2, 3 of a chain, with zeros behind them.
fn records(sheet: &[u8]) -> Result<Vec<Record>, String> {
    let mut records = Vec::new();
    while sheet[1 + 3 * records.len()] != 0 {
        let at = 1 + 3 * records.len();
        if at + 3 >= SHEET || sheet[at] as usize != records.len() + 1 {
            return Err(format!("record number {} after record {}", sheet[at], records.len()));
        }
        records.push((sheet[at + 1] as usize, sheet[at + 2] as usize));
    }
    if sheet[1 + 3 * records.len()..].iter().any(|&byte| byte != 0) {
        return Err("a byte after the last record is not zero".to_string());
    }
    Ok(records)
}

fn rule(holds: bool, words: &str, records: &[Record]) -> Result<(), String> {
    if holds {
        return Ok(());
    }
    Err(format!("{words}: {records:?}"))
}

/// Whether a sheet holds a loop by the paper's rule: different erased disks, at least four, the lowest first; each shares
/// the stripe of its record with the next, rows and columns in turn; each stripe touched holds exactly two of them.
pub fn is_loop(grid: Grid, map: &[u8], sheet: &[u8]) -> Result<(), String> {
    let records = records(sheet)?;
    let disks: Vec<usize> = records.iter().map(|&(disk, _)| disk).collect();
    let len = disks.len();
    rule(sheet[0] == LOOP, "the kind is not that of a loop", &records)?;
    rule(len >= 4, "a loop of fewer than four disks", &records)?;
    rule(disks.iter().all(|&disk| map.get(disk) == Some(&1)), "a disk of the loop is not erased", &records)?;
    rule((0..len).all(|i| !disks[..i].contains(&disks[i])), "a disk comes twice", &records)?;
    rule(disks.iter().all(|&disk| disk >= disks[0]), "the first disk is not the lowest", &records)?;
    rule(len % 2 == 0, "the last and the first do not share a column", &records)?;
    for (i, &(disk, stripe)) in records.iter().enumerate() {
        let turn = stripes_through(grid, disk)[i % 2];
        rule(stripe == turn, "rows and columns do not come in turn", &records)?;
        rule(lies_on(grid, disks[(i + 1) % len], stripe), "the next disk is on another stripe", &records)?;
        let two = |&stripe: &usize| count_on(grid, &disks, stripe) == 2;
        rule(stripes_through(grid, disk).iter().all(two), "a stripe has more than two of the disks", &records)?;
    }
    Ok(())
}

//! Calls with a fault, made of the library's own: what a library might do that takes positions for something else than they
//! are, or what is said of all of them for something that is said of one.

use super::calls::{Found, FoundAt};
use super::parts::{joined, part, parts};
use super::positions::{SECTORS_MAX, WRONG_SECTOR};
use crate::ffi;
use crate::model::{CONTRADICTORY, FATAL, LEFTOVERS, NOT_ALLOWED, OUT_OF_RANGE, SUCCESS, TWICE};
use crate::outcome::{Outcome, Placed};
use crate::sheet::SHEET;
use crate::size::{Cut, Grid};

/// The map as it has to be for the library if the call takes all disks of position 0 first.
pub fn exchanged(sectors: usize, map: &[u8]) -> Vec<u8> {
    if sectors == 0 || map.is_empty() || map.len() % sectors != 0 {
        return map.to_vec();
    }
    let of_positions: Vec<Vec<u8>> = map.chunks_exact(map.len() / sectors).map(<[u8]>::to_vec).collect();
    joined(&of_positions, 1)
}

/// The number of sectors, 0 where there is none.
pub fn sectors_of(cut: Cut) -> usize {
    cut.size.block.checked_div(cut.sector).unwrap_or(0)
}

/// The positions from the last to the first.
pub fn reversed(bytes: &[u8], width: usize, sectors: usize) -> Vec<u8> {
    let mut all = parts(bytes, width, sectors);
    all.reverse();
    joined(&all, width)
}

pub fn reversed_sheets(sheets: &[u8]) -> Vec<u8> {
    sheets.chunks_exact(SHEET).rev().flatten().copied().collect()
}

/// Plan from the last position on, where it is not refused.
pub fn backward_plan(grid: Grid, sectors: usize, map: &[u8], sheets: &[u8]) -> FoundAt {
    let right = ffi::plan(grid, sectors, map, sheets)?;
    if right.outcome.answer != FATAL {
        return Ok(right);
    }
    let mut found = ffi::plan(grid, sectors, &reversed(map, 1, sectors), sheets)?;
    found.outcome.written[0] = reversed_sheets(&found.outcome.written[0]);
    found.position = found.position.map(|position| sectors - 1 - position);
    Ok(found)
}

/// The answer of a call on each position by itself.
pub fn alone(
    cut: Cut,
    array: &[u8],
    map: &[u8],
    one: impl Fn(Cut, &[u8], &[u8], usize) -> Found,
) -> Result<Vec<Outcome>, String> {
    let at = |position: usize| {
        let (array, map) = (part(array, cut.sector, cut.sectors(), position), part(map, 1, cut.sectors(), position));
        one(Cut::whole(cut.position()), &array, &map, position)
    };
    (0..cut.sectors()).map(at).collect()
}

/// What save makes of each position by itself.
pub fn saved_alone(cut: Cut, array: &[u8], map: &[u8]) -> Result<Vec<Outcome>, String> {
    alone(cut, array, map, |cut, array, map, _| ffi::save(cut, array, map))
}

/// With 7 the lowest position that is contradictory is zeroed, and the others are left.
pub fn one_zeroed(cut: Cut, array: &[u8], map: &[u8]) -> Result<Vec<u8>, String> {
    let saved = saved_alone(cut, array, map)?;
    let lowest = saved.iter().position(|outcome| outcome.answer == CONTRADICTORY);
    let mut arrays = parts(array, cut.sector, cut.sectors());
    lowest.into_iter().for_each(|position| arrays[position] = saved[position].written[0].clone());
    Ok(joined(&arrays, cut.sector))
}

/// With 7 each position that is contradictory is zeroed, and the others are restored.
pub fn each_by_itself(cut: Cut, array: &[u8], map: &[u8]) -> Result<Vec<u8>, String> {
    let saved = saved_alone(cut, array, map)?;
    let arrays: Vec<Vec<u8>> = saved.into_iter().map(|mut outcome| outcome.written.remove(0)).collect();
    Ok(joined(&arrays, cut.sector))
}

/// What stands in the array after 7.
pub type Zero = fn(Cut, &[u8], &[u8]) -> Result<Vec<u8>, String>;

pub fn zeroing(found: Found, cut: Cut, array: &[u8], map: &[u8], zero: Zero) -> Found {
    let mut found = found?;
    if found.answer == CONTRADICTORY {
        found.written[0] = zero(cut, array, map)?;
    }
    Ok(found)
}

/// 4 in place of 16 where the map has a byte above 1, or not as many bytes as so many sectors ask for.
pub fn after_map(mut found: Outcome, grid: Grid, sectors: usize, map: &[u8]) -> Found {
    let fits = || map.len() == grid.disks().wrapping_mul(sectors) && map.iter().all(|&mark| mark <= 1);
    if found.answer == WRONG_SECTOR && !fits() {
        found.answer = 4;
    }
    Ok(found)
}

pub fn placed_after_map(mut found: Placed, grid: Grid, sectors: usize, map: &[u8]) -> FoundAt {
    found.outcome = after_map(found.outcome, grid, sectors, map)?;
    Ok(found)
}

/// Position after position: the answer of the lowest that is refused.
pub fn follow_in_turn(cut: Cut, array: &[u8], map: &[u8], sheets: &[u8]) -> Found {
    let right = ffi::follow(cut, array, map, sheets)?;
    if ![OUT_OF_RANGE, TWICE, LEFTOVERS, NOT_ALLOWED].contains(&right.answer) {
        return Ok(right);
    }
    let sheet = |position: usize| &sheets[position * SHEET..(position + 1) * SHEET];
    let one = |cut: Cut, array: &[u8], map: &[u8], position: usize| ffi::follow(cut, array, map, sheet(position));
    let answers = alone(cut, array, map, one)?;
    let refused =
        answers.iter().map(|outcome| outcome.answer).find(|&answer| answer != SUCCESS && answer != CONTRADICTORY);
    Ok(Outcome { answer: refused.unwrap_or(right.answer), ..right })
}

/// 11 at position 0 before all other numbers.
pub fn follow_repairs_first(cut: Cut, array: &[u8], map: &[u8], sheets: &[u8]) -> Found {
    let right = ffi::follow(cut, array, map, sheets)?;
    if ![OUT_OF_RANGE, TWICE, LEFTOVERS].contains(&right.answer) {
        return Ok(right);
    }
    let (array, map) = (part(array, cut.sector, cut.sectors(), 0), part(map, 1, cut.sectors(), 0));
    let first = ffi::follow(Cut::whole(cut.position()), &array, &map, &sheets[..SHEET])?;
    let answer = if first.answer == NOT_ALLOWED { NOT_ALLOWED } else { right.answer };
    Ok(Outcome { answer, ..right })
}

/// The count of the last position in place of all.
pub fn last_counted(mut found: Outcome, map: &[u8], sectors: usize) -> Found {
    if found.answer == SUCCESS {
        found.out = Some(part(map, 1, sectors, sectors - 1).iter().filter(|&&mark| mark == 1).count());
    }
    Ok(found)
}

pub fn counting_last(mut found: Placed, map: &[u8], sectors: usize) -> FoundAt {
    found.outcome = last_counted(found.outcome, map, sectors)?;
    Ok(found)
}

/// The position counted from 1.
pub fn from_one(found: FoundAt) -> FoundAt {
    let mut found = found?;
    found.position = found.position.map(|position| position + 1);
    Ok(found)
}

/// The array stays where a position is fatal.
pub fn none_saved(cut: Cut, array: &[u8], map: &[u8]) -> Found {
    let right = ffi::save(cut, array, map)?;
    if right.answer != SUCCESS {
        return Ok(right);
    }
    let planned = ffi::plan(cut.size.grid, cut.sectors(), map, &vec![0; SHEET * cut.sectors()])?.outcome;
    match planned.answer {
        FATAL => Ok(Outcome { answer: SUCCESS, out: Some(0), written: vec![array.to_vec()] }),
        _ => Ok(right),
    }
}

/// Look hands a block back if these of its sectors are present.
fn look_by(cut: Cut, array: &[u8], map: &[u8], disk: usize, present: fn(&[u8]) -> bool) -> Found {
    let sectors = sectors_of(cut);
    let clear = ffi::look(cut, array, &vec![0; map.len()], disk)?;
    let valid = map.iter().all(|&mark| mark <= 1) && clear.answer > 0;
    if valid && present(&map[disk * sectors..(disk + 1) * sectors]) {
        return Ok(clear);
    }
    ffi::look(cut, array, map, disk)
}

pub fn one_present(cut: Cut, array: &[u8], map: &[u8], disk: usize) -> Found {
    look_by(cut, array, map, disk, |marks| marks.contains(&0))
}

pub fn first_present(cut: Cut, array: &[u8], map: &[u8], disk: usize) -> Found {
    look_by(cut, array, map, disk, |marks| marks[0] == 0)
}

/// 4,096 sectors get 16.
pub fn too_many(grid: Grid, sectors: usize, map: &[u8], sheets: &[u8]) -> FoundAt {
    if sectors != SECTORS_MAX {
        return ffi::plan(grid, sectors, map, sheets);
    }
    let outcome = Outcome { answer: WRONG_SECTOR, out: None, written: vec![sheets.to_vec()] };
    Ok(Placed::nowhere(outcome))
}

/// Whether a length divides the block.
pub fn divides(cut: Cut) -> bool {
    cut.sector != 0 && cut.size.block % cut.sector == 0
}

/// No kind in the sheet of a position without repairs.
pub fn without_kind(mut found: Placed) -> FoundAt {
    let empty = found.outcome.answer == SUCCESS;
    let sheets = found.outcome.written.last_mut().expect("the sheets are written");
    sheets.chunks_exact_mut(SHEET).filter(|sheet| empty && sheet[1] == 0).for_each(|sheet| sheet[0] = 0);
    Ok(found)
}

/// With 6 the lists of the other positions.
pub fn others_listed(grid: Grid, sectors: usize, map: &[u8], sheets: &[u8]) -> FoundAt {
    let mut found = ffi::plan(grid, sectors, map, sheets)?;
    if found.outcome.answer == FATAL {
        for (marks, sheet) in parts(map, 1, sectors).iter().zip(found.outcome.written[0].chunks_exact_mut(SHEET)) {
            let one = ffi::plan(grid, 1, marks, &[0; SHEET])?.outcome;
            if one.answer == SUCCESS {
                sheet.copy_from_slice(&one.written[0]);
            }
        }
    }
    Ok(found)
}

/// With 6 another sheet of the position named: plan's for this map of one position, if it is fatal.
pub fn shown_for(grid: Grid, sectors: usize, map: &[u8], sheets: &[u8], other: fn(&[Vec<u8>]) -> Vec<u8>) -> FoundAt {
    let mut found = ffi::plan(grid, sectors, map, sheets)?;
    if let Some(position) = found.position {
        let one = ffi::plan(grid, 1, &other(&parts(map, 1, sectors)), &[0; SHEET])?.outcome;
        if one.answer == FATAL {
            found.outcome.written[0][position * SHEET..(position + 1) * SHEET].copy_from_slice(&one.written[0]);
        }
    }
    Ok(found)
}

/// The disks that are erased at any position.
pub fn at_any(maps: &[Vec<u8>]) -> Vec<u8> {
    (0..maps[0].len()).map(|disk| u8::from(maps.iter().any(|marks| marks[disk] == 1))).collect()
}

/// With 6 the lost disks of all positions in the count.
pub fn all_counted(grid: Grid, sectors: usize, map: &[u8], sheets: &[u8]) -> FoundAt {
    let mut found = ffi::plan(grid, sectors, map, sheets)?;
    if found.outcome.answer == FATAL {
        let mut count = 0;
        for marks in parts(map, 1, sectors) {
            let one = ffi::plan(grid, 1, &marks, &[0; SHEET])?.outcome;
            count += one.out.filter(|_| one.answer == FATAL).unwrap_or(0);
        }
        found.outcome.out = Some(count);
    }
    Ok(found)
}

/// A sector length that is refused taken for that of the block.
pub fn taken_whole(cut: Cut, wrong: bool) -> Cut {
    if wrong {
        return Cut::whole(cut.size);
    }
    cut
}

pub fn longer(cut: Cut) -> Cut {
    taken_whole(cut, cut.sector > cut.size.block)
}

pub fn zero(cut: Cut) -> Cut {
    taken_whole(cut, cut.sector == 0)
}

/// The length in 32 bits.
pub fn narrow(cut: Cut) -> Cut {
    Cut { sector: cut.sector & 0xffff_ffff, ..cut }
}

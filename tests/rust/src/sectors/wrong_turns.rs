//! Turns of rebuild with a fault, made of the library's own.

use super::calls::FoundAt;
use super::parts::{joined, parts};
use super::wrong::{exchanged, reversed, reversed_sheets, saved_alone, sectors_of, Zero};
use crate::ffi;
use crate::model::{CONTRADICTORY, FATAL, SUCCESS};
use crate::outcome::{Outcome, Placed};
use crate::sheet::SHEET;
use crate::size::Cut;

/// All disks of position 0 come first in the map.
pub fn exchanged_rebuild(cut: Cut, array: &[u8], map: &[u8], sheets: &[u8], limit: usize) -> FoundAt {
    let mut found = ffi::rebuild(cut, array, &exchanged(sectors_of(cut), map), sheets, limit)?;
    let left = &found.outcome.written[1];
    found.outcome.written[1] = match found.outcome.answer {
        SUCCESS | FATAL | CONTRADICTORY => parts(left, 1, cut.sectors()).concat(),
        _ => map.to_vec(),
    };
    Ok(found)
}

/// A turn from the last position on. With 6 it is as it should be.
pub fn backward_turn(cut: Cut, array: &[u8], map: &[u8], sheets: &[u8], limit: usize) -> FoundAt {
    let right = ffi::rebuild(cut, array, map, sheets, limit)?;
    if right.outcome.answer != SUCCESS {
        return Ok(right);
    }
    let sectors = cut.sectors();
    let (array, map) = (reversed(array, cut.sector, sectors), reversed(map, 1, sectors));
    let mut found = ffi::rebuild(cut, &array, &map, sheets, limit)?;
    let [array, map, sheets] = [0, 1, 2].map(|buffer| found.outcome.written[buffer].clone());
    found.outcome.written =
        vec![reversed(&array, cut.sector, sectors), reversed(&map, 1, sectors), reversed_sheets(&sheets)];
    Ok(found)
}

/// Something else stands in the array after 7.
pub fn rebuild_zeroing(cut: Cut, array: &[u8], map: &[u8], sheets: &[u8], limit: usize, zero: Zero) -> FoundAt {
    let mut found = ffi::rebuild(cut, array, map, sheets, limit)?;
    if found.outcome.answer == CONTRADICTORY {
        found.outcome.written[0] = zero(cut, array, map)?;
    }
    Ok(found)
}

/// With 6 the repairs of the positions that are not fatal are made.
pub fn others_repaired(cut: Cut, array: &[u8], map: &[u8], sheets: &[u8], limit: usize) -> FoundAt {
    let mut found = ffi::rebuild(cut, array, map, sheets, limit)?;
    if found.outcome.answer == FATAL {
        let mut maps = parts(map, 1, cut.sectors());
        for marks in &mut maps {
            if ffi::plan(cut.size.grid, 1, marks, &[0; SHEET])?.outcome.answer == FATAL {
                marks.fill(0);
            }
        }
        let others = ffi::rebuild(cut, array, &joined(&maps, 1), sheets, limit)?;
        found.outcome.written[0] = others.outcome.written[0].clone();
    }
    Ok(found)
}

/// As many repairs as the limit says at each position.
pub fn limit_each(cut: Cut, array: &[u8], map: &[u8], sheets: &[u8], limit: usize) -> FoundAt {
    let right = ffi::rebuild(cut, array, map, sheets, limit)?;
    if right.outcome.answer != SUCCESS {
        return Ok(right);
    }
    let (arrays, maps) = (parts(array, cut.sector, cut.sectors()), parts(map, 1, cut.sectors()));
    let alone = Cut::whole(cut.position());
    let one = |(array, map): (&Vec<u8>, &Vec<u8>)| ffi::rebuild(alone, array, map, &[0; SHEET], limit);
    let turns = arrays.iter().zip(&maps).map(one).collect::<Result<Vec<Placed>, String>>()?;
    if turns.iter().any(|turn| turn.outcome.answer != SUCCESS) {
        return Ok(right);
    }
    let [arrays, maps, sheets] =
        [0, 1, 2].map(|buffer| turns.iter().map(|turn| turn.outcome.written[buffer].clone()).collect::<Vec<Vec<u8>>>());
    let out = Some(turns.iter().filter_map(|turn| turn.outcome.out).sum());
    let written = vec![joined(&arrays, cut.sector), joined(&maps, 1), sheets.concat()];
    Ok(Placed::nowhere(Outcome { answer: SUCCESS, out, written }))
}

/// A turn ends where the first position with a loss does.
pub fn one_position_a_turn(cut: Cut, array: &[u8], map: &[u8], sheets: &[u8], limit: usize) -> FoundAt {
    let right = ffi::rebuild(cut, array, map, sheets, limit)?;
    if right.outcome.answer != SUCCESS {
        return Ok(right);
    }
    let counts = parts(map, 1, cut.sectors()).into_iter().map(|marks| marks.iter().filter(|&&mark| mark == 1).count());
    let first = counts.into_iter().find(|&count| count > 0).unwrap_or(limit);
    ffi::rebuild(cut, array, map, sheets, limit.min(first))
}

/// Each position is checked in the turn that clears it, and no other then.
pub fn checked_early(cut: Cut, array: &[u8], map: &[u8], sheets: &[u8], limit: usize) -> FoundAt {
    let mut right = ffi::rebuild(cut, array, map, sheets, limit)?;
    if right.outcome.answer != SUCCESS {
        return Ok(right);
    }
    let (before, after) = (parts(map, 1, cut.sectors()), parts(&right.outcome.written[1], 1, cut.sectors()));
    let saved = saved_alone(cut, array, map)?;
    let cleared = |position: usize| before[position].contains(&1) && !after[position].contains(&1);
    if (0..cut.sectors()).any(|position| cleared(position) && saved[position].answer == CONTRADICTORY) {
        right.outcome.answer = CONTRADICTORY;
    }
    Ok(right)
}

/// Only positions that had a loss are checked.
pub fn only_repaired_checked(cut: Cut, array: &[u8], map: &[u8], sheets: &[u8], limit: usize) -> FoundAt {
    let right = ffi::rebuild(cut, array, map, sheets, limit)?;
    if right.outcome.answer != CONTRADICTORY {
        return Ok(right);
    }
    let (saved, maps) = (saved_alone(cut, array, map)?, parts(map, 1, cut.sectors()));
    let shows = |(outcome, marks): (&Outcome, &Vec<u8>)| outcome.answer == CONTRADICTORY && marks.contains(&1);
    if saved.iter().zip(&maps).any(shows) {
        return Ok(right);
    }
    let planned = ffi::plan(cut.size.grid, cut.sectors(), map, sheets)?.outcome;
    let arrays: Vec<Vec<u8>> = saved.into_iter().map(|mut outcome| outcome.written.remove(0)).collect();
    let written = vec![joined(&arrays, cut.sector), vec![0; map.len()], planned.written[0].clone()];
    Ok(Placed::nowhere(Outcome { answer: SUCCESS, out: planned.out, written }))
}

/// A disk with an erased sector counts as erased at every position.
pub fn whole_disks(cut: Cut, array: &[u8], map: &[u8], sheets: &[u8], limit: usize) -> FoundAt {
    let right = ffi::rebuild(cut, array, map, sheets, limit)?;
    if right.outcome.answer != SUCCESS {
        return Ok(right);
    }
    let wide = |marks: &[u8]| vec![u8::from(marks.contains(&1)); marks.len()];
    let map: Vec<u8> = map.chunks_exact(cut.sectors()).flat_map(wide).collect();
    ffi::rebuild(cut, array, &map, sheets, limit)
}

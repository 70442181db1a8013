//! The calls that take sectors, by the words of paper 02's P6 and of its fine points. Each position is an array by itself, of
//! which the model without sectors says what is due; here is what is said of all of them together.

use super::parts::{joined, part, parts};
use crate::equations::add;
use crate::model::{
    self, erased_disks, CONTRADICTORY, FATAL, LEFTOVERS, NOT_ALLOWED, NO_REPAIRS, OUT_OF_RANGE, SUCCESS, TWICE,
};
use crate::outcome::{Outcome, Placed};
use crate::rebuild::AT_ONCE;
use crate::sheet::{of_repairs, plans_order, Record, SHEET};
use crate::size::{Cut, Grid};

/// The status of a sector length that does not divide the block, and for plan of a number of sectors out of range.
pub const WRONG_SECTOR: usize = 16;
/// The most sectors of a block.
pub const SECTORS_MAX: usize = 4096;

/// What follow judges on all positions, one number after another.
pub const JUDGED: [usize; 5] = [OUT_OF_RANGE, TWICE, LEFTOVERS, NOT_ALLOWED, CONTRADICTORY];

/// Refusal 4: the map has a byte for each disk and sector, 0 or 1.
fn map_refusal(grid: Grid, sectors: usize, map: &[u8]) -> usize {
    if map.len() == grid.disks() * sectors && map.iter().all(|&mark| mark <= 1) {
        return SUCCESS;
    }
    4
}

/// Refusal 5: there is one sheet for each position.
fn sheets_refusal(sectors: usize, sheets: &[u8]) -> usize {
    if sheets.len() == SHEET * sectors {
        return SUCCESS;
    }
    5
}

fn plan_refusal(grid: Grid, sectors: usize, map: &[u8], sheets: &[u8]) -> usize {
    if model::side_refusal(grid) != SUCCESS {
        return model::side_refusal(grid);
    }
    if !(1..=SECTORS_MAX).contains(&sectors) {
        return WRONG_SECTOR;
    }
    match map_refusal(grid, sectors, map) {
        SUCCESS => sheets_refusal(sectors, sheets),
        refusal => refusal,
    }
}

/// Refusals 1, 2, 3, 16 and 4, with which all calls on an array begin.
fn array_refusal(cut: Cut, array: &[u8], map: &[u8]) -> usize {
    let refusal = model::array_refusal(cut.size, array);
    if refusal != SUCCESS {
        return refusal;
    }
    if cut.sector == 0 || cut.size.block % cut.sector != 0 {
        return WRONG_SECTOR;
    }
    map_refusal(cut.size.grid, cut.sectors(), map)
}

/// The same and 5, with which rebuild and follow begin.
fn restore_refusal(cut: Cut, array: &[u8], map: &[u8], sheets: &[u8]) -> usize {
    match array_refusal(cut, array, map) {
        SUCCESS => sheets_refusal(cut.sectors(), sheets),
        refusal => refusal,
    }
}

/// A block only if all its sectors are present, as that part of the array.
pub fn look(cut: Cut, array: &[u8], map: &[u8], disk: usize) -> Outcome {
    let empty = Outcome::reading(0, None);
    if array_refusal(cut, array, map) != SUCCESS || disk >= cut.size.disks() {
        return empty;
    }
    if map[disk * cut.sectors()..(disk + 1) * cut.sectors()].contains(&1) {
        return empty;
    }
    Outcome::reading(cut.size.block, Some(disk * cut.size.block))
}

/// The counts of all positions, added up.
fn summed(outcomes: &[Outcome]) -> Option<usize> {
    Some(outcomes.iter().filter_map(|outcome| outcome.out).sum())
}

/// What some buffer of each outcome holds.
fn written(outcomes: &[Outcome], buffer: usize) -> Vec<Vec<u8>> {
    outcomes.iter().map(|outcome| outcome.written[buffer].clone()).collect()
}

/// A fatal position refuses the whole plan: the lowest is named, its sheet shows its smallest loop and the other sheets are
/// zero.
pub fn plan(grid: Grid, sectors: usize, map: &[u8], sheets: &[u8]) -> Placed {
    let refusal = plan_refusal(grid, sectors, map, sheets);
    if refusal != SUCCESS {
        return Placed::nowhere(Outcome { answer: refusal, out: None, written: vec![sheets.to_vec()] });
    }
    let planned: Vec<Outcome> =
        parts(map, 1, sectors).iter().map(|marks| model::plan(grid, marks, &[0; SHEET])).collect();
    let Some(position) = planned.iter().position(|outcome| outcome.answer == FATAL) else {
        let written = vec![written(&planned, 0).concat()];
        return Placed::nowhere(Outcome { answer: SUCCESS, out: summed(&planned), written });
    };
    let mut shown = vec![0; SHEET * sectors];
    shown[position * SHEET..(position + 1) * SHEET].copy_from_slice(&planned[position].written[0]);
    let outcome = Outcome { answer: FATAL, out: planned[position].out, written: vec![shown] };
    Placed { outcome, position: Some(position) }
}

/// A repair at a position.
pub type Step = (usize, Record);

/// Plan's repairs of a loss that is not fatal, the positions in rising order.
pub fn plans_steps(grid: Grid, sectors: usize, map: &[u8]) -> Vec<Step> {
    let at = |position: usize| {
        let (repairs, _) = plans_order(grid, &erased_disks(&part(map, 1, sectors, position)));
        repairs.into_iter().map(move |repair| (position, repair))
    };
    (0..sectors).flat_map(at).collect()
}

/// Sets a sector to the sum of the sectors that the other disks of a stripe have at its position.
pub fn repair(cut: Cut, array: &mut [u8], (position, (disk, stripe)): Step) {
    let sector = |disk: usize| {
        let begin = disk * cut.size.block + position * cut.sector;
        begin..begin + cut.sector
    };
    let mut sum = vec![0; cut.sector];
    for other in model::stripe_disks(cut.size.grid, stripe).into_iter().filter(|&other| other != disk) {
        add(&mut sum, &array[sector(other)]);
    }
    array[sector(disk)].copy_from_slice(&sum);
}

/// A turn that leaves sectors erased: these repairs are made, and nothing is checked.
fn unchecked_turn(cut: Cut, array: &[u8], map: &[u8], steps: &[Step]) -> Outcome {
    let (mut restored, mut left) = (array.to_vec(), map.to_vec());
    for &(position, (disk, stripe)) in steps {
        repair(cut, &mut restored, (position, (disk, stripe)));
        left[disk * cut.sectors() + position] = 0;
    }
    let listed = |position: usize| {
        let repairs = steps.iter().filter(|step| step.0 == position).map(|step| step.1);
        of_repairs(&repairs.collect::<Vec<Record>>())
    };
    let sheets: Vec<Vec<u8>> = (0..cut.sectors()).map(listed).collect();
    Outcome { answer: SUCCESS, out: Some(steps.len()), written: vec![restored, left, sheets.concat()] }
}

/// The array with zeros in every erased sector, at all positions.
fn zeroed(cut: Cut, array: &[u8], map: &[u8]) -> Vec<u8> {
    let mut zeroed = array.to_vec();
    let sectors = zeroed.chunks_exact_mut(cut.sector).zip(map);
    sectors.filter(|(_, &mark)| mark == 1).for_each(|(sector, _)| sector.fill(0));
    zeroed
}

/// A turn after which no sector is erased. 7 judges all positions together.
fn last_turn(cut: Cut, array: &[u8], map: &[u8]) -> Outcome {
    let (arrays, maps) = (parts(array, cut.sector, cut.sectors()), parts(map, 1, cut.sectors()));
    let at_once = |(array, map): (&Vec<u8>, &Vec<u8>)| model::rebuild(cut.position(), array, map, &[0; SHEET], AT_ONCE);
    let rebuilt: Vec<Outcome> = arrays.iter().zip(&maps).map(at_once).collect();
    if rebuilt.iter().any(|outcome| outcome.answer == CONTRADICTORY) {
        let written = vec![zeroed(cut, array, map), map.to_vec(), vec![0; SHEET * cut.sectors()]];
        return Outcome { answer: CONTRADICTORY, out: None, written };
    }
    let restored = joined(&written(&rebuilt, 0), cut.sector);
    let written = vec![restored, vec![0; map.len()], written(&rebuilt, 2).concat()];
    Outcome { answer: SUCCESS, out: summed(&rebuilt), written }
}

/// One turn: the first repairs of plan, at most so many over all positions.
pub fn rebuild(cut: Cut, array: &[u8], map: &[u8], sheets: &[u8], limit: usize) -> Placed {
    let kept = |answer: usize, out: Option<usize>, sheets: &[u8]| {
        let written = vec![array.to_vec(), map.to_vec(), sheets.to_vec()];
        Outcome { answer, out, written }
    };
    let refusal = restore_refusal(cut, array, map, sheets);
    if refusal != SUCCESS {
        return Placed::nowhere(kept(refusal, None, sheets));
    }
    if limit == 0 {
        return Placed::nowhere(kept(NO_REPAIRS, None, sheets));
    }
    let planned = plan(cut.size.grid, cut.sectors(), map, sheets);
    if planned.outcome.answer == FATAL {
        let outcome = kept(FATAL, planned.outcome.out, &planned.outcome.written[0]);
        return Placed { outcome, position: planned.position };
    }
    let steps = plans_steps(cut.size.grid, cut.sectors(), map);
    if limit < steps.len() {
        return Placed::nowhere(unchecked_turn(cut, array, map, &steps[..limit]));
    }
    Placed::nowhere(last_turn(cut, array, map))
}

/// Each number is judged on all positions before the next one. With 7 every erased sector is zero.
pub fn follow(cut: Cut, array: &[u8], map: &[u8], sheets: &[u8]) -> Outcome {
    let refusal = restore_refusal(cut, array, map, sheets);
    if refusal != SUCCESS {
        return Outcome::writing(refusal, array.to_vec());
    }
    let (arrays, maps) = (parts(array, cut.sector, cut.sectors()), parts(map, 1, cut.sectors()));
    let one = |((array, map), sheet): ((&Vec<u8>, &Vec<u8>), &[u8])| model::follow(cut.position(), array, map, sheet);
    let followed: Vec<Outcome> = arrays.iter().zip(&maps).zip(sheets.chunks_exact(SHEET)).map(one).collect();
    match JUDGED.into_iter().find(|&number| followed.iter().any(|outcome| outcome.answer == number)) {
        Some(CONTRADICTORY) => Outcome::writing(CONTRADICTORY, zeroed(cut, array, map)),
        Some(refusal) => Outcome::writing(refusal, array.to_vec()),
        None => {
            let restored = joined(&written(&followed, 0), cut.sector);
            Outcome { answer: SUCCESS, out: summed(&followed), written: vec![restored] }
        }
    }
}

/// Every sector that its position determines, or zeros in every erased one where the survivors of some position contradict.
pub fn save(cut: Cut, array: &[u8], map: &[u8]) -> Outcome {
    let refusal = array_refusal(cut, array, map);
    if refusal != SUCCESS {
        return Outcome::writing(refusal, array.to_vec());
    }
    let (arrays, maps) = (parts(array, cut.sector, cut.sectors()), parts(map, 1, cut.sectors()));
    let saved: Vec<Outcome> =
        arrays.iter().zip(&maps).map(|(array, map)| model::save(cut.position(), array, map)).collect();
    if saved.iter().any(|outcome| outcome.answer == CONTRADICTORY) {
        return Outcome::writing(CONTRADICTORY, zeroed(cut, array, map));
    }
    Outcome { answer: SUCCESS, out: summed(&saved), written: vec![joined(&written(&saved, 0), cut.sector)] }
}

//! As many sectors as there can be: 4,096 of one byte, at the largest grid and at the narrowest, with as many repairs as can
//! be, in one turn and in some, and with the last position fatal or contradictory.

use super::input::Input;
use super::mixture::{lists, Kind, Mixture, KINDS};
use super::parts::joined;
use super::positions::SECTORS_MAX;
use super::turns::Start;
use crate::inputs::{sealed_array, LARGEST, SIDE_MAX, SIDE_MIN};
use crate::losses::{self, forget};
use crate::random::Random;
use crate::rebuild::AT_ONCE;
use crate::sheet::SHEET;
use crate::size::{Cut, Grid};
use crate::{cores, Run};
use std::sync::atomic::{AtomicUsize, Ordering};

const GRIDS: [Grid; 3] = [LARGEST, Grid::new(SIDE_MIN, SIDE_MAX), Grid::new(SIDE_MAX, SIDE_MIN)];
/// The most repairs: 31 at each of 4,096 positions.
const REPAIRS: u64 = 126_976;
/// What a turn may make: it ends within a position, and the third turn is the last at the largest grid.
const LIMIT: usize = 50_000;

/// A sealed array that has lost as many disks as can be restored at each position.
fn full(random: &mut Random, cut: Cut) -> (Input, Vec<u8>) {
    let marks: Vec<Vec<u8>> = (0..cut.sectors()).map(|_| losses::map(random, cut.size.grid, 3)).collect();
    let (sealed, map) = (sealed_array(random, cut.size), joined(&marks, 1));
    let mut array = sealed.clone();
    forget(random, cut.position(), &mut array, &map);
    let sheets = random.bytes(SHEET * cut.sectors());
    (Input::new(cut, array, map, sheets), sealed)
}

/// All calls, and what plan counts.
fn full_losses(run: &mut Run, cut: Cut, most: &AtomicUsize) {
    let (mut input, sealed) = full(&mut run.random, cut);
    input.plan(run);
    Start::new(&input, Some(&sealed)).compare(run, LIMIT);
    input.limit = AT_ONCE;
    let rebuilt = input.rebuild(run);
    let count = rebuilt.and_then(|rebuilt| rebuilt.outcome.out).unwrap_or(0);
    most.fetch_max(count, Ordering::Relaxed);
    input.save(run);
    Input { sheets: lists(&mut run.random, cut, &input.map).concat(), ..input }.follow(run);
}

/// All positions can be restored but for the last, which is of this kind.
fn last_position(run: &mut Run, cut: Cut, last: Kind) {
    let mut kinds = vec![KINDS[1]; cut.sectors()];
    kinds[cut.sectors() - 1] = last;
    let input = Mixture::of(&mut run.random, cut, &kinds).input;
    input.plan(run);
    input.rebuild(run);
    input.save(run);
}

pub fn run(run: &mut Run) {
    let (name, most) = ("sectors, as many as there can be", AtomicUsize::new(0));
    cores::share(run, name, 3 * GRIDS.len(), |run, part| {
        let cut = Cut::new(GRIDS[part / 3], SECTORS_MAX, 1);
        match part % 3 {
            0 => full_losses(run, cut, &most),
            1 => last_position(run, cut, KINDS[2]),
            _ => last_position(run, cut, KINDS[4]),
        }
    });
    run.tally.number("the most repairs of a turn", REPAIRS, most.into_inner() as u64);
    run.tally.report(name, &[0, 6, 7]);
}

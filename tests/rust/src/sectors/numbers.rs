//! Which number follow gives: each assignment of its numbers to up to four positions. The number that stands first in
//! follow's list is due, whatever its position.

use super::input::Input;
use super::mixture::{lists, small_cut, Kind, Mixture, KINDS};
use crate::model::{CONTRADICTORY, LEFTOVERS, NOT_ALLOWED, OUT_OF_RANGE, SUCCESS, TWICE};
use crate::random::Random;
use crate::sheet::{place_of, RECORDS};
use crate::sheets::{clean, links, litter, other_kind};
use crate::{cores, Run};

/// What a position can get, in follow's order. The last is that nothing is wrong.
const NUMBERS: [usize; 6] = [OUT_OF_RANGE, TWICE, LEFTOVERS, NOT_ALLOWED, CONTRADICTORY, SUCCESS];
/// How often each assignment is tried, for one position, for two, and so on.
const TIMES: [usize; 4] = [500, 200, 60, 20];
/// The largest numbers of rows and columns.
const BOUND: usize = 5;

/// Some number of the chain, that of the first record or a next one, becomes one that no record has.
fn lead_outside(random: &mut Random, sheet: &mut [u8]) {
    let any = random.between(RECORDS + 1, 255) as u8;
    sheet[random.pick(&links(sheet))] = random.pick(&[RECORDS as u8 + 1, 255, any]);
}

/// The last record leads to one of the chain, its own number included. A chain without records gets one first.
fn close(random: &mut Random, sheet: &mut [u8]) {
    sheet[1] = sheet[1].max(1);
    let links = links(sheet);
    sheet[links[links.len() - 1]] = sheet[links[random.below(links.len() - 1)]];
}

/// A stripe that no grid has in the first record, no first record, or no repair at all.
fn forbid(random: &mut Random, sheet: &mut [u8]) {
    let first = place_of(sheet[1].max(1) as usize);
    match random.below(3) {
        0 => sheet[first + 1] = random.pick(&[32, 255]),
        1 => sheet[1] = sheet[first + 2],
        _ => sheet[1] = 0,
    }
}

/// Makes of a sheet that can be followed one that gets this number. There have to be repairs for 11.
pub fn spoil(random: &mut Random, number: usize, sheet: &mut [u8]) {
    match number {
        OUT_OF_RANGE if random.one_in(2) => sheet[0] = other_kind(random),
        OUT_OF_RANGE => lead_outside(random, sheet),
        TWICE => close(random, sheet),
        NOT_ALLOWED => forbid(random, sheet),
        _ => (),
    }
    clean(sheet);
    if number == LEFTOVERS {
        litter(random, sheet);
    }
}

/// What a position is that gets this number.
fn kind(random: &mut Random, number: usize) -> Kind {
    let (loss, contradictory) = (number == NOT_ALLOWED || !random.one_in(4), number == CONTRADICTORY);
    KINDS[usize::from(loss) + 3 * usize::from(contradictory)]
}

/// An input whose positions get these numbers.
fn draw(random: &mut Random, numbers: &[usize]) -> Input {
    let cut = small_cut(random, BOUND, numbers.len());
    let kinds: Vec<Kind> = numbers.iter().map(|&number| kind(random, number)).collect();
    let mut input = Mixture::of(random, cut, &kinds).input;
    let mut lists = lists(random, cut, &input.map);
    lists.iter_mut().zip(numbers).for_each(|(sheet, &number)| spoil(random, number, sheet));
    input.sheets = lists.concat();
    input
}

/// The numbers of so many positions, by their assignment.
fn numbers_of(assignment: usize, positions: usize) -> Vec<usize> {
    (0..positions as u32).map(|position| NUMBERS[assignment / NUMBERS.len().pow(position) % NUMBERS.len()]).collect()
}

/// One assignment, and what the order of the numbers says of it.
pub fn assignment(run: &mut Run, assignment: usize, positions: usize) {
    let numbers = numbers_of(assignment, positions);
    let input = draw(&mut run.random, &numbers);
    let due = input.follow(run);
    let first = NUMBERS.into_iter().find(|number| numbers.contains(number));
    // A model that judges the numbers in another order would be nothing to compare with.
    assert_eq!(Some(due.answer), first, "numbers {numbers:?}, sheets {:?}", input.sheets);
}

/// How many assignments there are.
pub fn assignments(positions: usize) -> usize {
    NUMBERS.len().pow(positions as u32)
}

pub fn run(run: &mut Run, rounds: usize) {
    for (positions, times) in (1..).zip(TIMES) {
        let name = format!("sectors, follow's numbers, positions {positions}");
        cores::share(run, &name, assignments(positions), |run, part| {
            (0..rounds * times).for_each(|_| assignment(run, part, positions));
        });
        run.tally.report(&name, &NUMBERS);
    }
}

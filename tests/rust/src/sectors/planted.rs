//! Faults planted in the calls that take sectors: the comparisons have to find each of them by inputs of their own, and have
//! to find nothing wrong with the library.

use super::calls::{Calls, LIBRARY};
use super::mixture::{kinds_of, small_cut, Mixture, KINDS};
use super::positions::WRONG_SECTOR;
use super::turns::Start;
use super::{arguments, faults, lengths, mixtures, numbers, turns, wrong, wrong_turns};
use crate::ffi;
use crate::model::{CONTRADICTORY, SUCCESS};
use crate::outcome::Outcome;
use crate::random::Random;
use crate::size::{Grid, Size};
use crate::tally::{must, Tally};
use crate::{cores, Run};
use std::sync::atomic::{AtomicU64, Ordering};

/// Positions and disks taken for each other, or positions in another order.
const POSITIONS: [(&str, Calls); 11] = [
    (
        "positions and disks swapped in the map's index, plan",
        Calls { plan: |grid, n, map, sheets| ffi::plan(grid, n, &wrong::exchanged(n, map), sheets), ..LIBRARY },
    ),
    (
        "positions and disks swapped in the map's index, rebuild",
        Calls { rebuild: wrong_turns::exchanged_rebuild, ..LIBRARY },
    ),
    (
        "positions and disks swapped in the map's index, follow",
        Calls {
            follow: |cut, array, map, sheets| {
                ffi::follow(cut, array, &wrong::exchanged(wrong::sectors_of(cut), map), sheets)
            },
            ..LIBRARY
        },
    ),
    (
        "positions and disks swapped in the map's index, save",
        Calls {
            save: |cut, array, map| ffi::save(cut, array, &wrong::exchanged(wrong::sectors_of(cut), map)),
            ..LIBRARY
        },
    ),
    (
        "positions and disks swapped in the map's index, look",
        Calls {
            look: |cut, array, map, disk| ffi::look(cut, array, &wrong::exchanged(wrong::sectors_of(cut), map), disk),
            ..LIBRARY
        },
    ),
    (
        "position counted from 1",
        Calls {
            plan: |grid, n, map, sheets| wrong::from_one(ffi::plan(grid, n, map, sheets)),
            rebuild: |cut, array, map, sheets, limit| wrong::from_one(ffi::rebuild(cut, array, map, sheets, limit)),
            ..LIBRARY
        },
    ),
    ("the highest fatal position", Calls { plan: wrong::backward_plan, ..LIBRARY }),
    ("turns from the last position", Calls { rebuild: wrong_turns::backward_turn, ..LIBRARY }),
    (
        "sheets from the last position",
        Calls {
            plan: |grid, n, map, sheets| {
                let mut found = ffi::plan(grid, n, map, sheets)?;
                if found.outcome.answer == SUCCESS {
                    found.outcome.written[0] = wrong::reversed_sheets(&found.outcome.written[0]);
                }
                Ok(found)
            },
            ..LIBRARY
        },
    ),
    (
        "a disk with an erased sector counts as erased at each position",
        Calls { rebuild: wrong_turns::whole_disks, ..LIBRARY },
    ),
    (
        "a position without 6",
        Calls {
            plan: |grid, n, map, sheets| {
                let mut found = ffi::plan(grid, n, map, sheets)?;
                found.position = found.position.or((found.outcome.answer == SUCCESS).then_some(0));
                Ok(found)
            },
            ..LIBRARY
        },
    ),
];

/// What is said of all positions taken for what is said of one, or the other way around.
const TOGETHER: [(&str, Calls); 18] = [
    ("the other positions repaired although one is fatal", Calls { rebuild: wrong_turns::others_repaired, ..LIBRARY }),
    ("the other positions listed although one is fatal", Calls { plan: wrong::others_listed, ..LIBRARY }),
    ("the lost disks of all positions in the count of 6", Calls { plan: wrong::all_counted, ..LIBRARY }),
    (
        "the loop of the last position",
        Calls {
            plan: |grid, n, map, sheets| wrong::shown_for(grid, n, map, sheets, |maps| maps[maps.len() - 1].clone()),
            ..LIBRARY
        },
    ),
    (
        "a loop of disks that are erased at any position",
        Calls { plan: |grid, n, map, sheets| wrong::shown_for(grid, n, map, sheets, wrong::at_any), ..LIBRARY },
    ),
    (
        "7 zeroes one position only, rebuild",
        Calls {
            rebuild: |cut, array, map, sheets, limit| {
                wrong_turns::rebuild_zeroing(cut, array, map, sheets, limit, wrong::one_zeroed)
            },
            ..LIBRARY
        },
    ),
    (
        "7 zeroes one position only, follow",
        Calls {
            follow: |cut, array, map, sheets| {
                wrong::zeroing(ffi::follow(cut, array, map, sheets), cut, array, map, wrong::one_zeroed)
            },
            ..LIBRARY
        },
    ),
    (
        "7 zeroes one position only, save",
        Calls {
            save: |cut, array, map| wrong::zeroing(ffi::save(cut, array, map), cut, array, map, wrong::one_zeroed),
            ..LIBRARY
        },
    ),
    (
        "7 at some positions and repairs at the others, rebuild",
        Calls {
            rebuild: |cut, array, map, sheets, limit| {
                wrong_turns::rebuild_zeroing(cut, array, map, sheets, limit, wrong::each_by_itself)
            },
            ..LIBRARY
        },
    ),
    (
        "7 at some positions and repairs at the others, save",
        Calls {
            save: |cut, array, map| wrong::zeroing(ffi::save(cut, array, map), cut, array, map, wrong::each_by_itself),
            ..LIBRARY
        },
    ),
    ("7 as soon as a position is clear", Calls { rebuild: wrong_turns::checked_early, ..LIBRARY }),
    ("7 only for positions with a loss", Calls { rebuild: wrong_turns::only_repaired_checked, ..LIBRARY }),
    (
        "the sheets left with 7",
        Calls {
            rebuild: |cut, array, map, sheets, limit| {
                let mut found = ffi::rebuild(cut, array, map, sheets, limit)?;
                if found.outcome.answer == CONTRADICTORY {
                    found.outcome.written[2] = sheets.to_vec();
                }
                Ok(found)
            },
            ..LIBRARY
        },
    ),
    ("the limit for each position", Calls { rebuild: wrong_turns::limit_each, ..LIBRARY }),
    ("a turn ends with its position", Calls { rebuild: wrong_turns::one_position_a_turn, ..LIBRARY }),
    ("save does nothing where a position is fatal", Calls { save: wrong::none_saved, ..LIBRARY }),
    ("follow judges one position after another", Calls { follow: wrong::follow_in_turn, ..LIBRARY }),
    (
        "follow judges 11 at position 0 before 10 at position 1",
        Calls { follow: wrong::follow_repairs_first, ..LIBRARY },
    ),
];

/// Counts, kinds, looks, and the order and the range of refusals.
const OTHERS: [(&str, Calls); 19] = [
    (
        "the count of the last position, plan",
        Calls {
            plan: |grid, n, map, sheets| wrong::counting_last(ffi::plan(grid, n, map, sheets)?, map, n),
            ..LIBRARY
        },
    ),
    (
        "the count of the last position, follow",
        Calls {
            follow: |cut, array, map, sheets| {
                wrong::last_counted(ffi::follow(cut, array, map, sheets)?, map, wrong::sectors_of(cut))
            },
            ..LIBRARY
        },
    ),
    (
        "the count of the last position, save",
        Calls {
            save: |cut, array, map| wrong::last_counted(ffi::save(cut, array, map)?, map, wrong::sectors_of(cut)),
            ..LIBRARY
        },
    ),
    (
        "zeros for a position without repairs, plan",
        Calls { plan: |grid, n, map, sheets| wrong::without_kind(ffi::plan(grid, n, map, sheets)?), ..LIBRARY },
    ),
    (
        "zeros for a position without repairs, rebuild",
        Calls {
            rebuild: |cut, array, map, sheets, limit| {
                wrong::without_kind(ffi::rebuild(cut, array, map, sheets, limit)?)
            },
            ..LIBRARY
        },
    ),
    ("look with one sector present", Calls { look: wrong::one_present, ..LIBRARY }),
    ("look by the first sector", Calls { look: wrong::first_present, ..LIBRARY }),
    (
        "16 after 4, plan",
        Calls {
            plan: |grid, n, map, sheets| wrong::placed_after_map(ffi::plan(grid, n, map, sheets)?, grid, n, map),
            ..LIBRARY
        },
    ),
    (
        "16 after 4, rebuild",
        Calls {
            rebuild: |cut, array, map, sheets, limit| {
                let found = ffi::rebuild(cut, array, map, sheets, limit)?;
                wrong::placed_after_map(found, cut.size.grid, wrong::sectors_of(cut), map)
            },
            ..LIBRARY
        },
    ),
    (
        "16 after 4, follow",
        Calls {
            follow: |cut, array, map, sheets| {
                wrong::after_map(ffi::follow(cut, array, map, sheets)?, cut.size.grid, wrong::sectors_of(cut), map)
            },
            ..LIBRARY
        },
    ),
    (
        "16 after 4, save",
        Calls {
            save: |cut, array, map| {
                wrong::after_map(ffi::save(cut, array, map)?, cut.size.grid, wrong::sectors_of(cut), map)
            },
            ..LIBRARY
        },
    ),
    (
        "16 before 3",
        Calls {
            save: |cut, array, map| match ffi::save(cut, array, map)? {
                found if found.answer == 3 && !wrong::divides(cut) => Ok(Outcome { answer: WRONG_SECTOR, ..found }),
                found => Ok(found),
            },
            ..LIBRARY
        },
    ),
    (
        "a length above the block taken for it",
        Calls { save: |cut, array, map| ffi::save(wrong::longer(cut), array, map), ..LIBRARY },
    ),
    (
        "a length of 0 taken for the block",
        Calls { save: |cut, array, map| ffi::save(wrong::zero(cut), array, map), ..LIBRARY },
    ),
    ("the length in 32 bits", Calls { save: |cut, array, map| ffi::save(wrong::narrow(cut), array, map), ..LIBRARY }),
    (
        "look with a length above the block",
        Calls { look: |cut, array, map, disk| ffi::look(wrong::longer(cut), array, map, disk), ..LIBRARY },
    ),
    (
        "the number of sectors in 32 bits",
        Calls { plan: |grid, n, map, sheets| ffi::plan(grid, n & 0xffff_ffff, map, sheets), ..LIBRARY },
    ),
    (
        "the number of sectors in 16 bits",
        Calls { plan: |grid, n, map, sheets| ffi::plan(grid, n & 0xffff, map, sheets), ..LIBRARY },
    ),
    ("4,096 sectors are too many", Calls { plan: wrong::too_many, ..LIBRARY }),
];

/// The limit of turns for each set of kinds.
const LIMIT: usize = 2;
/// How many mixtures are rebuilt in turns of every limit, and how many arguments are drawn, for each fault.
const MIXTURES: usize = 20;
const DRAWS: usize = 100;
/// Where the mixtures of each set of kinds are, and the blocks with every length of a sector.
const GRID: Grid = Grid::new(2, 2);
const BOUND: usize = 3;
const BLOCKS: [usize; 2] = [6, 12];

/// Comparisons of all kinds, some of each.
fn sample(run: &mut Run) {
    for set in 1..1 << KINDS.len() {
        let kinds = kinds_of(set);
        let cut = small_cut(&mut run.random, BOUND, kinds.len() + set % 2);
        let mixture = Mixture::draw(&mut run.random, cut, &kinds);
        mixtures::all_calls(run, &mixture.input);
        mixture.input.look(run);
        Start::new(&mixture.input, mixture.sealed()).compare(run, LIMIT);
    }
    (0..MIXTURES).for_each(|_| turns::every_limit(run));
    (0..numbers::assignments(2)).for_each(|part| numbers::assignment(run, part, 2));
    for set in (0..faults::SETS).filter(|set| set.count_ones() <= 2) {
        faults::statuses(run, set);
        faults::looks(run, set);
    }
    (0..DRAWS).for_each(|_| arguments::statuses(run));
    for size in BLOCKS.map(|block| Size { grid: GRID, block }) {
        lengths::every_length(run, size, lengths::statuses);
        lengths::every_length(run, size, lengths::looks);
    }
    lengths::some_numbers(run, GRID);
}

/// How often the comparisons find something with each fault, and with none.
fn found(run: &mut Run, name: &str, planted: &[(&str, Calls)]) -> Vec<u64> {
    let found: Vec<AtomicU64> = planted.iter().map(|_| AtomicU64::new(0)).collect();
    cores::share(run, name, planted.len(), |run, part| {
        let random = Random::new(run.random.next());
        let mut spoiled = Run { random, tally: Tally::silent(), calls: planted[part].1 };
        sample(&mut spoiled);
        found[part].store(spoiled.tally.failures(), Ordering::Relaxed);
    });
    found.into_iter().map(AtomicU64::into_inner).collect()
}

/// Each fault is found, and where there is none nothing is. On a library that is not right, nothing is planted.
pub fn run(run: &mut Run) {
    let (name, none) = ("sectors, planted faults", "none");
    if run.tally.failures() > 0 {
        println!("{name}: left out, since there are others");
        return;
    }
    let planted: Vec<(&str, Calls)> =
        [&POSITIONS[..], &TOGETHER, &OTHERS, &[(none, LIBRARY)]].into_iter().flatten().copied().collect();
    for ((fault, _), times) in planted.iter().zip(found(run, name, &planted)) {
        println!("{name}: {fault}, found {times} times");
        let complaint = if *fault == none { "a right library is refused" } else { "it is not found" };
        let as_due = (times == 0) == (*fault == none);
        run.tally.judge(|| format!("{name}: {fault}"), SUCCESS, || must(as_due, complaint));
    }
    run.tally.report(name, &[0]);
}

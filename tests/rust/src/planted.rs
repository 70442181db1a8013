//! Wrong plans for one disk, made of right ones: the comparison has to find each of them by inputs of its own, and has to
//! find nothing wrong with the right ones.

use crate::equations::stripes_through;
use crate::losses::map_of_bits;
use crate::model::{erased_disks, FATAL, NOT_ERASED, SUCCESS};
use crate::outcome::Outcome;
use crate::sheet::{allowed, in_turn, list, of_loop, of_repairs, plans_order, Record, SHEET};
use crate::size::Grid;
use crate::tally::must;
use crate::wanted::{numbers, Asked};
use crate::{arguments, branch, every_loop, ffi, whole, Run};

/// Where all maps and all numbers are tried, and how many arguments good and bad are drawn.
const GRID: Grid = Grid::new(2, 2);
const DRAWS: usize = 1_000;
/// The disks of a loop that is shown in another's place.
const FOUR: usize = 4;

/// Makes a wrong outcome of the right one for a disk.
type Spoil = fn(&Asked, usize, Outcome) -> Outcome;

/// The outcome that lists these repairs.
fn listing(repairs: &[Record]) -> Outcome {
    Outcome { answer: SUCCESS, out: Some(repairs.len()), written: vec![of_repairs(repairs)] }
}

/// Another list in place of a right one, where there is another.
fn instead(right: Outcome, repairs: impl FnOnce(Vec<Record>) -> Option<Vec<Record>>) -> Outcome {
    if right.answer != SUCCESS {
        return right;
    }
    repairs(list(&right.written[0])).map_or(right, |repairs| listing(&repairs))
}

/// The lists that end by the row and by the column, where there are such.
fn both(asked: &Asked, disk: usize) -> impl DoubleEndedIterator<Item = Vec<Record>> {
    let erased = erased_disks(asked.map);
    let lists = stripes_through(asked.grid, disk).map(|stripe| branch::list_by(asked.grid, &erased, disk, stripe));
    lists.into_iter().flatten()
}

/// The repairs of these disks, each time of the first that can be repaired, as far as to the one that is wanted.
fn repaired(asked: &Asked, mut disks: Vec<usize>, wanted: usize) -> Vec<Record> {
    let (mut left, mut repairs) = (erased_disks(asked.map), Vec::new());
    let next = |left: &[usize], disks: &[usize]| {
        disks.iter().find_map(|&disk| allowed(asked.grid, left).find(|&(other, _)| other == disk))
    };
    while let Some((disk, stripe)) = next(&left, &disks) {
        repairs.push((disk, stripe));
        left.retain(|&other| other != disk);
        disks.retain(|&other| other != disk && disk != wanted);
    }
    repairs
}

/// The right outcome for another number, where the number itself is refused by 15.
fn shortened(asked: &Asked, disk: usize, right: Outcome) -> Outcome {
    if right.answer != NOT_ERASED {
        return right;
    }
    asked.expected(branch::shortest, disk)
}

/// The smallest loop of four disks through the wanted one in place of the right loop, where there is one.
fn through(asked: &Asked, disk: usize, right: Outcome) -> Outcome {
    let mut loops: Vec<Vec<usize>> = Vec::new();
    every_loop::each(asked.grid, &erased_disks(asked.map), FOUR, &mut |disks| {
        loops.extend(disks.contains(&disk).then(|| disks.to_vec()));
    });
    match loops.iter().min_by_key(|disks| every_loop::ascending(disks)) {
        Some(disks) => Outcome { written: vec![of_loop(&in_turn(asked.grid, disks))], ..right },
        None => right,
    }
}

/// Wrong lists.
const LISTS: [(&str, Spoil); 9] = [
    ("the column where both lists are as short", |asked, disk, right| {
        instead(right, |_| both(asked, disk).rev().min_by_key(Vec::len))
    }),
    ("the longer list", |asked, disk, right| instead(right, |_| both(asked, disk).max_by_key(Vec::len))),
    ("the row where it can be, else the column", |asked, disk, right| instead(right, |_| both(asked, disk).next())),
    ("the disk goes by its other stripe first", |asked, _, right| {
        instead(right, |mut repairs| {
            let last = repairs.pop()?;
            let (mut planned, _) = plans_order(asked.grid, &erased_disks(asked.map));
            planned.retain(|&(disk, _)| repairs.iter().any(|repair| repair.0 == disk));
            Some([planned, vec![last]].concat())
        })
    }),
    ("all repairs of plan up to the disk", |asked, disk, right| {
        instead(right, |_| {
            let (repairs, _) = plans_order(asked.grid, &erased_disks(asked.map));
            let at = repairs.iter().position(|repair| repair.0 == disk)?;
            Some(repairs[..=at].to_vec())
        })
    }),
    ("rising order before the last", |_, _, right| {
        instead(right, |mut repairs| {
            let last = repairs.pop()?;
            repairs.sort_unstable();
            Some([repairs, vec![last]].concat())
        })
    }),
    ("the highest number first", |asked, disk, right| {
        instead(right, |repairs| {
            let mut disks: Vec<usize> = repairs.iter().map(|repair| repair.0).filter(|&other| other != disk).collect();
            disks.sort_unstable_by(|one, other| other.cmp(one));
            disks.push(disk);
            Some(repaired(asked, disks, disk))
        })
    }),
    ("the last repair by the other stripe", |asked, disk, right| {
        instead(right, |mut repairs| {
            let last = repairs.last_mut()?;
            last.1 = stripes_through(asked.grid, disk).into_iter().find(|&stripe| stripe != last.1)?;
            Some(repairs)
        })
    }),
    ("both branches", |asked, disk, right| {
        instead(right, |_| both(asked, disk).reduce(|row, column| [&row[..row.len() - 1], &column].concat()))
    }),
];

/// Wrong answers, counts and sheets.
const ANSWERS: [(&str, Spoil); 15] = [
    ("6 for each fatal loss", |asked, _, right| match asked.due.answer {
        FATAL if right.answer == SUCCESS => asked.due.clone(),
        _ => right,
    }),
    ("15 after 6", |asked, _, right| match asked.due.answer {
        FATAL if right.answer == NOT_ERASED => asked.due.clone(),
        _ => right,
    }),
    ("15 before all others", |asked, disk, right| match asked.map.get(disk) {
        Some(1) => right,
        _ => Outcome { answer: NOT_ERASED, ..right },
    }),
    ("an empty list for a disk that is there", |asked, disk, right| match asked.map.get(disk) {
        Some(0) if right.answer == NOT_ERASED => listing(&[]),
        _ => right,
    }),
    ("one repair too few in the count", |_, _, right| match right.answer {
        SUCCESS => Outcome { out: right.out.map(|count| count.saturating_sub(1)), ..right },
        _ => right,
    }),
    ("all erased disks in the count of 6", |asked, _, right| match right.answer {
        FATAL => Outcome { out: Some(erased_disks(asked.map).len()), ..right },
        _ => right,
    }),
    ("plan's sheet on success", |asked, _, right| match right.answer {
        SUCCESS => Outcome { written: asked.due.written.clone(), ..right },
        _ => right,
    }),
    ("zeros in the sheet on 15", |_, _, right| match right.answer {
        NOT_ERASED => Outcome { written: vec![vec![0; SHEET]], ..right },
        _ => right,
    }),
    ("a count on 15", |_, _, right| match right.answer {
        NOT_ERASED => Outcome { out: Some(0), ..right },
        _ => right,
    }),
    ("no new bytes behind the last record", |asked, _, mut right| {
        if right.answer == SUCCESS {
            let behind = 2 + 3 * list(&right.written[0]).len();
            right.written[0][behind..].copy_from_slice(&asked.sheet[behind..]);
        }
        right
    }),
    ("with 6 the loss without the disk", |asked, disk, right| {
        let mut map = asked.map.to_vec();
        map.iter_mut().skip(disk).take(1).for_each(|mark| *mark = 0);
        match whole::plan(asked.grid, &map, asked.sheet) {
            Ok(other) if right.answer == FATAL && other.answer == FATAL => other,
            _ => right,
        }
    }),
    ("with 6 a loop through the disk", |asked, disk, right| match right.answer {
        FATAL => through(asked, disk, right),
        _ => right,
    }),
    ("the number in a byte", |asked, disk, right| shortened(asked, disk & 255, right)),
    ("the number in 32 bits", |asked, disk, right| shortened(asked, disk & ((1 << 32) - 1), right)),
    ("the number modulo the disks", |asked, disk, right| match right.answer {
        NOT_ERASED => shortened(asked, disk % asked.grid.disks(), right),
        _ => right,
    }),
];

/// How often the comparison finds something, among these numbers.
fn found(asked: &Asked, disks: impl IntoIterator<Item = usize>, spoil: Spoil) -> usize {
    let fails = |&disk: &usize| {
        let expected = asked.expected(branch::shortest, disk);
        let right = ffi::plan_disk(asked.grid, asked.map, asked.sheet, disk);
        right.map_or(true, |right| spoil(asked, disk, right) != expected)
    };
    disks.into_iter().filter(fails).count()
}

/// How often it finds something on all maps of a small grid, and on arguments good and bad.
fn found_in_all(run: &mut Run, spoil: Spoil) -> usize {
    let mut times = 0;
    for set in 0..1 << GRID.disks() {
        let (map, sheet) = (map_of_bits(GRID, set), run.random.bytes(SHEET));
        times += found(&Asked::new(GRID, &map, &sheet), numbers(GRID, &map), spoil);
    }
    for _ in 0..DRAWS {
        let drawn = arguments::array(&mut run.random);
        let map = arguments::map(&mut run.random, drawn.made_for.grid);
        let sheet = arguments::sheet(&mut run.random);
        let disk = arguments::wanted(&mut run.random, drawn.made_for.grid, &map);
        times += found(&Asked::new(drawn.passed.grid, &map, &sheet), [disk], spoil);
    }
    times
}

/// Each fault is found, and where there is none nothing is.
pub fn run(run: &mut Run) {
    let name = "plan for one disk, planted faults";
    let none: (&str, Spoil) = ("none", |_, _, right| right);
    for (fault, spoil) in LISTS.into_iter().chain(ANSWERS).chain([none]) {
        let times = found_in_all(run, spoil);
        println!("{name}: {fault}, found {times} times");
        let complaint = if fault == none.0 { "a right plan is refused" } else { "it is not found" };
        let as_due = (times == 0) == (fault == none.0);
        run.tally.judge(|| format!("{name}: {fault}"), SUCCESS, || must(as_due, complaint));
    }
    run.tally.report(name, &[0]);
}

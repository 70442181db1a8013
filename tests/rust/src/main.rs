//! Compares libraid2d.a with a model written from papers 01 and 02: every answer, every out-parameter and all bytes.
//!
//! Without an argument the comparison is that of the gate. The argument `maps` asks instead for all maps of grids with
//! four rows or columns, in the plan for one disk also of those with three of both, `sets` for all losses of three and
//! of four disks at the largest grid and at some others, and `sectors` for what the gate has of blocks cut into sectors.
//! RAID2D_SEED sets the seed, which is printed: the same seed gives the same run. RAID2D_LONG=1 does twenty times the
//! random work. RAID2D_TRACE=1 prints every input before its call, for a library that ends the program. RAID2D_STOP=1
//! ends the run with the first comparison that fails. The last line counts the comparisons; the exit status is 1 where
//! one fails.

mod arguments;
mod branch;
mod by_hand;
mod cases;
mod check;
mod cores;
mod equations;
mod every_loop;
mod exhaustive;
mod faults;
mod ffi;
mod fields;
mod follow;
mod guard;
mod huge;
mod inputs;
mod look;
mod loop_losses;
mod loops;
mod losses;
mod model;
mod outcome;
mod plan;
mod planted;
mod random;
mod rebuild;
mod save;
mod seal;
mod sectors;
mod sets;
mod sheet;
mod sheets;
mod shortest;
mod size;
mod steps;
mod tally;
mod tidy;
mod turns;
mod wanted;
mod ways;
mod whole;
mod write;

use random::Random;
use sectors::calls::{Calls, LIBRARY};
use size::Size;
use std::process::ExitCode;
use tally::Tally;

const DEFAULT_SEED: u64 = 20_240_229;
const LONG_ROUNDS: usize = 20;

pub struct Run {
    pub random: Random,
    pub tally: Tally,
    /// What the comparisons with sectors call: the library, or where a fault is planted something else.
    pub calls: Calls,
}

/// How one call is compared. A new call adds a row to the table below.
struct Call {
    name: &'static str,
    /// The comparisons at one size, with arguments that are all good.
    contents: fn(&mut Run, Size),
    /// One comparison with arguments drawn from good and bad ones, and how often it is made.
    refusals: fn(&mut Run),
    draws: usize,
    /// Answers that must have been due among the comparisons.
    answers: &'static [usize],
}

const CALLS: [Call; 10] = [
    Call { name: "seal", contents: seal::contents, refusals: seal::refusals, draws: 30_000, answers: &[0, 1, 2, 3] },
    Call {
        name: "check",
        contents: check::contents,
        refusals: check::refusals,
        draws: 30_000,
        answers: &[0, 1, 2, 3, 64],
    },
    Call {
        name: "write",
        contents: write::contents,
        refusals: write::refusals,
        draws: 45_000,
        answers: &[0, 1, 2, 3, 8, 9],
    },
    // Look answers a length: nothing, and the smallest and the largest block.
    Call {
        name: "look",
        contents: look::contents,
        refusals: look::refusals,
        draws: 45_000,
        answers: &[0, 1, inputs::BLOCK_MAX],
    },
    Call { name: "plan", contents: plan::contents, refusals: plan::refusals, draws: 45_000, answers: &[0, 1, 4, 5, 6] },
    Call {
        name: "plan_disk",
        contents: wanted::contents,
        refusals: wanted::refusals,
        draws: 45_000,
        answers: &[0, 1, 4, 5, 6, 15],
    },
    Call {
        name: "rebuild",
        contents: rebuild::contents,
        refusals: rebuild::refusals,
        draws: 60_000,
        answers: &[0, 1, 2, 3, 4, 5, 6, 7, 12],
    },
    Call {
        name: "follow",
        contents: follow::contents,
        refusals: follow::refusals,
        draws: 72_000,
        answers: &[0, 1, 2, 3, 4, 5, 7, 10, 11, 13, 14],
    },
    Call {
        name: "save",
        contents: save::contents,
        refusals: save::refusals,
        draws: 60_000,
        answers: &[0, 1, 2, 3, 4, 7],
    },
    Call { name: "tidy", contents: tidy::contents, refusals: tidy::refusals, draws: 30_000, answers: &[0, 5, 10, 13] },
];

impl Call {
    fn compare_contents(&self, run: &mut Run) {
        for size in inputs::sizes(&mut run.random) {
            (self.contents)(run, size);
        }
    }

    fn compare_refusals(&self, run: &mut Run) {
        for _ in 0..self.draws {
            (self.refusals)(run);
        }
    }

    /// Each round has two parts, since one that is not split keeps one core only.
    fn compare(&self, run: &mut Run, rounds: usize) {
        let comparisons = [Call::compare_contents, Call::compare_refusals];
        cores::share(run, self.name, 2 * rounds, |run, part| comparisons[part % 2](self, run));
        run.tally.report(self.name, self.answers);
    }
}

fn seed() -> u64 {
    match std::env::var("RAID2D_SEED") {
        Ok(text) => text.parse().expect("RAID2D_SEED has to be a whole number from 0 to 2^64 - 1"),
        Err(_) => DEFAULT_SEED,
    }
}

fn is_set(variable: &str) -> bool {
    std::env::var(variable).is_ok_and(|value| value == "1")
}

fn gate(run: &mut Run, rounds: usize) {
    cases::run(run);
    run.tally.report("paper's cases", &[0, 1, 2, 4, 6, 7, 8, 10, 11, 12, 13, 14, 15]);
    fields::run(run);
    run.tally.report("lengths and fields", &[0]);
    huge::run(run);
    for call in &CALLS {
        call.compare(run, rounds);
    }
    faults::run(run);
    steps::run(run);
    tidy::run(run, rounds);
    turns::run(run, rounds);
    save::run(run, rounds);
    wanted::run(run, rounds);
    exhaustive::run(run, rounds);
    loops::run(run, rounds);
    sectors::run(run, rounds);
}

fn main() -> ExitCode {
    let rounds = if is_set("RAID2D_LONG") { LONG_ROUNDS } else { 1 };
    let seed = seed();
    println!("seed {seed}, rounds {rounds}");
    if is_set("RAID2D_STOP") {
        tally::stop_at_first();
    }
    let tally = Tally::new(is_set("RAID2D_TRACE"));
    let mut run = Run { random: Random::new(seed), tally, calls: LIBRARY };
    match std::env::args().nth(1).as_deref() {
        None => gate(&mut run, rounds),
        Some("maps") => {
            exhaustive::more_maps(&mut run);
            wanted::more_maps(&mut run);
            loops::more_maps(&mut run);
        }
        Some("sets") => sets::run(&mut run),
        Some("sectors") => sectors::run(&mut run, rounds),
        Some(other) => panic!("{other} is none of maps, sets and sectors"),
    }
    if run.tally.finish() {
        ExitCode::SUCCESS
    } else {
        ExitCode::FAILURE
    }
}

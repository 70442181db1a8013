//! Blocks that are cut into sectors: the calls that take them, compared with a model of what is said of all positions
//! together, and held to what is promised of them without it.

mod all_maps;
mod ambiguity;
mod arguments;
mod bits;
pub mod calls;
mod cases;
mod faults;
mod input;
mod largest;
mod lengths;
mod looks;
mod mixture;
mod mixtures;
mod numbers;
mod parts;
mod planted;
mod positions;
mod single;
mod threes;
mod turns;
mod wrong;
mod wrong_turns;

use crate::Run;

pub fn run(run: &mut Run, rounds: usize) {
    cases::run(run);
    mixtures::run(run, rounds);
    numbers::run(run, rounds);
    turns::run(run, rounds);
    all_maps::run(run);
    ambiguity::run(run, rounds);
    threes::run(run, rounds);
    single::run(run, rounds);
    faults::run(run);
    arguments::run(run, rounds);
    looks::run(run, rounds);
    lengths::run(run);
    largest::run(run);
    planted::run(run);
}

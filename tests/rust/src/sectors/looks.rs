//! Look at blocks with sectors: each disk with no sector erased, with each one alone, with all but one and with all, while
//! other disks have lost any.

use super::input::Input;
use super::mixture::any_cut;
use crate::arguments::spoil;
use crate::inputs::random_array;
use crate::random::Random;
use crate::{cores, Run};

/// Random sizes, in parts.
const PARTS: usize = 20;
const SIZES: usize = 5;

/// The marks of a disk to try.
fn marks(sectors: usize) -> Vec<Vec<u8>> {
    let one =
        |erased: usize, mark: u8| (0..sectors).map(|other| if other == erased { mark } else { 1 - mark }).collect();
    let ones = (0..sectors).flat_map(|erased| [one(erased, 1), one(erased, 0)]);
    ones.chain([vec![0; sectors], vec![1; sectors]]).collect()
}

/// A map of zeros and ones, with few ones or many.
fn any_map(random: &mut Random, length: usize) -> Vec<u8> {
    let chances = random.pick(&[1, 2, 4, 20]);
    (0..length).map(|_| u8::from(random.one_in(chances))).collect()
}

/// Each disk of the grid and the first outside it, now and then under a spoiled map.
fn one_size(run: &mut Run) {
    let cut = any_cut(&mut run.random);
    let array = random_array(&mut run.random, cut.size);
    let mut input = Input::new(cut, array, any_map(&mut run.random, cut.map_bytes()), Vec::new());
    for disk in 0..cut.size.disks() {
        let kept = input.map.clone();
        for own in marks(cut.sectors()) {
            input.disk = disk;
            input.map[disk * cut.sectors()..(disk + 1) * cut.sectors()].copy_from_slice(&own);
            input.look(run);
            if run.random.one_in(8) {
                spoil(&mut run.random, &mut input.map, disk);
                input.look(run);
            }
            input.map.copy_from_slice(&kept);
        }
    }
    input.disk = cut.size.disks();
    input.look(run);
}

pub fn run(run: &mut Run, rounds: usize) {
    let name = "sectors, looks";
    cores::share(run, name, rounds * PARTS, |run, _| (0..SIZES).for_each(|_| one_size(run)));
    run.tally.report(name, &[0, 1]);
}

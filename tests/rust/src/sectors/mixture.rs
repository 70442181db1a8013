//! Arrays whose positions are of several kinds: without a loss, with one that can be restored or with a fatal one, and each
//! with survivors that belong to a sealed array or contradict each other.

use super::input::Input;
use super::parts::{joined, parts};
use crate::equations::{checks, crosses};
use crate::inputs::{place, random_grid, sealed_array};
use crate::losses::{self, forget, shuffled};
use crate::model::erased_disks;
use crate::random::Random;
use crate::sheet::SHEET;
use crate::size::{Cut, Grid, Size};
use crate::{loop_losses, sheets};

#[derive(Clone, Copy, PartialEq, Eq)]
pub enum Loss {
    None,
    Restorable,
    Fatal,
}

/// What a position can be.
#[derive(Clone, Copy)]
pub struct Kind {
    pub loss: Loss,
    pub contradictory: bool,
}

pub const KINDS: [Kind; 6] = [
    Kind { loss: Loss::None, contradictory: false },
    Kind { loss: Loss::Restorable, contradictory: false },
    Kind { loss: Loss::Fatal, contradictory: false },
    Kind { loss: Loss::None, contradictory: true },
    Kind { loss: Loss::Restorable, contradictory: true },
    Kind { loss: Loss::Fatal, contradictory: true },
];

/// The kinds of a set, which has one bit for each.
pub fn kinds_of(set: usize) -> Vec<Kind> {
    KINDS.into_iter().enumerate().filter(|&(bit, _)| set >> bit & 1 == 1).map(|(_, kind)| kind).collect()
}

/// The map of a loss for one position. Of the kinds of losses these are restorable and fatal for sure. Every other fatal loss
/// is one whose smallest loop is hard to tell.
fn marks(random: &mut Random, grid: Grid, loss: Loss) -> Vec<u8> {
    let kind = match loss {
        Loss::None => losses::NONE,
        Loss::Restorable => random.between(1, 4),
        Loss::Fatal if random.one_in(2) => return loop_losses::fatal(random, grid),
        Loss::Fatal => random.pick(&[5, 6, 8, 9]),
    };
    losses::map(random, grid, kind)
}

/// Changes one survivor of a sealed array so that the survivors contradict each other. It cannot be done where they agree
/// with any change.
fn contradict(random: &mut Random, size: Size, array: &mut [u8], marks: &[u8]) -> bool {
    let shows = |set: &u32, disk: &usize| marks[*disk] == 0 && crosses(size.grid, *set, *disk);
    let mut disks: Vec<usize> = Vec::new();
    for set in checks(size.grid, &erased_disks(marks)) {
        disks.extend((0..size.disks()).filter(|disk| shows(&set, disk)));
    }
    if disks.is_empty() {
        return false;
    }
    let at = random.pick(&disks) * size.block + place(random, size.block);
    array[at] ^= random.between(1, 255) as u8;
    true
}

/// The map and the array of one position, made of a sealed one.
fn one(random: &mut Random, size: Size, sealed: &[u8], kind: Kind) -> (Vec<u8>, Vec<u8>) {
    loop {
        let (marks, mut array) = (marks(random, size.grid, kind.loss), sealed.to_vec());
        if !kind.contradictory || contradict(random, size, &mut array, &marks) {
            forget(random, size, &mut array, &marks);
            return (marks, array);
        }
    }
}

/// An input, and the array as it was before losses and changes.
pub struct Mixture {
    pub input: Input,
    sealed: Vec<u8>,
    contradictory: bool,
}

impl Mixture {
    /// A position of each of these kinds, in their order.
    pub fn of(random: &mut Random, cut: Cut, kinds: &[Kind]) -> Mixture {
        let (size, sectors) = (cut.position(), cut.sectors());
        let sealed = sealed_array(random, cut.size);
        let arrays = parts(&sealed, cut.sector, sectors);
        let drawn = arrays.iter().zip(kinds).map(|(array, &kind)| one(random, size, array, kind));
        let (maps, arrays): (Vec<Vec<u8>>, Vec<Vec<u8>>) = drawn.unzip();
        let sheets = random.bytes(SHEET * sectors);
        let mut input = Input::new(cut, joined(&arrays, cut.sector), joined(&maps, 1), sheets);
        input.disk = random.below(cut.size.disks());
        Mixture { input, sealed, contradictory: kinds.iter().any(|kind| kind.contradictory) }
    }

    /// Positions of these kinds in any order, each kind at least once if there are as many positions.
    pub fn draw(random: &mut Random, cut: Cut, kinds: &[Kind]) -> Mixture {
        let order = shuffled(random, cut.sectors());
        let drawn: Vec<Kind> =
            order.iter().map(|&turn| kinds.get(turn).copied().unwrap_or_else(|| random.pick(kinds))).collect();
        Mixture::of(random, cut, &drawn)
    }

    /// The array as it was, if the survivors still belong to it.
    pub fn sealed(&self) -> Option<&[u8]> {
        Some(&self.sealed[..]).filter(|_| !self.contradictory)
    }
}

/// Any grid up to a bound, with some sectors of a few bytes.
pub fn small_cut(random: &mut Random, bound: usize, sectors: usize) -> Cut {
    let grid = Grid::new(random.between(2, bound), random.between(2, bound));
    Cut::new(grid, sectors, random.between(1, 5))
}

/// Any grid, with some sectors.
pub fn any_cut(random: &mut Random) -> Cut {
    let (sectors, most) = (random.between(1, 9), random.pick(&[1, 5, 20, 100]));
    Cut::new(random_grid(random), sectors, random.between(1, most))
}

/// For each position a list of its repairs in any allowed order, with its records anywhere.
pub fn lists(random: &mut Random, cut: Cut, map: &[u8]) -> Vec<Vec<u8>> {
    let scattered = |marks: &Vec<u8>| {
        let steps = sheets::any_order(random, cut.size.grid, marks);
        sheets::scattered(random, &steps)
    };
    parts(map, 1, cut.sectors()).iter().map(scattered).collect()
}

//! The list of a plan for one disk as a host uses it: its repairs are made by hand, the disk is looked at, and what is left
//! is planned, rebuilt or followed. All of it is held to what is promised, without the rules that say which list is due.

use crate::inputs::{random_grid, sealed_array};
use crate::losses;
use crate::model::{self, erased_disks, FATAL, SUCCESS};
use crate::outcome::Outcome;
use crate::rebuild::AT_ONCE;
use crate::sheet::{left_after, of_repairs, plans_order, Record, SHEET};
use crate::size::{Grid, Size};
use crate::tally::{must, show};
use crate::turns::repairs_of;
use crate::wanted::losses_of;
use crate::{cores, ffi, whole, Run};

/// Random sizes, each with losses of all kinds, in parts.
const PARTS: usize = 50;

/// An array that has lost the disks of a map.
struct Loss<'a> {
    size: Size,
    array: &'a [u8],
    map: &'a [u8],
    /// The array as it was before the loss. None where survivors may be damaged.
    sealed: Option<&'a [u8]>,
}

/// An array and a map.
type State = (Vec<u8>, Vec<u8>);

impl Loss<'_> {
    fn grid(&self) -> Grid {
        self.size.grid
    }

    /// The list ends with the disk, each repair is allowed at its turn, and none of them can be left out.
    fn judge_list(&self, list: &[Record], disk: usize) -> Result<(), String> {
        must(list.last().is_some_and(|&(last, _)| last == disk), "the list does not end with the disk")?;
        let erased = erased_disks(self.map);
        let allowed = |list: &[Record]| left_after(self.grid(), &erased, list).is_some();
        must(allowed(list), "a repair is not allowed at its turn")?;
        let shorter = |at: usize| [&list[..at], &list[at + 1..]].concat();
        must(!(0..list.len() - 1).any(|at| allowed(&shorter(at))), "a repair can be left out")
    }

    /// The repairs made one after another, and their disks marked as present.
    fn repaired(&self, list: &[Record]) -> State {
        let (mut array, mut map) = (self.array.to_vec(), self.map.to_vec());
        for &(disk, stripe) in list {
            model::repair(self.size, &mut array, disk, stripe);
            map[disk] = 0;
        }
        (array, map)
    }

    /// The disk can be looked at, and it is what it was before the loss.
    fn judge_look(&self, (array, map): &State, disk: usize) -> Result<(), String> {
        let block = self.size.block;
        let looked = whole::look(self.size, array, map, disk)?;
        must(looked == Outcome::reading(block, Some(disk * block)), "the disk is not handed out")?;
        let part = disk * block..(disk + 1) * block;
        must(self.sealed.map_or(true, |sealed| array[part.clone()] == sealed[part]), "the disk has another block")
    }

    /// Rebuild of what is left says what it says of the whole loss, and then leaves the same array. Fatal losses stay so.
    fn judge_rest(&self, (array, map): &State) -> Result<(), String> {
        let whole = whole::rebuild(self.size, self.array, self.map, &[0; SHEET], AT_ONCE)?;
        let rest = whole::rebuild(self.size, array, map, &[0; SHEET], AT_ONCE)?;
        must(rest.answer == whole.answer, "rebuild of what is left answers otherwise")?;
        must(rest.answer != FATAL || rest.out == whole.out, "another number of disks is lost")?;
        must(rest.answer != SUCCESS || rest.written[..2] == whole.written[..2], "rebuild leaves something else")?;
        let restored = |sealed: &[u8]| rest.answer == FATAL || rest.written[0] == sealed;
        must(self.sealed.map_or(true, restored), "the array is not restored")
    }

    /// The list and then that of plan for what is left can be followed as one, where the loss is not fatal.
    fn judge_followed(&self, list: &[Record], (_, left): &State) -> Result<(), String> {
        let rest = whole::plan(self.grid(), left, &[0; SHEET])?;
        let Some(sealed) = self.sealed.filter(|_| rest.answer == SUCCESS) else {
            return Ok(());
        };
        let all = [list, &repairs_of(&rest.written[0])?].concat();
        let followed = whole::follow(self.size, self.array, self.map, &of_repairs(&all))?;
        let expected =
            Outcome { answer: SUCCESS, out: Some(erased_disks(self.map).len()), written: vec![sealed.to_vec()] };
        must(followed == expected, "the two lists together are not followed")
    }

    fn judge(&self, disk: usize, reached: bool) -> Result<(), String> {
        let found = ffi::plan_disk(self.grid(), self.map, &[0; SHEET], disk)?;
        must(found.answer == if reached { SUCCESS } else { FATAL }, "another answer than repairs give")?;
        if !reached {
            return must(found == whole::plan(self.grid(), self.map, &[0; SHEET])?, "with 6 it is not plan's answer");
        }
        let list = repairs_of(&found.written[0])?;
        must(found.out == Some(list.len()), "it counts other repairs than it lists")?;
        self.judge_list(&list, disk)?;
        let state = self.repaired(&list);
        self.judge_look(&state, disk)?;
        self.judge_rest(&state)?;
        self.judge_followed(&list, &state)
    }

    /// Each erased disk. Plan's order leaves those that no repair reaches.
    fn compare(&self, run: &mut Run) {
        let erased = erased_disks(self.map);
        let (_, left) = plans_order(self.grid(), &erased);
        for disk in erased {
            let input = || {
                let (array, map) = (show(self.array), show(self.map));
                format!("the list for disk {disk} by hand, {}, map {map}, array {array}", self.size)
            };
            let reached = !left.contains(&disk);
            run.tally.judge(input, if reached { SUCCESS } else { FATAL }, || self.judge(disk, reached));
        }
    }
}

/// On a sealed array that has lost the disks of the map, then on the same with damages.
fn one_map(run: &mut Run, size: Size, sealed: &[u8], map: &[u8]) {
    let mut array = sealed.to_vec();
    losses::forget(&mut run.random, size, &mut array, map);
    Loss { size, array: &array, map, sealed: Some(sealed) }.compare(run);
    losses::damage(&mut run.random, size, &mut array);
    Loss { size, array: &array, map, sealed: None }.compare(run);
}

pub fn run(run: &mut Run, rounds: usize) {
    for (rows, columns) in [(2, 2), (2, 3), (3, 2)] {
        let grid = Grid::new(rows, columns);
        let name = format!("lists by hand, all maps, {grid}");
        losses::of_all_maps(run, &name, grid, one_map);
        run.tally.report(&name, &[0, 6]);
    }
    let name = "lists by hand, random losses";
    cores::share(run, name, rounds * PARTS, |run, _| {
        let size = Size { grid: random_grid(&mut run.random), block: run.random.between(1, 20) };
        let sealed = sealed_array(&mut run.random, size);
        for map in losses_of(&mut run.random, size.grid) {
            one_map(run, size, &sealed, &map);
        }
    });
    run.tally.report(name, &[0, 6]);
}

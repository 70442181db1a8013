//! The lengths of a map and of an array, and the numbers of a sheet one at a time.

use crate::inputs::{BLOCK_MAX, SIDE_MAX, SIDE_MIN};
use crate::sheet::{RECORDS, SHEET};
use crate::size::Size;
use crate::{arguments, ffi, Run};

/// How often each is compared.
const DRAWS: usize = 20_000;

/// What the lengths are where the size can be, and else 0.
fn lengths(size: Size) -> [usize; 2] {
    let sides = SIDE_MIN..=SIDE_MAX;
    if !sides.contains(&size.grid.rows) || !sides.contains(&size.grid.columns) {
        return [0, 0];
    }
    [size.disks(), if (1..=BLOCK_MAX).contains(&size.block) { size.bytes() } else { 0 }]
}

/// The two bytes before the records, then the bytes of the record, 0 where there is none.
fn fields(sheet: &[u8], record: usize) -> [usize; 5] {
    let field = |place| if (1..=RECORDS).contains(&record) { sheet[3 * record - 1 + place] } else { 0 };
    [sheet[0], sheet[1], field(0), field(1), field(2)].map(usize::from)
}

fn compare<T: PartialEq + std::fmt::Debug>(run: &mut Run, input: String, expected: T, found: Result<T, String>) {
    run.tally.judge(
        || input.clone(),
        0,
        || match found? {
            found if found == expected => Ok(()),
            found => Err(format!("{found:?} instead of {expected:?}")),
        },
    );
}

pub fn run(run: &mut Run) {
    for _ in 0..DRAWS {
        let size = arguments::any_size(&mut run.random);
        compare(run, format!("the lengths of {size}"), lengths(size), Ok(ffi::lengths(size)));
        let sheet: [u8; SHEET] = run.random.bytes(SHEET).try_into().expect("a sheet's length");
        let record = arguments::any_record(&mut run.random);
        compare(run, format!("record {record} of {sheet:?}"), fields(&sheet, record), ffi::fields(&sheet, record));
    }
}

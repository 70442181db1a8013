//! Lengths that would look right if they were narrowed to 32 bits. The buffer is lent without guards or a copy: no call
//! may touch it, so its pages never cost memory. Only answers are compared here.

use crate::guard::Out;
use crate::outcome::Outcome;
use crate::rebuild::AT_ONCE;
use crate::sheet::SHEET;
use crate::tally::must;
use crate::{ffi, Run};

/// Two rows and three columns: twelve disks, and twelve bytes of array and of map for each byte of a block.
const DISKS: usize = 12;
/// How many sectors there are, of one byte each.
const SECTORS: [usize; 3] = [1, 2, 5];
const MOST_SECTORS: usize = 5;
/// What a length has too much.
const MORE: usize = 1 << 32;

/// Zeros that the system lends without touching them, none where it will not.
fn zeros(length: usize) -> Option<Vec<u8>> {
    // Asked first, because the next line would end the program. Without black_box the question is optimised away.
    let mut asked = Vec::<u8>::new();
    asked.try_reserve_exact(length).ok()?;
    drop(std::hint::black_box(asked));
    Some(vec![0; length])
}

fn refused<const N: usize>(run: &mut Run, call: &str, status: usize, found: usize, outs: [Out; N]) {
    let answer = || {
        for out in outs {
            must(out.value()?.is_none(), "an out-parameter is written")?;
        }
        Ok(Outcome::reading(found, None))
    };
    run.tally.compare(|| format!("{call} of 2^32 bytes too many"), &Outcome::reading(status, None), answer);
}

/// A pointer that is valid for its length, as the wrappers of ffi see to elsewhere.
type Buffer = (*mut u8, usize);

fn look(run: &mut Run, wrong: &str, block: usize, array: Buffer, map: Buffer) {
    let mut offset = Out::new();
    let length = unsafe { ffi::raid2d_look(2, 3, block, array.0, array.1, 1, map.0, map.1, 0, offset.pointer()) };
    refused(run, &format!("look, {wrong}"), 0, length, [offset]);
}

fn plan(run: &mut Run, wrong: &str, due: usize, sectors: usize, map: Buffer, sheets: Buffer) {
    let (mut count, mut position) = (Out::new(), Out::new());
    let outs = (count.pointer(), position.pointer());
    let status = unsafe { ffi::raid2d_plan(2, 3, sectors, map.0, map.1, sheets.0, sheets.1, outs.0, outs.1) };
    refused(run, &format!("plan, {wrong}"), due, status as usize, [count, position]);
}

fn rebuild(run: &mut Run, wrong: &str, due: usize, block: usize, [array, map, sheets]: [Buffer; 3]) {
    let (mut count, mut position) = (Out::new(), Out::new());
    let outs = (count.pointer(), position.pointer());
    #[rustfmt::skip]
    let status = unsafe {
        ffi::raid2d_rebuild(2, 3, block, array.0, array.1, 1, map.0, map.1, sheets.0, sheets.1, AT_ONCE,
                            outs.0, outs.1)
    };
    refused(run, &format!("rebuild, {wrong}"), due, status as usize, [count, position]);
}

fn follow(run: &mut Run, wrong: &str, due: usize, block: usize, [array, map, sheets]: [Buffer; 3]) {
    let mut count = Out::new();
    let out = count.pointer();
    let status = unsafe { ffi::raid2d_follow(2, 3, block, array.0, array.1, 1, map.0, map.1, sheets.0, sheets.1, out) };
    refused(run, &format!("follow, {wrong}"), due, status as usize, [count]);
}

fn save(run: &mut Run, wrong: &str, due: usize, block: usize, array: Buffer, map: Buffer) {
    let mut count = Out::new();
    let status = unsafe { ffi::raid2d_save(2, 3, block, array.0, array.1, 1, map.0, map.1, count.pointer()) };
    refused(run, &format!("save, {wrong}"), due, status as usize, [count]);
}

/// The calls that take sectors, with one buffer too long at a time.
fn with_sectors(run: &mut Run, huge: *mut u8, sectors: usize) {
    let (mut array, mut map) = (vec![7; DISKS * sectors], vec![0; DISKS * sectors]);
    let mut sheets = vec![7; SHEET * sectors];
    let [array, map, sheets] = [&mut array, &mut map, &mut sheets].map(|bytes| (bytes.as_mut_ptr(), bytes.len()));
    let (long, long_sheets) = ((huge, array.1 + MORE), (huge, sheets.1 + MORE));
    look(run, "array", sectors, long, map);
    look(run, "map", sectors, array, long);
    plan(run, "map", 4, sectors, long, sheets);
    plan(run, "sheets", 5, sectors, map, long_sheets);
    for call in [rebuild, follow] {
        call(run, "array", 3, sectors, [long, map, sheets]);
        call(run, "map", 4, sectors, [array, long, sheets]);
        call(run, "sheets", 5, sectors, [array, map, long_sheets]);
    }
    save(run, "array", 3, sectors, long, map);
    save(run, "map", 4, sectors, array, long);
}

/// The others, on blocks of one byte.
fn without_sectors(run: &mut Run, huge: *mut u8) {
    let (mut array, mut map, mut sheet) = ([7; DISKS], [0; DISKS], [7; SHEET]);
    let [array, map, sheet] = [&mut array[..], &mut map, &mut sheet].map(|bytes| bytes.as_mut_ptr());
    let (len, sheet_len) = (DISKS + MORE, SHEET + MORE);
    let [mut stripe, mut count, mut sheet_count] = [0; 3].map(|_| Out::new());
    unsafe {
        let status = ffi::raid2d_seal(2, 3, 1, huge, len);
        refused(run, "seal, array", 3, status as usize, []);
        let status = ffi::raid2d_check(2, 3, 1, huge, len, stripe.pointer());
        refused(run, "check, array", 3, status as usize, [stripe]);
        let status = ffi::raid2d_write(2, 3, 1, huge, len, 0, [9].as_ptr(), 1);
        refused(run, "write, array", 3, status as usize, []);
        let status = ffi::raid2d_write(2, 3, 1, array, DISKS, 0, huge, MORE + 1);
        refused(run, "write, data", 9, status as usize, []);
        let status = ffi::raid2d_plan_disk(2, 3, huge, len, sheet, SHEET, 0, count.pointer());
        refused(run, "plan_disk, map", 4, status as usize, [count]);
        let status = ffi::raid2d_plan_disk(2, 3, map, DISKS, huge, sheet_len, 0, sheet_count.pointer());
        refused(run, "plan_disk, sheet", 5, status as usize, [sheet_count]);
        let status = ffi::raid2d_tidy(huge, sheet_len);
        refused(run, "tidy, sheet", 5, status as usize, []);
    }
}

pub fn run(run: &mut Run) {
    let Some(mut huge) = zeros(MORE + SHEET * MOST_SECTORS) else {
        println!("buffers above 2^32 bytes: left out, the system lends none");
        return;
    };
    without_sectors(run, huge.as_mut_ptr());
    for sectors in SECTORS {
        with_sectors(run, huge.as_mut_ptr(), sectors);
    }
    run.tally.report("buffers above 2^32 bytes", &[0, 3, 4, 5, 9]);
}

//! The library's calls, each in a safe wrapper on slices. A wrapper lends guarded copies, calls, and says with an
//! error where the call touched a byte that is not its own.

use crate::guard::{Lent, Out};
use crate::outcome::{Outcome, Placed};
use crate::sheet::SHEET;
use crate::size::{Cut, Grid, Size};

// Nothing checks these against raid2d.h but the eye: they are laid out as there.
#[rustfmt::skip]
extern "C" {
    pub fn raid2d_disks(rows: usize, columns: usize) -> usize;
    pub fn raid2d_array_bytes(rows: usize, columns: usize, block: usize) -> usize;
    pub fn raid2d_sheet_kind(sheet: *const u8) -> usize;
    pub fn raid2d_sheet_first(sheet: *const u8) -> usize;
    pub fn raid2d_sheet_disk(sheet: *const u8, record: usize) -> usize;
    pub fn raid2d_sheet_stripe(sheet: *const u8, record: usize) -> usize;
    pub fn raid2d_sheet_next(sheet: *const u8, record: usize) -> usize;
    pub fn raid2d_seal(rows: usize, columns: usize, block: usize,
                       array: *mut u8, array_len: usize) -> u32;
    pub fn raid2d_check(rows: usize, columns: usize, block: usize,
                        array: *const u8, array_len: usize,
                        stripe: *mut usize) -> u32;
    pub fn raid2d_write(rows: usize, columns: usize, block: usize,
                        array: *mut u8, array_len: usize,
                        disk: usize,
                        data: *const u8, data_len: usize) -> u32;
    pub fn raid2d_look(rows: usize, columns: usize, block: usize,
                       array: *const u8, array_len: usize,
                       sector: usize,
                       map: *const u8, map_len: usize,
                       disk: usize,
                       offset: *mut usize) -> usize;
    pub fn raid2d_plan(rows: usize, columns: usize, sectors: usize,
                       map: *const u8, map_len: usize,
                       sheets: *mut u8, sheets_len: usize,
                       count: *mut usize, position: *mut usize) -> u32;
    pub fn raid2d_plan_disk(rows: usize, columns: usize,
                            map: *const u8, map_len: usize,
                            sheet: *mut u8, sheet_len: usize,
                            disk: usize, count: *mut usize) -> u32;
    pub fn raid2d_rebuild(rows: usize, columns: usize, block: usize,
                          array: *mut u8, array_len: usize,
                          sector: usize,
                          map: *mut u8, map_len: usize,
                          sheets: *mut u8, sheets_len: usize,
                          limit: usize,
                          count: *mut usize, position: *mut usize) -> u32;
    pub fn raid2d_follow(rows: usize, columns: usize, block: usize,
                         array: *mut u8, array_len: usize,
                         sector: usize,
                         map: *const u8, map_len: usize,
                         sheets: *const u8, sheets_len: usize,
                         count: *mut usize) -> u32;
    pub fn raid2d_save(rows: usize, columns: usize, block: usize,
                       array: *mut u8, array_len: usize,
                       sector: usize,
                       map: *const u8, map_len: usize,
                       count: *mut usize) -> u32;
    pub fn raid2d_tidy(sheet: *mut u8, sheet_len: usize) -> u32;
}

/// The lengths of a map and of an array.
pub fn lengths(size: Size) -> [usize; 2] {
    let Size { grid: Grid { rows, columns }, block } = size;
    unsafe { [raid2d_disks(rows, columns), raid2d_array_bytes(rows, columns, block)] }
}

/// The kind of a sheet and its first number, and the fields of a record.
pub fn fields(sheet: &[u8; SHEET], record: usize) -> Result<[usize; 5], String> {
    let mut lent = Lent::new("sheet", sheet);
    let at = lent.pointer();
    let fields = unsafe {
        [
            raid2d_sheet_kind(at),
            raid2d_sheet_first(at),
            raid2d_sheet_disk(at, record),
            raid2d_sheet_stripe(at, record),
            raid2d_sheet_next(at, record),
        ]
    };
    lent.only_read()?;
    Ok(fields)
}

pub fn seal(size: Size, array: &[u8]) -> Result<Outcome, String> {
    let Size { grid: Grid { rows, columns }, block } = size;
    let mut array = Lent::new("array", array);
    let status = unsafe { raid2d_seal(rows, columns, block, array.pointer(), array.len()) };
    Ok(Outcome::writing(status as usize, array.written()?))
}

pub fn check(size: Size, array: &[u8]) -> Result<Outcome, String> {
    let Size { grid: Grid { rows, columns }, block } = size;
    let mut array = Lent::new("array", array);
    let mut stripe = Out::new();
    let status = unsafe { raid2d_check(rows, columns, block, array.pointer(), array.len(), stripe.pointer()) };
    array.only_read()?;
    Ok(Outcome::reading(status as usize, stripe.value()?))
}

pub fn write(size: Size, array: &[u8], disk: usize, data: &[u8]) -> Result<Outcome, String> {
    let Size { grid: Grid { rows, columns }, block } = size;
    let mut array = Lent::new("array", array);
    let mut data = Lent::new("data", data);
    let (array_at, array_len) = (array.pointer(), array.len());
    let status = unsafe { raid2d_write(rows, columns, block, array_at, array_len, disk, data.pointer(), data.len()) };
    data.only_read()?;
    Ok(Outcome::writing(status as usize, array.written()?))
}

pub fn look(cut: Cut, array: &[u8], map: &[u8], disk: usize) -> Result<Outcome, String> {
    let Cut { size: Size { grid: Grid { rows, columns }, block }, sector } = cut;
    let mut array = Lent::new("array", array);
    let mut map = Lent::new("map", map);
    let mut offset = Out::new();
    let (array_at, array_len) = (array.pointer(), array.len());
    let (map_at, map_len, offset_at) = (map.pointer(), map.len(), offset.pointer());
    let length =
        unsafe { raid2d_look(rows, columns, block, array_at, array_len, sector, map_at, map_len, disk, offset_at) };
    array.only_read()?;
    map.only_read()?;
    Ok(Outcome::reading(length, offset.value()?))
}

pub fn plan(grid: Grid, sectors: usize, map: &[u8], sheets: &[u8]) -> Result<Placed, String> {
    let Grid { rows, columns } = grid;
    let mut map = Lent::new("map", map);
    let mut sheets = Lent::new("sheets", sheets);
    let (mut count, mut position) = (Out::new(), Out::new());
    let (map_at, map_len) = (map.pointer(), map.len());
    let (sheets_at, sheets_len) = (sheets.pointer(), sheets.len());
    let (count_at, position_at) = (count.pointer(), position.pointer());
    let status =
        unsafe { raid2d_plan(rows, columns, sectors, map_at, map_len, sheets_at, sheets_len, count_at, position_at) };
    map.only_read()?;
    let outcome = Outcome { answer: status as usize, out: count.value()?, written: vec![sheets.written()?] };
    Ok(Placed { outcome, position: position.value()? })
}

pub fn plan_disk(grid: Grid, map: &[u8], sheet: &[u8], disk: usize) -> Result<Outcome, String> {
    let Grid { rows, columns } = grid;
    let mut map = Lent::new("map", map);
    let mut sheet = Lent::new("sheet", sheet);
    let mut count = Out::new();
    let (map_at, map_len) = (map.pointer(), map.len());
    let (sheet_at, sheet_len) = (sheet.pointer(), sheet.len());
    let status =
        unsafe { raid2d_plan_disk(rows, columns, map_at, map_len, sheet_at, sheet_len, disk, count.pointer()) };
    map.only_read()?;
    Ok(Outcome { answer: status as usize, out: count.value()?, written: vec![sheet.written()?] })
}

pub fn rebuild(cut: Cut, array: &[u8], map: &[u8], sheets: &[u8], limit: usize) -> Result<Placed, String> {
    let Cut { size: Size { grid: Grid { rows, columns }, block }, sector } = cut;
    let mut array = Lent::new("array", array);
    let mut map = Lent::new("map", map);
    let mut sheets = Lent::new("sheets", sheets);
    let (mut count, mut position) = (Out::new(), Out::new());
    let (array_at, array_len, map_at, map_len) = (array.pointer(), array.len(), map.pointer(), map.len());
    let (sheets_at, sheets_len) = (sheets.pointer(), sheets.len());
    let (count_at, position_at) = (count.pointer(), position.pointer());
    #[rustfmt::skip]
    let status = unsafe {
        raid2d_rebuild(rows, columns, block, array_at, array_len, sector, map_at, map_len, sheets_at, sheets_len,
                       limit, count_at, position_at)
    };
    let written = vec![array.written()?, map.written()?, sheets.written()?];
    let outcome = Outcome { answer: status as usize, out: count.value()?, written };
    Ok(Placed { outcome, position: position.value()? })
}

pub fn follow(cut: Cut, array: &[u8], map: &[u8], sheets: &[u8]) -> Result<Outcome, String> {
    let Cut { size: Size { grid: Grid { rows, columns }, block }, sector } = cut;
    let mut array = Lent::new("array", array);
    let mut map = Lent::new("map", map);
    let mut sheets = Lent::new("sheets", sheets);
    let mut count = Out::new();
    let (array_at, array_len, map_at, map_len) = (array.pointer(), array.len(), map.pointer(), map.len());
    let (sheets_at, sheets_len, count_at) = (sheets.pointer(), sheets.len(), count.pointer());
    #[rustfmt::skip]
    let status = unsafe {
        raid2d_follow(rows, columns, block, array_at, array_len, sector, map_at, map_len, sheets_at, sheets_len,
                      count_at)
    };
    map.only_read()?;
    sheets.only_read()?;
    Ok(Outcome { answer: status as usize, out: count.value()?, written: vec![array.written()?] })
}

pub fn save(cut: Cut, array: &[u8], map: &[u8]) -> Result<Outcome, String> {
    let Cut { size: Size { grid: Grid { rows, columns }, block }, sector } = cut;
    let mut array = Lent::new("array", array);
    let mut map = Lent::new("map", map);
    let mut count = Out::new();
    let (array_at, array_len) = (array.pointer(), array.len());
    let (map_at, map_len, count_at) = (map.pointer(), map.len(), count.pointer());
    let status = unsafe { raid2d_save(rows, columns, block, array_at, array_len, sector, map_at, map_len, count_at) };
    map.only_read()?;
    Ok(Outcome { answer: status as usize, out: count.value()?, written: vec![array.written()?] })
}

pub fn tidy(sheet: &[u8]) -> Result<Outcome, String> {
    let mut sheet = Lent::new("sheet", sheet);
    let status = unsafe { raid2d_tidy(sheet.pointer(), sheet.len()) };
    Ok(Outcome::writing(status as usize, sheet.written()?))
}

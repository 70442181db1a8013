//! Buffers lent to the library: each stands between guard bytes, and nothing beside it may change.

use crate::random::Random;
use std::cell::Cell;

/// Guard bytes on each side, at the least.
const GUARD: usize = 64;
/// What an out-parameter holds before the call; no call answers it.
const UNTOUCHED: usize = 0x5aa5_c33c_9669_0ff0;

thread_local! {
    /// How many buffers have been lent: it decides the next one's place.
    static LENT: Cell<u64> = const { Cell::new(0) };
}

/// The next buffers stand at the same places as the first ones did.
pub fn restart() {
    LENT.set(0);
}

fn guard_byte(place: usize) -> u8 {
    (place as u8).wrapping_mul(37) ^ 0xc9
}

pub struct Lent<'a> {
    name: &'static str,
    original: &'a [u8],
    bytes: Vec<u8>,
    start: usize,
    null: bool,
}

impl<'a> Lent<'a> {
    /// A copy of the bytes between guards. The copies start at any place modulo 16, and about half of the empty
    /// ones are lent as a null pointer, as the interface allows.
    pub fn new(name: &'static str, original: &'a [u8]) -> Lent<'a> {
        let turn = Random::new(LENT.replace(LENT.get() + 1)).next();
        let start = GUARD + (turn % 16) as usize;
        let mut bytes: Vec<u8> = (0..start).map(guard_byte).collect();
        bytes.extend_from_slice(original);
        bytes.extend((0..GUARD).map(guard_byte));
        Lent { name, original, bytes, start, null: original.is_empty() && turn >> 63 == 0 }
    }

    pub fn pointer(&mut self) -> *mut u8 {
        if self.null {
            return std::ptr::null_mut();
        }
        self.bytes[self.start..].as_mut_ptr()
    }

    pub fn len(&self) -> usize {
        self.original.len()
    }

    fn content(&self) -> &[u8] {
        &self.bytes[self.start..self.start + self.len()]
    }

    fn guarded(&self) -> Result<(), String> {
        let before = &self.bytes[..self.start];
        let after = &self.bytes[self.start + self.len()..];
        for (side, guard) in [("before", before), ("after", after)] {
            if guard.iter().enumerate().any(|(place, &byte)| byte != guard_byte(place)) {
                return Err(format!("a byte {side} the {} was changed", self.name));
            }
        }
        Ok(())
    }

    /// The final bytes of a buffer that the call may write.
    pub fn written(self) -> Result<Vec<u8>, String> {
        self.guarded()?;
        Ok(self.content().to_vec())
    }

    /// Nothing may have changed in a buffer that is only read.
    pub fn only_read(self) -> Result<(), String> {
        self.guarded()?;
        if self.content() != self.original {
            return Err(format!("the {} is only read and was changed", self.name));
        }
        Ok(())
    }
}

/// An out-parameter between two numbers that no call may touch.
pub struct Out {
    numbers: [usize; 3],
}

impl Out {
    pub fn new() -> Out {
        Out { numbers: [UNTOUCHED; 3] }
    }

    pub fn pointer(&mut self) -> *mut usize {
        self.numbers[1..].as_mut_ptr()
    }

    /// The value given, none where the out-parameter was left alone.
    pub fn value(self) -> Result<Option<usize>, String> {
        if self.numbers[0] != UNTOUCHED || self.numbers[2] != UNTOUCHED {
            return Err("a number beside the out-parameter was changed".to_string());
        }
        Ok(Some(self.numbers[1]).filter(|&value| value != UNTOUCHED))
    }
}

// Made by tools/to_rust.py of crates/ixdtf_grammar/src/packed.rt. Do not edit.

//! Numbers that need no alignment.

use core::fmt;
use core::hash::{Hash, Hasher};

/// A number below 2^64, stored as its eight bytes, the lowest byte first.
///
/// A packed number needs no alignment. So a record has no padding before a packed number.
#[derive(Clone, Copy)]
pub struct PackedNumber {
    bytes: [u8; 8],
}

impl PackedNumber {
    /// Packs a number.
    #[inline(always)]
    pub fn of(number: u64) -> PackedNumber {
        PackedNumber {
            bytes: number.to_le_bytes(),
        }
    }

    /// Returns the number.
    #[inline(always)]
    pub fn number(self) -> u64 {
        u64::from_le_bytes(self.bytes)
    }
}

impl PartialEq for PackedNumber {
    /// Returns whether the numbers are equal.
    #[inline(always)]
    fn eq(&self, other: &PackedNumber) -> bool {
        self.number() == other.number()
    }
}

impl Eq for PackedNumber {
}

impl Hash for PackedNumber {
    /// Hashes the number like a `u64`.
    fn hash<H: Hasher>(&self, state: &mut H) {
        self.number().hash(state);
    }
}

impl fmt::Debug for PackedNumber {
    /// Writes the number like a `u64`.
    fn fmt(&self, f: &mut fmt::Formatter<'_>) -> fmt::Result {
        fmt::Debug::fmt(&self.number(), f)
    }
}

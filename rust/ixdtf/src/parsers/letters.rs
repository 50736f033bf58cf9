// Made by tools/to_rust.py of crates/ixdtf_reading/src/letters.rt. Do not edit.

//! The function that consumes code units of one class.

use crate::cursor::Cursor;
use crate::Reason;
use crate::encoding::EncodingType;

/// A class of code units, such as the class of the code units that a key can contain.
pub trait Letters {
    /// Returns whether the class contains the code unit `byte`.
    fn has(byte: u8) -> bool;
}

/// Consumes code units as long as they are in the class.
///
/// Returns the next code unit, which is not consumed. Returns `None` at the end of the input, and `stop` at a bad code unit.
#[inline(always)]
pub fn pass_letters<'a, T: EncodingType, S: Letters>(
    cursor: &mut Cursor<'a, T>,
    stop: Reason,
) -> Result<Option<u8>, Reason> {
    let mut here = cursor.fork();
    // Each round has up to four accesses. They need only one test of the length, and the compiled code moves the cursor
    // once.
    let found = loop {
        if here.remaining() >= 4 {
            let first = here.look(stop);
            if !goes_on::<S>(first) {
                break first;
            }
            here.advance();
            let second = here.look(stop);
            if !goes_on::<S>(second) {
                break second;
            }
            here.advance();
            let third = here.look(stop);
            if !goes_on::<S>(third) {
                break third;
            }
            here.advance();
            let fourth = here.look(stop);
            if !goes_on::<S>(fourth) {
                break fourth;
            }
            here.advance();
            continue;
        }
        let last = here.look(stop);
        if !goes_on::<S>(last) {
            break last;
        }
        here.advance();
    };
    *cursor = here;
    found
}

/// Returns whether a code unit was read, and is in the class.
#[inline(always)]
fn goes_on<S: Letters>(found: Result<Option<u8>, Reason>) -> bool {
    match found {
        Ok(Some(byte)) => S::has(byte),
        Ok(None) | Err(_) => false,
    }
}

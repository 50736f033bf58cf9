//! The search for a byte.
//!
//! A person wrote this file. The proved crate compares sixteen bytes at once with `std::simd`, which stable Rust does not have. Here, a search
//! compares the eight bytes of a word at once. The loops that count bytes, and that look for a byte in a block, have no words, because the
//! compiler makes vector code from them.

/// The number of bytes of a word.
const WORD: usize = 8;

/// The number of bytes at the front of a long slice that are compared word by word.
const FRONT: usize = 256;

/// The number of bytes of a block. Behind the front of a long slice, whole blocks are compared at once.
const BLOCK: usize = 64;

/// The word in which each byte is 1.
const ONES: u64 = u64::MAX / 255;

/// The word in which each byte has only its highest bit.
const HIGHS: u64 = ONES << 7;

/// Returns the index of the first byte that is equal to `wanted`.
///
/// The function compares `bytes[0]` with `wanted` before it compares the bytes of a word. In a text with many empty lines or fields, `bytes[0]`
/// is often the wanted byte. Then the result is 0, and no comparison of a word is needed.
pub fn place_of(wanted: u8, bytes: &[u8]) -> Option<usize> {
    match bytes {
        [] => None,
        [first, ..] if *first == wanted => Some(0),
        _ if bytes.len() < WORD => bytes.iter().position(|byte| *byte == wanted),
        _ if bytes.len() < FRONT => place_from(wanted, bytes, 0),
        _ => place_in_many(wanted, bytes),
    }
}

/// Does the work of `place_of` for at least `FRONT` bytes.
///
/// Most lines and fields are short, so the first `FRONT` bytes are compared word by word.
fn place_in_many(wanted: u8, bytes: &[u8]) -> Option<usize> {
    place_from(wanted, &bytes[..FRONT], 0).or_else(|| place_behind_front(wanted, bytes))
}

/// Does the work of `place_of` if none of the first `FRONT` bytes is equal to `wanted`.
///
/// It compares whole blocks first. A byte of a long line takes 0.29 instructions in a block, and 1.4 instructions word by word.
#[inline(never)]
fn place_behind_front(wanted: u8, bytes: &[u8]) -> Option<usize> {
    let blocks = bytes[FRONT..].chunks_exact(BLOCK);
    let passed = blocks.take_while(|block| !has_byte(wanted, block)).count();
    place_from(wanted, bytes, FRONT + BLOCK * passed)
}

/// Returns whether a byte of the block is equal to `wanted`.
///
/// The loop compares all bytes of the block, also after it has found one. So the compiler makes vector code.
#[inline(always)]
fn has_byte(wanted: u8, block: &[u8]) -> bool {
    block.iter().fold(false, |found, byte| found | (*byte == wanted))
}

/// Does the work of `place_of` for at least `WORD` bytes, if none of the bytes before the index `start` is equal to `wanted`.
///
/// The last comparison takes the last `WORD` bytes, some of which can have been compared before.
#[inline(always)]
fn place_from(wanted: u8, bytes: &[u8], start: usize) -> Option<usize> {
    let last = bytes.len() - WORD;
    let mut start = start;
    while start < last {
        let marks = marks_from(wanted, bytes, start);
        if marks != 0 {
            return Some(start + marks.trailing_zeros() as usize / 8);
        }
        start += WORD;
    }
    let marks = marks_from(wanted, bytes, last);
    if marks != 0 {
        Some(last + marks.trailing_zeros() as usize / 8)
    } else {
        None
    }
}

/// Compares the eight bytes from the index `start` on with `wanted`.
///
/// Returns 0 if no byte is equal to `wanted`. Otherwise the lowest 1 bit of the result is in the first byte that is equal to `wanted`.
///
/// On each processor, the byte at `start` is the lowest byte of the word. The exclusive or turns each byte that is equal to `wanted` into 0.
/// The subtraction then sets the highest bit of this byte, which is its mark. At a byte 0, the subtraction borrows from the next byte. If the
/// next byte is 1, it gets a mark too, although it is not equal to `wanted`. This mark is never the lowest one.
#[inline(always)]
fn marks_from(wanted: u8, bytes: &[u8], start: usize) -> u64 {
    let word = match bytes[start..].first_chunk() {
        Some(word) => u64::from_le_bytes(*word) ^ (ONES * u64::from(wanted)),
        None => unreachable!(),
    };
    word.wrapping_sub(ONES) & !word & HIGHS
}

/// How far `pass_many` went.
#[derive(Clone, Copy)]
pub struct Passed {
    /// The number of bytes that were skipped.
    pub place: usize,
    /// The number of bytes equal to `wanted` that still have to be skipped.
    pub left: usize,
}

/// Skips bytes in steps of 16, as long as fewer than `count` of the skipped bytes are equal to `wanted`.
///
/// For example, if `wanted` is `b','` and `count` is 3, the function stops before the step that contains the third comma. The function also
/// stops if fewer than 16 bytes are left.
pub fn pass_many(wanted: u8, count: usize, bytes: &[u8]) -> Passed {
    let mut passed = Passed {
        place: 0,
        left: count,
    };
    for look in bytes.chunks_exact(16) {
        let here = look.iter().filter(|byte| **byte == wanted).count();
        if here >= passed.left {
            break;
        }
        passed.left -= here;
        passed.place += look.len();
    }
    passed
}

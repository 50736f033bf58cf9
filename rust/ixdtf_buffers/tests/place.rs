//! Compares `place_of` and `pass_many` with simple functions that go byte by byte. A person wrote both functions, and they are not proved.
//!
//! A search by words of eight bytes, by steps of sixteen or by blocks of 64 can go wrong at the ends of a word, and at bytes that are similar to
//! the wanted one.
//! So the tests have the wanted byte at each index of slices of many lengths. The other bytes are the wanted byte plus or minus 1, bytes that
//! differ from it in one bit, and some more.

use ixdtf_buffers::place::{pass_many, place_of};

/// Lengths from 0 to a few words, and lengths near the ends of later words and steps.
fn lengths() -> impl Iterator<Item = usize> {
    (0..=40).chain(62..=66)
}

/// The bytes to search for: those that the programs search for, and bytes at the ends of ranges.
const WANTED: [u8; 10] = [b'\n', b' ', b',', b';', 0x00, 0x01, 0x7f, 0x80, 0xfe, 0xff];

/// Bytes that a wrong search can take for the wanted one.
fn others(wanted: u8) -> Vec<u8> {
    let mut found = vec![wanted.wrapping_add(1), wanted.wrapping_sub(1), !wanted, 0x00, 0x01, 0x7f, 0x80, 0x81, 0xff, b'x'];
    found.extend((0..8).map(|bit| wanted ^ (1 << bit)));
    found.retain(|byte| *byte != wanted);
    found
}

/// Does the work of `place_of`, byte by byte.
fn plain_place(wanted: u8, bytes: &[u8]) -> Option<usize> {
    for (place, byte) in bytes.iter().enumerate() {
        if *byte == wanted {
            return Some(place);
        }
    }
    None
}

/// Does the work of `pass_many`, byte by byte. It skips sixteen bytes, as long as fewer of them are equal to `wanted` than are left.
fn plain_passed(wanted: u8, count: usize, bytes: &[u8]) -> (usize, usize) {
    let (mut place, mut left) = (0, count);
    loop {
        let mut here = 0;
        for at in place..place + 16 {
            match bytes.get(at) {
                Some(byte) if *byte == wanted => here += 1,
                Some(_) => {}
                None => return (place, left),
            }
        }
        if here >= left {
            return (place, left);
        }
        (place, left) = (place + 16, left - here);
    }
}

/// Compares both functions with the simple ones on these bytes.
fn check(wanted: u8, bytes: &[u8]) {
    assert_eq!(place_of(wanted, bytes), plain_place(wanted, bytes), "{wanted} in {bytes:?}");
    for count in [0, 1, 2, 15, 16, 17] {
        let passed = pass_many(wanted, count, bytes);
        assert_eq!((passed.place, passed.left), plain_passed(wanted, count, bytes), "{count} of {wanted} in {bytes:?}");
    }
}

#[test]
fn finds_none() {
    for wanted in WANTED {
        for other in others(wanted) {
            for length in lengths() {
                check(wanted, &vec![other; length]);
            }
        }
    }
}

#[test]
fn finds_one_in_each_place() {
    for wanted in WANTED {
        for other in others(wanted) {
            for length in lengths() {
                for place in 0..length {
                    let mut bytes = vec![other; length];
                    bytes[place] = wanted;
                    check(wanted, &bytes);
                }
            }
        }
    }
}

/// Lengths at both ends of the first 256 bytes, which are compared word by word, and of the first two blocks of 64 bytes after them.
fn long_lengths() -> impl Iterator<Item = usize> {
    (254..=258).chain(263..=265).chain(319..=321).chain(327..=329).chain(383..=385).chain(391..=393)
}

/// In a long slice, the wanted byte is at each index, alone or with the wanted byte at all later indexes.
#[test]
fn finds_the_first_of_a_long_slice() {
    for wanted in [b'\n', 0x00, 0x80, 0xff] {
        for other in [wanted.wrapping_add(1), wanted.wrapping_sub(1), wanted ^ 0x80] {
            for length in long_lengths() {
                let mut bytes = vec![other; length];
                check(wanted, &bytes);
                for place in 0..length {
                    bytes[place] = wanted;
                    check(wanted, &bytes);
                    bytes[place] = other;
                }
                for place in (0..length).rev() {
                    bytes[place] = wanted;
                    check(wanted, &bytes);
                }
            }
        }
    }
}

/// A wrong search can take a byte right before or after the wanted one for it, because a subtraction from a word borrows from the next byte.
#[test]
fn finds_the_first_of_two_beside_each_other_byte() {
    for wanted in WANTED {
        for other in others(wanted) {
            for length in lengths().filter(|length| *length <= 40) {
                for place in 0..length {
                    let mut bytes = vec![b'0'; length];
                    bytes.iter_mut().skip(place).for_each(|byte| *byte = other);
                    bytes[place] = wanted;
                    check(wanted, &bytes);
                    bytes.fill(other);
                    bytes[place..].fill(wanted);
                    check(wanted, &bytes);
                    bytes.iter_mut().skip(place).step_by(2).for_each(|byte| *byte = other);
                    check(wanted, &bytes);
                }
            }
        }
    }
}

/// The bytes before and after the slice do not change the result, for each address of the slice.
#[test]
fn looks_at_the_slice_alone() {
    for wanted in WANTED {
        for length in 0..=24 {
            for start in 0..16 {
                let mut around = vec![wanted; start + length + 16];
                around[start..start + length].fill(wanted.wrapping_add(1));
                check(wanted, &around[start..start + length]);
            }
        }
    }
}

/// Slices of pseudorandom bytes. Some have all 256 bytes, others only two or four different bytes.
#[test]
fn agrees_on_bytes_that_look_random() {
    let mut state = 0x2545_f491_4f6c_dd1d_u64;
    for round in 0..40_000_u32 {
        let most = if round % 16 < 4 { 601 } else { 97 };
        let mut bytes = vec![0; (round % most) as usize];
        for byte in &mut bytes {
            state ^= state << 13;
            state ^= state >> 7;
            state ^= state << 17;
            *byte = match round % 4 {
                0 => (state >> 32) as u8,
                1 => (state >> 32) as u8 & 1,
                2 => 0x80 | (state >> 32) as u8 & 1,
                _ => ((state >> 32) as u8 & 3).wrapping_sub(2),
            };
        }
        let wanted = match round % 4 {
            0 => (state >> 40) as u8,
            1 => (state >> 40) as u8 & 1,
            2 => 0x80 | (state >> 40) as u8 & 1,
            _ => ((state >> 40) as u8 & 3).wrapping_sub(2),
        };
        check(wanted, &bytes);
    }
}

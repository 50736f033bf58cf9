// Made by tools/to_rust.py of crates/ixdtf_print/src/put.rt. Do not edit.

//! Functions that write bytes into a slice.

/// Writes a few bytes at index `at`. Returns the index after them.
pub fn put(out: &mut [u8], at: usize, bytes: &[u8]) -> usize {
    let end = at + bytes.len();
    // The range is always in the slice, as the proof shows. The compiler does not know the proof: because of this test,
    // it compiles no code for a panic.
    if at <= end && end <= out.len() {
        out[at..end].copy_from_slice(bytes);
    }
    end
}

/// Writes any number of bytes at index `at`. Returns the index after them.
///
/// The function calls `put_sixteen` once for every sixteen bytes. If the function copied bytes in a loop instead, the
/// compiler would turn the loop into a call of `memcpy`. But the proved library for C must not call functions that it
/// does not contain. At the end, fewer than sixteen bytes are left. They are written without a loop.
#[inline(never)]
pub fn put_each(out: &mut [u8], at: usize, bytes: &[u8]) -> usize {
    let mut place = at;
    let mut rest = bytes;
    while let Some((front, back)) = rest.split_first_chunk::<16>() {
        place = put_sixteen(out, place, front);
        rest = back;
    }
    let (place, rest) = put_first::<8>(out, place, rest);
    let (place, rest) = put_first::<4>(out, place, rest);
    let (place, rest) = put_first::<2>(out, place, rest);
    let (place, _none) = put_first::<1>(out, place, rest);
    place
}

/// Writes sixteen bytes. The function is not inlined: otherwise the compiler could turn the loop of [`put_each`] into a
/// call of `memcpy`.
#[inline(never)]
fn put_sixteen(out: &mut [u8], at: usize, bytes: &[u8; 16]) -> usize {
    put(out, at, bytes)
}

/// Writes the first `COUNT` bytes, if there are at least `COUNT` bytes. Returns the index after them, and the other bytes.
#[inline(always)]
fn put_first<'a, const COUNT: usize>(
    out: &mut [u8],
    at: usize,
    bytes: &'a [u8],
) -> (usize, &'a [u8]) {
    match bytes.split_first_chunk::<COUNT>() {
        None => (at, bytes),
        Some((front, back)) => (put(out, at, front), back),
    }
}

/// Writes the byte at index `at`. Returns the index after it.
pub fn put_byte(out: &mut [u8], at: usize, byte: u8) -> usize {
    set_byte(out, at, byte);
    at + 1
}

/// Writes the byte at index `at`.
pub fn set_byte(out: &mut [u8], at: usize, byte: u8) {
    // The index is always in the slice, as the proof shows. The compiler does not know the proof: because of this test,
    // it compiles no code for a panic.
    if at < out.len() {
        out[at] = byte;
    }
}

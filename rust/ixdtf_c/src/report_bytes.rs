// Made by tools/to_rust.py of crates/ixdtf_c/src/report_bytes.rt. Do not edit.

//! A function that adds bytes to a text in an array of the caller.

/// Writes `bytes` to the array, from index `at` on, if they fit. Returns `at` plus the number of the bytes, even if the bytes do
/// not fit.
///
/// A function can add the parts of a text one after the other. The `at` of each call is then the number that the call before it
/// returned. If the first call gets 0, the last call returns the length of the whole text, even if the array is empty.
pub fn add(out: &mut [u8], at: usize, bytes: &[u8]) -> usize {
    let end = at.saturating_add(bytes.len());
    if at > out.len() || bytes.len() > out.len() - at {
        return end;
    }
    out[at..end].copy_from_slice(bytes);
    end
}

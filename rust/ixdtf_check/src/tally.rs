// Made by tools/to_rust.py of crates/ixdtf_checks/src/tally.rt. Do not edit.

//! The counts of a check.

/// The number of lines, the number of refused lines, and the number of bytes that were read.
#[derive(Clone, Copy, Debug, PartialEq)]
pub struct Tally {
    /// The number of lines.
    pub lines: u64,
    /// The number of refused lines.
    pub refused: u64,
    /// The number of bytes that were read.
    pub bytes: u64,
}

impl Tally {
    /// Returns counts of zero.
    pub fn new() -> Tally {
        Tally {
            lines: 0,
            refused: 0,
            bytes: 0,
        }
    }

    /// Counts one more line. A count that would overflow stays at `u64::MAX`.
    pub fn add_line(&mut self, is_refused: bool) {
        self.lines = self.lines.saturating_add(1);
        self.refused = self.refused.saturating_add(u64::from(is_refused));
    }

    /// Adds the counts of another file. A count that would overflow becomes `u64::MAX`.
    pub fn add(&mut self, other: Tally) {
        self.lines = self.lines.saturating_add(other.lines);
        self.refused = self.refused.saturating_add(other.refused);
        self.bytes = self.bytes.saturating_add(other.bytes);
    }
}

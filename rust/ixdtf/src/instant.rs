// Made by tools/to_rust.py of crates/ixdtf_instants/src/instant.rt. Do not edit.

//! Instants.

// The number of nanoseconds in a second.
const BILLION: u32 = 1_000_000_000;

/// A point in time: the seconds since 1970-01-01T00:00:00Z, and the nanoseconds after these seconds.
///
/// Leap seconds are not counted: each day has 86,400 seconds (POSIX.1-2017, section 4.16).
///
/// Instants are ordered by the seconds, and then by the nanoseconds. If the nanoseconds of two instants are below
/// 1,000,000,000, the earlier instant is the smaller one.
///
/// `Display` writes the date and the time in UTC, such as `2024-03-02T08:48:00.25Z`. Years from 0 to 9999 have four
/// digits. Other years have a sign and six digits, as in `+010000-01-01T00:00:00Z`. If six digits are not enough, the
/// year has a sign and twelve digits, and no reader accepts this text. The fraction has no zeros at its end. If the
/// nanoseconds are 0, no fraction is written. `Display` ignores width and fill.
///
/// The offset of a record can lead to a year of more than six digits: in UTC, `+999999-12-31T23:59:59-23:59` is in the year
/// 1000000. A program can also make an instant with such a year, because the fields are public. A program can also make an
/// instant with 1,000,000,000 nanoseconds or more. `Display` counts each 1,000,000,000 of these nanoseconds as one more second.
#[derive(Clone, Copy, Debug, PartialEq, Eq, PartialOrd, Ord, Hash)]
pub struct Instant {
    /// The number of seconds since 1970-01-01T00:00:00Z, rounded down. It is below zero for an instant before 1970.
    pub seconds: i64,
    /// The nanoseconds after these seconds. In the instant of a record, they are 0 to 999,999,999.
    pub nanoseconds: u32,
}

impl Instant {
    /// Returns the instant that is later by the seconds and the nanoseconds.
    #[inline(always)]
    pub(crate) fn later_by(self, seconds: u32, nanoseconds: u32) -> Instant {
        let sum = self.nanoseconds + nanoseconds;
        Instant {
            seconds: self.seconds + i64::from(seconds) + i64::from(sum / BILLION),
            nanoseconds: sum % BILLION,
        }
    }

    /// Returns the instant that is earlier by the seconds and the nanoseconds.
    #[inline(always)]
    pub(crate) fn earlier_by(self, seconds: u32, nanoseconds: u32) -> Instant {
        let sum = self.nanoseconds + BILLION - nanoseconds;
        Instant {
            seconds: self.seconds - i64::from(seconds) + i64::from(sum / BILLION) - 1,
            nanoseconds: sum % BILLION,
        }
    }
}

//! Tests that a duration is equal to the duration that is read back from its canonical text. Some durations are read from generated texts,
//! and others have generated fields.
use ixdtf::parsers::{IsoDurationParser, Profile};
use ixdtf::records::{DateDurationRecord, DurationParseRecord, Fraction, Sign, TimeDurationRecord};
use ixdtf_print::{duration_length, print_duration, CanonicalDuration, PrintError};

/// Returns the canonical text. Checks that it has the length that is counted, and that `Display` writes the same text.
fn printed(duration: &DurationParseRecord) -> Result<String, PrintError> {
    let mut out = [7; 512];
    let count = print_duration(duration, &mut out)?;
    assert_eq!(duration_length(duration), Some(count));
    assert!(out[count..].iter().all(|byte| *byte == 7));
    let text = String::from_utf8(out[..count].to_vec()).unwrap();
    assert_eq!(CanonicalDuration::of(duration).unwrap().to_string(), text);
    assert_eq!(print_duration(duration, &mut out[..count - 1]), Err(PrintError::TooShort));
    assert_eq!(print_duration(duration, &mut out[..count]), Ok(count));
    Ok(text)
}

/// Checks that the duration is read back from its canonical text under each profile. Returns this text.
fn check_read_back(duration: &DurationParseRecord) -> String {
    let text = printed(duration).unwrap();
    for profile in [Profile::Crate, Profile::Strict] {
        assert_eq!(IsoDurationParser::from_str(&text).with_profile(profile).parse(), Ok(*duration), "{text}");
    }
    text
}

#[test]
fn refuses_an_empty_duration() {
    let text = IsoDurationParser::from_str("P1D").parse().unwrap();
    let empty = DurationParseRecord { date: None, ..text };
    let mut out = [7; 8];
    assert_eq!(print_duration(&empty, &mut out), Err(PrintError::NotPrintable));
    assert_eq!(out, [7; 8]);
    assert_eq!(duration_length(&empty), None);
    assert!(CanonicalDuration::of(&empty).is_none());
}

/// Pseudorandom numbers. They are the same in each run.
struct Numbers(u64);

impl Numbers {
    fn next(&mut self) -> u64 {
        self.0 = self.0.wrapping_mul(6_364_136_223_846_793_005).wrapping_add(1_442_695_040_888_963_407);
        self.0 >> 33
    }

    fn below(&mut self, most: u64) -> u64 {
        self.next() % most
    }

    /// A number up to `greatest`. It is often 0, or a power of ten.
    fn number(&mut self, greatest: u64) -> u64 {
        let power = 10u64.pow(self.below(20) as u32);
        let number = match self.below(6) {
            0 => 0,
            1 => power,
            2 => power - 1,
            3 => greatest,
            _ => (self.next() << 33 | self.next()) >> self.below(64),
        };
        number.min(greatest)
    }

    fn fraction(&mut self) -> Option<Fraction> {
        if self.below(2) == 0 {
            return None;
        }
        let most = [255, 20, 20, 20][self.below(4) as usize];
        let count = 1 + self.below(most) as u8;
        Fraction::of_parts(count, self.number(10u64.pow(u32::from(count.min(18))) - 1))
    }

    fn date(&mut self) -> Option<DateDurationRecord> {
        if self.below(3) == 0 {
            return None;
        }
        let greatest = u64::from(u32::MAX);
        let mut date = DateDurationRecord::default();
        date.years = self.number(greatest) as u32;
        date.months = self.number(greatest) as u32;
        date.weeks = self.number(greatest) as u32;
        date.days = self.number(u64::MAX);
        Some(date)
    }

    fn time(&mut self) -> Option<TimeDurationRecord> {
        let hours = self.number(u64::MAX);
        let minutes = self.number(u64::MAX);
        let seconds = self.number(u64::MAX);
        let fraction = self.fraction();
        match self.below(4) {
            0 => None,
            1 => Some(TimeDurationRecord::Hours { hours, fraction }),
            2 => Some(TimeDurationRecord::Minutes { hours, minutes, fraction }),
            _ => Some(TimeDurationRecord::Seconds { hours, minutes, seconds, fraction }),
        }
    }

    fn duration(&mut self) -> DurationParseRecord {
        let mut duration = IsoDurationParser::from_str("P1D").parse().unwrap();
        duration.sign = Sign::from(self.below(2) == 0);
        duration.date = self.date();
        duration.time = self.time();
        duration
    }
}

#[test]
fn reads_back_made_durations() {
    let mut numbers = Numbers(2_026);
    let count = std::env::var("DURATIONS").map_or(20_000, |count| count.parse().unwrap());
    for _ in 0..count {
        let duration = numbers.duration();
        if duration.date.is_none() && duration.time.is_none() {
            assert_eq!(printed(&duration), Err(PrintError::NotPrintable));
        } else {
            check_read_back(&duration);
        }
    }
}

/// The canonical text of a duration is not longer than the text that was read.
#[test]
fn is_at_most_as_long() {
    let mut numbers = Numbers(70);
    let mut read = 0;
    for _ in 0..20_000 {
        let mut text = String::from(["", "+", "-"][numbers.below(3) as usize]);
        text += "P";
        for letter in ["Y", "Y", "M", "w", "D", "T", "H", "m", "M", "S"] {
            match numbers.below(3) {
                0 => {}
                _ if letter == "T" => text += "T",
                _ => text += &format!("{:0width$}{letter}", numbers.below(12), width = numbers.below(4) as usize),
            }
        }
        if let Ok(duration) = IsoDurationParser::from_str(&text).parse() {
            read += 1;
            let canonical = check_read_back(&duration);
            assert!(canonical.len() <= text.len(), "{text}, printed as {canonical}");
        }
    }
    assert!(read > 5_000);
}

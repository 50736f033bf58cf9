//! Tests that a record of 16-bit text is printed as the same text as the record of 8-bit text with the same fields. The names and calendars
//! of the records are generated. Some of them have code units that no text has.
use ixdtf::encoding::{EncodingType, Utf16, Utf8};
use ixdtf::parsers::IxdtfParser;
use ixdtf::records::{IxdtfParseRecord, TimeZoneAnnotation, TimeZoneRecord};
use ixdtf_print::{month_day_length_utf16, print_month_day, print_month_day_utf16, PrintError};
use ixdtf_print::{print, print_time, print_time_utf16, print_utf16, print_zone, print_zone_utf16, printed_length_utf16};
use ixdtf_print::{print_year_month, print_year_month_utf16, time_length_utf16, year_month_length_utf16, zone_length_utf16};

type Bytes<'a> = IxdtfParseRecord<'a, Utf8>;
type Units<'a> = IxdtfParseRecord<'a, Utf16>;

/// A generator of numbers (xorshift).
struct Numbers(u64);

impl Numbers {
    fn below(&mut self, limit: u64) -> u64 {
        self.0 ^= self.0 << 13;
        self.0 ^= self.0 >> 7;
        self.0 ^= self.0 << 17;
        (self.0 >> 11) % limit
    }
}

/// The characters of generated names. One name in eight also has another code unit.
const CHARACTERS: &[u8] = b"abcXYZ019-._/+";
const OTHERS: &[u16] = &[0, 32, 91, 93, 127, 128, 255, 256, 256 + 97, 0x2028, 0xd800, 0xff41, 0xffff];

fn name(numbers: &mut Numbers) -> Vec<u16> {
    let count = numbers.below(40);
    let mut name: Vec<u16> =
        (0..count).map(|_| u16::from(CHARACTERS[numbers.below(CHARACTERS.len() as u64) as usize])).collect();
    if count > 0 && numbers.below(8) == 0 {
        let at = numbers.below(count) as usize;
        name[at] = OTHERS[numbers.below(OTHERS.len() as u64) as usize];
    }
    name
}

/// The name in bytes. No reader accepts the byte 128, which stands for each code unit that is not ASCII.
fn bytes_of(name: &[u16]) -> Vec<u8> {
    name.iter().map(|unit| u8::try_from(*unit).map_or(128, |byte| byte.min(128))).collect()
}

/// Both printers write the same text, or refuse the record for the same reason. Both leave the same rest. The length is that of the text.
fn check_same(
    wide: impl Fn(&mut [u16]) -> Result<usize, PrintError>,
    narrow: impl Fn(&mut [u8]) -> Result<usize, PrintError>,
    length: Option<usize>,
    room: usize,
) -> bool {
    let mut units = [7; 160];
    let mut bytes = [7; 160];
    let printed = wide(&mut units[..room]);
    assert_eq!(printed, narrow(&mut bytes[..room]));
    assert_eq!(units, bytes.map(u16::from));
    match printed {
        Ok(count) => assert_eq!(length, Some(count)),
        Err(PrintError::TooShort) => assert!(length.unwrap() > room),
        Err(PrintError::NotPrintable) => assert_eq!(length, None),
    }
    printed.is_ok()
}

/// The cores of the texts from which the records are read.
const CORES: &[&str] = &["2024-03-02", "2024-03-02T08:48:00.25-05:00", "-000001-12-31T23:59:60Z", "2020-11-01", "0000-11-07"];

#[test]
fn prints_the_same_text_in_both_widths() {
    let mut numbers = Numbers(0x9e37_79b9_7f4a_7c15);
    let units: Vec<u16> = "2024-03-02[+01:30]".encode_utf16().collect();
    let mut printed = [0; 5];
    for round in 0..50_000 {
        let core = CORES[round % CORES.len()];
        let (zone, calendar) = (name(&mut numbers), name(&mut numbers));
        let (zone_bytes, calendar_bytes) = (bytes_of(&zone), bytes_of(&calendar));
        let mut wide: Units<'_> = Units::default();
        let mut narrow: Bytes<'_> = Bytes::default();
        if round % 3 == 0 {
            let time = IxdtfParser::from_str("T08:48:00.5+01").parse_time().unwrap();
            (wide.time, wide.offset) = (time.time, time.offset);
            (narrow.time, narrow.offset) = (time.time, time.offset);
        } else {
            let record = IxdtfParser::from_str(core).parse().unwrap();
            (wide.date, wide.time, wide.offset) = (record.date, record.time, record.offset);
            (narrow.date, narrow.time, narrow.offset) = (record.date, record.time, record.offset);
        }
        let critical = numbers.below(2) == 0;
        let narrow_note = IxdtfParser::from_str("2024-03-02[+01:30]").parse().unwrap().tz.unwrap();
        let wide_note = IxdtfParser::from_utf16(&units).parse().unwrap().tz.unwrap();
        match (numbers.below(4), narrow_note.tz) {
            (0, _) => {}
            (1, TimeZoneRecord::Offset(offset)) => {
                wide.tz = annotation(wide_note, critical, TimeZoneRecord::Offset(offset));
                narrow.tz = annotation(narrow_note, critical, TimeZoneRecord::Offset(offset));
            }
            _ => {
                wide.tz = annotation(wide_note, critical, TimeZoneRecord::Name(&zone));
                narrow.tz = annotation(narrow_note, critical, TimeZoneRecord::Name(&zone_bytes));
            }
        }
        if numbers.below(2) == 0 {
            wide.calendar = Some(&calendar);
            narrow.calendar = Some(&calendar_bytes);
        }
        let room = if numbers.below(4) == 0 { numbers.below(80) as usize } else { 160 };
        let done = [
            check_same(|out| print_utf16(&wide, out), |out| print(&narrow, out), printed_length_utf16(&wide), room),
            check_same(|out| print_time_utf16(&wide, out), |out| print_time(&narrow, out), time_length_utf16(&wide), room),
            check_same(
                |out| print_year_month_utf16(&wide, out),
                |out| print_year_month(&narrow, out),
                year_month_length_utf16(&wide),
                room,
            ),
            check_same(
                |out| print_month_day_utf16(&wide, out),
                |out| print_month_day(&narrow, out),
                month_day_length_utf16(&wide),
                room,
            ),
            check_same(
                |out| print_zone_utf16(&TimeZoneRecord::Name(&zone), out),
                |out| print_zone(&TimeZoneRecord::Name(&zone_bytes), out),
                zone_length_utf16(&TimeZoneRecord::Name(&zone)),
                room,
            ),
        ];
        for (count, done) in printed.iter_mut().zip(done) {
            *count += u32::from(done);
        }
    }
    assert!(printed.iter().all(|count| *count > 500), "{printed:?}");
}

/// The zone annotation of any width, made from one that is read.
fn annotation<'a, T: EncodingType>(
    mut note: TimeZoneAnnotation<'a, T>,
    critical: bool,
    tz: TimeZoneRecord<'a, T>,
) -> Option<TimeZoneAnnotation<'a, T>> {
    note.critical = critical;
    note.tz = tz;
    Some(note)
}

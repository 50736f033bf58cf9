//! The two widths of code units.
use ixdtf::encoding::{EncodingType, Utf16, Utf8};
use ixdtf::records::{DurationParseRecord, IxdtfParseRecord, TimeZoneRecord, UtcOffsetRecord};
use ixdtf_print as print;

type Record<'a, W> = IxdtfParseRecord<'a, <W as Width>::Encoding>;
type Printed = Result<usize, print::PrintError>;
/// What `Display` writes of the canonical text, if there is one. There is no `Display` for 16-bit code units.
pub type Displayed = Option<Option<String>>;

/// A width: its code units, and its printers.
pub trait Width: Sized + PartialEq + 'static {
    type Unit: Copy + PartialEq + 'static;
    type Encoding: EncodingType<CodeUnit = Self::Unit> + PartialEq + 'static;

    fn unit(number: u16) -> Self::Unit;
    fn number(unit: Self::Unit) -> u16;

    /// The bytes of a text. A text of 16-bit code units becomes UTF-8, if it is UTF-16.
    fn bytes(units: &[Self::Unit]) -> Option<Vec<u8>>;

    fn calendar_key() -> &'static [Self::Unit];
    fn first_calendar() -> &'static [Self::Unit];
    fn second_calendar() -> &'static [Self::Unit];

    fn print(it: &Record<'_, Self>, out: &mut [Self::Unit]) -> Printed;
    fn print_year_month(it: &Record<'_, Self>, out: &mut [Self::Unit]) -> Printed;
    fn print_month_day(it: &Record<'_, Self>, out: &mut [Self::Unit]) -> Printed;
    fn print_time(it: &Record<'_, Self>, out: &mut [Self::Unit]) -> Printed;
    fn print_offset(it: &UtcOffsetRecord, out: &mut [Self::Unit]) -> Printed;
    fn print_zone(it: &TimeZoneRecord<'_, Self::Encoding>, out: &mut [Self::Unit]) -> Printed;
    fn print_duration(it: &DurationParseRecord, out: &mut [Self::Unit]) -> Printed;

    fn length(it: &Record<'_, Self>) -> Option<usize>;
    fn year_month_length(it: &Record<'_, Self>) -> Option<usize>;
    fn month_day_length(it: &Record<'_, Self>) -> Option<usize>;
    fn time_length(it: &Record<'_, Self>) -> Option<usize>;
    fn zone_length(it: &TimeZoneRecord<'_, Self::Encoding>) -> Option<usize>;

    fn displayed(it: &Record<'_, Self>) -> Displayed;
    fn displayed_year_month(it: &Record<'_, Self>) -> Displayed;
    fn displayed_month_day(it: &Record<'_, Self>) -> Displayed;
    fn displayed_time(it: &Record<'_, Self>) -> Displayed;
    fn displayed_zone(it: &TimeZoneRecord<'_, Self::Encoding>) -> Displayed;

    /// Code units of a text that was accepted. They are ASCII.
    fn shown(units: &[Self::Unit]) -> String {
        units.iter().map(|unit| char::from(u8::try_from(Self::number(*unit)).unwrap())).collect()
    }
}

/// 8-bit code units.
#[derive(PartialEq)]
pub struct Narrow;

/// 16-bit code units.
#[derive(PartialEq)]
pub struct Wide;

macro_rules! printers {
    ($unit:ty, $encoding:ty, $record:ident, $year_month:ident, $month_day:ident, $time:ident, $offset:ident, $zone:ident, $duration:ident) => {
        type Unit = $unit;
        type Encoding = $encoding;

        fn print(it: &Record<'_, Self>, out: &mut [$unit]) -> Printed {
            print::$record(it, out)
        }
        fn print_year_month(it: &Record<'_, Self>, out: &mut [$unit]) -> Printed {
            print::$year_month(it, out)
        }
        fn print_month_day(it: &Record<'_, Self>, out: &mut [$unit]) -> Printed {
            print::$month_day(it, out)
        }
        fn print_time(it: &Record<'_, Self>, out: &mut [$unit]) -> Printed {
            print::$time(it, out)
        }
        fn print_offset(it: &UtcOffsetRecord, out: &mut [$unit]) -> Printed {
            print::$offset(it, out)
        }
        fn print_zone(it: &TimeZoneRecord<'_, $encoding>, out: &mut [$unit]) -> Printed {
            print::$zone(it, out)
        }
        fn print_duration(it: &DurationParseRecord, out: &mut [$unit]) -> Printed {
            print::$duration(it, out)
        }
    };
}

macro_rules! lengths {
    ($encoding:ty, $record:ident, $year_month:ident, $month_day:ident, $time:ident, $zone:ident) => {
        fn length(it: &Record<'_, Self>) -> Option<usize> {
            print::$record(it)
        }
        fn year_month_length(it: &Record<'_, Self>) -> Option<usize> {
            print::$year_month(it)
        }
        fn month_day_length(it: &Record<'_, Self>) -> Option<usize> {
            print::$month_day(it)
        }
        fn time_length(it: &Record<'_, Self>) -> Option<usize> {
            print::$time(it)
        }
        fn zone_length(it: &TimeZoneRecord<'_, $encoding>) -> Option<usize> {
            print::$zone(it)
        }
    };
}

/// A function that displays a value, if there is a type that does.
macro_rules! display {
    ($name:ident, $value:ty) => {
        fn $name(_: &$value) -> Displayed {
            None
        }
    };
    ($name:ident, $value:ty, $canonical:ident) => {
        fn $name(it: &$value) -> Displayed {
            Some(print::$canonical::of(it).map(|it| it.to_string()))
        }
    };
}

impl Width for Narrow {
    printers!(u8, Utf8, print, print_year_month, print_month_day, print_time, print_offset, print_zone, print_duration);
    lengths!(Utf8, printed_length, year_month_length, month_day_length, time_length, zone_length);
    display!(displayed, Record<'_, Self>, Canonical);
    display!(displayed_year_month, Record<'_, Self>, CanonicalYearMonth);
    display!(displayed_month_day, Record<'_, Self>, CanonicalMonthDay);
    display!(displayed_time, Record<'_, Self>, CanonicalTime);
    display!(displayed_zone, TimeZoneRecord<'_, Utf8>, CanonicalZone);

    fn unit(number: u16) -> u8 {
        u8::try_from(number).unwrap()
    }
    fn number(unit: u8) -> u16 {
        unit.into()
    }
    fn bytes(units: &[u8]) -> Option<Vec<u8>> {
        Some(units.to_vec())
    }
    fn calendar_key() -> &'static [u8] {
        b"u-ca"
    }
    fn first_calendar() -> &'static [u8] {
        b"a"
    }
    fn second_calendar() -> &'static [u8] {
        b"b"
    }
}

impl Width for Wide {
    printers!(
        u16,
        Utf16,
        print_utf16,
        print_year_month_utf16,
        print_month_day_utf16,
        print_time_utf16,
        print_offset_utf16,
        print_zone_utf16,
        print_duration_utf16
    );
    lengths!(Utf16, printed_length_utf16, year_month_length_utf16, month_day_length_utf16, time_length_utf16, zone_length_utf16);
    display!(displayed, Record<'_, Self>);
    display!(displayed_year_month, Record<'_, Self>);
    display!(displayed_month_day, Record<'_, Self>);
    display!(displayed_time, Record<'_, Self>);
    display!(displayed_zone, TimeZoneRecord<'_, Utf16>);

    fn unit(number: u16) -> u16 {
        number
    }
    fn number(unit: u16) -> u16 {
        unit
    }
    fn bytes(units: &[u16]) -> Option<Vec<u8>> {
        String::from_utf16(units).ok().map(String::into_bytes)
    }
    fn calendar_key() -> &'static [u16] {
        &[0x75, 0x2d, 0x63, 0x61]
    }
    fn first_calendar() -> &'static [u16] {
        &[0x61]
    }
    fn second_calendar() -> &'static [u16] {
        &[0x62]
    }
}

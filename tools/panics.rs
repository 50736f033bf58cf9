//! A program for `tools/panics.sh`. It calls every reader on 8-bit and on 16-bit text, with and without a handler, and the printer.
//! It is linked without the standard library. So each panic in it is a panic of a function that it calls.
#![no_std]
#![no_main]

use core::fmt::{self, Write};
use core::hint::black_box;
use ixdtf::encoding::{Utf16, Utf8};
use ixdtf::parsers::{IsoDurationParser, IxdtfParser, Profile, TimeZoneParser};
use ixdtf::LocatedError;

#[panic_handler]
fn panic(_: &core::panic::PanicInfo<'_>) -> ! {
    loop {}
}

// `core` is compiled for unwinding, and refers to this function of the standard library.
#[unsafe(no_mangle)]
extern "C" fn rust_eh_personality() {}

/// A writer that drops what it gets.
struct Nowhere;

impl Write for Nowhere {
    fn write_str(&mut self, text: &str) -> fmt::Result {
        black_box(text);
        Ok(())
    }
}

#[cfg(display)]
fn show(error: LocatedError, text: &str) {
    let _ = black_box(error.error.to_static_string());
    let _ = write!(Nowhere, "{error}");
    let _ = write!(Nowhere, "{}", error.in_text(text));
    let _ = write!(Nowhere, "{}", error.message_in(text.as_bytes()));
    if let Some(hint) = error.hint_in(text.as_bytes()) {
        let _ = write!(Nowhere, "{hint}");
    }
    black_box(error.part_in(text.as_bytes()));
}

macro_rules! of_records {
    ($parser:expr; $($plain:ident $handled:ident $located:ident $both:ident),*) => {$(
        black_box($parser.$plain()).is_ok();
        black_box($parser.$handled(|annotation| black_box(true).then_some(annotation))).is_ok();
        black_box($parser.$located()).is_ok();
        black_box($parser.with_profile(Profile::Strict).$both(|annotation| black_box(true).then_some(annotation))).is_ok();
    )*};
}

macro_rules! in_width {
    ($name:ident, $unit:ty, $encoding:ty) => {
        #[inline(never)]
        fn $name(source: &[$unit]) {
            of_records!(IxdtfParser::<$encoding>::new(black_box(source));
                parse parse_with_annotation_handler parse_located parse_with_annotation_handler_located,
                parse_year_month parse_year_month_with_annotation_handler parse_year_month_located parse_year_month_with_annotation_handler_located,
                parse_month_day parse_month_day_with_annotation_handler parse_month_day_located parse_month_day_with_annotation_handler_located,
                parse_time parse_time_with_annotation_handler parse_time_located parse_time_with_annotation_handler_located,
                parse_rfc9557 parse_rfc9557_with_annotation_handler parse_rfc9557_located parse_rfc9557_with_annotation_handler_located);
            black_box(IxdtfParser::<$encoding>::new(black_box(source)).parse_rfc3339()).is_ok();
            black_box(IxdtfParser::<$encoding>::new(black_box(source)).parse_rfc3339_located()).is_ok();
            black_box(TimeZoneParser::<$encoding>::new(black_box(source)).parse_identifier()).is_ok();
            black_box(TimeZoneParser::<$encoding>::new(black_box(source)).parse_identifier_located()).is_ok();
            black_box(TimeZoneParser::<$encoding>::new(black_box(source)).parse_iana_identifier()).is_ok();
            black_box(TimeZoneParser::<$encoding>::new(black_box(source)).parse_iana_identifier_located()).is_ok();
            black_box(TimeZoneParser::<$encoding>::new(black_box(source)).parse_offset()).is_ok();
            if let Ok(offset) = black_box(TimeZoneParser::<$encoding>::new(black_box(source)).parse_offset_located()) {
                black_box((offset.sign(), offset.hour(), offset.minute(), offset.second()));
                black_box(offset.fraction().map(|it| (it.to_nanoseconds(), it.to_truncated_nanoseconds())));
            }
            black_box(IsoDurationParser::<$encoding>::new(black_box(source)).parse()).is_ok();
            black_box(IsoDurationParser::<$encoding>::new(black_box(source)).with_profile(Profile::Strict).parse_located()).is_ok();
        }
    };
}

in_width!(narrow, u8, Utf8);
in_width!(wide, u16, Utf16);


#[cfg(printer)]
fn printed(record: &ixdtf::records::IxdtfParseRecord<'_, Utf8>, out: &mut [u8]) {
    if let Err(error) = black_box(ixdtf_print::print(record, out)) {
        let _ = write!(Nowhere, "{error}");
    }
    black_box(ixdtf_print::printed_length(record));
    if let Some(canonical) = ixdtf_print::Canonical::of(record) {
        let _ = write!(Nowhere, "{canonical}");
    }
}

#[unsafe(no_mangle)]
pub extern "C" fn _start() -> ! {
    #[cfg(readers)]
    narrow(black_box(&[]));
    #[cfg(readers)]
    wide(black_box(&[]));
    #[cfg(display)]
    show(black_box(LocatedError { error: ixdtf::ParseError::InvalidEnd, at: 0, reason: ixdtf::Reason::AfterDate }), black_box(""));
    #[cfg(printer)]
    printed(black_box(&ixdtf::records::IxdtfParseRecord::default()), black_box(&mut [0; 64]));
    loop {}
}

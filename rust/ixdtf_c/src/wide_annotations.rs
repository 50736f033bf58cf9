// Made by tools/to_rust.py of crates/ixdtf_c/src/wide_annotations.rt. Do not edit.

//! The readers of 16-bit text that list annotations.

use crate::slices::to_c;
use crate::struct_traits::RecordOf;
use crate::wide::{Annotation, Record};
use ixdtf::LocatedError;
use ixdtf::encoding::Utf16;
use ixdtf::parsers::{CoreReader, FromStop, IxdtfParser, Profile};
use ixdtf::records::{self, IxdtfParseRecord};

/// The list of the annotations of a text. If the array is too short, the list has only the first annotations.
struct List<'l, 'a> {
    slots: &'l mut [Annotation<'a>],
    count: usize,
}

impl<'l, 'a> List<'l, 'a> {
    /// Counts an annotation. Adds it to the array if the array is long enough.
    #[inline(always)]
    fn add(&mut self, annotation: records::Annotation<'a, Utf16>) {
        if self.count < self.slots.len() {
            self.slots[self.count] = Annotation {
                key: to_c(annotation.key),
                value: to_c(annotation.value),
                is_critical: annotation.critical,
            };
        }
        self.count = self.count.saturating_add(1);
    }
}

/// Reads a text with the reader of the kind `C`, and lists the annotations. The handler of this reader drops each of them, so
/// the record has no calendar.
///
/// The library is written in Rattle, which is Rust with contracts. Rattle's borrow checker refuses a function that has
/// `'static` in the types of its signature, and that also uses a bound with a lifetime. With `LocatedError` as its error, this
/// function would have both: `LocatedError` contains `'static`, and a handler has such a bound. So the function is generic in
/// the error.
#[inline(always)]
fn list_as<'a, E: FromStop, C: CoreReader>(
    text: &'a [u16],
    profile: Profile,
    list: &mut List<'_, 'a>,
) -> Result<IxdtfParseRecord<'a, Utf16>, E> {
    let mut parser = IxdtfParser::<Utf16>::new(text).with_profile(profile);
    let mut handler = |annotation| {
        list.add(annotation);
        None
    };
    parser.read_lending_handler::<E, C, _>(&mut handler)
}

/// Does what [`list_as`] does, and writes the record or the error for C. Returns 0 or the number of the error.
#[inline(always)]
pub fn list_into<'a, C: CoreReader>(
    text: &'a [u16],
    profile: Profile,
    annotations: &mut [Annotation<'a>],
    count: &mut usize,
    out: &mut Record<'a>,
) -> u32 {
    let mut list = List {
        slots: annotations,
        count: 0,
    };
    let read = list_as::<LocatedError, C>(text, profile, &mut list);
    *count = list.count;
    match read {
        Ok(found) => {
            out.write(&found);
            0
        }
        Err(located) => out.refuse(located),
    }
}

// Made by tools/to_rust.py of crates/ixdtf_checks/src/judge.rt. Do not edit.

//! Decides the verdict on a line.

use crate::cause::{Cause, Unread, WholeText};
use crate::csv::Quoting;
use crate::instant_reading::read_instant;
use crate::kind::{InstantKind, Kind};
use crate::line_part::{Lost, Part, part_of};
use crate::printed_line::PrintedText;
use crate::printing::{print_date_time, read_to_print};
use crate::reading::{read, read_date_time};
use crate::request::{Field, Request, Task};
use crate::skipped::kept_line;
use crate::verdict::{LINE_LIMIT, Verdict};
use ixdtf::parsers::Profile;
use ixdtf::{Instant, LocatedError, LocatedReason};

/// Writes the verdict on the line to `verdict`. The line is `None` if it is too long. `last` is the instant of the nearest
/// preceding line whose text names an instant. If the task is `Task::Order` and the text of this line names an instant, `last`
/// becomes this instant.
///
/// The verdict has to be `Verdict::Accepted` before the call. It is written through a reference, because a verdict that is returned is
/// copied completely. If the task is `Task::Check` and the line is accepted, the function does not change `verdict`. Most lines are
/// accepted.
#[inline(always)]
pub fn judge<'a>(
    request: &Request<'_>,
    is_first: bool,
    last: &mut Option<Instant>,
    line: Option<&'a [u8]>,
    printed: &mut PrintedText,
    unquoted: &'a mut [u8; LINE_LIMIT],
    verdict: &mut Verdict<'a>,
) {
    match line {
        None => *verdict = Verdict::Refused(Cause::TooLong),
        Some(bytes) => judge_short(request, is_first, last, bytes, printed, unquoted, verdict),
    }
}

/// Writes the verdict on a line that is not too long. `bytes` are the complete bytes of the line.
#[inline(always)]
fn judge_short<'a>(
    request: &Request<'_>,
    is_first: bool,
    last: &mut Option<Instant>,
    bytes: &'a [u8],
    printed: &mut PrintedText,
    unquoted: &'a mut [u8; LINE_LIMIT],
    verdict: &mut Verdict<'a>,
) {
    match kept_line(&request.skips, is_first, bytes) {
        None => *verdict = Verdict::Skipped,
        Some(line) => judge_line(request, last, line, printed, unquoted, verdict),
    }
}

/// Writes the verdict on a line that is not skipped.
#[inline(always)]
fn judge_line<'a>(
    request: &Request<'_>,
    last: &mut Option<Instant>,
    line: &'a [u8],
    printed: &mut PrintedText,
    unquoted: &'a mut [u8; LINE_LIMIT],
    verdict: &mut Verdict<'a>,
) {
    match request.field {
        None => {
            let part = Part {
                start: 0,
                text: line,
                is_quoted: false,
            };
            judge_text(request, last, part, printed, verdict)
        }
        Some(field) => judge_field(request, field, last, line, printed, unquoted, verdict),
    }
}

/// Writes the verdict on a line whose text begins with the given field.
#[inline(always)]
fn judge_field<'a>(
    request: &Request<'_>,
    field: Field,
    last: &mut Option<Instant>,
    line: &'a [u8],
    printed: &mut PrintedText,
    unquoted: &'a mut [u8; LINE_LIMIT],
    verdict: &mut Verdict<'a>,
) {
    match part_of(field, line, unquoted) {
        Err(Lost::NoField) => refuse_no_field(verdict, line.len() + 1),
        Err(Lost::Broken(broken)) => refuse_broken(verdict, broken.quoting, broken.at + 1),
        Ok(part) => judge_text(request, last, part, printed, verdict),
    }
}

/// Writes the verdict on a line that has too few fields. `column` is the column directly after the line.
///
/// This function, `refuse_broken` and `judge_print` are inlined, and are functions of their own for this reason: Rattle's compiler
/// sets the local variables of a function to zero where the code of the function begins. So these variables are not set to zero for
/// an accepted line of a check.
#[inline(always)]
fn refuse_no_field(verdict: &mut Verdict<'_>, column: usize) {
    *verdict = Verdict::Refused(Cause::NoField(column));
}

/// Writes the verdict on a line that is no record of RFC 4180.
#[inline(always)]
fn refuse_broken(verdict: &mut Verdict<'_>, quoting: Quoting, column: usize) {
    *verdict = Verdict::Refused(Cause::Broken(quoting, column));
}

/// Writes the verdict on the text of a line.
#[inline(always)]
fn judge_text<'a>(
    request: &Request<'_>,
    last: &mut Option<Instant>,
    part: Part<'a>,
    printed: &mut PrintedText,
    verdict: &mut Verdict<'a>,
) {
    match request.task {
        Task::Check(kind) => judge_check(kind, request.profile, part, verdict),
        Task::Print(kind) => judge_print(kind, request.profile, part, printed, verdict),
        Task::Order(kind) => judge_order(kind, last, part, verdict),
    }
}

/// Writes the verdict on a text that is read as a text of the kind.
///
/// Most texts are date-times. The other kinds have a function that is not inlined: otherwise the errors of all readers would be set
/// to zero for each date-time.
#[inline(always)]
fn judge_check<'a>(kind: Kind, profile: Profile, part: Part<'a>, verdict: &mut Verdict<'a>) {
    if !kind.is_date_time() {
        return judge_other_check(kind, profile, part, verdict);
    }
    match read_date_time(part.text) {
        Ok(()) => {}
        Err(error) => refuse(verdict, true, error, part),
    }
}

/// Does the work of `judge_check`. The function accepts every kind, but `judge_check` does not call it for date-times.
#[inline(never)]
fn judge_other_check<'a>(kind: Kind, profile: Profile, part: Part<'a>, verdict: &mut Verdict<'a>) {
    match read(kind, profile, part.text) {
        Ok(()) => {}
        Err(error) => refuse(verdict, kind.has_offset(), error, part),
    }
}

/// Writes the verdict on a text that is read as a text of the kind, and prints its canonical text.
///
/// Most texts are date-times. The other kinds have a function that is not inlined, as in `judge_check`.
#[inline(always)]
fn judge_print<'a>(
    kind: Kind,
    profile: Profile,
    part: Part<'a>,
    printed: &mut PrintedText,
    verdict: &mut Verdict<'a>,
) {
    if !kind.is_date_time() {
        return call_other_print(kind, profile, part, printed, verdict);
    }
    match print_date_time(part.text, printed) {
        Ok(()) => *verdict = Verdict::Printed,
        Err(error) => refuse(verdict, true, error, part),
    }
}

/// Calls `judge_other_print`.
///
/// This function is inlined, and is a function of its own, so that the part is copied for `judge_other_print` only if the text is no
/// date-time.
#[inline(always)]
fn call_other_print<'a>(
    kind: Kind,
    profile: Profile,
    part: Part<'a>,
    printed: &mut PrintedText,
    verdict: &mut Verdict<'a>,
) {
    judge_other_print(kind, profile, part, printed, verdict);
}

/// Does the work of `judge_print`. The function accepts every kind, but it is not called for date-times.
#[inline(never)]
fn judge_other_print<'a>(
    kind: Kind,
    profile: Profile,
    part: Part<'a>,
    printed: &mut PrintedText,
    verdict: &mut Verdict<'a>,
) {
    match read_to_print(kind, profile, part.text, printed) {
        Ok(()) => *verdict = Verdict::Printed,
        Err(error) => refuse(verdict, kind.has_offset(), error, part),
    }
}

/// Writes the verdict on a text that has to name an instant. This instant must not be before `last`. `last` becomes this instant,
/// also if it is before the old one.
///
/// The function is inlined, and `judge_instant` is not. So the part is copied for `judge_instant` only if the task is `Task::Order`.
#[inline(always)]
fn judge_order<'a>(
    kind: InstantKind,
    last: &mut Option<Instant>,
    part: Part<'a>,
    verdict: &mut Verdict<'a>,
) {
    judge_instant(kind, *last, part, verdict);
    verdict.keep_instant(last);
}

/// Writes the verdict on a text that has to name an instant. This instant must not be before `last`.
#[inline(never)]
fn judge_instant<'a>(
    kind: InstantKind,
    last: Option<Instant>,
    part: Part<'a>,
    verdict: &mut Verdict<'a>,
) {
    match read_instant(kind, part.text) {
        Ok(Some(instant)) => *verdict = order(instant, last, part),
        Ok(None) => *verdict = Verdict::Refused(Cause::Untimed(whole_text(part))),
        Err(error) => refuse(verdict, true, error, part),
    }
}

/// Returns the verdict on a text that names this instant: `Timed`, or `Refused` if the instant is before `last`.
fn order(instant: Instant, last: Option<Instant>, part: Part<'_>) -> Verdict<'_> {
    match last {
        Some(last) if instant < last => Verdict::Refused(Cause::Early(instant, whole_text(part))),
        _ => Verdict::Timed(instant),
    }
}

/// Returns the text with its column, for a text that is refused as a whole.
fn whole_text(part: Part<'_>) -> WholeText<'_> {
    WholeText {
        column: part.start + 1,
        text: part.text,
    }
}

/// Writes the verdict on a line whose text a reader refuses. `has_offset` says whether texts of this kind can have an offset after
/// their time.
#[inline(always)]
fn refuse<'a>(verdict: &mut Verdict<'a>, has_offset: bool, error: LocatedError, part: Part<'a>) {
    write_unread(verdict, has_offset, error.located_reason(), part)
}

/// Does the work of `refuse`. `error` is the reason of the error with its position. No report needs more of the error.
///
/// The function is not inlined: otherwise its local variables would be set to zero for each line, also if the line is accepted. Its
/// caller is inlined, so that the compiler can leave out the other parts of the error.
#[inline(never)]
fn write_unread<'a>(
    verdict: &mut Verdict<'a>,
    has_offset: bool,
    error: LocatedReason,
    part: Part<'a>,
) {
    *verdict = Verdict::Refused(Cause::Unread(Unread {
        has_offset,
        error,
        part,
    }));
}

// Made by tools/to_rust.py of crates/ixdtf_checks/src/verdict.rt. Do not edit.

//! The verdict on a line.

use crate::cause::Cause;
use crate::request::Task;
use ixdtf::Instant;

/// The greatest length of a line that is read, in bytes.
pub const LINE_LIMIT: usize = 65536;

/// The verdict on a line.
#[derive(Clone, Copy)]
pub enum Verdict<'a> {
    /// The text of the line is accepted.
    Accepted,
    /// The text of the line is accepted, and names this instant. The instant is not before the previous instant. The previous
    /// instant is that of the nearest preceding line whose text names an instant.
    Timed(Instant),
    /// The text of the line is accepted, and its canonical text is printed.
    Printed,
    /// The line has no text, and is skipped.
    Skipped,
    /// The line is refused for this cause.
    Refused(Cause<'a>),
}

impl Verdict<'_> {
    /// Returns whether the line is refused.
    pub fn is_refused(&self) -> bool {
        matches!(self, Verdict::Refused(_))
    }

    /// Returns whether the report of the line goes to the second output: the line is refused, and the task prints canonical texts.
    pub fn goes_to_second(&self, task: Task) -> bool {
        matches!((self, task), (Verdict::Refused(_), Task::Print(_)))
    }

    /// If the verdict has an instant, writes it to `last`. Otherwise `last` is unchanged.
    pub fn keep_instant(&self, last: &mut Option<Instant>) {
        match self {
            Verdict::Timed(instant) => *last = Some(*instant),
            Verdict::Refused(Cause::Early(instant, _)) => *last = Some(*instant),
            Verdict::Refused(
                Cause::TooLong
                | Cause::NoField(_)
                | Cause::Broken(_, _)
                | Cause::Untimed(_)
                | Cause::Unread(_),
            ) => {}
            Verdict::Accepted | Verdict::Printed | Verdict::Skipped => {}
        }
    }
}

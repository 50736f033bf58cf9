// Made by tools/to_rust.py of crates/ixdtf_reading/src/stop.rt. Do not edit.

//! Makes the error of a reader from a `Reason`, a code and a position.

use crate::error_code::Code;
use crate::{ParseError, Reason};

/// Returns `Err(stop)`.
///
/// The attribute `cold` tells the compiler that errors are rare. Without this attribute, the compiled code prepares the value of the
/// `Reason` before it tests a code unit, even if the text has no error.
#[cold]
#[inline(always)]
pub fn stopped<R>(stop: Reason) -> Result<R, Reason> {
    Err(stop)
}

/// A reason, the code of the error of this reason, and the position of this error.
#[derive(Clone, Copy)]
pub struct StopAt {
    /// The reason.
    pub reason: Reason,
    /// The code of the error.
    pub code: Code,
    /// The position: the number of code units before the error.
    pub at: usize,
}

/// An error that can be made from a `StopAt`: `ParseError`, or `LocatedError` with the position and the reason.
///
/// A function that can return a `ParseError` or a `LocatedError` is generic in the type of its error. This trait is the bound of that
/// type.
pub trait FromStop {
    /// Makes the error.
    fn of_stop(why: StopAt) -> Self;
}

impl FromStop for ParseError {
    /// Makes the error, without its position and its reason.
    #[inline(always)]
    fn of_stop(why: StopAt) -> ParseError {
        why.code.error()
    }
}

/// Makes the error.
///
/// The function is not inlined, so that the code of its callers stays small. The function is generic, so the compiler knows the
/// body of the function when it compiles a caller. If the caller does not use the error, the compiler can remove the call.
#[cold]
#[inline(never)]
pub fn error_of_stop<E: FromStop>(why: StopAt) -> E {
    E::of_stop(why)
}

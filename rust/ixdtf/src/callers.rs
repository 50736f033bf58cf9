// Made by tools/to_rust.py of crates/ixdtf_callers/src/callers.rt. Do not edit.

//! Calls the readers in the way in which code of another repository calls them.

#[allow(unused_imports)]
use crate::runtime::{HostRuntime, TryClone};

mod calling;
mod surface;

use crate::runtime::Abort;

/// Asserts the condition of a test. `what` is shown if it is false.
fn check(rt: &impl Abort, what: &str, is_so: bool) {
    assert!(rt; is_so, "{what}");
}

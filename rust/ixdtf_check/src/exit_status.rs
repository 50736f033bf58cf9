// Made by tools/to_rust.py of crates/ixdtf_checks/src/exit_status.rt. Do not edit.

//! The exit status of the program.

/// Returns the exit status: 2 if something failed, otherwise 1 if at least one line was refused, otherwise 0.
pub fn status_of(has_failed: bool, refused: u64) -> u8 {
    if has_failed {
        2
    } else if refused == 0 {
        0
    } else {
        1
    }
}

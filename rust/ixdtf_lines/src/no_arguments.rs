// Made by tools/to_rust.py of crates/ixdtf_answers/src/no_arguments.rt. Do not edit.

//! Whether the program accepts the number of words after its name. It accepts none.

/// Returns whether the program accepts this number of words after its name. It accepts only 0.
pub fn arguments_allowed(count: usize) -> bool {
    count == 0
}

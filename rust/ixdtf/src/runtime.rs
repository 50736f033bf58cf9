//! What the tests need from the standard library of Rattle.
//!
//! The tests are made from the tests of the proved library. A person wrote this file.

pub use std::string::String as Text;

/// What a Rattle test gets from the system. The test passes it to the functions that it calls.
pub struct HostRuntime;

impl HostRuntime {
    pub fn alloc(&self) -> Global {
        Global
    }
}

/// In Rattle, a function needs a value of a type with this trait to end a test, and passes the value to `assert!`. In Rust, `assert!` does
/// not need the value.
pub trait Abort {}

impl Abort for HostRuntime {}

impl<A: Abort> Abort for &A {}

/// The allocator.
#[derive(Clone, Copy)]
pub struct Global;

/// The error for missing memory. It never occurs here.
#[derive(Debug, PartialEq)]
pub enum AllocError {}

impl std::fmt::Display for AllocError {
    fn fmt(&self, _f: &mut std::fmt::Formatter<'_>) -> std::fmt::Result {
        match *self {}
    }
}

impl std::error::Error for AllocError {}

/// The reason why a test fails.
pub type Fail = std::boxed::Box<dyn std::error::Error>;

/// A string whose growth returns a result.
pub struct String(Text);

impl String {
    pub fn new(_alloc: Global) -> String {
        String(Text::new())
    }

    pub fn of(text: Text) -> String {
        String(text)
    }

    pub fn push_str(&mut self, text: &str) -> Result<(), AllocError> {
        self.0.push_str(text);
        Ok(())
    }

    pub fn as_str(&self) -> &str {
        &self.0
    }
}

/// Clones a value, and returns a result.
pub trait TryClone: Clone {
    fn try_clone(&self) -> Result<Self, AllocError> {
        Ok(self.clone())
    }
}

impl<X: Clone> TryClone for X {}

macro_rules! assert {
    ($rt:expr; $($rest:tt)*) => {{ let _ = &$rt; std::assert!($($rest)*) }};
}

macro_rules! assert_eq {
    ($rt:expr; $($rest:tt)*) => {{ let _ = &$rt; std::assert_eq!($($rest)*) }};
}

macro_rules! format {
    (in $alloc:expr; $($rest:tt)*) => {{ let _ = $alloc; Ok::<_, $crate::runtime::AllocError>($crate::runtime::String::of(std::format!($($rest)*))) }};
}

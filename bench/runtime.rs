//! What the benchmark in Rust needs from the standard library of Rattle: memory and output that return results.

/// What a Rattle program gets from the system.
pub struct HostRuntime;

impl HostRuntime {
    pub fn alloc(&self) -> Global {
        Global
    }
}

/// The allocator.
#[derive(Clone, Copy)]
pub struct Global;

/// The error for missing memory. It never occurs here.
pub enum AllocError {}

/// A vector whose growth returns a result.
pub struct Vec<T>(std::vec::Vec<T>);

impl<T> Vec<T> {
    pub fn new(_alloc: Global) -> Vec<T> {
        Vec(std::vec::Vec::new())
    }

    pub fn push(&mut self, one: T) -> Result<(), AllocError> {
        self.0.push(one);
        Ok(())
    }

    pub fn len(&self) -> usize {
        self.0.len()
    }

    pub fn get(&self, at: usize) -> Option<&T> {
        self.0.get(at)
    }

    pub fn get_mut(&mut self, at: usize) -> Option<&mut T> {
        self.0.get_mut(at)
    }

    pub fn as_slice(&self) -> &[T] {
        &self.0
    }
}

impl<T: Clone> Vec<T> {
    pub fn extend_from_slice(&mut self, more: &[T]) -> Result<(), AllocError> {
        self.0.extend_from_slice(more);
        Ok(())
    }
}

/// Copies a slice, and returns a result.
pub trait TryToVec<T> {
    fn try_to_vec(&self, alloc: Global) -> Result<Vec<T>, AllocError>;
}

impl<T: Clone> TryToVec<T> for [T] {
    fn try_to_vec(&self, _alloc: Global) -> Result<Vec<T>, AllocError> {
        Ok(Vec(self.to_vec()))
    }
}

pub mod env {
    //! The arguments of the program.
    use super::HostRuntime;

    pub fn args(_rt: &HostRuntime) -> Result<std::env::Args, ()> {
        Ok(std::env::args())
    }
}

macro_rules! println {
    ($rt:expr; $($rest:tt)*) => {{
        let _ = $rt;
        std::io::Write::write_fmt(&mut std::io::stdout(), std::format_args!("{}\n", std::format_args!($($rest)*)))
    }};
}

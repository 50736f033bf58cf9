//! Slices that are passed between C and Rust. A person wrote this file, because it has `unsafe` code.

use core::marker::PhantomData;

#[cfg(not(target_pointer_width = "64"))]
compile_error!("ixdtf_c is for 64-bit targets");

/// A slice in a struct. C has it as a pointer and a length. If the length is 0, the pointer may be `NULL`.
#[derive(Clone, Copy)]
#[repr(C)]
pub struct Slice<'a, U> {
    at: *const U,
    length: usize,
    units: PhantomData<&'a [U]>,
}

/// Returns the slice as C has it.
#[inline(always)]
pub fn to_c<'a, U>(slice: &'a [U]) -> Slice<'a, U> {
    Slice {
        at: slice.as_ptr(),
        length: slice.len(),
        units: PhantomData,
    }
}

/// Returns the slice that C passes. If its length is 0, the pointer is not used, because C may pass `NULL`.
#[inline(always)]
pub fn from_c<'a, U>(given: Slice<'a, U>) -> &'a [U] {
    // SAFETY: the header requires this of the caller.
    unsafe { slice(given.at, given.length) }
}

/// Returns the slice of `length` items at the pointer. If `length` is 0, returns an empty slice, and does not use the pointer.
///
/// # Safety
///
/// If `length` is not 0, all items can be read, and nothing changes them while the slice is used.
#[inline(always)]
pub unsafe fn slice<'a, T>(at: *const T, length: usize) -> &'a [T] {
    if length == 0 {
        return &[];
    }
    // SAFETY: the caller guarantees this, as the doc comment requires.
    unsafe { core::slice::from_raw_parts(at, length) }
}

/// Returns the mutable slice of `length` items at the pointer. If `length` is 0, returns an empty slice, and does not use the pointer.
///
/// # Safety
///
/// If `length` is not 0, all items can be read and written, and nothing else uses them while the slice is used.
#[inline(always)]
pub unsafe fn slice_mut<'a, T>(at: *mut T, length: usize) -> &'a mut [T] {
    if length == 0 {
        return &mut [];
    }
    // SAFETY: the caller guarantees this, as the doc comment requires.
    unsafe { core::slice::from_raw_parts_mut(at, length) }
}

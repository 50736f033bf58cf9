//! The panic handler. The proofs show that no function of the library panics. But rustc does not know the proofs, and requires a panic handler
//! in a crate without the standard library. A person wrote this file.

/// Ends the program immediately, without a call of the C library.
#[panic_handler]
fn abort(_: &core::panic::PanicInfo<'_>) -> ! {
    #[cfg(target_arch = "x86_64")]
    // SAFETY: the instruction stops the program, and changes no memory.
    unsafe {
        core::arch::asm!("ud2", options(noreturn, nomem, nostack))
    }
    #[cfg(target_arch = "aarch64")]
    // SAFETY: the instruction stops the program, and changes no memory.
    unsafe {
        core::arch::asm!("brk #1", options(noreturn, nomem, nostack))
    }
    #[cfg(not(any(target_arch = "x86_64", target_arch = "aarch64")))]
    loop {}
}

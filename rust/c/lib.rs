//! The library for C, from the proved source. Its build script leaves out the contracts.
#![no_std]
#![deny(improper_ctypes_definitions)]
// The functions for C don't use every public item of the libraries.
#![allow(unused)]

#[cfg(not(target_pointer_width = "64"))]
compile_error!("the proofs are about 64 bits of usize");

include!(concat!(env!("OUT_DIR"), "/library.rs"));

/// A date by its Julian day, or an offset by its seconds, as C passes it.
#[repr(C)]
struct Number(i32);

#[cfg_attr(windows, link(name = "msvcrt"))]
#[cfg_attr(not(windows), link(name = "c"))]
unsafe extern "C" {
    fn abort() -> !;
}

/// Ends the process. The proofs rule out each panic, unless a caller breaks a rule of the header.
#[panic_handler]
fn panic(_: &core::panic::PanicInfo<'_>) -> ! {
    // SAFETY: `abort` has no conditions.
    unsafe { abort() }
}

// The unwind tables of `core` name this function. Nothing calls it, since a panic doesn't unwind. The symbol is weak, so a
// program in Rust can have its own, and hidden, so the shared object doesn't export it.
#[cfg(target_os = "linux")]
core::arch::global_asm!(".weak rust_eh_personality", ".hidden rust_eh_personality", "rust_eh_personality:");

#[cfg(not(target_os = "linux"))]
#[unsafe(no_mangle)]
extern "C" fn rust_eh_personality() {}

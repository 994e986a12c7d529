//! The program `ee` in plain Rust: the proved sources with their contracts left out, compiled by
//! rustc. It is not the proved program. `README.md` says what is made, and what is written by hand.
#![forbid(unsafe_code)]
// The proved sources name some parameters for their contracts alone, and pass on more than this
// program calls.
#![allow(dead_code, unused_imports, unused_variables)]

#[cfg(not(all(
    target_os = "linux",
    any(target_arch = "x86_64", target_arch = "aarch64")
)))]
compile_error!("ee-plain is for Linux on x86-64 and AArch64: its files were tried on no other");

#[macro_use]
mod rattle;

// `build.rs` made these modules of the proved sources.
include!(concat!(env!("OUT_DIR"), "/crates.rs"));

/// More bytes of stack than any command takes.
const STACK: usize = 256 * 1024;

fn main() -> std::process::ExitCode {
    grow_stack();
    ee::main(rattle::rt::HostRuntime)
}

/// Has the stack before any memory is asked for: where none is left for a stack that grows, the
/// system ends the program by a signal, and it could not say so.
#[inline(never)]
fn grow_stack() {
    std::hint::black_box([0_u8; STACK]);
}

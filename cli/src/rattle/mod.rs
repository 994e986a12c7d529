//! What stands for Rattle's own `std` in plain Rust, and for its `toml`.
//!
//! Rattle's collections take an allocator, and a call of theirs that asks for memory answers a
//! refusal. Its calls that reach outside of the process take the runtime. These do the same over
//! Rust's `std`, as far as the program uses it. Whatever means the same in both is Rust's own.

#[macro_use]
mod macros;

pub mod alloc;
pub mod collections;
pub mod env;
pub mod fs;
pub mod rt;
pub mod simd;
pub mod string;
pub mod toml;
pub mod vec;

pub use std::{error, fmt, mem, ops, process};

pub mod io {
    pub use super::rt::writer;
    pub use std::io::{Error, ErrorKind, IsTerminal, Read, Result, Seek, SeekFrom, Write};
}

pub mod os {
    pub mod unix {
        pub mod fs {
            pub use crate::rattle::fs::OpenOptionsExt;
            pub use std::os::unix::fs::MetadataExt;
        }
    }
}

/// The names that each file has.
pub mod prelude {
    pub use super::alloc::CollectIn;
    pub use super::rt::{AllocGlobal, Eprint, HostRuntime, Input, Print};
    pub use super::string::{String, ToUppercaseIn};
    pub use super::vec::Vec;
}

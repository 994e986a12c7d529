//! What stands for `std::alloc`: allocators as values, and what a refused request answers.
use std::collections::TryReserveError;
use std::fmt;

/// What a collection is made with. There is one allocator, that of Rust's collections.
pub trait Allocator {}

/// The allocator of Rust's collections.
#[derive(Clone, Copy, Debug, PartialEq, Eq)]
pub struct Global;

impl Allocator for Global {}

impl<A: Allocator> Allocator for &A {}

/// A request for memory was refused.
#[derive(Clone, Copy, Debug, PartialEq, Eq)]
pub struct AllocError;

/// The same, with what could not be stored.
#[derive(Clone, Copy, Debug, PartialEq, Eq)]
pub struct AllocFailed<T> {
    pub value: T,
}

impl<T> From<AllocFailed<T>> for AllocError {
    fn from(_failed: AllocFailed<T>) -> AllocError {
        AllocError
    }
}

impl From<TryReserveError> for AllocError {
    fn from(_error: TryReserveError) -> AllocError {
        AllocError
    }
}

impl From<AllocError> for fmt::Error {
    fn from(_error: AllocError) -> fmt::Error {
        fmt::Error
    }
}

impl From<AllocError> for std::io::Error {
    fn from(_error: AllocError) -> std::io::Error {
        std::io::Error::from(std::io::ErrorKind::OutOfMemory)
    }
}

/// Asks for so many bytes and gives them back, before a call of Rust's that would end the program
/// where there are none.
pub fn ask(bytes: usize) -> Result<(), AllocError> {
    let mut room: std::vec::Vec<u8> = std::vec::Vec::new();
    room.try_reserve_exact(bytes)?;
    // Else a compiler leaves out a request of which nothing comes.
    std::hint::black_box(&mut room);
    Ok(())
}

/// A collection that gathers items on an allocator.
pub trait FromIteratorIn<T, A>: Sized {
    fn from_iter_in<I: Iterator<Item = T>>(alloc: A, items: I) -> Result<Self, AllocError>;
}

/// What stands for `Iterator::collect`, which takes an allocator in Rattle.
pub trait CollectIn: Iterator + Sized {
    fn collect_in<A, C: FromIteratorIn<Self::Item, A>>(self, alloc: A) -> Result<C, AllocError> {
        C::from_iter_in(alloc, self)
    }
}

impl<I: Iterator> CollectIn for I {}

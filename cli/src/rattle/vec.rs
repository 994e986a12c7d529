//! What stands for `std::vec`: a vector that asks for memory before it grows.
use super::alloc::{AllocError, AllocFailed, Allocator, FromIteratorIn, Global};
use std::ops::{Deref, DerefMut};
use std::vec::Vec as Items;

/// Items in a row, on an allocator.
#[derive(Debug)]
pub struct Vec<T, A: Allocator = Global> {
    items: Items<T>,
    alloc: A,
}

impl<T, A: Allocator> Vec<T, A> {
    pub fn new(alloc: A) -> Vec<T, A> {
        Vec {
            items: Items::new(),
            alloc,
        }
    }

    pub fn with_capacity(alloc: A, capacity: usize) -> Result<Vec<T, A>, AllocError> {
        let mut new = Vec::new(alloc);
        new.items.try_reserve_exact(capacity)?;
        Ok(new)
    }

    pub fn from_slice(alloc: A, items: &[T]) -> Result<Vec<T, A>, AllocError>
    where
        T: Copy,
    {
        let mut new = Vec::with_capacity(alloc, items.len())?;
        new.items.extend_from_slice(items);
        Ok(new)
    }

    pub fn allocator(&self) -> &A {
        &self.alloc
    }

    pub fn as_slice(&self) -> &[T] {
        &self.items
    }

    pub fn as_mut_slice(&mut self) -> &mut [T] {
        &mut self.items
    }

    pub fn clear(&mut self) {
        self.items.clear();
    }

    pub fn truncate(&mut self, length: usize) {
        self.items.truncate(length);
    }

    #[inline]
    pub fn extend_from_slice(&mut self, items: &[T]) -> Result<(), AllocError>
    where
        T: Copy,
    {
        self.items.try_reserve(items.len())?;
        self.items.extend_from_slice(items);
        Ok(())
    }

    /// Whether there is no room for one more item, and no memory for it.
    #[inline]
    fn is_full(&mut self) -> bool {
        self.items.len() == self.items.capacity() && self.items.try_reserve(1).is_err()
    }

    #[inline]
    pub fn push(&mut self, item: T) -> Result<(), AllocFailed<T>> {
        if self.is_full() {
            return Err(AllocFailed { value: item });
        }
        self.items.push(item);
        Ok(())
    }

    pub fn insert(&mut self, place: usize, item: T) -> Result<(), AllocFailed<T>> {
        if self.is_full() {
            return Err(AllocFailed { value: item });
        }
        self.items.insert(place, item);
        Ok(())
    }

    pub fn remove(&mut self, place: usize) -> T {
        self.items.remove(place)
    }

    pub fn retain<F: FnMut(&T) -> bool>(&mut self, keeps: F) {
        self.items.retain(keeps);
    }

    pub fn sort_by_key<K: Ord, F: FnMut(&T) -> K>(&mut self, key: F) -> Result<(), AllocError> {
        // Rust's sort asks for no more, and can't say that it was refused.
        Items::<T>::new().try_reserve_exact(self.items.len())?;
        self.items.sort_by_key(key);
        Ok(())
    }

    pub fn dedup_by_key<K: PartialEq, F: FnMut(&mut T) -> K>(&mut self, key: F) {
        self.items.dedup_by_key(key);
    }

    pub fn shrink_to(&mut self, least: usize) {
        self.items.shrink_to(least);
    }
}

impl<T, A: Allocator> Deref for Vec<T, A> {
    type Target = [T];

    #[inline]
    fn deref(&self) -> &[T] {
        &self.items
    }
}

impl<T, A: Allocator> DerefMut for Vec<T, A> {
    #[inline]
    fn deref_mut(&mut self) -> &mut [T] {
        &mut self.items
    }
}

impl<T, A: Allocator> IntoIterator for Vec<T, A> {
    type Item = T;
    type IntoIter = std::vec::IntoIter<T>;

    fn into_iter(self) -> std::vec::IntoIter<T> {
        self.items.into_iter()
    }
}

impl<'a, T, A: Allocator> IntoIterator for &'a Vec<T, A> {
    type Item = &'a T;
    type IntoIter = std::slice::Iter<'a, T>;

    fn into_iter(self) -> std::slice::Iter<'a, T> {
        self.items.iter()
    }
}

impl<T, A: Allocator> FromIteratorIn<T, A> for Vec<T, A> {
    fn from_iter_in<I: Iterator<Item = T>>(alloc: A, items: I) -> Result<Vec<T, A>, AllocError> {
        let mut all = Vec::with_capacity(alloc, items.size_hint().0)?;
        for item in items {
            all.push(item)?;
        }
        Ok(all)
    }
}

impl<A: Allocator> Vec<u8, A> {
    /// The bytes that a text had.
    pub(super) fn of_bytes(items: Items<u8>, alloc: A) -> Vec<u8, A> {
        Vec { items, alloc }
    }
}

/// So many of an item.
pub fn repeated<T: Clone, A: Allocator>(
    alloc: A,
    item: T,
    count: usize,
) -> Result<Vec<T, A>, AllocError> {
    let mut all = Vec::with_capacity(alloc, count)?;
    all.items.resize(count, item);
    Ok(all)
}

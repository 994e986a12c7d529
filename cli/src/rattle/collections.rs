//! What stands for `std::collections`: ordered maps and sets over Rust's own, which end the program
//! where memory ends. So each call that adds an entry asks before for as much as it may take.
use super::alloc::{ask, AllocError, Allocator, FromIteratorIn, Global};
use std::borrow::Borrow;
use std::collections;
use std::ops::{Deref, RangeBounds};

pub mod btree_map {
    pub use std::collections::btree_map::Iter;
}

/// So many levels a tree has at most. Each node but the first has five entries or more.
const MOST_LEVELS: usize = 16;

/// So many entries a node has at most.
const MOST_ENTRIES: usize = 11;

/// As many bytes as a new entry takes at most: a new node on each level, and a new root.
const fn most_bytes<K, V>() -> usize {
    let entries = MOST_ENTRIES * (size_of::<K>() + size_of::<V>() + size_of::<usize>());
    (MOST_LEVELS + 1) * (entries + 8 * size_of::<usize>())
}

/// A map by rising key.
#[derive(Debug)]
pub struct BTreeMap<K, V, A: Allocator = Global> {
    map: collections::BTreeMap<K, V>,
    alloc: A,
}

impl<K: Ord, V, A: Allocator> BTreeMap<K, V, A> {
    pub fn new(alloc: A) -> BTreeMap<K, V, A> {
        BTreeMap {
            map: collections::BTreeMap::new(),
            alloc,
        }
    }

    pub fn insert(&mut self, key: K, value: V) -> Result<Option<V>, AllocError> {
        ask(most_bytes::<K, V>())?;
        Ok(self.map.insert(key, value))
    }

    pub fn remove<Q: Ord>(&mut self, key: &Q) -> Option<V>
    where
        K: Borrow<Q>,
    {
        self.map.remove(key)
    }

    pub fn retain<F: FnMut(&K, &mut V) -> bool>(&mut self, keeps: F) {
        self.map.retain(keeps);
    }

    pub fn clear(&mut self) {
        self.map.clear();
    }

    pub fn range<R: RangeBounds<K>>(&self, range: R) -> collections::btree_map::Range<'_, K, V> {
        self.map.range(range)
    }
}

impl<K, V, A: Allocator> Deref for BTreeMap<K, V, A> {
    type Target = collections::BTreeMap<K, V>;

    /// Calls that only look are those of Rust's map.
    fn deref(&self) -> &collections::BTreeMap<K, V> {
        &self.map
    }
}

/// A set by rising item.
#[derive(Debug)]
pub struct BTreeSet<T, A: Allocator = Global> {
    set: collections::BTreeSet<T>,
    alloc: A,
}

impl<T: Ord, A: Allocator> BTreeSet<T, A> {
    pub fn new(alloc: A) -> BTreeSet<T, A> {
        BTreeSet {
            set: collections::BTreeSet::new(),
            alloc,
        }
    }

    pub fn insert(&mut self, item: T) -> Result<bool, AllocError> {
        ask(most_bytes::<T, ()>())?;
        Ok(self.set.insert(item))
    }

    pub fn remove<Q: Ord>(&mut self, item: &Q) -> bool
    where
        T: Borrow<Q>,
    {
        self.set.remove(item)
    }
}

impl<T, A: Allocator> Deref for BTreeSet<T, A> {
    type Target = collections::BTreeSet<T>;

    /// Calls that only look are those of Rust's set.
    fn deref(&self) -> &collections::BTreeSet<T> {
        &self.set
    }
}

impl<'a, T, A: Allocator> IntoIterator for &'a BTreeSet<T, A> {
    type Item = &'a T;
    type IntoIter = collections::btree_set::Iter<'a, T>;

    fn into_iter(self) -> collections::btree_set::Iter<'a, T> {
        self.set.iter()
    }
}

impl<T: Ord, A: Allocator> FromIteratorIn<T, A> for BTreeSet<T, A> {
    fn from_iter_in<I: Iterator<Item = T>>(
        alloc: A,
        items: I,
    ) -> Result<BTreeSet<T, A>, AllocError> {
        let mut all = BTreeSet::new(alloc);
        for item in items {
            all.insert(item)?;
        }
        Ok(all)
    }
}

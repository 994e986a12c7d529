//! Two ways to find the values in the written slots of the live set.

use std::collections::BTreeMap;

/// The word that says that `address` has `value`.
pub fn element(address: u16, value: u32) -> u64 {
    u64::from(value) << 32 | u64::from(address)
}

/// The word that says that `address`, which had `value`, has none.
pub fn forgetting(address: u16, value: u32) -> u64 {
    element(address, value) | 1 << 16
}

/// The address that the word of a slot is about; 0, which is none, where the slot is torn.
fn address_of(word: u64) -> u16 {
    word as u16
}

/// The value that the word of a slot gives its address; none where it forgets the address.
fn value_of(word: u64) -> Option<u32> {
    (word >> 16 & 1 == 0).then_some((word >> 32) as u32)
}

/// A way to find values. `written` are the words of the live set's written slots, in order.
pub trait Way {
    fn open(written: &[u64]) -> Self;

    fn get(&self, written: &[u64], address: u16) -> Option<u32>;

    /// Takes note of a change that was made: the address has the value from there on, or none.
    fn put(&mut self, address: u16, value: Option<u32>);

    /// How many addresses have a value.
    fn count(&mut self, written: &[u64]) -> usize;

    /// Appends the elements of all addresses but one, by rising address, and says whether that one
    /// has a value.
    fn push_others(&mut self, written: &[u64], but: u16, out: &mut Vec<u64>) -> bool;
}

/// An ordered map in memory from addresses to values.
pub struct Index {
    values: BTreeMap<u16, u32>,
}

impl Way for Index {
    fn open(written: &[u64]) -> Self {
        let mut index = Index {
            values: BTreeMap::new(),
        };
        for &word in written {
            if address_of(word) > 0 {
                index.put(address_of(word), value_of(word));
            }
        }
        index
    }

    fn get(&self, _: &[u64], address: u16) -> Option<u32> {
        self.values.get(&address).copied()
    }

    fn put(&mut self, address: u16, value: Option<u32>) {
        match value {
            Some(value) => self.values.insert(address, value),
            None => self.values.remove(&address),
        };
    }

    fn count(&mut self, _: &[u64]) -> usize {
        self.values.len()
    }

    fn push_others(&mut self, _: &[u64], but: u16, out: &mut Vec<u64>) -> bool {
        let mut found = false;
        for (&address, &value) in &self.values {
            if address == but {
                found = true;
            } else {
                out.push(element(address, value));
            }
        }
        found
    }
}

/// No memory of values: a read scans the slots from the newest down, and a transfer collects the
/// live addresses in one such pass.
pub struct Scan {
    /// A bit for each address that was met in a pass; all clear between passes.
    met: Vec<u64>,
}

impl Scan {
    /// Appends the elements of all addresses but one, newest first, and says whether that one has a
    /// value. Address 0 is none.
    fn collect(&mut self, written: &[u64], but: u16, out: &mut Vec<u64>) -> bool {
        let mut found = false;
        for &word in written.iter().rev() {
            let address = address_of(word);
            let (bits, bit) = (
                &mut self.met[usize::from(address / 64)],
                1 << (address % 64),
            );
            if address == 0 || *bits & bit != 0 {
                continue;
            }
            *bits |= bit;
            if value_of(word).is_none() {
                continue;
            }
            if address == but {
                found = true;
            } else {
                out.push(word);
            }
        }
        if written.len() < self.met.len() {
            for &word in written {
                self.met[usize::from(address_of(word) / 64)] = 0;
            }
        } else {
            self.met.fill(0);
        }
        found
    }
}

impl Way for Scan {
    fn open(_: &[u64]) -> Self {
        Scan {
            met: vec![0; 1 << 10],
        }
    }

    fn get(&self, written: &[u64], address: u16) -> Option<u32> {
        let newest = written
            .iter()
            .rev()
            .find(|&&word| address_of(word) == address)?;
        value_of(*newest)
    }

    fn put(&mut self, _: u16, _: Option<u32>) {}

    fn count(&mut self, written: &[u64]) -> usize {
        let mut live = Vec::new();
        self.collect(written, 0, &mut live);
        live.len()
    }

    fn push_others(&mut self, written: &[u64], but: u16, out: &mut Vec<u64>) -> bool {
        let start = out.len();
        let found = self.collect(written, but, out);
        // A stable sort finds the long run that the last transfer left.
        out[start..].sort_by_key(|&word| address_of(word));
        found
    }
}

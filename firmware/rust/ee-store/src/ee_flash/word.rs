// Made by strip from crates/ee_flash/src/word.rt. Change that file.
// SPDX-License-Identifier: MIT OR Apache-2.0
//! A word of flash as it reads: erased, held or torn.

/// What a word of flash holds, as it reads.
///
/// Source: words of 64 bits, some of them unreadable, AN4894; the rest is ours.
#[derive(Clone, Copy, Debug, PartialEq, Eq)]
pub enum Word {
    /// Nothing was programmed since the page was erased.
    Erased,
    /// A programmed number, which is below `u64::MAX` on every device.
    Held(u64),
    /// An uncorrectable ECC error: the word reads as unreadable.
    Torn,
}

impl Word {
    /// Its number: `u64::MAX` where it is erased, and 0 where it is torn.
    #[must_use]
    pub const fn number(self) -> u64 {
        match self {
            Word::Erased => u64::MAX,
            Word::Held(value) => value,
            Word::Torn => 0,
        }
    }
}

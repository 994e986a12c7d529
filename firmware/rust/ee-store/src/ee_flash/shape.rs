// Made by strip from crates/ee_flash/src/shape.rt. Change that file.
// SPDX-License-Identifier: MIT OR Apache-2.0
//! How large a device is: two sets of as many pages, and each page a header and slots.

/// The words of a page's header, below its slots.
pub const HEADER_WORDS: usize = 4;

/// How large a device is: the pages of each of its two sets, 1 to 64, and the words of a page, 5 to
/// 512.
///
/// Source: two sets of as many pages, AN4894; the limits are ours.
#[derive(Clone, Copy, Debug, PartialEq, Eq)]
pub struct Shape {
    pages: usize,
    words: usize,
}

impl Shape {
    /// The shape of this many pages in each set and words in each page, `None` outside the limits.
    #[must_use]
    pub const fn new(pages: usize, words: usize) -> Option<Self> {
        if pages >= 1 && pages <= 64 && words >= 5 && words <= 512 {
            Some(Shape { pages, words })
        } else {
            None
        }
    }

    /// The pages of each set, 1 to 64.
    #[must_use]
    pub const fn pages(&self) -> usize {
        self.pages
    }

    /// The words of a page, 5 to 512.
    #[must_use]
    pub const fn words(&self) -> usize {
        self.words
    }

    /// The slots of a set, 1 to 32512: the words of its pages, less the four of each page's header.
    #[must_use]
    pub const fn slots(&self) -> usize {
        self.pages * (self.words - HEADER_WORDS)
    }
}

//! What stands for `std::simd`: eight bytes that are worked on at once, in a word of 64 bits.

pub mod prelude {
    pub use super::{u8x8, Mask8x8};
}

/// Eight bytes.
#[allow(non_camel_case_types)]
#[derive(Clone, Copy)]
pub struct u8x8([u8; 8]);

/// Which of eight hold something.
#[derive(Clone, Copy)]
pub struct Mask8x8(u64);

impl u8x8 {
    #[inline(always)]
    pub fn from_array(bytes: [u8; 8]) -> u8x8 {
        u8x8(bytes)
    }

    #[inline(always)]
    pub fn splat(byte: u8) -> u8x8 {
        u8x8([byte; 8])
    }

    #[inline(always)]
    pub fn to_array(self) -> [u8; 8] {
        self.0
    }

    /// Which bytes are greater than those of the other, as a mask.
    #[inline(always)]
    pub fn simd_gt(self, other: u8x8) -> Mask8x8 {
        let mut mask = 0;
        for lane in 0..8 {
            mask |= u64::from(self.0[lane] > other.0[lane]) << lane;
        }
        Mask8x8(mask)
    }
}

impl std::ops::Sub for u8x8 {
    type Output = u8x8;

    /// The difference of each byte, round the end.
    #[inline(always)]
    fn sub(self, other: u8x8) -> u8x8 {
        let mut bytes = self.0;
        for lane in 0..8 {
            bytes[lane] = bytes[lane].wrapping_sub(other.0[lane]);
        }
        u8x8(bytes)
    }
}

impl Mask8x8 {
    /// A bit for each of the eight, the first the lowest.
    #[inline(always)]
    pub fn to_bitmask(self) -> u64 {
        self.0
    }
}

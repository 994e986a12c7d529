// Made by strip from crates/ee_nor/src/coded/code.rt. Change that file.
// SPDX-License-Identifier: MIT OR Apache-2.0
//! The check of a payload, which is one number of 49 bits: a value of 32, below it a kind of one bit,
//! below it an address of 16. In a coded word the check of 15 bits stands between the value and the
//! kind, so all three can be read where they stand.

/// Eight bits for each number of ones: the row of half of it, rounded up, and its lowest bit. A row
/// has a one that the next lacks, and two that each later one lacks.
const WEIGHTS: [u8; 57] = [
    0xfe, 0xf7, 0xf6, 0xb7, 0xb6, 0x9f, 0x9e, 0xdb, 0xda, 0xeb, 0xea, 0x6f, 0x6e, 0x7d, 0x7c, 0x3d,
    0x3c, 0xb9, 0xb8, 0xf1, 0xf0, 0x73, 0x72, 0x57, 0x56, 0xc7, 0xc6, 0xcd, 0xcc, 0x8d, 0x8c, 0x95,
    0x94, 0x93, 0x92, 0x1b, 0x1a, 0x59, 0x58, 0x69, 0x68, 0x65, 0x64, 0x27, 0x26, 0x07, 0x06, 0x43,
    0x42, 0xc1, 0xc0, 0xa1, 0xa0, 0x31, 0x30, 0x11, 0x10,
];

/// The low half of the word of a value and the 17 bits below it, which stand as they are in it.
pub(crate) fn low_half(low: u32, value: u32) -> u32 {
    let rest = parity_bits(value, low) * 0x2_0000 + low;
    let ones = (u64::from(value) * 0x1_0000_0000 + u64::from(rest)).count_ones();
    weight_of(ones) * 0x100_0000 + rest
}

/// Seven bits of parity: each bit of the payload alone turns others of them, and two or more.
fn parity_bits(value: u32, low: u32) -> u32 {
    let mixed = value ^ (low << 12) ^ (value << 1);
    let mixed = mixed ^ (mixed << 11);
    let mixed = mixed ^ (mixed >> 9);
    let mixed = mixed ^ (mixed >> 7);
    let mixed = mixed ^ (mixed << 12);
    (mixed >> 21) & 127
}

/// The row of half a number of ones, rounded up, and the number's lowest bit.
fn weight_of(ones: u32) -> u32 {
    u32::from(WEIGHTS[ones as usize])
}

// Made by strip from crates/ee_records/src/fault.rt. Change that file.
// SPDX-License-Identifier: MIT OR Apache-2.0
//! Why a record isn't read, written or trimmed.

/// Why a record isn't read, the first cause that applies.
#[derive(Clone, Copy, Debug, PartialEq, Eq)]
pub enum ReadFault {
    /// The device is off.
    Off,
    /// The record has this length, and the space that was lent is shorter.
    TooLong(usize),
    /// It has a head, but its bytes and their check don't agree, or a word has no value: a word of
    /// it went bad. A write gives it new bytes.
    Hurt,
}

/// Why a record isn't written. All but `Cut` leave each record and each other address as it was.
#[derive(Clone, Copy, Debug, PartialEq, Eq)]
pub enum RecordFault {
    /// The device is off.
    Off,
    /// There are more bytes than the record takes.
    TooLong,
    /// An address of the record has no value, and as many addresses have one as there are slots.
    Full,
    /// Every slot is used, and the generation is the greatest, 4294967294.
    Spent,
    /// Memory ran out, in a store that keeps an index.
    Memory,
    /// Power failed in this call. The device is off; the record is as it was or has the new bytes,
    /// and nothing else changed for any reader.
    Cut,
}

/// Why a record isn't trimmed, or not to the end. The record reads as before.
#[derive(Clone, Copy, Debug, PartialEq, Eq)]
pub enum TrimFault {
    /// The device is off.
    Off,
    /// Every slot is used, and the generation is the greatest, 4294967294.
    Spent,
    /// Power failed in this call. The device is off.
    Cut,
}

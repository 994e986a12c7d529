use crate::ee_codec::Address;
use crate::ee_core::{Put, Rescued, Written};
use core::fmt;

/// A type of 32 bits or fewer that [`Store::read_as`](crate::Store::read_as) and [`Store::write_as`](crate::Store::write_as) take.
pub trait Value: Copy {
    /// The 32 bits that are stored for it.
    fn to_bits(self) -> u32;

    /// The value of which these bits were stored. Each number of 32 bits has one.
    fn from_bits(bits: u32) -> Self;
}

impl Value for u32 {
    fn to_bits(self) -> u32 {
        self
    }

    fn from_bits(bits: u32) -> u32 {
        bits
    }
}

impl Value for i32 {
    fn to_bits(self) -> u32 {
        self as u32
    }

    fn from_bits(bits: u32) -> i32 {
        bits as i32
    }
}

impl Value for f32 {
    fn to_bits(self) -> u32 {
        f32::to_bits(self)
    }

    fn from_bits(bits: u32) -> f32 {
        f32::from_bits(bits)
    }
}

impl Value for bool {
    fn to_bits(self) -> u32 {
        u32::from(self)
    }

    /// Any number but 0 is `true`.
    fn from_bits(bits: u32) -> bool {
        bits != 0
    }
}

impl Address {
    /// The address of this number, for a constant: `const VOLUME: Address = Address::at(1);`.
    ///
    /// # Panics
    ///
    /// The number is 0 or 65535: in a constant that is an error of the compiler.
    #[must_use]
    pub const fn at(number: u16) -> Address {
        match Address::new(number) {
            Some(address) => address,
            None => panic!("an address is 1 to 65534"),
        }
    }
}

/// A number that no address has: 0 or 65535.
#[derive(Clone, Copy, Debug, PartialEq, Eq)]
pub struct NoAddress;

impl fmt::Display for NoAddress {
    fn fmt(&self, f: &mut fmt::Formatter<'_>) -> fmt::Result {
        f.write_str("an address is 1 to 65534")
    }
}

impl TryFrom<u16> for Address {
    type Error = NoAddress;

    fn try_from(number: u16) -> Result<Address, NoAddress> {
        Address::new(number).ok_or(NoAddress)
    }
}

impl From<Address> for u16 {
    fn from(address: Address) -> u16 {
        address.get()
    }
}

impl fmt::Display for Address {
    fn fmt(&self, f: &mut fmt::Formatter<'_>) -> fmt::Result {
        self.get().fmt(f)
    }
}

impl fmt::Display for Put {
    fn fmt(&self, f: &mut fmt::Formatter<'_>) -> fmt::Result {
        write!(f, "address {} value {}", self.address, self.value)
    }
}

impl fmt::Display for Rescued {
    fn fmt(&self, f: &mut fmt::Formatter<'_>) -> fmt::Result {
        write!(f, "{} bad words, {} values", self.bad_words, self.live)
    }
}

impl fmt::Display for Written {
    fn fmt(&self, f: &mut fmt::Formatter<'_>) -> fmt::Result {
        f.write_str(match self {
            Written::Appended => "appended",
            Written::Moved => "moved",
        })
    }
}

impl core::error::Error for NoAddress {}

//! What stands for `std::string`: a text that asks for memory before it grows.
use super::alloc::{AllocError, Allocator, Global};
use super::vec::Vec;
use std::fmt;
use std::ops::Deref;

/// A text on an allocator.
#[derive(Debug)]
pub struct String<A: Allocator = Global> {
    text: std::string::String,
    alloc: A,
}

impl<A: Allocator> String<A> {
    pub fn new(alloc: A) -> String<A> {
        String {
            text: std::string::String::new(),
            alloc,
        }
    }

    pub fn from_str(alloc: A, text: &str) -> Result<String<A>, AllocError> {
        let mut new = String::new(alloc);
        new.push_str(text)?;
        Ok(new)
    }

    pub fn push_str(&mut self, text: &str) -> Result<(), AllocError> {
        self.text.try_reserve(text.len())?;
        self.text.push_str(text);
        Ok(())
    }

    pub fn as_str(&self) -> &str {
        &self.text
    }

    pub fn into_bytes(self) -> Vec<u8, A> {
        Vec::of_bytes(self.text.into_bytes(), self.alloc)
    }

    /// What `write!` and `writeln!` call.
    pub fn write_fmt(&mut self, format: fmt::Arguments<'_>) -> Result<(), AllocError> {
        fmt::Write::write_fmt(self, format).map_err(|_| AllocError)
    }
}

impl<A: Allocator> fmt::Write for String<A> {
    fn write_str(&mut self, text: &str) -> fmt::Result {
        Ok(self.push_str(text)?)
    }
}

impl<A: Allocator> Deref for String<A> {
    type Target = str;

    fn deref(&self) -> &str {
        &self.text
    }
}

/// The text of a format.
pub fn formatted<A: Allocator>(
    alloc: A,
    format: fmt::Arguments<'_>,
) -> Result<String<A>, AllocError> {
    let mut text = String::new(alloc);
    text.write_fmt(format)?;
    Ok(text)
}

/// What stands for `str::to_ascii_uppercase`, which takes an allocator in Rattle.
pub trait ToUppercaseIn {
    fn to_ascii_uppercase_in<A: Allocator>(&self, alloc: A) -> Result<String<A>, AllocError>;
}

impl ToUppercaseIn for str {
    fn to_ascii_uppercase_in<A: Allocator>(&self, alloc: A) -> Result<String<A>, AllocError> {
        let mut new = String::from_str(alloc, self)?;
        new.text.make_ascii_uppercase();
        Ok(new)
    }
}

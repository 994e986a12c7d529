//! What stands for `std::env`.
use super::alloc::Global;
use super::rt::Env;
use super::string::String;
use super::vec::Vec;
use std::io::{Error, ErrorKind, Result};

/// All words of the command line, the program's name first. One that is no text is an error.
pub fn args<R: Env>(rt: &R) -> Result<std::vec::IntoIter<String>> {
    let mut all = Vec::new(Global);
    for word in rt.args() {
        let word = word.to_str().ok_or(Error::from(ErrorKind::InvalidData))?;
        let word = String::from_str(Global, word)?;
        all.push(word)
            .map_err(|_| Error::from(ErrorKind::OutOfMemory))?;
    }
    Ok(all.into_iter())
}

//! A plain rival of `ee run`: the same files in, the same bytes out, written without proofs.
//!
//!     rival index IMAGE SCRIPT
//!     rival scan IMAGE SCRIPT
//!
//! answers a script on an image, writes the image that this leaves in its place and prints the
//! report. The first word says how values are found: with an index in memory, or by scanning the
//! slots. Bad input ends with status 3 and changes nothing.
#![forbid(unsafe_code)]

mod device;
mod layout;
mod power;
mod report;
mod script;
mod store;
mod text;
mod ways;

use device::Device;
use std::ffi::{OsStr, OsString};
use std::io::{self, Write};
use std::process::ExitCode;
use std::{env, fs};
use store::Store;
use ways::{Index, Scan, Way};

/// The greatest number of bytes of an image and of a script.
const IMAGE_BYTES: usize = 4_194_304;
const SCRIPT_BYTES: usize = 16_777_216;

fn main() -> ExitCode {
    let words: Vec<OsString> = env::args_os().skip(1).collect();
    let [way, image, script] = words.as_slice() else {
        return usage();
    };
    let done = match way.to_str() {
        Some("index") => run_files::<Index>(image, script),
        Some("scan") => run_files::<Scan>(image, script),
        _ => return usage(),
    };
    match done {
        Ok(()) => ExitCode::SUCCESS,
        Err(error) => {
            eprintln!("rival: {error}");
            ExitCode::from(3)
        }
    }
}

fn usage() -> ExitCode {
    eprintln!("usage: rival index|scan IMAGE SCRIPT");
    ExitCode::from(2)
}

fn run_files<W: Way>(image: &OsStr, script: &OsStr) -> io::Result<()> {
    let before = fs::read(image)?;
    let lines = fs::read(script)?;
    let (after, report) = run::<W>(&before, &lines)
        .ok_or_else(|| io::Error::new(io::ErrorKind::InvalidData, "bad input"))?;
    fs::write(image, after)?;
    io::stdout().write_all(&report)
}

/// The new image and the report.
fn run<W: Way>(image: &[u8], script: &[u8]) -> Option<(Vec<u8>, Vec<u8>)> {
    if image.len() > IMAGE_BYTES || script.len() > SCRIPT_BYTES {
        return None;
    }
    let mut store = Store::<W>::open(Device::parse(image)?)?;
    let report = report::answer(&mut store, script)?;
    Some((store.into_device().text(), report))
}

//! Makes images and scripts to measure with. The same words always give the same bytes.
//!
//!     generate image PAGES WORDS LIVE
//!     generate script LINES LIVE READS SEED
//!
//! prints an image as a transfer leaves it, with LIVE addresses that have a value, and a script of
//! LINES lines about these addresses, READS percent of them reads and the others writes. LINES may
//! be `most`: as many as fit in 16 MiB.
#![forbid(unsafe_code)]

mod dice;

use dice::Dice;
use std::env;
use std::fmt::Write as _;
use std::io::{self, Write as _};
use std::process::ExitCode;

const MARK: u64 = 0xAAAA_AAAA_AAAA_AAAA;
const RECEIVE: u64 = 0xAAAA_AAAA_0000_0000;
const SCRIPT_BYTES: usize = 16_777_216;
const ADDRESSES: usize = 65534;

impl Dice {
    /// A number below `end`.
    fn below(&mut self, end: usize) -> usize {
        ((u128::from(self.next()) * end as u128) >> 64) as usize
    }
}

/// Address number `i` of `live`, which are spread evenly and rise.
fn address(i: usize, live: usize) -> u64 {
    (1 + i * ADDRESSES / live) as u64
}

fn image(pages: usize, words: usize, live: usize) -> Option<String> {
    let slots = words.checked_sub(4).filter(|&slots| slots > 0)?;
    if !(1..=64).contains(&pages) || words > 512 || live > pages * slots {
        return None;
    }
    let mut dice = Dice(0);
    let mut text = format!("ee {pages} {words}\n");
    let last = live.saturating_sub(1) / slots;
    for page in 0..2 * pages {
        let mut cells = vec![None; words];
        if page <= last {
            cells[0] = Some(RECEIVE | 2);
            cells[1] = (page == 0 || page == last).then_some(MARK);
            cells[2] = (page < last).then_some(MARK);
            for slot in 0..slots.min(live - page * slots) {
                let value = dice.next() >> 32;
                cells[4 + slot] = Some(value << 32 | address(page * slots + slot, live));
            }
        }
        text.push('1');
        for cell in cells {
            match cell {
                Some(word) => write!(text, " {word:016x}").ok()?,
                None => text.push_str(" -"),
            }
        }
        text.push('\n');
    }
    Some(text)
}

fn script(lines: usize, live: usize, reads: usize, seed: u64) -> Option<String> {
    if !(1..=ADDRESSES).contains(&live) || reads > 100 {
        return None;
    }
    let mut dice = Dice(seed);
    let mut text = String::new();
    for _ in 0..lines {
        let before = text.len();
        let address = address(dice.below(live), live);
        if dice.below(100) < reads {
            writeln!(text, "r {address}").ok()?;
        } else {
            writeln!(text, "w {address} {}", dice.next() >> 32).ok()?;
        }
        if text.len() > SCRIPT_BYTES {
            text.truncate(before);
            break;
        }
    }
    Some(text)
}

fn text_of(words: &[String]) -> Option<String> {
    let words: Vec<&str> = words.iter().map(String::as_str).collect();
    let number = |word: &str| word.parse::<usize>().ok();
    match words[..] {
        ["image", pages, words, live] => image(number(pages)?, number(words)?, number(live)?),
        ["script", "most", live, reads, seed] => script(
            usize::MAX,
            number(live)?,
            number(reads)?,
            seed.parse().ok()?,
        ),
        ["script", lines, live, reads, seed] => script(
            number(lines)?,
            number(live)?,
            number(reads)?,
            seed.parse().ok()?,
        ),
        _ => None,
    }
}

fn main() -> ExitCode {
    let words: Vec<String> = env::args().skip(1).collect();
    match text_of(&words) {
        Some(text) if io::stdout().write_all(text.as_bytes()).is_ok() => ExitCode::SUCCESS,
        Some(_) => ExitCode::FAILURE,
        None => {
            eprintln!("usage: generate image PAGES WORDS LIVE | script LINES LIVE READS SEED");
            ExitCode::from(2)
        }
    }
}

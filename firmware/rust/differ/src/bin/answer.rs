//! Answers scripts on images, as `ee run` does, but without certificates.
//!
//! Each line of standard input names an image and a script. The image is replaced by what the script leaves, and the
//! answers go into the file that has the script's name and `.answers` behind it, or the line of a fault.
#![forbid(unsafe_code)]

use ee_store::{Address, Error, OpenError, Store, Written};
use ee_store_differ::{image, PowerCut, Shared, TEARS};
use std::fs;
use std::io::{self, BufRead};

fn main() -> io::Result<()> {
    for line in io::stdin().lock().lines() {
        let line = line?;
        let (image, script) = line.split_once('\t').unwrap_or((&line, ""));
        let (after, answers) = run(&fs::read_to_string(image)?, &fs::read_to_string(script)?);
        if let Some(after) = after {
            fs::write(image, after)?;
        }
        fs::write(format!("{script}.answers"), answers)?;
    }
    Ok(())
}

/// The image that a script leaves, if the image holds a store, and the answers or the fault.
fn run(before: &str, script: &str) -> (Option<String>, String) {
    let Some(part) = image::read(before) else {
        return (None, "image text\n".to_string());
    };
    let part = Shared::new(part);
    let store = match Store::open(part.clone()) {
        Ok(store) => store,
        Err(error) => return (None, fault_line(error) + "\n"),
    };
    let mut desk = Desk {
        store: Some(store),
        part,
        moves: 0,
    };
    let mut answers = String::new();
    for line in script.lines() {
        let answer = desk.answer(line).unwrap_or_else(|| "bad line".to_string());
        answers += &format!("{answer}\n");
    }
    answers += &desk.end();
    let after = image::write(&desk.part.0.borrow());
    (Some(after), answers)
}

fn fault_line(error: OpenError<PowerCut>) -> String {
    match error {
        OpenError::Unformatted => "image unformatted".to_string(),
        OpenError::NoLiveSet => "image no live set".to_string(),
        OpenError::TwoLive => "image two live sets".to_string(),
        OpenError::Foreign { page, at } => format!("image foreign word {page} {at}"),
        OpenError::Driver(_) => "cut".to_string(),
        error => panic!("no answer of a script: {error}"),
    }
}

struct Desk {
    /// `None` where it could not be opened again.
    store: Option<Store<Shared>>,
    part: Shared,
    moves: u64,
}

impl Desk {
    /// The answer to a line, `None` if it is no command.
    fn answer(&mut self, line: &str) -> Option<String> {
        let fields: Vec<&str> = line.split(' ').collect();
        Some(match (&fields[..], &mut self.store) {
            (["x", step, tear], _) => {
                let (_, tear) = *TEARS
                    .iter()
                    .find(|(letter, _)| *tear == letter.to_string())?;
                let after = step.parse::<u64>().ok()?.checked_sub(1)?;
                self.part.0.borrow_mut().fuse = Some((after, tear));
                "armed".to_string()
            }
            (["p"], _) => self.power_on(),
            (_, None) => "off".to_string(),
            (["w", address, value], Some(store)) => {
                let answer = store.write(named(address)?, value.parse().ok()?);
                self.stored(answer.map_err(refusal))
            }
            (["f", address], Some(store)) => {
                let answer = store.forget(named(address)?);
                self.stored(answer.map_err(refusal))
            }
            (["r", address], Some(store)) => match store.read(named(address)?) {
                Ok(Some(value)) => value.to_string(),
                Ok(None) => "none".to_string(),
                Err(_) => "off".to_string(),
            },
            (["c"], Some(store)) => match store.clean_step() {
                Ok(true) => "clean".to_string(),
                Ok(false) => "idle".to_string(),
                Err(error) => refusal(error).to_string(),
            },
            _ => return None,
        })
    }

    fn stored(&mut self, answer: Result<Written, &str>) -> String {
        match answer {
            Ok(Written::Appended) => "ok".to_string(),
            Ok(Written::Moved) => {
                self.moves += 1;
                "moved".to_string()
            }
            Err(fault) => fault.to_string(),
        }
    }

    fn power_on(&mut self) -> String {
        match Store::open(self.part.clone()) {
            Ok(store) => {
                self.store = Some(store);
                "open".to_string()
            }
            Err(error) => {
                self.store = None;
                fault_line(error)
            }
        }
    }

    /// The line behind the answers.
    fn end(&self) -> String {
        match self.store.as_ref().and_then(counts) {
            Some((fill, room, live, pending)) => format!(
                "end fill {fill} room {room} live {live} pending {pending} transfers {}\n",
                self.moves
            ),
            _ => format!("end off transfers {}\n", self.moves),
        }
    }
}

fn named(field: &str) -> Option<Address> {
    Address::new(field.parse().ok()?)
}

fn refusal(error: Error<PowerCut>) -> &'static str {
    match error {
        Error::NotOpen => "off",
        Error::Full => "full",
        Error::Absent => "absent",
        Error::Spent => "spent",
        Error::Driver(_) => "cut",
        error => panic!("no answer of a script: {error}"),
    }
}

/// The slots used and free, the live addresses, and the pages that wait to be erased.
fn counts(store: &Store<Shared>) -> Option<(usize, usize, usize, usize)> {
    let fill = store.fill().ok()?;
    let room = store.slots().ok()? - fill;
    Some((fill, room, store.live_count().ok()?, store.pending().ok()?))
}

//! Plays scripts on pairs of numbers, with power cut in each step of each change, in 64 ways.
//!
//! Each line of standard input names an image and a script, with a tab between them; where the image holds a store its words
//! stand as pairs. A change of the script (a write, a forgetting, a clean step) is made with a cut at its first step, at its
//! second, and so on up to a step that it doesn't take. Each of these cuts leaves other bits, 64 times. Then the store is
//! opened again, and must hold the map before the change or the map after it. The script goes on from the whole change. The
//! first difference ends the program with a panic; without one it ends with a line `N passed, 0 failed`, of N cuts.
#![forbid(unsafe_code)]

use ee_store::{Address, Error, Store};
use ee_store_differ::{image, Part, Shared, Tear};
use std::fs;
use std::io::{self, BufRead};

/// In how many ways each step is cut.
const WAYS: u64 = 64;

#[derive(Clone, Copy, Debug)]
enum Change {
    Write(Address, u32),
    Forget(Address),
    Clean,
}

fn main() -> io::Result<()> {
    let mut cuts = 0;
    for line in io::stdin().lock().lines() {
        let line = line?;
        let (image, script) = line.split_once('\t').unwrap_or((&line, ""));
        if let Some(part) = image::read(&fs::read_to_string(image)?) {
            cuts += play(part.doubled(), &fs::read_to_string(script)?);
        }
    }
    println!("{cuts} passed, 0 failed");
    Ok(())
}

/// Plays the changes of a script, if the part holds a store. Gives how many cuts there were.
fn play(mut part: Part, script: &str) -> u64 {
    if Store::open(Shared::new(part.clone())).is_err() {
        return 0;
    }
    let mut cuts = 0;
    for change in script.lines().filter_map(change_of) {
        let (whole, after) = changed(&part, change);
        cuts += cut_everywhere(&part, change, &after);
        part = whole;
    }
    cuts
}

/// The change that a line asks for, `None` for any other line.
fn change_of(line: &str) -> Option<Change> {
    let fields: Vec<&str> = line.split(' ').collect();
    match fields[..] {
        ["w", address, value] => Some(Change::Write(named(address)?, value.parse().ok()?)),
        ["f", address] => Some(Change::Forget(named(address)?)),
        ["c"] => Some(Change::Clean),
        _ => None,
    }
}

fn named(field: &str) -> Option<Address> {
    Address::new(field.parse().ok()?)
}

/// Cuts a change in each of its steps, in each way.
fn cut_everywhere(part: &Part, change: Change, after: &[(u16, u32)]) -> u64 {
    let before = held(&opened(part).0);
    let mut cuts = 0;
    for step in 0.. {
        for way in 0..WAYS {
            let (mut store, shared) = opened(part);
            {
                let mut part = shared.0.borrow_mut();
                part.fuse = Some((
                    step,
                    if way % 4 == 3 {
                        Tear::Mixed
                    } else {
                        Tear::Torn
                    },
                ));
                part.dice = (way + 1).wrapping_mul(0x9e37_79b9_7f4a_7c15) | 1;
            }
            if !is_cut(&mut store, change) {
                return cuts;
            }
            cuts += 1;
            let left = shared.0.borrow().clone();
            let map = held(&opened(&left).0);
            assert!(
                map == before || map == after,
                "{change:?} cut at {step}, way {way}, on {part:?}"
            );
        }
    }
    cuts
}

/// The part after a whole change, or as it is where that is refused, and what it holds.
fn changed(part: &Part, change: Change) -> (Part, Vec<(u16, u32)>) {
    let (mut store, shared) = opened(part);
    assert!(!is_cut(&mut store, change), "nothing is armed");
    let whole = shared.0.borrow().clone();
    (whole, held(&store))
}

/// A store on a copy of a part, whose power stays on.
fn opened(part: &Part) -> (Store<Shared>, Shared) {
    let shared = Shared::new(Part {
        fuse: None,
        ..part.clone()
    });
    let store =
        Store::open(shared.clone()).unwrap_or_else(|error| panic!("{part:?} opens as {error:?}"));
    (store, shared)
}

/// Makes a change, and says whether power was cut in it.
fn is_cut(store: &mut Store<Shared>, change: Change) -> bool {
    match change {
        Change::Write(address, value) => {
            matches!(store.write(address, value), Err(Error::Driver(_)))
        }
        Change::Forget(address) => matches!(store.forget(address), Err(Error::Driver(_))),
        Change::Clean => matches!(store.clean_step(), Err(Error::Driver(_))),
    }
}

/// The addresses that have a value, rising, each with its value.
fn held(store: &Store<Shared>) -> Vec<(u16, u32)> {
    let (mut found, mut last) = (Vec::new(), None);
    while let Some((address, value)) = store.next_live(last).expect("it is on") {
        found.push((address.get(), value));
        last = Some(address);
    }
    found
}

//! Random calls against a map, lists of values among them, each with power cut at every step and in every way.
//!
//!     calls COUNT SEED [pairs | clearing | coded]
//!
//! on a part of words, of pairs of numbers, of pairs whose erase clears cells first, or of coded words under an ECC drawn for each
//! store, plays so many calls of stores of random sizes. Each is started on a new part, cut as often as it happens. A call is played first with a cut at its first step, at its second,
//! and so on, in each of the four ways, up to a step that it does not take; each time the store is opened again, with
//! a cut in the opening too now and then, and must hold the map before the call or after it. Then it is played uncut.
//! At last the part is formatted, cut in each step and then again. All these count as calls. The first difference ends the program with a panic; without one it ends with a line
//! `N passed, 0 failed`.
#![forbid(unsafe_code)]

use ee_store::{Address, Error, Kind, OpenError, Put, Shape, Store, Written};
use ee_store_differ::{ecc::Ecc, Part, Shared, Tear, TEARS};
use std::collections::{BTreeMap, BTreeSet};
use std::{env, process};

type Map = BTreeMap<u16, u32>;

/// Numbers that look random.
struct Dice(u64);

impl Dice {
    fn next(&mut self) -> u64 {
        self.0 ^= self.0 << 13;
        self.0 ^= self.0 >> 7;
        self.0 ^= self.0 << 17;
        self.0
    }

    fn below(&mut self, end: u64) -> u64 {
        (self.next() >> 16) % end
    }
}

#[derive(Clone, Debug)]
enum Call {
    Write(u16, u32),
    /// Values at once, of addresses of which one may stand there twice.
    WriteAll(Vec<(u16, u32)>),
    Forget(u16),
    Clean,
}

/// How a call ended.
#[derive(Clone, Copy, Debug, PartialEq, Eq)]
enum End {
    Done(Option<Written>),
    Refused,
    Cut,
}

/// One store and what it holds.
struct Course {
    kind: Kind,
    shape: Shape,
    part: Part,
    map: Map,
    addresses: Vec<u16>,
    calls: u64,
    cuts: u64,
}

fn main() {
    let words: Vec<String> = env::args().skip(1).collect();
    let kind = match words.get(2).map(String::as_str) {
        None => Kind::Words,
        Some("clearing") => Kind::PairsClearing,
        Some("coded") => Kind::Coded,
        Some(_) => Kind::Pairs,
    };
    let numbers: Vec<u64> = words.iter().filter_map(|word| word.parse().ok()).collect();
    let [count, seed] = numbers[..] else {
        eprintln!("calls COUNT SEED [pairs | clearing | coded]");
        process::exit(2);
    };
    let mut dice = Dice(seed.wrapping_mul(0x9e37_79b9_7f4a_7c15) | 1);
    let (mut calls, mut cuts, mut stores) = (0, 0, 0);
    while calls < count {
        let mut course = Course::new(&mut dice, kind);
        for _ in 0..40 + dice.below(60) {
            course.play(&mut dice);
        }
        course.format(&mut dice);
        calls += course.calls;
        cuts += course.cuts;
        stores += 1;
    }
    println!("{calls} calls of {stores} stores, {cuts} of them cut");
    println!("{calls} passed, 0 failed");
}

impl Course {
    fn new(dice: &mut Dice, kind: Kind) -> Course {
        let longest = if dice.below(10) == 0 { 36 } else { 6 };
        let words = 5 + dice.below(longest) as usize;
        let shape = Shape::new(1 + dice.below(3) as usize, words).unwrap();
        let slots = shape.slots() as u64;
        let many = 1 + dice.below(slots + 2);
        let step = if dice.below(2) == 0 {
            1
        } else {
            1 + dice.below(500) as u16
        };
        let mut blank = blank(shape, kind);
        blank.ecc = Ecc::new(dice.0);
        let (part, starts) = started(blank, dice);
        Course {
            kind,
            shape,
            part,
            map: Map::new(),
            addresses: (0..many as u16).map(|number| 1 + number * step).collect(),
            calls: starts,
            cuts: starts - 1,
        }
    }

    fn opened(&self, part: &Part) -> (Store<Shared>, Shared) {
        let shared = Shared::new(part.clone());
        let store = Store::open(shared.clone()).unwrap_or_else(|error| {
            panic!("{:?} opens as {error:?}", self.part);
        });
        (store, shared)
    }

    /// Plays one call with a cut at each step, and then without.
    fn play(&mut self, dice: &mut Dice) {
        let call = self.draw(dice);
        let after = self.after(&call);
        let mut left = self.part.clone();
        for step in 0.. {
            let mut ends_uncut = false;
            for (_, tear) in TEARS {
                let (part, end) = self.cut(&call, step, tear);
                self.calls += 1;
                if end != End::Cut {
                    ends_uncut = true;
                    break;
                }
                self.cuts += 1;
                let part = self.open_again(part, dice);
                let (store, _) = self.opened(&part);
                let holds = held(&store, &self.addresses);
                assert!(
                    holds == self.map || holds == after,
                    "{call:?} cut at {step} {tear:?}"
                );
                if dice.below(40) == 0 {
                    left = part;
                }
            }
            if ends_uncut {
                break;
            }
        }
        // Goes on from the whole call, or now and then from one that was cut.
        if dice.below(4) == 0 && left != self.part {
            let (store, _) = self.opened(&left);
            self.map = held(&store, &self.addresses);
            self.part = left;
            return;
        }
        self.finish(&call, after);
    }

    /// A call that is cut in its first steps of an opening, once in a while.
    fn open_again(&mut self, part: Part, dice: &mut Dice) -> Part {
        let mut part = part;
        if dice.below(3) == 0 {
            let (_, tear) = TEARS[dice.below(4) as usize];
            part.fuse = Some((dice.below(3), tear));
            let shared = Shared::new(part);
            self.calls += 1;
            match Store::open(shared.clone()) {
                Ok(_) => {}
                Err(error) => {
                    assert!(matches!(error, OpenError::Driver(_)), "{error}");
                    self.cuts += 1;
                }
            }
            part = shared.0.borrow().clone();
        }
        part.fuse = None;
        part
    }

    /// Formats the part, cut in each step in each way, and then again up to the end: nothing is left on it.
    fn format(&mut self, dice: &mut Dice) {
        for step in 0.. {
            let (_, tear) = TEARS[dice.below(4) as usize];
            let mut part = self.part.clone();
            part.fuse = Some((step, tear));
            let shared = Shared::new(part);
            self.calls += 1;
            let is_cut = Store::format(shared.clone()).is_err();
            self.cuts += u64::from(is_cut);
            shared.0.borrow_mut().fuse = None;
            let store = Store::format(shared.clone()).expect("nothing is armed");
            self.calls += 1;
            assert_eq!(listed(&store), Map::new());
            let left = shared.0.borrow();
            let fresh = Shared::new(blank(self.shape, self.kind));
            fresh.0.borrow_mut().ecc = left.ecc.clone();
            assert!(Store::format(fresh.clone()).is_ok());
            let fresh = fresh.0.borrow();
            assert_eq!(left.pages, fresh.pages, "formatted is as new");
            assert_eq!(left.numbers, fresh.numbers, "formatted is as new");
            assert_eq!(left.cells, fresh.cells, "formatted is as new");
            if !is_cut {
                return;
            }
        }
    }

    fn draw(&self, dice: &mut Dice) -> Call {
        let address = self.addresses[dice.below(self.addresses.len() as u64) as usize];
        match dice.below(12) {
            0..=5 => Call::Write(address, dice.next() as u32),
            6..=7 => Call::Forget(address),
            8..=9 => Call::WriteAll(self.draw_list(dice)),
            _ => Call::Clean,
        }
    }

    /// A list, of no address to all: most of them one after another from some address on, and now and then one twice.
    fn draw_list(&self, dice: &mut Dice) -> Vec<(u16, u32)> {
        let many = self.addresses.len() as u64;
        let first = dice.below(many) as usize;
        let most = if dice.below(2) == 0 {
            many.min(3)
        } else {
            many
        };
        let length = dice.below(1 + most) as usize;
        let listed = self.addresses.iter().cycle().skip(first).take(length);
        let mut list: Vec<(u16, u32)> = listed
            .map(|address| (*address, dice.next() as u32))
            .collect();
        if length > 1 && dice.below(8) == 0 {
            list[length - 1].0 = list[dice.below(length as u64 - 1) as usize].0;
        }
        list
    }

    /// The map after the call: as before it where the call is refused.
    fn after(&self, call: &Call) -> Map {
        let mut map = self.map.clone();
        match call {
            Call::Write(address, value) => {
                map.insert(*address, *value);
            }
            Call::WriteAll(list) if is_twice(list) => {}
            Call::WriteAll(list) => map.extend(list.iter().copied()),
            Call::Forget(address) => {
                map.remove(address);
            }
            Call::Clean => {}
        }
        if map.len() > self.shape.slots() {
            return self.map.clone();
        }
        map
    }

    /// The part after a call that is cut in this step, if it takes so many.
    fn cut(&self, call: &Call, step: u64, tear: Tear) -> (Part, End) {
        let (mut store, shared) = self.opened(&self.part);
        shared.0.borrow_mut().fuse = Some((step, tear));
        let end = made(&mut store, call);
        let part = shared.0.borrow().clone();
        (part, end)
    }

    /// Makes a call without cuts.
    fn finish(&mut self, call: &Call, after: Map) {
        let (mut store, shared) = self.opened(&self.part);
        let fill = store.fill().unwrap();
        let pending = store.pending().unwrap();
        let end = made(&mut store, call);
        self.calls += 1;
        let refused = match call {
            Call::Write(address, _) => !after.contains_key(address),
            Call::WriteAll(list) => {
                is_twice(list) || list.iter().any(|(address, _)| !after.contains_key(address))
            }
            Call::Forget(address) => !self.map.contains_key(address),
            Call::Clean => pending == 0,
        };
        let moved = match call {
            Call::WriteAll(list) if list.len() != 1 => !list.is_empty(),
            _ => fill == self.shape.slots(),
        };
        let expected = match (call, refused, moved) {
            (_, true, _) => End::Refused,
            (Call::Clean, false, _) => End::Done(None),
            (_, false, true) => End::Done(Some(Written::Moved)),
            (_, false, false) => End::Done(Some(Written::Appended)),
        };
        assert_eq!(end, expected, "{call:?} on {:?}", self.part);
        self.part = shared.0.borrow().clone();
        self.map = after;
        assert_eq!(held(&store, &self.addresses), self.map, "after {call:?}");
        assert_eq!(store.live_count(), Ok(self.map.len()));
        assert_eq!(listed(&store), self.map);
    }
}

/// A new part.
fn blank(shape: Shape, kind: Kind) -> Part {
    match kind {
        Kind::Words => Part::blank(shape),
        Kind::Pairs => Part::blank_numbers(shape),
        Kind::PairsClearing => Part {
            clears_first: true,
            ..Part::blank_numbers(shape)
        },
        Kind::Coded => Part::blank_cells(shape),
    }
}

/// A new part on which a store was started, cut in as many steps as it happens, and how many starts that took.
fn started(mut part: Part, dice: &mut Dice) -> (Part, u64) {
    for starts in 1.. {
        let (_, tear) = TEARS[dice.below(4) as usize];
        part.fuse = Some((dice.below(1 + 2 * starts.min(9)), tear));
        let shared = Shared::new(part);
        let is_started = match Store::open_or_format(shared.clone()) {
            Ok(store) => {
                assert_eq!(store.live_count(), Ok(0));
                true
            }
            Err(error) => {
                assert!(matches!(error, OpenError::Driver(_)), "{error}");
                false
            }
        };
        part = shared.0.borrow().clone();
        part.fuse = None;
        if is_started {
            return (part, starts);
        }
    }
    unreachable!("a start ends")
}

/// Whether an address stands in a list twice.
fn is_twice(list: &[(u16, u32)]) -> bool {
    let addresses: BTreeSet<u16> = list.iter().map(|(address, _)| *address).collect();
    addresses.len() < list.len()
}

/// Writes a list.
fn listed_end(store: &mut Store<Shared>, list: &[(u16, u32)]) -> End {
    let put = |(address, value): &(u16, u32)| Put {
        address: named(*address),
        value: *value,
    };
    let puts: Vec<Put> = list.iter().map(put).collect();
    match store.write_all(&puts) {
        Ok(written) => End::Done(Some(written)),
        Err(Error::Driver(_)) => End::Cut,
        Err(Error::Duplicate(place)) => {
            assert!(is_twice(&list[..=place]) && !is_twice(&list[..place]));
            End::Refused
        }
        Err(Error::Full) => End::Refused,
        Err(fault) => panic!("{list:?} is {fault:?}"),
    }
}

/// Makes a call.
fn made(store: &mut Store<Shared>, call: &Call) -> End {
    match call {
        Call::WriteAll(list) => listed_end(store, list),
        Call::Write(address, value) => match store.write(named(*address), *value) {
            Ok(written) => End::Done(Some(written)),
            Err(Error::Driver(_)) => End::Cut,
            Err(Error::Full) => End::Refused,
            Err(fault) => panic!("{call:?} is {fault:?}"),
        },
        Call::Forget(address) => match store.forget(named(*address)) {
            Ok(written) => End::Done(Some(written)),
            Err(Error::Driver(_)) => End::Cut,
            Err(Error::Absent) => End::Refused,
            Err(fault) => panic!("{call:?} is {fault:?}"),
        },
        Call::Clean => match store.clean_step() {
            Ok(true) => End::Done(None),
            Ok(false) => End::Refused,
            Err(Error::Driver(_)) => End::Cut,
            Err(fault) => panic!("{call:?} is {fault:?}"),
        },
    }
}

fn named(address: u16) -> Address {
    Address::new(address).unwrap()
}

/// What the store reads at these addresses.
fn held(store: &Store<Shared>, addresses: &[u16]) -> Map {
    let read = |address: &u16| {
        let value = store.read(named(*address)).unwrap()?;
        Some((*address, value))
    };
    addresses.iter().filter_map(read).collect()
}

/// What the store lists.
fn listed(store: &Store<Shared>) -> Map {
    let mut map = Map::new();
    let mut after = None;
    while let Some((address, value)) = store.next_live(after).unwrap() {
        assert!(map.insert(address.get(), value).is_none());
        after = Some(address);
    }
    map
}

//! Drops each call of a store for async drivers at each of its polls: that is a power cut, and nothing is lost.
//!
//!     drops COUNT SEED    makes so many random calls on parts of words, as many on pairs of numbers, and on coded words
//!     drops               plays worked scripts: each line of standard input names an image and a script, with a tab between
//!
//! A call is made up to its first poll, up to its second, and so on, and then dropped. The store must be off, and the next
//! opening must find the map before the call or the map after it. Then the call is made as a whole. The openings are dropped
//! so too. The last line is `N passed, 0 failed`, of N drops.
#![forbid(unsafe_code)]

mod part;

use ee_store::asynch::{Address, Error, Put, Store};
use ee_store_differ::{image, Part, PowerCut, Shape};
use part::Shared;
use std::collections::BTreeMap;
use std::future::Future;
use std::io::{self, BufRead};
use std::pin::pin;
use std::sync::Arc;
use std::task::{Context, Poll, Wake, Waker};
use std::{env, fs};

type Map = BTreeMap<u16, u32>;
type Answer = Result<(), Error<PowerCut>>;

#[derive(Clone, Debug)]
enum Call {
    Write(u16, u32),
    WriteAll(Vec<(u16, u32)>),
    Forget(u16),
    Clean,
}

impl Call {
    /// The call that a line of a script asks for.
    fn of(line: &str) -> Option<Call> {
        let fields: Vec<&str> = line.split(' ').collect();
        match fields[..] {
            ["w", address, value] => Some(Call::Write(address.parse().ok()?, value.parse().ok()?)),
            ["f", address] => Some(Call::Forget(address.parse().ok()?)),
            ["c"] => Some(Call::Clean),
            _ => None,
        }
    }

    fn drawn(dice: &mut u64, addresses: u64) -> Call {
        let mut below = |end| {
            *dice = dice.wrapping_mul(6364136223846793005).wrapping_add(1);
            (*dice >> 33) % end
        };
        let (number, value) = (1 + below(addresses) as u16, below(1 << 31) as u32);
        match below(10) {
            0 => Call::Forget(number),
            1 => Call::Clean,
            2 => Call::WriteAll(vec![(number, value), (number + 1, value ^ 5)]),
            _ => Call::Write(number, value),
        }
    }

    async fn made(&self, store: &mut Store<Shared>) -> Answer {
        match self {
            Call::Write(number, value) => drop(store.write(named(*number), *value).await?),
            Call::WriteAll(values) => {
                let put = |&(number, value): &(u16, u32)| Put {
                    address: named(number),
                    value,
                };
                let values: Vec<Put> = values.iter().map(put).collect();
                store.write_all(&values).await?;
            }
            Call::Forget(number) => drop(store.forget(named(*number)).await?),
            Call::Clean => drop(store.clean_step().await?),
        }
        Ok(())
    }
}

fn named(number: u16) -> Address {
    Address::new(number).unwrap()
}

struct Nobody;

impl Wake for Nobody {
    fn wake(self: Arc<Self>) {}
}

/// What a future answers within so many polls. Then it is dropped.
fn polled<T>(future: impl Future<Output = T>, polls: u64) -> Option<T> {
    let waker = Waker::from(Arc::new(Nobody));
    let mut context = Context::from_waker(&waker);
    let mut future = pin!(future);
    for _ in 0..polls {
        if let Poll::Ready(answer) = future.as_mut().poll(&mut context) {
            return Some(answer);
        }
    }
    None
}

fn whole<T>(future: impl Future<Output = T>) -> T {
    polled(future, u64::MAX).unwrap()
}

async fn held(store: &Store<Shared>) -> Map {
    let (mut map, mut found) = (Map::new(), store.iter());
    while let Some(found) = found.next().await {
        let (address, value) = found.unwrap();
        map.insert(address.get(), value);
    }
    map
}

/// What a part holds once it is opened as a whole.
fn held_in(part: &Part) -> Map {
    let store = whole(Store::open_or_format(Shared::new(part)));
    whole(held(
        &store.unwrap_or_else(|error| panic!("{part:?}: {error}")),
    ))
}

/// Opens a part, dropped at each poll and each time opened again. How many drops that were.
fn drop_the_opening(part: &Part) -> u64 {
    let map = held_in(part);
    for polls in 0.. {
        let shared = Shared::new(part);
        shared.draw(polls);
        let mut store = Store::off(shared.clone());
        if polled(store.reopen(), polls).is_some() {
            return polls;
        }
        assert!(!store.is_on());
        assert_eq!(held_in(&shared.left()), map);
        assert_eq!(whole(store.reopen()), Ok(()));
        assert_eq!(whole(held(&store)), map);
    }
    unreachable!("an opening ends")
}

/// Makes a call, dropped at each poll, and then as a whole. The part behind the whole call, and how many drops there were.
fn drop_everywhere(part: &Part, call: &Call) -> (Part, u64) {
    let old = held_in(part);
    let shared = Shared::new(part);
    let mut store = whole(Store::open_or_format(shared.clone())).unwrap();
    let answer = whole(call.made(&mut store));
    assert!(store.is_on(), "{call:?} answers {answer:?}");
    let (new, after) = (whole(held(&store)), shared.left());
    for polls in 0.. {
        let shared = Shared::new(part);
        let mut store = whole(Store::open_or_format(shared.clone())).unwrap();
        shared.draw(polls + old.len() as u64);
        if let Some(again) = polled(call.made(&mut store), polls) {
            assert_eq!(again, answer);
            return (after, polls);
        }
        if polls > 0 {
            // Were the store on, this could program a word that the dropped step has programmed, which the part would tell.
            let off = whole(Call::Write(1, 1).made(&mut store));
            assert_eq!(off, Err(Error::NotOpen), "{call:?} dropped at {polls}");
            drop_the_opening(&shared.left());
            assert_eq!(whole(store.reopen()), Ok(()));
        }
        assert!(store.is_on());
        let map = whole(held(&store));
        assert!(
            map == old || map == new,
            "{call:?} dropped at {polls}: {map:?}"
        );
        let more = whole(Call::Write(1, 1).made(&mut store));
        assert!(
            matches!(more, Ok(()) | Err(Error::Full | Error::Spent)),
            "{more:?}"
        );
    }
    unreachable!("a call ends")
}

/// Makes so many random calls on stores of several sizes. How many drops there were.
fn random(count: u64, seed: u64, blank: fn(Shape) -> Part) -> u64 {
    let (mut drops, mut dice) = (0, seed);
    let shapes = [(1, 6), (2, 5), (1, 12), (3, 7)];
    for (pages, words) in shapes {
        let shape = Shape::new(pages, words).unwrap();
        let shared = Shared::new(&blank(shape));
        assert!(whole(Store::format(shared.clone())).is_ok());
        let mut part = shared.left();
        for _ in 0..count / shapes.len() as u64 {
            let call = Call::drawn(&mut dice, shape.slots() as u64 + 1);
            let (after, more) = drop_everywhere(&part, &call);
            part = after;
            drops += more;
        }
    }
    drops
}

/// Plays a script on an image that holds a store.
fn worked(mut part: Part, script: &str) -> u64 {
    if whole(Store::open(Shared::new(&part))).is_err() {
        return 0;
    }
    let mut drops = drop_the_opening(&part);
    for call in script.lines().filter_map(Call::of) {
        let (after, more) = drop_everywhere(&part, &call);
        part = after;
        drops += more;
    }
    drops
}

fn main() -> io::Result<()> {
    let numbers: Vec<u64> = env::args().filter_map(|word| word.parse().ok()).collect();
    let mut drops = 0;
    if let [count, seed] = numbers[..] {
        for blank in [Part::blank, Part::blank_numbers, Part::blank_cells] {
            drops += random(count, seed, blank);
        }
    } else {
        for line in io::stdin().lock().lines() {
            let line = line?;
            let (image, script) = line.split_once('\t').unwrap_or((&line, ""));
            let script = fs::read_to_string(script)?;
            if let Some(part) = image::read(&fs::read_to_string(image)?) {
                drops += worked(part.doubled(), &script) + worked(part, &script);
            }
        }
    }
    println!("{drops} passed, 0 failed");
    Ok(())
}

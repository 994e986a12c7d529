//! An application that keeps values in any `NorFlash`: each of its calls is cut in each step, and nothing is lost.
//!
//!     application [SEED]
//!
//! It goes over all sizes of writes and sectors. The last line is `N passed, M failed`.

mod flash;
mod kinds;

use ee_store::{Address, Error, OpenError, Put, Shape, Store};
use flash::{Cells, Chance};
use kinds::{Kind, Part};
use std::cell::RefCell;
use std::collections::BTreeMap;
use std::rc::Rc;

type Map = BTreeMap<u16, u32>;

fn address(number: u16) -> Address {
    Address::new(number).unwrap()
}

/// A call of the application.
#[derive(Clone, Debug)]
enum Call {
    Write(u16, u32),
    Forget(u16),
    WriteAll(Vec<(u16, u32)>),
    CleanStep,
}

impl Call {
    fn drawn(chance: &mut Chance, addresses: u64) -> Call {
        let number = 1 + chance.below(addresses) as u16;
        let value = chance.number() as u32;
        match chance.below(16) {
            0 => Call::Forget(number),
            1 => Call::CleanStep,
            2 => Call::WriteAll(vec![(number, value), (number % 60000 + 1, !value)]),
            3 => Call::Write(number, 0),
            4 => Call::Write(number, u32::MAX),
            _ => Call::Write(number, value),
        }
    }

    /// The map after this call, where it isn't refused.
    fn after(&self, map: &Map) -> Map {
        let mut map = map.clone();
        match self {
            Call::Write(number, value) => {
                map.insert(*number, *value);
            }
            Call::Forget(number) => {
                map.remove(number);
            }
            Call::WriteAll(values) => map.extend(values.iter().copied()),
            Call::CleanStep => {}
        }
        map
    }

    /// Whether the call changed the store, or was refused with the store as it was. `None` where the flash failed.
    fn made(&self, store: &mut Store<Part>) -> Option<bool> {
        match self {
            Call::Write(number, value) => match store.write(address(*number), *value) {
                Ok(_) => Some(true),
                Err(Error::Full) => Some(false),
                Err(_) => None,
            },
            Call::Forget(number) => match store.forget(address(*number)) {
                Ok(_) => Some(true),
                Err(Error::Absent) => Some(false),
                Err(_) => None,
            },
            Call::WriteAll(values) => match store.write_all(&puts(values)) {
                Ok(_) => Some(true),
                Err(Error::Full) => Some(false),
                Err(_) => None,
            },
            Call::CleanStep => store.clean_step().ok().map(|_| true),
        }
    }
}

fn puts(values: &[(u16, u32)]) -> Vec<Put> {
    let put = |&(number, value): &(u16, u32)| Put {
        address: address(number),
        value,
    };
    values.iter().map(put).collect()
}

/// One flash, and a store of one shape that begins at its second sector.
struct Trial {
    kind: Kind,
    shape: Shape,
    /// How often power was cut.
    cuts: u64,
}

type Flash = Rc<RefCell<Cells>>;

impl Trial {
    fn blank(&self) -> Cells {
        let page = self.shape.words() * self.kind.word_bytes;
        let sectors = page.div_ceil(self.kind.sector);
        let all = 2 + 2 * self.shape.pages() * sectors;
        let cells = Cells::blank(self.kind.unit, self.kind.sector, all, self.kind.has_ecc);
        match self.kind.words == ee_store::Kind::PairsClearing {
            true => cells.clearing(),
            false => cells,
        }
    }

    /// The store of a flash. `None` where power was cut in its opening.
    fn open(&self, flash: &Flash) -> Option<Store<Part>> {
        Store::open_or_format((self.kind.new)(flash.clone(), self.shape).expect("it fits")).ok()
    }

    /// The map of a store that no cut disturbs any more, and its flash.
    fn held(&self, cells: &Cells) -> (Map, Cells) {
        let flash = Rc::new(RefCell::new(cells.powered(None, 1)));
        let store = self.open(&flash).expect("it opens");
        let mut map = Map::new();
        let mut after = None;
        while let Some((found, value)) = store.next_live(after).unwrap() {
            map.insert(found.get(), value);
            after = Some(found);
        }
        let cells = flash.borrow().clone();
        (map, cells)
    }

    /// Makes a call on copies of a flash, cut in each step in turn, and then without a cut.
    fn cut_everywhere(&mut self, cells: &Cells, call: &Call, old: &Map) -> (Map, Cells) {
        let new = call.after(old);
        for fuse in 0.. {
            let seed = fuse + self.cuts;
            let flash = Rc::new(RefCell::new(cells.powered(Some(fuse), seed)));
            let answer = self
                .open(&flash)
                .and_then(|mut store| call.made(&mut store));
            let (map, left) = self.held(&flash.borrow());
            match answer {
                Some(changed) => {
                    assert_eq!(&map, if changed { &new } else { old }, "{call:?}");
                    return (map, left);
                }
                None => assert!(map == *old || map == new, "{call:?}, step {fuse}: {map:?}"),
            }
            self.cuts += 1;
        }
        unreachable!("a call ends")
    }

    /// A first start that is cut in each step is made again.
    fn cut_the_first_start(&mut self) {
        for fuse in 0.. {
            let flash = Rc::new(RefCell::new(self.blank().powered(Some(fuse), fuse)));
            let is_whole = self.open(&flash).is_some();
            assert_eq!(self.held(&flash.borrow()).0, Map::new());
            if is_whole {
                return;
            }
            self.cuts += 1;
        }
    }

    /// A flash of a program's bytes is refused. Formatted it has a store, and nothing was touched before and behind it.
    fn refuse_foreign(&self) {
        let flash = Rc::new(RefCell::new(self.blank()));
        flash.borrow_mut().bytes.fill(0x2a);
        let bytes = flash.borrow().bytes.clone();
        let driver = || (self.kind.new)(flash.clone(), self.shape).expect("it fits");
        let refused = Store::open_or_format(driver()).err();
        match self.kind.words {
            ee_store::Kind::Pairs => {
                assert_eq!(refused, Some(OpenError::Foreign { page: 0, at: 0 }));
            }
            _ => assert_eq!(refused, Some(OpenError::NoLiveSet)),
        }
        assert_eq!(flash.borrow().bytes, bytes);
        assert!(Store::format(driver()).is_ok());
        let cells = flash.borrow().clone();
        let (sector, end) = (self.kind.sector, bytes.len());
        assert_eq!(cells.bytes[..sector], bytes[..sector]);
        assert_eq!(cells.bytes[end - sector..], bytes[end - sector..]);
        assert_eq!(self.held(&cells).0, Map::new());
    }

    fn run(&mut self, calls: u64, seed: u64) {
        self.cut_the_first_start();
        self.refuse_foreign();
        let mut chance = Chance(seed);
        let (mut map, mut cells) = self.held(&self.blank());
        for _ in 0..calls {
            let call = Call::drawn(&mut chance, self.shape.slots().min(9) as u64 + 1);
            (map, cells) = self.cut_everywhere(&cells, &call, &map);
        }
    }
}

/// A flash with a page of a few words, two such pages a set, and a page as large as a sector. How often power was cut.
fn tried(kind: Kind, seed: u64) -> u64 {
    let whole = (kind.sector / kind.word_bytes).clamp(5, 512);
    let mut cuts = 0;
    for (pages, words, calls) in [(1, 6, 60), (2, 7, 90), (1, whole, 30)] {
        let shape = Shape::new(pages, words).unwrap();
        let mut trial = Trial { kind, shape, cuts };
        trial.run(calls, seed);
        cuts = trial.cuts;
    }
    cuts
}

fn main() {
    let seed = std::env::args().nth(1);
    let seed = seed.map_or(1, |word| word.parse().expect("a seed"));
    let (mut passed, mut failed, mut cuts) = (0, 0, 0);
    for kind in kinds::all() {
        match std::panic::catch_unwind(|| tried(kind, seed)) {
            Ok(more) => {
                passed += 1;
                cuts += more;
            }
            Err(_) => {
                failed += 1;
                println!("{kind:?} failed");
            }
        }
    }
    println!("power was cut {cuts} times");
    println!("{passed} passed, {failed} failed");
    std::process::exit(i32::from(failed != 0));
}

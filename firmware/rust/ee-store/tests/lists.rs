//! Lists of values that are written at once, on a part in memory whose power is cut in a step: each list is there whole
//! or not at all.

use ee_store::{Address, Driver, Error, Kind, Put, Shape, Store, Word, Written};
use std::collections::BTreeMap;

const PAGE_WORDS: usize = 6;
const SLOTS_OF_PAGE: usize = 2;

type Map = BTreeMap<u16, u32>;

/// What a step that is cut leaves of a word.
#[derive(Clone, Copy, Debug, PartialEq, Eq)]
enum Tear {
    Nothing,
    Done,
    Torn,
    /// The words of a page in turn as before, as asked and torn.
    Mixed,
}

const TEARS: [Tear; 4] = [Tear::Nothing, Tear::Done, Tear::Torn, Tear::Mixed];

/// Power was cut.
#[derive(Clone, Copy, Debug, PartialEq, Eq)]
struct PowerCut;

/// Two sets of pages of six words.
#[derive(Clone, Debug, PartialEq, Eq)]
struct Part {
    pages: Vec<[Word; PAGE_WORDS]>,
    /// The step that is cut, counted from 1, and what it leaves.
    cut: Option<(u32, Tear)>,
}

impl Part {
    fn blank(pages: usize) -> Part {
        Part {
            pages: vec![[Word::Erased; PAGE_WORDS]; 2 * pages],
            cut: None,
        }
    }

    /// A step begins: what is left, if it is cut.
    fn begin(&mut self) -> Option<Tear> {
        let (step, tear) = self.cut?;
        self.cut = Some((step.checked_sub(1)?, tear));
        (step == 1).then_some(tear)
    }
}

/// A word that was to become this one.
fn left(old: Word, new: Word, tear: Tear, at: usize) -> Word {
    match tear {
        Tear::Nothing => old,
        Tear::Done => new,
        Tear::Torn => Word::Torn,
        Tear::Mixed => [old, new, Word::Torn][at % 3],
    }
}

impl Driver for Part {
    type Error = PowerCut;

    fn shape(&self) -> Shape {
        Shape::new(self.pages.len() / 2, PAGE_WORDS).unwrap()
    }

    fn kind(&self) -> Kind {
        Kind::Words
    }

    fn word(&self, page: usize, at: usize) -> Result<Word, PowerCut> {
        Ok(self.pages[page][at])
    }

    fn program(&mut self, page: usize, at: usize, value: u64) -> Result<(), PowerCut> {
        assert_eq!(self.pages[page][at], Word::Erased);
        let cut = self.begin();
        let tear = cut.unwrap_or(Tear::Done);
        self.pages[page][at] = left(Word::Erased, Word::Held(value), tear, at);
        cut.map_or(Ok(()), |_| Err(PowerCut))
    }

    fn erase(&mut self, page: usize) -> Result<(), PowerCut> {
        let cut = self.begin();
        let tear = cut.unwrap_or(Tear::Done);
        for (at, word) in self.pages[page].iter_mut().enumerate() {
            *word = left(*word, Word::Erased, tear, at);
        }
        cut.map_or(Ok(()), |_| Err(PowerCut))
    }
}

fn address(number: u16) -> Address {
    Address::new(number).unwrap()
}

fn put(number: u16, value: u32) -> Put {
    Put {
        address: address(number),
        value,
    }
}

/// A list of the addresses, each with a value that no test writes otherwise.
fn list(addresses: impl IntoIterator<Item = u16>) -> Vec<Put> {
    let values = addresses
        .into_iter()
        .map(|number| put(number, 1000 + u32::from(number)));
    values.collect()
}

fn opened(part: Part) -> Store<Part> {
    Store::open(part).unwrap_or_else(|failed| panic!("{:?}", failed))
}

fn held(store: &Store<Part>) -> Map {
    let mut map = Map::new();
    let mut after = None;
    while let Some((found, value)) = store.next_live(after).unwrap() {
        assert_eq!(store.read(found), Ok(Some(value)));
        map.insert(found.get(), value);
        after = Some(found);
    }
    map
}

/// A part on which a store was made and these addresses were written, one after another; 0 forgets the address
/// before it.
fn after(pages: usize, addresses: &[u16]) -> Part {
    let part = Part::blank(pages);
    let mut store = Store::format(part).unwrap_or_else(|failed| panic!("{:?}", failed));
    let mut last = 1;
    for (value, number) in addresses.iter().enumerate() {
        if *number == 0 {
            store.forget(address(last)).unwrap();
        } else {
            store.write(address(*number), value as u32).unwrap();
            last = *number;
        }
    }
    store.into_driver()
}

/// Writes the list on copies of the part, cut in each step in each way, and then without a cut.
fn write_everywhere(part: &Part, values: &[Put]) {
    let old = held(&opened(part.clone()));
    let mut new = old.clone();
    new.extend(values.iter().map(|put| (put.address.get(), put.value)));
    if new.len() > part.shape().slots() {
        let mut store = opened(part.clone());
        assert_eq!(store.write_all(values), Err(Error::Full));
        assert_eq!(store.into_driver(), *part);
        return;
    }
    let (mut kept, mut made) = (0, 0);
    for step in 1.. {
        for tear in TEARS {
            let mut store = opened(Part {
                cut: Some((step, tear)),
                ..part.clone()
            });
            match store.write_all(values) {
                Ok(written) => {
                    assert_eq!(written, Written::Moved);
                    assert_eq!(held(&store), new);
                    assert_eq!(store.fill().ok(), store.live_count().ok());
                    assert!(kept > 0 && made > 0);
                    return;
                }
                Err(error) => assert!(matches!(error, Error::Driver(_)), "{error}"),
            }
            assert_eq!(store.write_all(values), Err(Error::NotOpen));
            let found = held(&opened(Part {
                cut: None,
                ..store.into_driver()
            }));
            assert!(
                found == old || found == new,
                "step {step}, {tear:?}: {found:?}"
            );
            kept += u32::from(found == old);
            made += u32::from(found == new);
        }
    }
}

#[test]
fn a_list_is_there_whole_or_not_at_all() {
    for pages in [1, 2] {
        let slots = (SLOTS_OF_PAGE * pages) as u16;
        let all: Vec<u16> = (1..=slots).collect();
        let parts = [
            after(pages, &[]),
            after(pages, &[2]),
            // One that was forgotten, with a slot free, and with none.
            after(pages, &[1, 0]),
            after(pages, &[[1].repeat(all.len() - 1), vec![1, 0]].concat()),
            // Every slot used, with one value and with as many as there are slots; and with pages that wait.
            after(pages, &[3].repeat(all.len())),
            after(pages, &all),
            after(pages, &[1].repeat(all.len() + 1)),
        ];
        for part in &parts {
            for first in [1, 2, 40] {
                write_everywhere(part, &list([first + 1, first]));
                write_everywhere(part, &list(first..first + slots));
                write_everywhere(part, &list(first..=first + slots));
            }
        }
    }
}

#[test]
fn values_of_a_list_stand_first_and_in_their_order() {
    let mut store = opened(after(2, &[1, 9, 4]));
    assert_eq!(
        store.write_all(&[put(9, 90), put(3, 30)]),
        Ok(Written::Moved)
    );
    let part = store.into_driver();
    let slots: Vec<Word> = part.pages[2..]
        .iter()
        .flat_map(|page| page[4..].to_vec())
        .collect();
    let word = |number: u64, value: u64| Word::Held(value << 32 | number);
    assert_eq!(slots, [word(9, 90), word(3, 30), word(1, 0), word(4, 2)]);
}

#[test]
fn short_lists() {
    let part = after(1, &[1]);
    let mut store = opened(part.clone());
    assert_eq!(store.write_all(&[]), Ok(Written::Appended));
    assert_eq!(store.write_all(&[put(1, 5)]), Ok(Written::Appended));
    assert_eq!(store.write_all(&[put(2, 6)]), Ok(Written::Moved));
    assert_eq!(held(&store), Map::from([(1, 5), (2, 6)]));
    assert_eq!(store.write_all(&[put(3, 7)]), Err(Error::Full));
    let mut off = Store::off(part);
    assert_eq!(off.write_all(&[]), Err(Error::NotOpen));
    assert_eq!(off.write_all(&[put(1, 5), put(1, 6)]), Err(Error::NotOpen));
    assert_eq!(off.read(address(1)), Err(Error::NotOpen));
}

#[test]
fn an_address_stands_in_a_list_once() {
    let part = after(1, &[1]);
    let mut store = opened(part.clone());
    let many = [put(5, 1), put(1, 2), put(7, 3), put(1, 4), put(5, 5)];
    assert_eq!(store.write_all(&many), Err(Error::Duplicate(3)));
    assert_eq!(store.write_all(&many[..3]), Err(Error::Full));
    assert_eq!(store.into_driver(), part);
    assert_eq!(
        Error::<u32>::Duplicate(3).to_string(),
        "value 3 has an address of an earlier one"
    );
}

#[test]
fn no_move_follows_the_greatest_generation() {
    let mut part = Part::blank(1);
    part.pages[0][0] = Word::Held(0xaaaa_aaaa_ffff_fffe);
    part.pages[0][1] = Word::Held(0xaaaa_aaaa_aaaa_aaaa);
    let mut store = opened(part.clone());
    assert_eq!(store.write_all(&list([1, 2])), Err(Error::Spent));
    assert_eq!(store.write_all(&list([1, 2, 3])), Err(Error::Full));
    assert_eq!(store.write_all(&list([1])), Ok(Written::Appended));
    assert_eq!(store.write_all(&list([1])), Ok(Written::Appended));
    assert_eq!(store.write_all(&list([1])), Err(Error::Spent));
}

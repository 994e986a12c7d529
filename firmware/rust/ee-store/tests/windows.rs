//! Drivers that give several words at once: the same random calls, with power cut in some, answer and leave the same whether
//! words are read one at a time, looked at where they stand, or read several at a time.

use ee_store::{Address, Driver, Kind, Put, Shape, Store, Word};
use std::cell::Cell;

const CALLS: u32 = 4_000;

/// Power was cut.
#[derive(Clone, Copy, Debug, PartialEq, Eq)]
struct PowerCut;

/// How words are read.
#[derive(Clone, Copy, Debug, PartialEq, Eq)]
enum How {
    ByWord,
    InPlace,
    /// In place, but every third time not.
    SometimesInPlace,
    /// A window that is a word too short, which counts for none.
    TooShort,
    /// Several at a time, into the store's own room.
    AtOnce,
}

/// A row of numbers that look random.
#[derive(Clone, Debug)]
struct Dice(u64);

impl Dice {
    fn below(&mut self, end: u32) -> u32 {
        self.0 ^= self.0 << 13;
        self.0 ^= self.0 >> 7;
        self.0 ^= self.0 << 17;
        (self.0 >> 32) as u32 % end
    }
}

/// A part in memory, of words, or of numbers that are two for each word.
#[derive(Clone, Debug)]
struct Part {
    shape: Shape,
    kind: Kind,
    /// The words or the numbers of each page.
    values: Vec<Vec<u64>>,
    /// Of words: which can't be read.
    torn: Vec<Vec<bool>>,
    how: How,
    asked: Cell<u32>,
    /// The steps that pass before one that is cut.
    left: Cell<Option<u32>>,
    dice: Dice,
}

impl Part {
    fn blank(shape: Shape, kind: Kind, how: How) -> Part {
        let numbers_of_word = if kind == Kind::Words { 1 } else { 2 };
        let places = numbers_of_word * shape.words();
        Part {
            shape,
            kind,
            values: vec![vec![u64::MAX; places]; 2 * shape.pages()],
            torn: vec![vec![false; places]; 2 * shape.pages()],
            how,
            asked: Cell::new(0),
            left: Cell::new(None),
            dice: Dice(7),
        }
    }

    /// What the flash has in memory of these.
    fn seen(&self, page: usize, at: usize, count: usize) -> Option<&[u64]> {
        self.asked.set(self.asked.get() + 1);
        if self.torn[page][at..at + count].contains(&true) {
            return None;
        }
        match self.how {
            How::InPlace => Some(&self.values[page][at..at + count]),
            How::SometimesInPlace if self.asked.get() % 3 != 0 => {
                Some(&self.values[page][at..at + count])
            }
            How::TooShort => Some(&self.values[page][at..at + count - 1]),
            _ => None,
        }
    }

    /// A step begins. Whether it is cut.
    fn is_cut(&mut self) -> bool {
        let left = self.left.get();
        self.left.set(left.and_then(|left| left.checked_sub(1)));
        left == Some(0)
    }
}

impl Driver for Part {
    type Error = PowerCut;

    fn shape(&self) -> Shape {
        self.shape
    }

    fn kind(&self) -> Kind {
        self.kind
    }

    fn word(&self, page: usize, at: usize) -> Result<Word, PowerCut> {
        Ok(match self.torn[page][at] {
            true => Word::Torn,
            false => Word::from(self.values[page][at]),
        })
    }

    fn window(&self, page: usize, at: usize, count: usize) -> Option<&[u64]> {
        self.seen(page, at, count)
    }

    fn read_run(&self, page: usize, at: usize, room: &mut [u64]) -> Result<(), PowerCut> {
        for (place, number) in (at..).zip(room) {
            *number = match self.how {
                How::AtOnce if self.torn[page][place] => 0,
                How::AtOnce => self.values[page][place],
                _ => self.word(page, place)?.number(),
            };
        }
        Ok(())
    }

    fn program(&mut self, page: usize, at: usize, value: u64) -> Result<(), PowerCut> {
        let is_cut = self.is_cut();
        self.values[page][at] = value;
        if self.kind == Kind::Words {
            self.torn[page][at] = is_cut && self.dice.below(2) == 0;
        } else if is_cut {
            self.values[page][at] |= 1 << self.dice.below(64);
        }
        if is_cut {
            Err(PowerCut)
        } else {
            Ok(())
        }
    }

    fn erase(&mut self, page: usize) -> Result<(), PowerCut> {
        let is_cut = self.is_cut();
        if self.kind != Kind::Words {
            for at in 0..self.values[page].len() {
                let bits = u64::from(self.dice.below(u32::MAX));
                self.values[page][at] |= if is_cut { bits } else { u64::MAX };
            }
            return if is_cut { Err(PowerCut) } else { Ok(()) };
        }
        for at in 0..self.shape.words() {
            self.torn[page][at] = is_cut && self.dice.below(3) == 0;
            if !is_cut || self.dice.below(2) == 0 {
                self.values[page][at] = u64::MAX;
            }
        }
        if is_cut {
            Err(PowerCut)
        } else {
            Ok(())
        }
    }
}

fn address(dice: &mut Dice) -> Address {
    Address::new(1 + dice.below(12) as u16).unwrap()
}

/// What a random call answers, as a text. Each tenth is cut in some step, and the store opened again.
fn answer(store: &mut Store<Part>, dice: &mut Dice) -> String {
    let put = Put {
        address: address(dice),
        value: dice.below(u32::MAX),
    };
    match dice.below(8) {
        0 => format!("{:?}", store.forget(put.address)),
        1 => format!("{:?} {:?}", store.live_count(), store.torn_slots()),
        2 => format!("{:?}", store.next_live(Some(put.address))),
        3 => format!("{:?}", store.read(put.address)),
        4 => format!(
            "{:?}",
            store.write_all(&[
                put,
                Put {
                    address: address(dice),
                    ..put
                }
            ])
        ),
        5 => format!("{:?}", store.clean_step()),
        _ => format!("{:?}", store.write(put.address, put.value)),
    }
}

/// The answers of random calls, and the part behind them.
fn played(part: Part) -> (Vec<String>, Part) {
    let mut store = Store::open_or_format(part).unwrap();
    let mut dice = Dice(88_172_645_463_325_252);
    let mut answers = Vec::new();
    for _ in 0..CALLS {
        let cut = (dice.below(10) == 0).then(|| dice.below(8));
        store.driver().left.set(cut);
        answers.push(answer(&mut store, &mut dice));
        if !store.is_on() {
            let part = store.into_driver();
            part.left.set(None);
            store = Store::open(part).unwrap();
        }
    }
    (answers, store.into_driver())
}

const HOWS: [How; 4] = [
    How::InPlace,
    How::SometimesInPlace,
    How::TooShort,
    How::AtOnce,
];

#[test]
fn it_is_the_same_however_words_are_read() {
    for kind in [Kind::Words, Kind::Pairs] {
        for (pages, words) in [(1, 6), (1, 40), (2, 21)] {
            let shape = Shape::new(pages, words).unwrap();
            let play = |how| played(Part::blank(shape, kind, how));
            let (answers, part) = play(How::ByWord);
            for how in HOWS {
                let (others, other) = play(how);
                assert!(
                    answers == others && part.values == other.values && part.torn == other.torn,
                    "{kind:?} {how:?}"
                );
                assert!(other.asked.get() > CALLS);
            }
        }
    }
}

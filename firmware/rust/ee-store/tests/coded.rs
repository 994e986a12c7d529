//! Coded words, on a flash down to its cells, with an ECC that corrects.

mod ecc;

use ecc::{Cells, Ecc, ERASED};
use ee_store::{Address, Driver, Error, Kind, OpenError, Put, Shape, Store, Word};
use std::collections::BTreeMap;

/// Power was cut.
#[derive(Clone, Copy, Debug, PartialEq, Eq)]
struct Down;

/// Two sets of pages in memory, of which a driver may use less than there is.
#[derive(Clone)]
struct Part {
    shape: Shape,
    kind: Kind,
    ecc: Ecc,
    pages: Vec<Vec<Cells>>,
    steps: u32,
    /// The step that is cut.
    cut: Option<u32>,
    /// The page whose second word fails to be read.
    dead: Option<usize>,
    dice: u64,
}

fn shape(pages: usize, words: usize) -> Shape {
    Shape::new(pages, words).unwrap()
}

impl Part {
    fn blank(pages: usize, words: usize, seed: u64) -> Part {
        Part {
            shape: shape(pages, words),
            kind: Kind::Coded,
            ecc: Ecc::new(seed),
            pages: vec![vec![ERASED; words]; 2 * pages],
            steps: 0,
            cut: None,
            dead: None,
            dice: seed << 8 | 1,
        }
    }

    /// The same with power on, and no step made yet, under another shape or kind, or the same.
    fn under(&self, shape: Shape, kind: Kind) -> Part {
        let (steps, cut) = (0, None);
        Part {
            shape,
            kind,
            steps,
            cut,
            ..self.clone()
        }
    }

    fn below(&mut self, end: u64) -> u64 {
        self.dice ^= self.dice << 13;
        self.dice ^= self.dice >> 7;
        self.dice ^= self.dice << 17;
        self.dice.wrapping_mul(0x9e37_79b9_7f4a_7c15) % end
    }

    /// A step begins: whether it is cut, and of 64 chances how many reach a cell.
    fn begin(&mut self) -> (bool, u64) {
        self.steps += 1;
        let is_cut = self.cut == Some(self.steps);
        (is_cut, if is_cut { self.below(65) } else { 64 })
    }

    fn reached(&mut self, chance: u64) -> Cells {
        if chance == 64 {
            return ERASED;
        }
        let bits = (0..72).fold(0, |bits, _| bits << 1 | u128::from(self.below(64) < chance));
        Cells {
            number: bits as u64,
            check: (bits >> 64) as u8,
        }
    }
}

impl Driver for Part {
    type Error = Down;

    fn shape(&self) -> Shape {
        self.shape
    }

    fn kind(&self) -> Kind {
        self.kind
    }

    fn word(&self, page: usize, at: usize) -> Result<Word, Down> {
        let is_dead = at == 1 && self.dead == Some(page);
        let word = self.ecc.word(self.pages[page][at]);
        (!is_dead).then_some(word).ok_or(Down)
    }

    fn program(&mut self, page: usize, at: usize, value: u64) -> Result<(), Down> {
        let (is_cut, chance) = self.begin();
        let (asked, reached) = (self.ecc.cells(value), self.reached(chance));
        let cells = &mut self.pages[page][at];
        assert_eq!(*cells, ERASED);
        *cells = cells.programmed(asked, reached);
        (!is_cut).then_some(()).ok_or(Down)
    }

    fn erase(&mut self, page: usize) -> Result<(), Down> {
        let (is_cut, chance) = self.begin();
        for at in 0..self.pages[page].len() {
            let reached = self.reached(chance);
            self.pages[page][at] = self.pages[page][at].erased(reached);
        }
        (!is_cut).then_some(()).ok_or(Down)
    }
}

const FIRST: Address = Address::at(1);

#[test]
fn words_stand_as_the_format_says() {
    let mut store = Store::format(Part::blank(1, 256, 1)).unwrap();
    store.write(FIRST, 10).unwrap();
    store.write(Address::at(65534), u32::MAX).unwrap();
    store.forget(FIRST).unwrap();
    store.write(FIRST, 0xaaaa_aaaa).unwrap();
    let part = store.into_driver();
    let numbers: Vec<u64> = part.pages[0].iter().map(|cells| cells.number).collect();
    assert_eq!(numbers[1], 0x0001_0100_9eb1_0000);
    let slots = [
        0x0000_000a_9ea8_0001,
        0xffff_ffff_a18e_fffe,
        0x0000_000a_ebbb_0001,
        0xaaaa_aaaa_7356_0001,
    ];
    assert_eq!(numbers[4..8], slots);
    let store = Store::format(Part::blank(64, 512, 1)).unwrap();
    assert_eq!(
        store.into_driver().pages[0][1].number,
        0x0040_0200_9f83_0000
    );
}

type Opening = fn(&mut Part) -> Result<(), OpenError<Down>>;

const OPENINGS: [Opening; 4] = [
    |part| Store::open(part).map(drop),
    |part| Store::open_or_format(part).map(drop),
    |part| Store::rescue(part).map(drop),
    |part| Store::off(part).reopen(),
];

/// What each opening says, if it makes no step.
fn refusals(part: &Part) -> [Option<OpenError<Down>>; 4] {
    OPENINGS.map(|opening| {
        let mut part = part.clone();
        let refused = opening(&mut part).err();
        assert!(refused.is_none() || part.steps == 0);
        refused
    })
}

#[test]
fn another_shape_is_named_before_all_else() {
    let shapes = [shape(1, 12), shape(1, 16), shape(2, 12), shape(2, 16)];
    let named = |shape: Shape| OpenError::OtherShape {
        pages: shape.pages(),
        words: shape.words(),
    };
    for own in shapes {
        let blank = Part::blank(2, 16, 1).under(own, Kind::Coded);
        let mut store = Store::format(blank).unwrap();
        // Values, a set that is left, and one of which a page was erased.
        for value in 0..70 {
            let part = store.driver().clone();
            for other in shapes.iter().filter(|other| **other != own) {
                let mut part = part.under(*other, Kind::Coded);
                let mut seen = part.pages[..2 * other.pages()]
                    .iter()
                    .flat_map(|page| &page[..other.words()]);
                let refused = refusals(&part);
                if part.pages[0][1] != ERASED || own.pages() == other.pages() {
                    assert_eq!(refused, [Some(named(own)); 4]);
                } else if seen.any(|cells| *cells != ERASED) {
                    assert!(refused.iter().all(Option::is_some), "{refused:?}");
                }
                assert!(Store::format(&mut part).is_ok());
                assert_eq!(refusals(&part.under(*other, Kind::Coded)), [None; 4]);
            }
            store.write(FIRST, value).unwrap();
            if value % 3 == 0 {
                store.clean_step().unwrap();
            }
        }
    }
}

#[test]
fn another_kind_is_refused() {
    for (own, other) in [(Kind::Words, Kind::Coded), (Kind::Coded, Kind::Words)] {
        let blank = Part::blank(2, 8, 1);
        let mut store = Store::format(blank.under(blank.shape, own)).unwrap();
        for value in 0..40 {
            store.write(FIRST, value).unwrap();
            let mut part = store.driver().under(blank.shape, other);
            let refused = refusals(&part);
            if other == Kind::Words {
                assert_eq!(refused[..2], [Some(OpenError::NoLiveSet); 2]);
                continue;
            }
            let plain = OpenError::OtherShape { pages: 0, words: 0 };
            assert_eq!(refused, [Some(plain); 4]);
            for page in [0, 2] {
                part.dead = Some(page);
                let failed = refusals(&part).map(|it| matches!(it, Some(OpenError::Driver(_))));
                assert_eq!(failed, [true; 4]);
            }
        }
    }
}

#[test]
fn a_torn_mark_says_no_shape() {
    let mut store = Store::format(Part::blank(1, 8, 1)).unwrap();
    store.write(FIRST, 10).unwrap();
    let mut whole = store.into_driver();
    let mark = whole.pages[0][1].number;
    for turn in 0..2000_u32 {
        let unreached = if turn < 64 { 0 } else { whole.below(u64::MAX) };
        let mut part = whole.under(whole.shape, Kind::Coded);
        let number = (mark | unreached) ^ 1 << (turn % 64);
        if number == mark {
            continue;
        }
        part.pages[0][1] = part.ecc.cells(number);
        let [opened, started, ..] = refusals(&part);
        assert_eq!([opened, started], [Some(OpenError::NoLiveSet); 2]);
        let (store, _) = Store::rescue(&mut part).unwrap();
        assert_eq!(store.read(FIRST), Ok(Some(10)));
    }
}

#[test]
fn a_first_start_takes_no_data_for_its_own() {
    let blank = Part::blank(1, 6, 1);
    for (page, at) in (0..12).map(|n| (n / 6, n % 6)) {
        let mut part = blank.clone();
        part.pages[page][at] = Cells {
            number: 1 << 63,
            check: 0,
        };
        let refused = Store::open_or_format(&mut part).err();
        let is_refused = page > 0 || at > 1;
        assert_eq!(refused, is_refused.then_some(OpenError::NoLiveSet));
        assert_eq!(part.steps == 0, is_refused);
    }
}

type Map = BTreeMap<u16, u32>;

#[derive(Clone, Debug)]
enum Call {
    Write(u16, u32),
    Forget(u16),
    Both(u32, u32),
    Clean,
    Rescue,
    Start,
}

impl Call {
    fn drawn(part: &mut Part) -> Call {
        let (address, value) = (1 + part.below(4) as u16, part.below(1 << 32) as u32);
        match part.below(12) {
            0 => Call::Forget(address),
            1 => Call::Both(value, !value),
            2 => Call::Clean,
            3 => Call::Rescue,
            4 => Call::Start,
            _ => Call::Write(address, value),
        }
    }

    /// Makes it on a part: whether it was made, where power stayed.
    fn made(&self, part: &mut Part) -> Result<bool, Error<Down>> {
        let at = Address::at;
        if let Call::Rescue = self {
            return Ok(Store::rescue(part).map(|_| true)?);
        }
        let mut store = Store::open_or_format(part)?;
        let made = match *self {
            Call::Write(address, value) => store.write(at(address), value).map(drop),
            Call::Forget(address) => store.forget(at(address)).map(drop),
            Call::Both(first, second) => {
                let put = |address, value| Put {
                    address: at(address),
                    value,
                };
                store.write_all(&[put(1, first), put(2, second)]).map(drop)
            }
            Call::Clean => store.clean_step().map(drop),
            Call::Rescue | Call::Start => Ok(()),
        };
        match made {
            Err(Error::Absent) => Ok(false),
            made => made.map(|()| true),
        }
    }

    fn after(&self, map: &Map) -> Map {
        let mut map = map.clone();
        match *self {
            Call::Write(address, value) => _ = map.insert(address, value),
            Call::Forget(address) => _ = map.remove(&address),
            Call::Both(first, second) => map.extend([(1, first), (2, second)]),
            Call::Clean | Call::Rescue | Call::Start => {}
        }
        map
    }
}

/// What a start finds; `None` where it refuses.
fn held(part: &mut Part) -> Option<Map> {
    part.cut = None;
    let store = Store::open_or_format(part).ok()?;
    let value = |found: Result<(Address, u32), Error<Down>>| found.unwrap();
    let map = store.iter().map(value);
    Some(map.map(|(address, value)| (address.get(), value)).collect())
}

#[derive(Debug, Default, PartialEq)]
struct Counts {
    cuts: u32,
    /// Behind how many cuts a start refuses the flash, or finds another map than that before the call and that after it.
    refused: u32,
    wrong: u32,
}

/// Random calls, each cut in each step in four ways, and then made whole.
fn cut(kind: Kind, seed: u64) -> Counts {
    let mut counts = Counts::default();
    let mut part =
        Part::blank(1 + seed as usize % 2, 8, seed).under(shape(1 + seed as usize % 2, 8), kind);
    for _ in 0..60 {
        let call = Call::drawn(&mut part);
        let before = held(&mut part).unwrap();
        for turn in 0.. {
            part.below(2);
            let mut left = part.under(part.shape, kind);
            left.cut = Some(1 + turn / 4);
            match call.made(&mut left) {
                Err(Error::Driver(_) | Error::Open(OpenError::Driver(_))) => {}
                Ok(_) => break,
                Err(error) => panic!("{call:?}: {error}"),
            }
            counts.cuts += 1;
            match held(&mut left) {
                None => counts.refused += 1,
                Some(map) if map == before || map == call.after(&before) => {}
                Some(_) => counts.wrong += 1,
            }
        }
        part = part.under(part.shape, kind);
        let made = call.made(&mut part).unwrap();
        let after = if made { call.after(&before) } else { before };
        assert_eq!(held(&mut part), Some(after), "{call:?}");
    }
    counts
}

#[test]
fn no_cut_makes_a_number() {
    let (mut coded, mut words) = (Counts::default(), Counts::default());
    for seed in 1..20 {
        for (kind, all) in [(Kind::Coded, &mut coded), (Kind::Words, &mut words)] {
            let more = cut(kind, seed);
            all.cuts += more.cuts;
            all.refused += more.refused;
            all.wrong += more.wrong;
        }
    }
    println!("{coded:?}, of words {words:?}");
    assert!(coded.cuts > 10_000 && words.cuts > 10_000);
    assert_eq!((coded.refused, coded.wrong), (0, 0));
    // Over words it is as nobody wants it: the flash bites.
    assert!(words.refused > 100);
}

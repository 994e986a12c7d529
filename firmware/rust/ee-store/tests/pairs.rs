//! The store on a flash of numbers in memory, whose power is cut in a step.

use ee_store::{Address, Driver, Error, Kind, OpenError, Rescued, Shape, Store, Word, Written};

/// Power was cut in this step.
#[derive(Clone, Copy, Debug, PartialEq, Eq)]
struct PowerCut(u32);

/// Two sets of one page of six words, of two numbers each.
#[derive(Clone, Debug)]
struct Part {
    numbers: [[u64; 12]; 2],
    kind: Kind,
    steps: u32,
    /// The step that is cut, and the bits that it leaves of each number.
    cut: Option<(u32, u64)>,
}

impl Part {
    fn of(numbers: [[u64; 12]; 2]) -> Part {
        Part {
            numbers,
            kind: Kind::Pairs,
            steps: 0,
            cut: None,
        }
    }

    fn new() -> Part {
        Part::of([[u64::MAX; 12]; 2])
    }

    /// A part whose erases clear the cells of their page first: a cut one leaves them cleared.
    fn clearing() -> Part {
        Part {
            kind: Kind::PairsClearing,
            ..Part::new()
        }
    }

    /// The same, with power on, and no step made yet.
    fn powered(mut self, cut: Option<(u32, u64)>) -> Part {
        (self.steps, self.cut) = (0, cut);
        self
    }

    /// A step begins: the bits that a cut leaves, if it is cut.
    fn begin(&mut self) -> Option<u64> {
        self.steps += 1;
        let (step, bits) = self.cut?;
        (step == self.steps).then_some(bits)
    }
}

impl Driver for Part {
    type Error = PowerCut;

    fn shape(&self) -> Shape {
        Shape::new(1, 6).unwrap()
    }

    fn kind(&self) -> Kind {
        self.kind
    }

    fn word(&self, page: usize, at: usize) -> Result<Word, PowerCut> {
        Ok(Word::from(self.numbers[page][at]))
    }

    fn program(&mut self, page: usize, at: usize, number: u64) -> Result<(), PowerCut> {
        assert_eq!(self.numbers[page][at], u64::MAX);
        assert_ne!(number, u64::MAX);
        let cut = self.begin();
        self.numbers[page][at] = number | cut.unwrap_or(0);
        cut.map_or(Ok(()), |_| Err(PowerCut(self.steps)))
    }

    fn erase(&mut self, page: usize) -> Result<(), PowerCut> {
        let cut = self.begin();
        for number in &mut self.numbers[page] {
            *number = match (cut, self.kind) {
                (None, _) => u64::MAX,
                (Some(bits), Kind::PairsClearing) => *number & bits,
                (Some(bits), _) => *number | bits,
            };
        }
        cut.map_or(Ok(()), |_| Err(PowerCut(self.steps)))
    }
}

const CUTS: [u64; 6] = [0, u64::MAX, 1, 1 << 63, 0x5555_5555_5555_5555, 0xffff_0000];
const FIRST: Address = Address::at(1);
const SECOND: Address = Address::at(2);

fn started(part: Part) -> Store<Part> {
    Store::open_or_format(part).unwrap()
}

/// The page and the place of the first word that is refused.
fn foreign(part: &Part) -> Option<(usize, usize)> {
    let mut part = part.clone();
    match Store::open_or_format(&mut part) {
        Err(OpenError::Foreign { page, at }) => {
            assert_eq!(part.steps, 0);
            Some((page, at))
        }
        _ => None,
    }
}

#[test]
fn a_word_is_a_number_and_its_complement() {
    let mut store = started(Part::new());
    assert_eq!(store.write(FIRST, 10), Ok(Written::Appended));
    let part = store.into_driver();
    let word = 0x0000_000a_0000_0001;
    assert_eq!(part.numbers[0][8..10], [word, !word]);
    assert_eq!(started(part).read(FIRST), Ok(Some(10)));
}

#[test]
fn numbers_of_no_store_are_refused_and_formatted_over() {
    for (page, at) in (0..12).map(|n| (n / 6, n % 6)) {
        let mut part = Part::new();
        part.numbers[page][2 * at] = 7;
        part.numbers[page][2 * at + 1] = u64::MAX - 8;
        assert_eq!(foreign(&part), Some((page, at)));
        let mut store = Store::format(part).unwrap();
        assert_eq!(store.live_count(), Ok(0));
        assert_eq!(store.write(FIRST, 10), Ok(Written::Appended));
        assert_eq!(started(store.into_driver()).read(FIRST), Ok(Some(10)));
    }
    let mut part = Part::new();
    for (page, at) in [(0, 8), (0, 10), (1, 0)] {
        part.numbers[page][at] = 7;
        part.numbers[page][at + 1] = 7;
    }
    assert_eq!(foreign(&part), Some((0, 4)));
    // Where a cut erase may leave any numbers they are none that a value is made of.
    part.kind = Kind::PairsClearing;
    assert_eq!(foreign(&part), None);
    assert_eq!(
        Store::open_or_format(part).err(),
        Some(OpenError::NoLiveSet)
    );
}

#[test]
fn a_format_that_is_cut_is_made_again() {
    for kind in [Kind::Pairs, Kind::PairsClearing] {
        for step in 1..6 {
            let mut part = Part::of([[7; 12]; 2]).powered(Some((step, 1 << 5)));
            part.kind = kind;
            let cut = Store::format(&mut part).is_err();
            assert_eq!(cut, step < 6, "step {step}");
            assert!(Store::format(part.powered(None)).is_ok());
        }
    }
}

#[test]
fn no_value_is_lost_by_a_cut() {
    let mut full = started(Part::new());
    assert_eq!(full.write(FIRST, 10), Ok(Written::Appended));
    assert_eq!(full.write(FIRST, 11), Ok(Written::Appended));
    let full = full.into_driver();
    for bits in CUTS {
        for step in 1.. {
            let mut store = started(full.clone().powered(Some((step, bits))));
            let written = store.write(SECOND, 5);
            if written == Ok(Written::Moved) {
                assert!(step > 8);
                break;
            }
            let Err(Error::Driver(error)) = written else {
                panic!("{written:?}")
            };
            assert_eq!(error.error, PowerCut(step));
            let store = started(store.into_driver());
            assert_eq!(store.read(FIRST), Ok(Some(11)));
            let second = store.read(SECOND).unwrap();
            assert!(second.is_none() || second == Some(5));
        }
    }
}

/// Whether a start refuses this flash and writes nothing.
fn is_refused(numbers: [[u64; 12]; 2]) -> bool {
    let mut part = Part::of(numbers);
    let is_refused = Store::open_or_format(&mut part).is_err();
    is_refused && part.steps == 0
}

#[test]
fn a_start_takes_no_data_for_a_first_start() {
    // Numbers that look random, of which each has the top bit: no two sum to less than all ones.
    let mut dice = 88_172_645_463_325_252u64;
    for _ in 0..2000 {
        let mut numbers = [[0; 12]; 2];
        for number in numbers.iter_mut().flatten() {
            dice ^= dice << 13;
            dice ^= dice >> 7;
            dice ^= dice << 17;
            *number = dice.wrapping_mul(0x9e37_79b9_7f4a_7c15) | 1 << 63;
        }
        assert!(is_refused(numbers));
    }
    // A store of words, each with a great value, as plain numbers.
    for values in 1..9 {
        let mut numbers = [[u64::MAX; 12]; 2];
        numbers[0][0] = 0xaaaa_aaaa_0000_0001;
        numbers[0][1] = 0xaaaa_aaaa_aaaa_aaaa;
        for slot in 0..values {
            numbers[0][4 + slot] = 0xffff_ff00_0000_0001 + slot as u64;
        }
        assert!(is_refused(numbers), "{values} values");
    }
    // One number anywhere but in the first two words of page 0.
    for (page, at) in (0..24).map(|n| (n / 12, n % 12)) {
        let mut numbers = [[u64::MAX; 12]; 2];
        numbers[page][at] = 1 << 63;
        assert_eq!(is_refused(numbers), page > 0 || at > 3);
    }
}

#[test]
fn a_first_start_that_was_cut_is_made_again() {
    for bits in CUTS {
        for steps in 1..6 * 6 * 6 {
            let mut part = Part::new();
            // Three starts in turn, each cut in one of its first five steps or in none.
            for step in [steps % 6, steps / 6 % 6, steps / 36] {
                part = part.powered((step > 0).then_some((step, bits)));
                if let Err(error) = Store::open_or_format(&mut part) {
                    assert!(matches!(error, OpenError::Driver(it) if it.error == PowerCut(step)));
                }
            }
            let mut store = started(part.powered(None));
            assert_eq!(store.live_count(), Ok(0));
            assert_eq!(store.write(FIRST, 10), Ok(Written::Appended));
        }
    }
}

#[test]
fn an_erase_that_clears_first_is_cut() {
    for bits in CUTS {
        let mut store = started(Part::clearing());
        for value in 0..3 {
            assert!(store.write(FIRST, value).is_ok());
        }
        // The write that moved left a page that waits to be erased.
        let mut store = started(store.into_driver().powered(Some((1, bits))));
        assert!(store.clean_step().is_err());
        let mut part = store.into_driver().powered(None);
        // Where cells go one way no cut leaves such a page.
        part.kind = Kind::Pairs;
        assert_eq!(foreign(&part).is_some(), bits != u64::MAX);
        part.kind = Kind::PairsClearing;
        let mut store = started(part);
        assert_eq!(store.read(FIRST), Ok(Some(2)));
        assert_eq!(store.clean_step(), Ok(true));
        part = store.into_driver();
        part.kind = Kind::Pairs;
        assert_eq!(foreign(&part), None);
    }
}

#[test]
fn a_first_start_that_clears_first_is_cut() {
    for bits in CUTS {
        let mut part = Part::clearing().powered(Some((1, bits)));
        part.numbers[0][..4].fill(7);
        assert!(Store::open_or_format(&mut part).is_err());
        part.cut = None;
        part.numbers[0][4..].fill(7);
        assert!(Store::open_or_format(part.clone()).is_ok());
        // In another page they are no first start's.
        part.numbers[1][4..].fill(7);
        assert!(Store::open_or_format(part).is_err());
    }
}

#[test]
fn a_store_of_another_kind_is_no_first_start() {
    for (kind, writes) in [Kind::Words, Kind::Coded]
        .map(|kind| [1, 2].map(|it| (kind, it)))
        .concat()
    {
        let mut part = Part::new();
        part.kind = kind;
        let mut store = started(part);
        for value in 0..writes {
            assert_eq!(store.write(FIRST, value), Ok(Written::Appended));
        }
        let mut part = store.into_driver();
        part.kind = Kind::PairsClearing;
        let before = (part.numbers, part.steps);
        let refused = Store::open_or_format(&mut part).err();
        assert_eq!(refused, Some(OpenError::NoLiveSet));
        assert_eq!((part.numbers, part.steps), before);
        // With another word in the place of its mark it is what a cut erase may leave.
        part.numbers[0][1] ^= 1;
        assert!(Store::open_or_format(part).is_ok());
    }
}

#[test]
fn a_bit_that_fell_costs_its_own_value() {
    for at in 0..12 {
        let mut store = started(Part::new());
        assert!(store.write(FIRST, 10).is_ok());
        assert!(store.write(SECOND, 20).is_ok());
        let mut part = store.into_driver();
        // An erased number that loses a bit reads as one on its way to a value, and a 0 has no bit to lose.
        if matches!(part.numbers[0][at], 0 | u64::MAX) {
            continue;
        }
        part.numbers[0][at] &= part.numbers[0][at] - 1;
        let word = at / 2;
        assert_eq!(foreign(&part.clone().powered(None)), Some((0, word)));
        let (mut store, rescued) = Store::rescue(part).unwrap();
        assert_eq!(store.read(FIRST), Ok((word != 4).then_some(10)));
        assert_eq!(store.read(SECOND), Ok((word != 5).then_some(20)));
        let live = if word < 4 { 2 } else { 1 };
        assert_eq!(rescued, Rescued { bad_words: 1, live });
        // The pair stands there until its page is erased.
        assert_eq!(store.clean_step(), Ok(true));
        assert_eq!(store.clean_step(), Ok(false));
        assert!(Store::open(store.into_driver()).is_ok());
    }
}

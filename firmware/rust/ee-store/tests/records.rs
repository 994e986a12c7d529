//! Records on a part in memory, by words, by pairs and by coded words. Random calls are made whole and cut in each step in each way: a record
//! then reads as before or as it was written, and all else as before. And each word goes bad in turn: behind a rescue a record
//! is one that was written, none or told as hurt. `EE_CALLS` says how many calls are made, `EE_DAMAGES` how many words go bad.

mod ecc;

use ecc::{Cells, Ecc, ERASED};
use ee_store::{Address, Driver, Error, Put, Record, Shape, Store, Word};

/// Power was cut.
#[derive(Clone, Copy, Debug, PartialEq, Eq)]
struct Down;

/// A word that is torn, in a flash of words.
const TORN: u64 = 0x7070_7070_7070_7070;
const TEARS: usize = 6;

/// Numbers of a flash: words, or halves of pairs.
#[derive(Clone, Debug)]
struct Part {
    pages: Vec<Vec<u64>>,
    steps: u32,
    /// The step that is cut, and in which way.
    cut: Option<(u32, usize)>,
}

impl Part {
    fn of(pages: Vec<Vec<u64>>) -> Part {
        let (steps, cut) = (0, None);
        Part { pages, steps, cut }
    }

    fn step(&mut self) -> Option<usize> {
        self.steps += 1;
        let (step, tear) = self.cut?;
        (step == self.steps).then_some(tear)
    }
}

/// What a cut leaves of a word: what it was, what it was to be, or a torn one; of a page in turns.
fn left(old: u64, new: u64, tear: Option<usize>, at: usize) -> u64 {
    match tear {
        None => new,
        Some(way @ 0..=2) => [old, new, TORN][way],
        Some(way) => [old, new, TORN][(at + way) % 3],
    }
}

impl Driver for Part {
    type Error = Down;

    fn shape(&self) -> Shape {
        Shape::new(self.pages.len() / 2, self.pages[0].len()).unwrap()
    }

    fn kind(&self) -> ee_store::Kind {
        ee_store::Kind::Words
    }

    fn word(&self, page: usize, at: usize) -> Result<Word, Down> {
        Ok(match self.pages[page][at] {
            u64::MAX => Word::Erased,
            TORN => Word::Torn,
            number => Word::Held(number),
        })
    }

    fn program(&mut self, page: usize, at: usize, value: u64) -> Result<(), Down> {
        assert_eq!(self.pages[page][at], u64::MAX);
        let tear = self.step();
        self.pages[page][at] = left(u64::MAX, value, tear, at);
        tear.map_or(Ok(()), |_| Err(Down))
    }

    fn erase(&mut self, page: usize) -> Result<(), Down> {
        let tear = self.step();
        for (at, word) in self.pages[page].iter_mut().enumerate() {
            *word = left(*word, u64::MAX, tear, at);
        }
        tear.map_or(Ok(()), |_| Err(Down))
    }
}

/// The same numbers, two for each word. A cut leaves some bits of a number as they were.
#[derive(Clone, Debug)]
struct Numbers(Part);

const BITS: [u64; TEARS] = [0, u64::MAX, 1, 1 << 63, 0x5555_5555_5555_5555, 0xffff_0000];

impl Driver for Numbers {
    type Error = Down;

    fn shape(&self) -> Shape {
        Shape::new(self.0.pages.len() / 2, self.0.pages[0].len() / 2).unwrap()
    }

    fn kind(&self) -> ee_store::Kind {
        ee_store::Kind::Pairs
    }

    fn word(&self, page: usize, at: usize) -> Result<Word, Down> {
        Ok(Word::from(self.0.pages[page][at]))
    }

    fn program(&mut self, page: usize, at: usize, number: u64) -> Result<(), Down> {
        assert_eq!(self.0.pages[page][at], u64::MAX);
        let tear = self.0.step();
        self.0.pages[page][at] = number | tear.map_or(0, |way| BITS[way]);
        tear.map_or(Ok(()), |_| Err(Down))
    }

    fn erase(&mut self, page: usize) -> Result<(), Down> {
        let tear = self.0.step();
        for number in &mut self.0.pages[page] {
            *number |= tear.map_or(u64::MAX, |way| BITS[way]);
        }
        tear.map_or(Ok(()), |_| Err(Down))
    }
}

/// Coded words, the cells of each as two numbers: its own, and its check below ones. A cut reaches some of the cells.
#[derive(Clone, Debug)]
struct Coded(Part, Ecc);

impl Coded {
    fn cells(&self, page: usize, at: usize) -> Cells {
        let numbers = &self.0.pages[page][2 * at..];
        Cells {
            number: numbers[0],
            check: numbers[1] as u8,
        }
    }

    fn put(&mut self, page: usize, at: usize, cells: Cells) {
        let check = u64::MAX << 8 | u64::from(cells.check);
        self.0.pages[page][2 * at..2 * at + 2].copy_from_slice(&[cells.number, check]);
    }

    /// The cells that a step reaches.
    fn reached(&mut self) -> (Option<usize>, Cells) {
        let tear = self.0.step();
        let reached = tear.map_or(ERASED, |way| Cells {
            number: BITS[way],
            check: BITS[(way + self.0.steps as usize) % TEARS] as u8,
        });
        (tear, reached)
    }
}

impl Driver for Coded {
    type Error = Down;

    fn shape(&self) -> Shape {
        Shape::new(self.0.pages.len() / 2, self.0.pages[0].len() / 2).unwrap()
    }

    fn kind(&self) -> ee_store::Kind {
        ee_store::Kind::Coded
    }

    fn word(&self, page: usize, at: usize) -> Result<Word, Down> {
        Ok(self.1.word(self.cells(page, at)))
    }

    fn program(&mut self, page: usize, at: usize, number: u64) -> Result<(), Down> {
        assert_eq!(self.cells(page, at), ERASED);
        let (tear, reached) = self.reached();
        let asked = self.1.cells(number);
        self.put(page, at, ERASED.programmed(asked, reached));
        tear.map_or(Ok(()), |_| Err(Down))
    }

    fn erase(&mut self, page: usize) -> Result<(), Down> {
        let (tear, reached) = self.reached();
        for at in 0..self.shape().words() {
            self.put(page, at, self.cells(page, at).erased(reached));
        }
        tear.map_or(Ok(()), |_| Err(Down))
    }
}

/// A kind of flash over such a part.
trait Kind: Driver<Error = Down> + Sized {
    const NUMBERS: usize;
    fn over(part: Part) -> Self;
    fn part(self) -> Part;
}

impl Kind for Part {
    const NUMBERS: usize = 1;

    fn over(part: Part) -> Part {
        part
    }

    fn part(self) -> Part {
        self
    }
}

impl Kind for Numbers {
    const NUMBERS: usize = 2;

    fn over(part: Part) -> Self {
        Numbers(part)
    }

    fn part(self) -> Part {
        self.0
    }
}

impl Kind for Coded {
    const NUMBERS: usize = 2;

    fn over(part: Part) -> Self {
        Coded(part, Ecc::new(1))
    }

    fn part(self) -> Part {
        self.0
    }
}

fn opened<K: Kind>(part: Part) -> Store<K> {
    Store::open(K::over(part)).unwrap()
}

fn new_store<K: Kind>(pages: usize, words: usize) -> Store<K> {
    let part = Part::of(vec![vec![u64::MAX; K::NUMBERS * words]; 2 * pages]);
    Store::open_or_format(K::over(part)).unwrap()
}

fn address(number: u16) -> Address {
    Address::new(number).unwrap()
}

/// Three records, and values beside them.
fn records() -> [Record; 3] {
    let record = |base, words| Record::new(address(base), words).unwrap();
    [record(1, 6), record(20, 25), record(1000, 2)]
}

const SINGLES: [u16; 3] = [19, 90, 2000];

#[derive(Clone, Debug)]
enum Call {
    Write(usize, Vec<u8>),
    /// Two records and a value, by one list.
    Both(Vec<u8>, Vec<u8>, u32),
    Forget(usize),
    Trim(usize),
    Single(usize, u32),
    ForgetSingle(usize),
    Clean,
    ForgetAll,
}

/// What a reader sees: each record, and each value.
#[derive(Clone, Debug, PartialEq, Eq)]
struct Seen {
    records: Vec<Option<Vec<u8>>>,
    singles: Vec<Option<u32>>,
}

fn read<K: Kind>(store: &Store<K>, record: Record) -> Result<Option<Vec<u8>>, Error<Down>> {
    let mut space = [0xee; 100];
    let length = store.read_record(record, &mut space)?;
    Ok(length.map(|length| space[..length].to_vec()))
}

fn seen<K: Kind>(store: &Store<K>) -> Seen {
    let single = |at: &u16| store.read(address(*at)).unwrap();
    Seen {
        records: records()
            .iter()
            .map(|record| read(store, *record).unwrap())
            .collect(),
        singles: SINGLES.iter().map(single).collect(),
    }
}

fn after(call: &Call, before: &Seen) -> Seen {
    let mut seen = before.clone();
    match call {
        Call::Write(which, bytes) => seen.records[*which] = Some(bytes.clone()),
        Call::Both(first, second, value) => {
            seen.records[0] = Some(first.clone());
            seen.records[1] = Some(second.clone());
            seen.singles[0] = Some(*value);
        }
        Call::Forget(which) => seen.records[*which] = None,
        Call::Trim(_) | Call::Clean => {}
        Call::Single(which, value) => seen.singles[*which] = Some(*value),
        Call::ForgetSingle(which) => seen.singles[*which] = None,
        Call::ForgetAll => {
            seen.records.fill(None);
            seen.singles.fill(None);
        }
    }
    seen
}

/// Whether a call was made, where power stayed: else it was refused under a cause that it may have.
fn answered<T>(answer: Result<T, Error<Down>>, refusals: &[Error<Down>]) -> Result<bool, Down> {
    match answer {
        Ok(_) => Ok(true),
        Err(Error::Driver(_)) => Err(Down),
        Err(error) => {
            assert!(refusals.contains(&error), "{error:?}");
            Ok(false)
        }
    }
}

fn make<K: Kind>(store: &mut Store<K>, call: &Call) -> Result<bool, Down> {
    let (full, absent) = ([Error::Full], [Error::Absent]);
    match call {
        Call::Write(which, bytes) => answered(store.write_record(records()[*which], bytes), &full),
        Call::Both(first, second, value) => {
            let mut puts = vec![Put {
                address: address(SINGLES[0]),
                value: *value,
            }];
            for (record, bytes) in records().into_iter().zip([first, second]) {
                match store.prepare_record(record, bytes) {
                    Ok(put) => puts.extend(put),
                    Err(error) => return answered(Err::<(), _>(error), &full),
                }
            }
            answered(store.write_all(&puts), &full)
        }
        Call::Forget(which) => answered(store.forget_record(records()[*which]), &absent),
        Call::Trim(which) => answered(store.trim_record(records()[*which]), &[]),
        Call::Single(which, value) => {
            answered(store.write(address(SINGLES[*which]), *value), &full)
        }
        Call::ForgetSingle(which) => answered(store.forget(address(SINGLES[*which])), &absent),
        Call::Clean => Ok(store.clean_step().map_err(|_| Down).map(|_| true)?),
        Call::ForgetAll => Ok(store.forget_all().map_err(|_| Down).map(|_| true)?),
    }
}

/// How many words of four bytes differ, filled up with zeros.
fn changed_words(old: &[u8], new: &[u8]) -> usize {
    let byte = |bytes: &[u8], at| bytes.get(at).copied().unwrap_or(0);
    let differs = |word: &usize| (4 * word..4 * word + 4).any(|at| byte(old, at) != byte(new, at));
    (0..new.len().div_ceil(4)).filter(differs).count()
}

/// No more slots than a word each, the check and the head.
fn takes_few_slots<K: Kind>(old: &Store<K>, new: &Store<K>, call: &Call, before: &Seen) {
    let Call::Write(which, bytes) = call else {
        return;
    };
    if old.generation() != new.generation() || bytes.len() > 60 {
        return;
    }
    let words = match &before.records[*which] {
        Some(old) => changed_words(old, bytes),
        None => bytes.len().div_ceil(4),
    };
    // A longer record may have a word of zeros that isn't there yet.
    let longer = before.records[*which]
        .as_ref()
        .is_some_and(|old| old.len() < bytes.len());
    let words = if longer {
        bytes.len().div_ceil(4)
    } else {
        words
    };
    let slots = new.fill().unwrap() - old.fill().unwrap();
    assert!(
        slots <= words + 2,
        "{slots} slots: {call:?} from {before:?}"
    );
}

/// A record that is trimmed has its head and a value for each of its words, and no other.
fn is_trimmed<K: Kind>(store: &Store<K>, record: Record) {
    let base = record.base().get();
    let head = store.read(record.base()).unwrap();
    let has = |number: &u16| store.read(address(*number)).unwrap().is_some();
    let values = (base + 1..=base + 2 + record.capacity() as u16 / 2)
        .filter(has)
        .count();
    assert_eq!(
        values,
        head.map_or(0, |head| (head as usize % 65536).div_ceil(4) + 1)
    );
}

struct Dice(u64);

impl Dice {
    fn below(&mut self, end: usize) -> usize {
        self.0 ^= self.0 << 13;
        self.0 ^= self.0 >> 7;
        self.0 ^= self.0 << 17;
        (self.0 >> 32) as usize % end
    }

    fn bytes(&mut self, most: usize) -> Vec<u8> {
        let length = self.below(most + 1);
        (0..length).map(|_| self.below(256) as u8).collect()
    }

    fn call(&mut self, before: &Seen) -> Call {
        let which = self.below(3);
        match self.below(24) {
            0 => Call::Forget(which),
            1 | 2 => Call::Trim(which),
            3 => Call::Clean,
            4 if self.below(8) == 0 => Call::ForgetAll,
            5..=7 => Call::Single(which, self.below(3) as u32),
            8 => Call::ForgetSingle(which),
            9 => Call::Both(self.bytes(24), self.bytes(100), self.below(9) as u32),
            10..=13 => Call::Write(which, self.bytes(records()[which].capacity())),
            _ => {
                let mut bytes = before.records[which].clone().unwrap_or_default();
                for _ in 0..self.below(4).min(bytes.len()) {
                    let at = self.below(bytes.len());
                    bytes[at] = self.below(256) as u8;
                }
                Call::Write(which, bytes)
            }
        }
    }
}

#[derive(Default, Debug)]
struct Counts {
    calls: u64,
    refused: u64,
    cuts: u64,
}

/// Opens what a cut left, with a cut in the opening too: what is seen, and the image.
fn behind<K: Kind>(part: Part, dice: &mut Dice, counts: &mut Counts) -> (Seen, Vec<Vec<u64>>) {
    let mut pages = part.pages;
    if dice.below(4) == 0 {
        let mut part = Part::of(pages);
        part.cut = Some((1 + dice.below(3) as u32, dice.below(TEARS)));
        let mut driver = K::over(part);
        counts.cuts += u64::from(Store::open(&mut driver).is_err());
        pages = driver.part().pages;
    }
    let store = opened::<K>(Part::of(pages));
    let seen = seen(&store);
    (seen, store.into_driver().part().pages)
}

/// Makes the call whole, and cut in each step in each way; gives an image behind one of them.
fn try_call<K: Kind>(
    pages: Vec<Vec<u64>>,
    call: &Call,
    dice: &mut Dice,
    counts: &mut Counts,
) -> Vec<Vec<u64>> {
    let old = opened::<K>(Part::of(pages.clone()));
    let before = seen(&old);
    let mut store = opened::<K>(Part::of(pages.clone()));
    let done = make(&mut store, call).unwrap();
    counts.calls += 1;
    counts.refused += u64::from(!done);
    let after = if done {
        after(call, &before)
    } else {
        before.clone()
    };
    assert_eq!(seen(&store), after, "{call:?} from {before:?}");
    takes_few_slots(&old, &store, call, &before);
    if let (Call::Trim(which), true) = (call, done) {
        is_trimmed(&store, records()[*which]);
    }
    let part = store.into_driver().part();
    let mut next = part.pages;
    for step in 1..=part.steps {
        for tear in 0..TEARS {
            let mut store = opened::<K>({
                let mut part = Part::of(pages.clone());
                part.cut = Some((step, tear));
                part
            });
            assert_eq!(
                make(&mut store, call),
                Err(Down),
                "{call:?} isn't cut in step {step}"
            );
            let off = Err(Error::NotOpen);
            assert_eq!(read(&store, records()[0]), off);
            counts.cuts += 1;
            let (seen, image) = behind::<K>(store.into_driver().part(), dice, counts);
            assert!(
                seen == before || seen == after,
                "{call:?} cut in step {step}, {tear}: {seen:?} from {before:?}"
            );
            if dice.below(100) == 0 {
                next = image;
            }
        }
    }
    next
}

fn number(name: &str, otherwise: usize) -> usize {
    std::env::var(name).map_or(otherwise, |text| text.parse().unwrap())
}

fn random_calls<K: Kind>(seed: u64) {
    let mut dice = Dice(0x1234_5678_9abc_def1 ^ seed);
    let mut counts = Counts::default();
    // So few slots that some calls find none, or move more than once.
    for (pages, words) in [(1, 140), (2, 60), (5, 30), (1, 64)] {
        let mut image = new_store::<K>(pages, words).into_driver().part().pages;
        for _ in 0..number("EE_CALLS", 40) {
            let before = seen(&opened::<K>(Part::of(image.clone())));
            let call = dice.call(&before);
            image = try_call::<K>(image, &call, &mut dice, &mut counts);
        }
    }
    println!("{counts:?}");
    assert!(counts.cuts > 10 * counts.calls);
}

#[test]
fn random_calls_of_words() {
    random_calls::<Part>(number("EE_SEED", 1) as u64);
}

#[test]
fn random_calls_of_pairs() {
    random_calls::<Numbers>(number("EE_SEED", 2) as u64);
}

#[test]
fn random_calls_of_coded_words() {
    random_calls::<Coded>(number("EE_SEED", 3) as u64);
}

/// What becomes of a record when one word goes bad.
#[derive(Default, Debug)]
struct Damages {
    words: usize,
    same: u64,
    older: u64,
    none: u64,
    hurt: u64,
}

/// A store with a history, and all that each record was.
fn written(dice: &mut Dice) -> (Vec<Vec<u64>>, Vec<Vec<Vec<u8>>>) {
    let mut store = new_store::<Part>(1 + dice.below(2), 150);
    let mut were = vec![Vec::new(); 3];
    for _ in 0..20 + dice.below(40) {
        let call = dice.call(&seen(&store));
        if let (Call::Write(which, bytes), Ok(true)) = (&call, make(&mut store, &call)) {
            were[*which].push(bytes.clone());
        }
        if let Call::Both(first, second, _) = call {
            were[0].push(first);
            were[1].push(second);
        }
    }
    (store.into_driver().part().pages, were)
}

#[test]
fn one_bad_word_is_told() {
    let mut dice = Dice(0x0fed_cba9_8765_4321);
    let mut damages = Damages::default();
    while damages.words < number("EE_DAMAGES", 2000) {
        let (image, were) = written(&mut dice);
        let before = seen(&opened::<Part>(Part::of(image.clone())));
        for page in 0..image.len() {
            for at in 4..image[page].len() {
                if image[page][at] == u64::MAX {
                    continue;
                }
                let mut bad = image.clone();
                bad[page][at] = [TORN, 0x1234_5678_0000_ffff][dice.below(2)];
                let (store, _) = Store::rescue(Part::of(bad)).unwrap();
                damages.words += 1;
                let mut others = 0;
                for (which, record) in records().into_iter().enumerate() {
                    match read(&store, record) {
                        Ok(now) if now == before.records[which] => {
                            damages.same += 1;
                            continue;
                        }
                        Ok(None) => damages.none += 1,
                        Ok(Some(bytes)) => {
                            assert!(were[which].contains(&bytes), "a mix: {bytes:?}");
                            damages.older += 1;
                        }
                        Err(fault) => {
                            assert_eq!(fault, Error::Hurt);
                            damages.hurt += 1;
                        }
                    }
                    others += 1;
                }
                let single = |at: &u16| store.read(address(*at)).unwrap();
                let singles = SINGLES.iter().map(single);
                others += singles
                    .zip(&before.singles)
                    .filter(|(now, was)| now != *was)
                    .count();
                assert!(others <= 1, "one word cost {others} values");
            }
        }
    }
    println!("{damages:?}");
    assert!(damages.hurt > 0 && damages.older > 0 && damages.none > 0);
}

/// The calls of `firmware/c/tests/records.c`, which gets the same sum of what the store has behind each.
#[test]
fn the_c_library_does_the_same() {
    let mut dice = Dice(0x1234_5678_9abc_def1);
    let mut store = new_store::<Part>(2, 60);
    let mut sum = 0;
    let add = |sum: u64, number: u64| (sum ^ number).wrapping_mul(0x9e37_79b9_7f4a_7c15);
    for _ in 0..3000 {
        let before = seen(&store);
        let which = dice.below(3);
        let kind = dice.below(24);
        let clears = kind == 8 && dice.below(8) == 0;
        let value = dice.below(3) as u32;
        let bytes = if kind < 14 {
            dice.bytes(records()[which].capacity())
        } else {
            let mut bytes = before.records[which].clone().unwrap_or_default();
            for _ in 0..dice.below(4) {
                if !bytes.is_empty() {
                    let at = dice.below(bytes.len());
                    bytes[at] = dice.below(256) as u8;
                }
            }
            bytes
        };
        let call = match kind {
            0 => Call::Forget(which),
            1 | 2 => Call::Trim(which),
            3..=5 => Call::Single(which, value),
            6 => Call::ForgetSingle(which),
            7 => Call::Clean,
            _ if clears => Call::ForgetAll,
            _ => Call::Write(which, bytes),
        };
        let is_done = match call {
            Call::Clean => store.clean_step().unwrap(),
            _ => make(&mut store, &call).unwrap(),
        };
        sum = add(sum, u64::from(is_done) ^ store.fill().unwrap() as u64);
        for value in &store {
            let (address, value) = value.unwrap();
            sum = add(sum, u64::from(address.get()) ^ (u64::from(value) << 16));
        }
    }
    assert_eq!(sum, 0xe103_bd45_bc48_8622);
}

#[test]
fn slots_and_refusals() {
    let record = Record::new(address(1), 2).unwrap();
    let mut store = new_store::<Part>(1, 64);
    let long = Err(Error::TooLong);
    assert_eq!(store.write_record(record, b"123456789"), long);
    assert_eq!(store.forget_record(record), Err(Error::Absent));
    // The record, whether it is written, and the slots then.
    let rows: [(&[u8], bool, usize, &str); 5] = [
        (b"12345", true, 4, "two words, the check and the head"),
        (b"12345", false, 4, "nothing"),
        (b"12346", true, 7, "a word, the check and the head"),
        (b"1234", true, 9, "the check and the head"),
        (b"", true, 11, "the check and the head"),
    ];
    for (bytes, is_written, fill, why) in rows {
        assert_eq!(store.write_record(record, bytes), Ok(is_written));
        assert_eq!(store.fill(), Ok(fill), "{why}");
        assert_eq!(read(&store, record), Ok(Some(bytes.to_vec())));
    }
    assert_eq!(store.write_record(record, b"12346"), Ok(true));
    let short = store.read_record(record, &mut [0; 4]);
    assert_eq!(short, Err(Error::TooShort(5)));
    // Later firmware gives it more room. With less it isn't all there.
    let larger = Record::new(address(1), 25).unwrap();
    assert_eq!(read(&store, larger), Ok(Some(b"12346".to_vec())));
    let smaller = Record::new(address(1), 1).unwrap();
    assert_eq!(read(&store, smaller), Err(Error::Hurt));
    // A write mends what another hand wrote.
    store.write(address(2), 7).unwrap();
    store.write(address(3), 7).unwrap();
    assert_eq!(read(&store, record), Err(Error::Hurt));
    assert_eq!(store.write_record(record, b"12346"), Ok(true));
    assert_eq!(read(&store, record), Ok(Some(b"12346".to_vec())));
}

#[test]
fn records_end_at_the_greatest_address() {
    for (base, words, is) in [
        (65532, 0, true),
        (65533, 0, false),
        (65500, 16, true),
        (65500, 17, false),
    ] {
        assert_eq!(Record::new(address(base), words).is_some(), is);
    }
    assert!(Record::new(address(1), 16383).is_some());
    assert!(Record::new(address(1), 16384).is_none());
}

/// The check of a record, as `zlib.crc32` of Python gives it of the length in four bytes, and the bytes filled up with zeros.
#[test]
fn the_check_is_crc_32() {
    let rows: [(&[u8], u32); 4] = [
        (b"", 0x2144_df1c),
        (b"1", 0xe11f_4033),
        (b"123456789", 0x3dc0_dbd0),
        (&[0xff; 24], 0xe99c_9233),
    ];
    let record = Record::new(address(1), 6).unwrap();
    for (bytes, check) in rows {
        let mut store = new_store::<Part>(1, 64);
        assert_eq!(store.write_record(record, bytes), Ok(true));
        assert_eq!(store.read(address(1)), Ok(Some(bytes.len() as u32)));
        assert_eq!(store.read(address(2)), Ok(Some(check)));
    }
}

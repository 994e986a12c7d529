//! The part that stands between the proved store and a driver: each state that it may be in, with each answer of a driver to each
//! thing that it is asked for. The driver says what it was asked, and answers one of these as the test chooses.

use ee_store::{
    Address, Driver, DriverError, Error, Kind, OpenError, Put, Shape, Step, Store, Wanted, Word,
};
use std::cell::{Cell, RefCell};

/// What the driver answers at the call that the test chose, where it isn't what stands in the flash.
#[derive(Clone, Copy, Debug, PartialEq, Eq)]
enum Answer {
    /// An error, and nothing is done.
    Fails,
    /// An error behind a step that was made, or of a word that was read.
    FailsBehind,
    /// Of a read: torn, all ones, or a number that no store wrote; of a step: nothing is done, and it says that it was.
    Torn,
    Erased,
    Foreign,
}

const ANSWERS: [Answer; 5] = [
    Answer::Fails,
    Answer::FailsBehind,
    Answer::Torn,
    Answer::Erased,
    Answer::Foreign,
];

#[derive(Clone, Copy, Debug, PartialEq, Eq)]
struct Down;

/// Two pages of seven words, or of as many pairs.
#[derive(Clone, Debug)]
struct Part {
    kind: Kind,
    numbers: Vec<Vec<u64>>,
    /// Whether words stand in memory.
    has_window: bool,
    /// The call that is answered so, counted from 0.
    chosen: Option<(usize, Answer)>,
    asked: RefCell<Vec<(Step, usize, usize)>>,
    failed: Cell<bool>,
}

const WORDS: usize = 7;

/// How many numbers a word has.
fn numbers(kind: Kind) -> usize {
    match kind {
        Kind::Words | Kind::Coded => 1,
        Kind::Pairs | Kind::PairsClearing => 2,
    }
}

impl Part {
    fn new(kind: Kind, has_window: bool) -> Part {
        let places = WORDS * numbers(kind);
        Part {
            kind,
            numbers: vec![vec![u64::MAX; places]; 2],
            has_window,
            chosen: None,
            asked: RefCell::new(Vec::new()),
            failed: Cell::new(false),
        }
    }

    /// The same, which answers so at its call of this number, counted from here on.
    fn answering(&self, call: usize, answer: Answer) -> Part {
        let chosen = Some((call, answer));
        Part {
            chosen,
            asked: RefCell::new(Vec::new()),
            failed: Cell::new(false),
            ..self.clone()
        }
    }

    /// It is asked for this: what it answers otherwise, if anything.
    fn asked(&self, step: Step, page: usize, at: usize, count: usize) -> Option<Answer> {
        assert!(!self.failed.get(), "nothing is asked for behind a failure");
        assert!(
            page < 2 && at + count <= self.numbers[page].len(),
            "nothing outside is"
        );
        self.asked.borrow_mut().push((step, page, at));
        let call = self.asked.borrow().len() - 1;
        let (chosen, answer) = self.chosen?;
        let fails = matches!(answer, Answer::Fails | Answer::FailsBehind);
        self.failed.set(chosen == call && fails);
        (chosen == call).then_some(answer)
    }
}

impl Driver for Part {
    type Error = Down;

    fn shape(&self) -> Shape {
        Shape::new(1, WORDS).unwrap()
    }

    fn kind(&self) -> Kind {
        self.kind
    }

    fn word(&self, page: usize, at: usize) -> Result<Word, Down> {
        match self.asked(Step::Read, page, at, 1) {
            None => Ok(Word::from(self.numbers[page][at])),
            Some(Answer::Fails | Answer::FailsBehind) => Err(Down),
            Some(Answer::Torn) if numbers(self.kind) == 1 => Ok(Word::Torn),
            Some(Answer::Torn) => Ok(Word::Held(u64::MAX - 1)),
            Some(Answer::Erased) => Ok(Word::Held(u64::MAX)),
            Some(Answer::Foreign) => Ok(Word::Held(7)),
        }
    }

    fn window(&self, page: usize, at: usize, count: usize) -> Option<&[u64]> {
        if !self.has_window {
            return None;
        }
        match self.asked(Step::Read, page, at, count) {
            None => Some(&self.numbers[page][at..at + count]),
            // A window that is too short counts for none; and so does none. Then no failure was told.
            Some(Answer::Foreign) => Some(&self.numbers[page][at..at + count - 1]),
            Some(_) => {
                self.failed.set(false);
                None
            }
        }
    }

    fn program(&mut self, page: usize, at: usize, value: u64) -> Result<(), Down> {
        let answer = self.asked(Step::Program, page, at, 1);
        if !matches!(answer, Some(Answer::Fails | Answer::Torn)) {
            self.numbers[page][at] &= value;
        }
        match answer {
            Some(Answer::Fails | Answer::FailsBehind) => Err(Down),
            _ => Ok(()),
        }
    }

    fn erase(&mut self, page: usize) -> Result<(), Down> {
        let answer = self.asked(Step::Erase, page, 0, 1);
        if !matches!(answer, Some(Answer::Fails | Answer::Torn)) {
            self.numbers[page].fill(u64::MAX);
        }
        match answer {
            Some(Answer::Fails | Answer::FailsBehind) => Err(Down),
            _ => Ok(()),
        }
    }
}

/// What a call answers: the driver's error, or nothing.
type Call = fn(&mut Store<Part>) -> Result<(), Error<Down>>;

const FIRST: Address = Address::at(1);
const CALLS: [Call; 14] = [
    |store| store.read(FIRST).map(drop),
    |store| {
        let wanted = Wanted {
            address: FIRST,
            value: None,
        };
        store.load(&mut [wanted])
    },
    |store| store.next_live(None).map(drop),
    |store| store.iter().collect::<Result<Vec<_>, _>>().map(drop),
    |store| store.live_count().map(drop),
    |store| store.pending().map(drop),
    |store| store.torn_slots().map(drop),
    |store| store.write(FIRST, 7).map(drop),
    |store| store.update(FIRST, |old| old.unwrap_or(0) + 1).map(drop),
    |store| store.forget(FIRST).map(drop),
    |store| {
        let put = |number| Put {
            address: Address::at(number),
            value: 9,
        };
        store.write_all(&[put(1), put(2)]).map(drop)
    },
    |store| store.forget_all().map(drop),
    |store| store.clean_step().map(drop),
    |store| Ok(store.reopen()?),
];
type Opening = fn(&mut Part) -> Result<(), OpenError<Down>>;

const OPENINGS: [Opening; 4] = [
    |part| Store::open(part).map(drop),
    |part| Store::open_or_format(part).map(drop),
    |part| Store::format(part).map(drop),
    |part| Store::rescue(part).map(drop),
];

/// Parts in each state of a store: blank, with a first start that was cut, with no value, with a slot free, with none free, with a
/// page that waits to be erased, and with something else.
fn parts(kind: Kind, has_window: bool) -> Vec<Part> {
    let blank = Part::new(kind, has_window);
    let mut foreign = blank.clone();
    foreign.numbers[0].fill(0x2a2a);
    let mut cut = blank.clone();
    cut.numbers[0][0] = 0xaaaa_aaaa_0000_0001;
    let mut store = Store::format(blank.clone()).unwrap();
    let mut all = vec![blank, cut, foreign];
    for value in 0..5 {
        let mut left = store.into_driver();
        left.asked.borrow_mut().clear();
        all.push(left.clone());
        left.chosen = None;
        store = Store::open(left).unwrap();
        store
            .write(Address::at(1 + value % 2), u32::from(value))
            .unwrap();
    }
    all
}

/// The driver's error names what it was asked for last, in words.
fn names_the_last(part: &Part, error: &DriverError<Down>) {
    let (step, page, at) = *part.asked.borrow().last().unwrap();
    let at = at / numbers(part.kind);
    assert_eq!((error.step, error.page, error.error), (step, page, Down));
    // Of a run that the driver reads word by word the first is named.
    assert!(error.at == at || step == Step::Read && error.at < at);
}

fn each(mut act: impl FnMut(&Part)) {
    for kind in [Kind::Words, Kind::Pairs, Kind::PairsClearing, Kind::Coded] {
        for has_window in [false, true] {
            parts(kind, has_window).iter().for_each(&mut act);
        }
    }
}

/// Behind a failure nothing is asked for, the error says what failed and where, and the driver is as that left it. Behind each
/// other answer the opening ends, whatever that makes it say.
#[test]
fn openings() {
    let mut answers = 0;
    each(|part| {
        for opening in OPENINGS {
            for call in 0.. {
                let mut reached = false;
                for answer in ANSWERS {
                    let mut left = part.answering(call, answer);
                    let opened = opening(&mut left);
                    reached |= left.asked.borrow().len() > call;
                    match (left.failed.get(), opened) {
                        (true, Err(OpenError::Driver(error))) => names_the_last(&left, &error),
                        (failed, opened) => {
                            assert!(!failed && !matches!(opened, Err(OpenError::Driver(_))));
                        }
                    }
                    answers += 1;
                }
                if !reached {
                    break;
                }
            }
        }
    });
    assert!(answers > 10_000, "{answers}");
}

/// So it is with calls; and the store is off exactly behind `Driver`, `Unsteady` and an opening that was refused. Then each call
/// answers `NotOpen`, until the store is opened again.
#[test]
fn calls() {
    let mut answers = 0;
    each(|part| {
        let quiet = part.clone();
        quiet.asked.borrow_mut().clear();
        let Ok(store) = Store::open(quiet) else {
            return;
        };
        let (opening, part) = (store.driver().asked.borrow().len(), part.clone());
        for made in CALLS {
            for call in 0.. {
                let mut reached = false;
                for answer in ANSWERS {
                    let mut store = Store::open(part.answering(opening + call, answer)).unwrap();
                    let answered = made(&mut store);
                    reached |= store.driver().asked.borrow().len() > opening + call;
                    let failed = store.driver().failed.get();
                    let error = match answered {
                        Err(Error::Driver(error) | Error::Open(OpenError::Driver(error))) => {
                            Some(error)
                        }
                        _ => None,
                    };
                    assert_eq!(failed, error.is_some(), "{answered:?}");
                    if let Some(error) = error {
                        names_the_last(store.driver(), &error);
                    }
                    let is_off =
                        failed || matches!(answered, Err(Error::Unsteady | Error::Open(_)));
                    assert_eq!(store.is_on(), !is_off, "{answered:?}");
                    if is_off {
                        let asked = store.driver().asked.borrow().len();
                        for other in &CALLS[..12] {
                            assert_eq!(other(&mut store), Err(Error::NotOpen));
                        }
                        assert_eq!(store.driver().asked.borrow().len(), asked);
                        store.driver().failed.set(false);
                        store.driver_mut().chosen = None;
                        assert_eq!(store.reopen().is_ok(), store.is_on());
                    }
                    answers += 1;
                }
                if !reached {
                    break;
                }
            }
        }
    });
    assert!(answers > 10_000, "{answers}");
}

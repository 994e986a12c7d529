//! A part in memory whose power is cut as one likes, for the tests of `ee-store`.
#![forbid(unsafe_code)]

#[path = "../../ee-store/tests/ecc/mod.rs"]
pub mod ecc;
pub mod image;

use ecc::{Cells, Ecc, ERASED};
use ee_store::Driver;
pub use ee_store::{Kind, Shape, Word};
use std::cell::RefCell;
use std::fmt;
use std::rc::Rc;

/// Power was cut in a step.
#[derive(Clone, Copy, Debug, PartialEq, Eq)]
pub struct PowerCut;

impl fmt::Display for PowerCut {
    fn fmt(&self, f: &mut fmt::Formatter<'_>) -> fmt::Result {
        f.write_str("power was cut")
    }
}

/// What a step that is cut leaves of its word, or of the words of its page.
#[derive(Clone, Copy, Debug, PartialEq, Eq)]
pub enum Tear {
    /// All as it was before the step.
    Nothing,
    /// All as after the whole step.
    Done,
    /// All torn.
    Torn,
    /// A programmed word torn. Of an erased page the words 0, 3, 6 .. as before, 1, 4, 7 .. erased and 2, 5, 8 .. torn.
    Mixed,
}

/// The tears, in the order of their letters in a script.
pub const TEARS: [(char, Tear); 4] = [
    ('n', Tear::Nothing),
    ('d', Tear::Done),
    ('t', Tear::Torn),
    ('m', Tear::Mixed),
];

/// A part in memory.
#[derive(Clone, Debug, PartialEq, Eq)]
pub struct Part {
    /// Its size.
    pub shape: Shape,
    /// The words of each page, where it has words.
    pub pages: Vec<Vec<Word>>,
    /// The numbers of each page, where it has numbers: two for each word.
    pub numbers: Vec<Vec<u64>>,
    /// The cells of each page, where it has coded words, and their ECC.
    pub cells: Vec<Vec<Cells>>,
    pub ecc: Ecc,
    /// Whether an erase of numbers clears the cells of its page before it sets them.
    pub clears_first: bool,
    /// How often each page was erased.
    pub wear: Vec<u64>,
    /// How many further steps pass before one is cut, and what that one leaves.
    pub fuse: Option<(u64, Tear)>,
    /// How many steps were begun.
    pub steps: u64,
    /// What a cut leaves of a number is drawn from here.
    pub dice: u64,
}

impl Part {
    /// A part of which every word is erased.
    pub fn blank(shape: Shape) -> Part {
        Part {
            shape,
            pages: vec![vec![Word::Erased; shape.words()]; 2 * shape.pages()],
            numbers: Vec::new(),
            cells: Vec::new(),
            ecc: Ecc::new(0),
            clears_first: false,
            wear: vec![0; 2 * shape.pages()],
            fuse: None,
            steps: 0,
            dice: 88_172_645_463_325_252,
        }
    }

    /// A part of which every number is erased.
    pub fn blank_numbers(shape: Shape) -> Part {
        Part {
            pages: Vec::new(),
            numbers: vec![vec![u64::MAX; 2 * shape.words()]; 2 * shape.pages()],
            ..Part::blank(shape)
        }
    }

    /// A part with an ECC, of which every word is erased.
    pub fn blank_cells(shape: Shape) -> Part {
        Part {
            pages: Vec::new(),
            cells: vec![vec![ERASED; shape.words()]; 2 * shape.pages()],
            ..Part::blank(shape)
        }
    }

    /// The same part with pairs of numbers for its words. A torn one is a first number of all ones beside zeros.
    pub fn doubled(&self) -> Part {
        let pair = |word: &Word| match *word {
            Word::Erased => [u64::MAX, u64::MAX],
            Word::Held(number) => [number, !number],
            Word::Torn => [u64::MAX, 0],
        };
        let numbers = self
            .pages
            .iter()
            .map(|words| words.iter().flat_map(pair).collect());
        Part {
            pages: Vec::new(),
            numbers: numbers.collect(),
            ..self.clone()
        }
    }

    /// What its words are made of.
    pub fn kind(&self) -> Kind {
        match (self.pages.is_empty(), self.cells.is_empty()) {
            (false, _) => Kind::Words,
            (true, false) => Kind::Coded,
            (true, true) if self.clears_first => Kind::PairsClearing,
            (true, true) => Kind::Pairs,
        }
    }

    /// What stands in a word, or in a number of one.
    pub fn word(&self, page: usize, at: usize) -> Word {
        match self.kind() {
            Kind::Words => self.pages[page][at],
            Kind::Coded => self.ecc.word(self.cells[page][at]),
            _ => Word::from(self.numbers[page][at]),
        }
    }

    /// Programs a word or a number of one, which is erased.
    pub fn program(&mut self, page: usize, at: usize, value: u64) -> Result<(), PowerCut> {
        assert_ne!(value, u64::MAX, "the value is all ones");
        match self.kind() {
            Kind::Words => self.program_word(page, at, value),
            Kind::Coded => self.program_cells(page, at, value),
            _ => self.program_number(page, at, value),
        }
    }

    /// Erases a page.
    pub fn erase(&mut self, page: usize) -> Result<(), PowerCut> {
        self.wear[page] = self.wear[page].saturating_add(1);
        match self.kind() {
            Kind::Words => self.erase_words(page),
            Kind::Coded => self.erase_cells(page),
            _ => self.erase_numbers(page),
        }
    }

    // Bits that look random: half of them, few, many, or one.
    fn any_bits(&mut self) -> u64 {
        let mut rows = [0; 3];
        for row in &mut rows {
            self.dice ^= self.dice << 13;
            self.dice ^= self.dice >> 7;
            self.dice ^= self.dice << 17;
            *row = self.dice.wrapping_mul(0x9e37_79b9_7f4a_7c15);
        }
        let [first, second, third] = rows;
        match first >> 62 {
            0 => second,
            1 => first & second & third,
            2 => first | second | third,
            _ => 1 << (second >> 58),
        }
    }

    fn any_cells(&mut self) -> Cells {
        Cells {
            number: self.any_bits(),
            check: self.any_bits() as u8,
        }
    }

    // A step begins: what a cut leaves of it, if it is cut.
    fn begin(&mut self) -> Option<Tear> {
        self.steps += 1;
        let (after, tear) = self.fuse?;
        match after.checked_sub(1) {
            Some(after) => {
                self.fuse = Some((after, tear));
                None
            }
            None => {
                self.fuse = None;
                Some(tear)
            }
        }
    }

    fn program_word(&mut self, page: usize, at: usize, value: u64) -> Result<(), PowerCut> {
        assert_eq!(self.pages[page][at], Word::Erased, "the word is written");
        let tear = self.begin();
        self.pages[page][at] = match tear {
            None | Some(Tear::Done) => Word::Held(value),
            Some(Tear::Nothing) => Word::Erased,
            Some(Tear::Torn | Tear::Mixed) => Word::Torn,
        };
        tear.map_or(Ok(()), |_| Err(PowerCut))
    }

    // Where it is cut it has every bit of the one asked for.
    fn program_number(&mut self, page: usize, at: usize, number: u64) -> Result<(), PowerCut> {
        assert_eq!(self.numbers[page][at], u64::MAX, "the number is written");
        let tear = self.begin();
        self.numbers[page][at] = match tear {
            None | Some(Tear::Done) => number,
            Some(Tear::Nothing) => u64::MAX,
            Some(Tear::Torn | Tear::Mixed) => number | self.any_bits(),
        };
        tear.map_or(Ok(()), |_| Err(PowerCut))
    }

    // Where it is cut some cells are as asked for.
    fn program_cells(&mut self, page: usize, at: usize, number: u64) -> Result<(), PowerCut> {
        let old = self.cells[page][at];
        assert_eq!(old, ERASED, "the word is written");
        let tear = self.begin();
        let asked = self.ecc.cells(number);
        self.cells[page][at] = match tear {
            None | Some(Tear::Done) => asked,
            Some(Tear::Nothing) => ERASED,
            Some(Tear::Torn | Tear::Mixed) => old.programmed(asked, self.any_cells()),
        };
        tear.map_or(Ok(()), |_| Err(PowerCut))
    }

    // Where it is cut some cells of each word are erased.
    fn erase_cells(&mut self, page: usize) -> Result<(), PowerCut> {
        let tear = self.begin();
        for at in 0..self.cells[page].len() {
            let cells = self.cells[page][at];
            self.cells[page][at] = match (tear, at % 3) {
                (None | Some(Tear::Done), _) | (Some(Tear::Mixed), 1) => ERASED,
                (Some(Tear::Nothing), _) | (Some(Tear::Mixed), 0) => cells,
                _ => cells.erased(self.any_cells()),
            };
        }
        tear.map_or(Ok(()), |_| Err(PowerCut))
    }

    // Where it is cut each number has every bit that it had, or any where it clears first.
    fn erase_numbers(&mut self, page: usize) -> Result<(), PowerCut> {
        let tear = self.begin();
        if self.clears_first && matches!(tear, Some(Tear::Torn | Tear::Mixed)) {
            self.clear_numbers(page);
            return Err(PowerCut);
        }
        for at in 0..self.numbers[page].len() {
            let bits = self.any_bits();
            let number = &mut self.numbers[page][at];
            *number |= match (tear, at % 3) {
                (None | Some(Tear::Done), _) | (Some(Tear::Mixed), 1) => u64::MAX,
                (Some(Tear::Nothing), _) | (Some(Tear::Mixed), 0) => 0,
                _ => bits,
            };
        }
        tear.map_or(Ok(()), |_| Err(PowerCut))
    }

    // What a cut leaves of a page whose cells were being cleared, or set behind that. A value that didn't stand there is a
    // premise not to be made.
    fn clear_numbers(&mut self, page: usize) {
        let sets = self.any_bits() & 1 == 1;
        for at in (0..self.numbers[page].len()).step_by(2) {
            let old = [self.numbers[page][at], self.numbers[page][at + 1]];
            let bits = [self.any_bits(), self.any_bits()];
            let new = match sets {
                true => bits,
                false => [old[0] & bits[0], old[1] & bits[1]],
            };
            let is_made = new != old && new[0] == !new[1];
            self.numbers[page][at] = if is_made { 0 } else { new[0] };
            self.numbers[page][at + 1] = if is_made { 0 } else { new[1] };
        }
    }

    fn erase_words(&mut self, page: usize) -> Result<(), PowerCut> {
        let tear = self.begin();
        for (at, word) in self.pages[page].iter_mut().enumerate() {
            *word = match (tear, at % 3) {
                (None | Some(Tear::Done), _) | (Some(Tear::Mixed), 1) => Word::Erased,
                (Some(Tear::Nothing), _) | (Some(Tear::Mixed), 0) => *word,
                _ => Word::Torn,
            };
        }
        tear.map_or(Ok(()), |_| Err(PowerCut))
    }
}

/// A part that a store and its test share.
#[derive(Clone)]
pub struct Shared(pub Rc<RefCell<Part>>);

impl Shared {
    /// A part to be shared.
    pub fn new(part: Part) -> Shared {
        Shared(Rc::new(RefCell::new(part)))
    }
}

impl Driver for Shared {
    type Error = PowerCut;

    fn shape(&self) -> Shape {
        self.0.borrow().shape
    }

    fn kind(&self) -> Kind {
        self.0.borrow().kind()
    }

    fn word(&self, page: usize, at: usize) -> Result<Word, PowerCut> {
        Ok(self.0.borrow().word(page, at))
    }

    fn program(&mut self, page: usize, at: usize, value: u64) -> Result<(), PowerCut> {
        self.0.borrow_mut().program(page, at, value)
    }

    fn erase(&mut self, page: usize) -> Result<(), PowerCut> {
        self.0.borrow_mut().erase(page)
    }
}

//! An ECC of 72 bits, of which 64 are a number: it corrects one wrong bit and tells two (SEC-DED, columns of odd weight). Of more
//! it corrects some into a number that nobody wrote. Its matrix is drawn by a seed, since makers don't say theirs.

use ee_store::Word;

/// The cells of a word, all ones where it is erased.
#[derive(Clone, Copy, Debug, PartialEq, Eq)]
pub struct Cells {
    pub number: u64,
    pub check: u8,
}

pub const ERASED: Cells = Cells {
    number: u64::MAX,
    check: u8::MAX,
};

impl Cells {
    /// What a step leaves that is to program these where all is erased, and reaches those cells alone of which this has ones.
    pub fn programmed(self, asked: Cells, reached: Cells) -> Cells {
        Cells {
            number: self.number & (asked.number | !reached.number),
            check: self.check & (asked.check | !reached.check),
        }
    }

    /// What an erase leaves that reaches those cells alone.
    pub fn erased(self, reached: Cells) -> Cells {
        Cells {
            number: self.number | reached.number,
            check: self.check | reached.check,
        }
    }
}

/// The code: for each byte of a number, by its place, the bits of the check that its zeros turn; and for each wrong check the bits
/// of a number that are turned back, of which there is one or none.
#[derive(Clone, Debug, PartialEq, Eq)]
pub struct Ecc {
    checks: Box<[[u8; 256]; 8]>,
    corrections: Box<[Option<u64>; 256]>,
}

impl Ecc {
    /// Each bit of a number turns an odd number of bits of the check, and more than one.
    pub fn new(seed: u64) -> Ecc {
        let is_odd = |byte: &u8| byte.count_ones() % 2 == 1 && byte.count_ones() > 1;
        let mut columns: Vec<u8> = (0..=u8::MAX).filter(is_odd).collect();
        let mut dice = seed.wrapping_mul(0x9e37_79b9_7f4a_7c15) | 1;
        let mut ecc = Ecc {
            checks: Box::new([[0; 256]; 8]),
            corrections: Box::new([None; 256]),
        };
        for bit in 0..64 {
            dice ^= dice << 13;
            dice ^= dice >> 7;
            dice ^= dice << 17;
            let column = columns.swap_remove((dice >> 16) as usize % columns.len());
            ecc.corrections[usize::from(column)] = Some(1 << bit);
            for byte in (0..256).filter(|byte| byte >> (bit % 8) & 1 == 0) {
                ecc.checks[bit / 8][byte] ^= column;
            }
        }
        for bit in 0..8 {
            ecc.corrections[1 << bit] = Some(0);
        }
        ecc.corrections[0] = Some(0);
        ecc
    }

    /// A number with its check: all ones have all ones.
    pub fn cells(&self, number: u64) -> Cells {
        let mut check = u8::MAX;
        for (place, byte) in number.to_le_bytes().into_iter().enumerate() {
            check ^= self.checks[place][usize::from(byte)];
        }
        Cells { number, check }
    }

    /// What the cells read as. All ones by a correction are torn, as a driver has to say.
    pub fn word(&self, cells: Cells) -> Word {
        let wrong = cells.check ^ self.cells(cells.number).check;
        let turned = self.corrections[usize::from(wrong)];
        match turned.map(|turned| cells.number ^ turned) {
            Some(u64::MAX) if cells != ERASED => Word::Torn,
            Some(number) => Word::from(number),
            None => Word::Torn,
        }
    }
}

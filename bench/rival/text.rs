//! Reading and writing the parts of a line.

/// What is left to read of a text.
pub struct Reader<'a> {
    rest: &'a [u8],
}

impl<'a> Reader<'a> {
    pub fn new(text: &'a [u8]) -> Self {
        Reader { rest: text }
    }

    #[inline]
    pub fn is_done(&self) -> bool {
        self.rest.is_empty()
    }

    #[inline]
    pub fn byte(&mut self) -> Option<u8> {
        let (&first, rest) = self.rest.split_first()?;
        self.rest = rest;
        Some(first)
    }

    #[inline]
    pub fn expect(&mut self, what: &[u8]) -> Option<()> {
        self.rest = self.rest.strip_prefix(what)?;
        Some(())
    }

    /// A decimal number of at most `most`, without a sign or a zero in front.
    #[inline]
    pub fn number(&mut self, most: u64) -> Option<u64> {
        let (&first, mut rest) = self.rest.split_first()?;
        let mut value = digit(first)?;
        while let Some((&byte, tail)) = rest.split_first() {
            let Some(digit) = digit(byte) else { break };
            if value == 0 {
                return None;
            }
            value = value.checked_mul(10)?.checked_add(digit)?;
            rest = tail;
        }
        self.rest = rest;
        (value <= most).then_some(value)
    }

    /// Sixteen lower-case hexadecimal digits.
    pub fn hex(&mut self) -> Option<u64> {
        let (digits, rest) = self.rest.split_first_chunk::<16>()?;
        let mut value = 0;
        let mut bad = 0;
        for &byte in digits {
            let nibble = NIBBLES[byte as usize];
            bad |= nibble;
            value = value << 4 | u64::from(nibble & 15);
        }
        self.rest = rest;
        (bad < 16).then_some(value)
    }
}

fn digit(byte: u8) -> Option<u64> {
    let digit = byte.wrapping_sub(b'0');
    (digit < 10).then_some(u64::from(digit))
}

/// What each byte says as a hexadecimal digit; 255 where it is none.
const NIBBLES: [u8; 256] = {
    let mut nibbles = [255; 256];
    let mut i = 0;
    while i < 16 {
        nibbles[b"0123456789abcdef"[i] as usize] = i as u8;
        i += 1;
    }
    nibbles
};

/// The numbers below 100 in two decimal digits each.
const TENS: [[u8; 2]; 100] = {
    let mut tens = [[0; 2]; 100];
    let mut i = 0;
    while i < 100 {
        tens[i] = [b'0' + (i / 10) as u8, b'0' + (i % 10) as u8];
        i += 1;
    }
    tens
};

/// Each byte in two hexadecimal digits.
const BYTES: [[u8; 2]; 256] = {
    let digits = b"0123456789abcdef";
    let mut bytes = [[0; 2]; 256];
    let mut i = 0;
    while i < 256 {
        bytes[i] = [digits[i / 16], digits[i % 16]];
        i += 1;
    }
    bytes
};

/// Appends a number in decimal.
pub fn push_number(out: &mut Vec<u8>, mut number: u64) {
    let mut digits = [0; 20];
    let mut start = digits.len();
    while number >= 10 {
        start -= 2;
        digits[start..start + 2].copy_from_slice(&TENS[(number % 100) as usize]);
        number /= 100;
    }
    if number > 0 || start == digits.len() {
        start -= 1;
        digits[start] = b'0' + number as u8;
    }
    out.extend_from_slice(&digits[start..]);
}

/// Appends a word in sixteen hexadecimal digits.
pub fn push_hex(out: &mut Vec<u8>, word: u64) {
    let mut digits = [0; 16];
    for (pair, byte) in digits.chunks_exact_mut(2).zip(word.to_be_bytes()) {
        pair.copy_from_slice(&BYTES[byte as usize]);
    }
    out.extend_from_slice(&digits);
}

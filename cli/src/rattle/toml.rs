//! What stands for Rattle's `toml`: the crate of that name, over bytes.
use super::alloc::{ask, Global};
pub use toml::Value;

/// A table of TOML, by rising key.
pub type Table = toml::map::Map<String, Value>;

/// So deep arrays and inline tables may lie in each other, and so many parts a key may have, as in
/// Rattle's `toml`.
const MOST_LEVELS: usize = 80;

/// As many bytes for each one of the text the crate took at most, but for keys of many parts.
const BYTES_FOR_EACH: usize = 200;

/// Why bytes are no table.
pub struct Error {
    is_memory: bool,
}

impl Error {
    /// Whether memory ran out.
    pub fn is_memory(&self) -> bool {
        self.is_memory
    }
}

const BAD_TEXT: Error = Error { is_memory: false };

/// The table that bytes spell.
pub fn table_from_slice(_alloc: Global, bytes: &[u8]) -> Result<Table, Error> {
    let text = str::from_utf8(bytes).map_err(|_| BAD_TEXT)?;
    // What lies deeper may end the crate's stack.
    if Levels::of(bytes) > MOST_LEVELS {
        return Err(BAD_TEXT);
    }
    ask(BYTES_FOR_EACH.saturating_mul(bytes.len())).map_err(|_| Error { is_memory: true })?;
    // A `Value` refuses a key that stands twice, where a `Table` of 0.5 takes the last one.
    match toml::from_str(text) {
        Ok(Value::Table(table)) => Ok(table),
        _ => Err(BAD_TEXT),
    }
}

/// How deep a text goes at one place, and in how many parts a key falls.
struct Levels {
    open: usize,
    parts: usize,
    most: usize,
}

impl Levels {
    /// The most levels of a text, as far as it is TOML.
    fn of(text: &[u8]) -> usize {
        let mut levels = Levels {
            open: 0,
            parts: 1,
            most: 1,
        };
        let mut rest = text;
        while let Some((byte, behind)) = rest.split_first() {
            rest = match byte {
                b'#' => levels.behind_comment(behind),
                b'"' | b'\'' => behind_string(rest, *byte),
                b'+' if is_base(behind) => levels.no_toml(),
                _ => {
                    levels.pass(*byte);
                    behind
                }
            };
        }
        levels.most
    }

    /// A place that old versions of the crate take, and that is no TOML.
    fn no_toml(&mut self) -> &'static [u8] {
        self.most = usize::MAX;
        &[]
    }

    /// What stands behind the comment that begins here.
    fn behind_comment<'a>(&mut self, text: &'a [u8]) -> &'a [u8] {
        let end = text
            .iter()
            .position(|byte| *byte == b'\n')
            .unwrap_or(text.len());
        if text[..end].contains(&0x7f) {
            return self.no_toml();
        }
        &text[end..]
    }

    /// Passes a byte that is in no string and no comment.
    fn pass(&mut self, byte: u8) {
        match byte {
            b'[' | b'{' => (self.open, self.parts) = (self.open + 1, 1),
            b']' | b'}' => (self.open, self.parts) = (self.open.saturating_sub(1), 1),
            b'.' => self.parts += 1,
            b'=' | b',' | b'\n' => self.parts = 1,
            _ => {}
        }
        self.most = self.most.max(self.open).max(self.parts);
    }
}

/// Whether a number with a letter for its base begins here, before which no sign may stand.
fn is_base(text: &[u8]) -> bool {
    matches!(text, [b'0', b'x' | b'o' | b'b', ..])
}

/// What stands behind the string that begins here.
fn behind_string(text: &[u8], quote: u8) -> &[u8] {
    let long = [quote; 3];
    let end: &[u8] = if text.starts_with(&long) {
        &long
    } else {
        &long[..1]
    };
    let mut rest = &text[end.len()..];
    while !rest.is_empty() && !rest.starts_with(end) {
        let is_escape = quote == b'"' && rest[0] == b'\\';
        rest = &rest[rest.len().min(1 + usize::from(is_escape))..];
    }
    &rest[rest.len().min(end.len())..]
}

//! The tokens of a source.

#[derive(Clone, Copy, Debug, PartialEq, Eq)]
pub enum Kind {
    Comment,
    Text,
    Letter,
    Label,
    Number,
    Word,
    Sign,
    /// What a source may have in a ghost alone.
    Other,
}

#[derive(Clone, Copy, Debug, PartialEq, Eq)]
pub struct Token<'a> {
    pub kind: Kind,
    pub text: &'a str,
    pub start: usize,
}

impl Token<'_> {
    pub fn end(&self) -> usize {
        self.start + self.text.len()
    }
}

/// The tokens of a text, comments among them.
pub fn tokens(text: &str) -> Vec<Token<'_>> {
    let mut found = Vec::new();
    let mut start = 0;
    while let Some(letter) = text[start..].chars().next() {
        if letter.is_whitespace() {
            start += letter.len_utf8();
            continue;
        }
        let (kind, length) = first(&text[start..], letter);
        let text = &text[start..start + length];
        found.push(Token { kind, text, start });
        start += length;
    }
    found
}

/// The kind and the length of the token at the head of a text, which begins with this letter.
fn first(rest: &str, letter: char) -> (Kind, usize) {
    if rest.starts_with("//") {
        return (Kind::Comment, rest.find('\n').unwrap_or(rest.len()));
    }
    let quoted = rest.strip_prefix('b').unwrap_or(rest);
    let before = rest.len() - quoted.len();
    if let Some(length) = text_length(quoted) {
        return (Kind::Text, before + length);
    }
    if let Some(length) = letter_length(quoted) {
        return (Kind::Letter, before + length);
    }
    match letter {
        // None of the sources has such texts and comments, and their ends are not looked for.
        'r' | 'b' if starts_raw(rest) => (Kind::Other, letter.len_utf8()),
        '/' if rest.starts_with("/*") => (Kind::Other, 2),
        '\'' if rest[1..].starts_with(begins_word) => (Kind::Label, 1 + word_length(&rest[1..])),
        _ if begins_word(letter) => (Kind::Word, word_length(rest)),
        '0'..='9' => (Kind::Number, word_length(rest)),
        ':' if rest.starts_with("::") => (Kind::Sign, 2),
        _ if "-+*/%^!&|=<>@.,:;#$?~(){}[]".contains(letter) => (Kind::Sign, 1),
        _ => (Kind::Other, letter.len_utf8()),
    }
}

fn begins_word(letter: char) -> bool {
    letter.is_ascii_alphabetic() || letter == '_'
}

fn word_length(rest: &str) -> usize {
    let goes_on = |letter: char| letter.is_ascii_alphanumeric() || letter == '_';
    rest.find(|letter| !goes_on(letter)).unwrap_or(rest.len())
}

fn starts_raw(rest: &str) -> bool {
    ["r\"", "r#", "br\"", "br#"]
        .iter()
        .any(|head| rest.starts_with(head))
}

fn text_length(rest: &str) -> Option<usize> {
    let mut letters = rest.strip_prefix('"')?.char_indices();
    while let Some((place, letter)) = letters.next() {
        match letter {
            '"' => return Some(place + 2),
            '\\' => _ = letters.next(),
            _ => {}
        }
    }
    None
}

fn letter_length(rest: &str) -> Option<usize> {
    let mut letters = rest.strip_prefix('\'')?.char_indices();
    match letters.next()?.1 {
        '\'' | '\n' => None,
        '\\' => {
            // The letter behind the stroke may be a quote itself.
            letters.next()?;
            let end = letters.find(|(_, letter)| matches!(letter, '\'' | '\n'))?;
            (end.1 == '\'').then_some(end.0 + 2)
        }
        _ => letters
            .next()
            .filter(|(_, letter)| *letter == '\'')
            .map(|(place, _)| place + 2),
    }
}

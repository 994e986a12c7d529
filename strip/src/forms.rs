//! The forms of a source: which stretches of its text are left out, and which are written otherwise.
use super::token::{tokens, Kind, Token};
use super::{Crate, Package, Refusal};
use std::collections::HashSet;

const ATTRIBUTES: [&str; 5] = ["allow", "derive", "inline", "must_use", "repr"];
const GHOSTS_OF_STD: [&str; 6] = ["Brand", "Model", "PhantomData", "{", "}", ","];
/// Words of Rust, or of its contracts, that no kept line may have.
const REFUSED: [&str; 17] = [
    "async",
    "await",
    "dyn",
    "extern",
    "macro_rules",
    "move",
    "proof",
    "ref",
    "static",
    "std",
    "union",
    "unsafe",
    "ghost",
    "ensures",
    "requires",
    "Drop",
    "Model",
];
/// Words of Rust that may stand before a `!` and a bracket.
const BEFORE_NOT: [&str; 5] = ["if", "in", "match", "return", "while"];
/// Stands in a text for what was left out of it.
const GAP: char = '\0';

type Made<T> = Result<T, Refusal>;

/// One source: its tokens, and the edits of its text, each with its start, its end and what is put
/// there.
pub struct Source<'a> {
    package: &'a Package,
    home: &'a Crate,
    /// The path from the top of the repository, and the name of the module.
    file: &'a str,
    stem: &'a str,
    text: &'a str,
    tokens: Vec<Token<'a>>,
    comments: Vec<Token<'a>>,
    jumps: HashSet<&'a str>,
    edits: Vec<(usize, usize, String)>,
}

impl<'a> Source<'a> {
    pub fn new(
        package: &'a Package,
        home: &'a Crate,
        file: &'a str,
        stem: &'a str,
        text: &'a str,
    ) -> Source<'a> {
        let (comments, tokens): (Vec<_>, Vec<_>) = tokens(text)
            .into_iter()
            .partition(|token| token.kind == Kind::Comment);
        let jumps = tokens
            .windows(2)
            .filter(|two| two[1].kind == Kind::Label && matches!(two[0].text, "break" | "continue"))
            .map(|two| two[1].text)
            .collect();
        Source {
            package,
            home,
            file,
            stem,
            text,
            tokens,
            comments,
            jumps,
            edits: Vec::new(),
        }
    }

    /// The text with every edit made, without the lines of which nothing stands.
    pub fn stripped(mut self) -> Made<String> {
        if self.text.contains(GAP) {
            return Err(Refusal::of(self.file, "a byte 0"));
        }
        self.each(0, self.tokens.len())?;
        if self.package.hides_origins {
            self.origins()?;
        }
        self.edits.sort();
        let (mut made, mut now) = (String::new(), 0);
        for (start, end, new) in &self.edits {
            if *start < now {
                return self.refuse_at(*start, "two stretches that are left out overlap");
            }
            made.push_str(&self.text[now..*start]);
            made.push_str(new);
            if new.is_empty() && !self.text[*start..*end].trim().is_empty() {
                made.push(GAP);
            }
            now = *end;
        }
        made.push_str(&self.text[now..]);
        Ok(without_gaps(&made))
    }

    // Looking at tokens.

    fn at(&self, place: usize) -> &'a str {
        self.tokens.get(place).map_or("", |token| token.text)
    }

    fn before(&self, place: usize, count: usize) -> &'a str {
        place.checked_sub(count).map_or("", |place| self.at(place))
    }

    fn are(&self, place: usize, texts: &[&str]) -> bool {
        texts
            .iter()
            .enumerate()
            .all(|(offset, text)| self.at(place + offset) == *text)
    }

    fn is(&self, place: usize, kind: Kind) -> bool {
        self.tokens
            .get(place)
            .is_some_and(|token| token.kind == kind)
    }

    fn is_own_crate(&self, name: &str) -> bool {
        self.package.crates.iter().any(|other| other.name == name)
    }

    fn refuse<T>(&self, place: usize, why: impl Into<String>) -> Made<T> {
        let token = self.tokens.get(place).or(self.tokens.last());
        self.refuse_at(token.map_or(0, |token| token.start), why)
    }

    fn refuse_at<T>(&self, start: usize, why: impl Into<String>) -> Made<T> {
        let line = self.text[..start].matches('\n').count() + 1;
        Err(Refusal {
            file: self.file.into(),
            line: Some(line),
            why: why.into(),
        })
    }

    /// The place behind the bracket that closes the one at this place.
    fn behind_group(&self, place: usize) -> Made<usize> {
        if !matches!(self.at(place), "(" | "[" | "{") {
            return self.refuse(
                place,
                format!("a bracket was expected, not `{}`", self.at(place)),
            );
        }
        let mut depth = 0;
        for now in place..self.tokens.len() {
            match self.at(now) {
                "(" | "[" | "{" => depth += 1,
                ")" | "]" | "}" => depth -= 1,
                _ => {}
            }
            if depth == 0 {
                return Ok(now + 1);
            }
        }
        self.refuse(place, format!("`{}` is not closed", self.at(place)))
    }

    /// The place behind the `<..>` at this place, or this place if none stands there.
    fn behind_angles(&self, place: usize) -> Made<usize> {
        if self.at(place) != "<" {
            return Ok(place);
        }
        let mut depth = 0;
        for now in place..self.tokens.len() {
            match self.at(now) {
                "<" => depth += 1,
                ">" if self.before(now, 1) != "-" => depth -= 1,
                _ => {}
            }
            if depth == 0 {
                return Ok(now + 1);
            }
        }
        self.refuse(place, "`<` is not closed")
    }

    fn find(&self, place: usize, text: &str) -> Made<usize> {
        match (place..self.tokens.len()).find(|now| self.at(*now) == text) {
            Some(now) => Ok(now),
            None => self.refuse(place, format!("no `{text}` behind this")),
        }
    }

    // Leaving out, and adding.

    fn edit(&mut self, start: usize, end: usize, new: impl Into<String>) {
        self.edits.push((start, end, new.into()));
    }

    /// Leaves out the tokens of these places. Gives the second one.
    fn leave_out(&mut self, first: usize, behind: usize) -> usize {
        self.edit(self.tokens[first].start, self.tokens[behind - 1].end(), "");
        behind
    }

    /// Leaves out the tokens of these places and the comment lines right above.
    fn leave_out_with_comments(&mut self, first: usize, behind: usize) -> usize {
        let mut start = self.tokens[first].start;
        let above = self
            .comments
            .partition_point(|comment| comment.start < start);
        for comment in self.comments[..above].iter().rev() {
            let between = &self.text[comment.end()..start];
            let stands_on_it = between.trim().is_empty() && between.matches('\n').count() == 1;
            if !stands_on_it || comment.text.starts_with("//!") {
                break;
            }
            start = comment.start;
        }
        self.edit(start, self.tokens[behind - 1].end(), "");
        behind
    }

    /// Leaves out `Source: ours` in doc comments, a paragraph each, with the empty line above it.
    fn origins(&mut self) -> Made<()> {
        let is_gone = |place| {
            self.edits
                .iter()
                .any(|edit| edit.0 <= place && place < edit.1)
        };
        let mut found = Vec::new();
        for (place, comment) in self.comments.iter().enumerate() {
            if !comment.text.starts_with("/// Source: ours") || is_gone(comment.start) {
                continue;
            }
            let above = place.checked_sub(1).map(|above| self.comments[above]);
            let Some(above) = above.filter(|above| above.text == "///") else {
                return self.refuse_at(comment.start, "`Source: ours` with no empty line above it");
            };
            let below = self.text[comment.end()..].split_inclusive('\n').skip(1);
            let lines = below.take_while(|line| line.trim_start_matches(' ').starts_with("/// "));
            let end = comment.end() + lines.map(str::len).sum::<usize>();
            found.push((above.start, end));
        }
        for (start, end) in found {
            self.edit(start, end, "");
        }
        Ok(())
    }

    // Forms. Each is told the place where it begins, and gives the place behind it.

    /// `ghost use ..;`, `ghost name: {..};` or `ghost name = {..};`.
    fn ghost(&mut self, place: usize) -> Made<usize> {
        if self.at(place + 1) == "use" {
            let behind = self.find(place, ";")? + 1;
            return Ok(self.leave_out_with_comments(place, behind));
        }
        self.ghost_member(place, &[":", "="], ";", "a ghost of no known form")
    }

    /// A ghost with a name, one of these signs, a group, and what ends it.
    fn ghost_member(&mut self, place: usize, signs: &[&str], end: &str, why: &str) -> Made<usize> {
        if self.is(place + 1, Kind::Word) && signs.contains(&self.at(place + 2)) {
            let behind = self.behind_group(place + 3)?;
            if self.at(behind) == end {
                return Ok(self.leave_out_with_comments(place, behind + 1));
            }
        }
        self.refuse(place, why)
    }

    /// A struct, whose ghost fields go: `ghost name: {..},`.
    fn structure(&mut self, place: usize) -> Made<usize> {
        let mut now = self.behind_angles(place + 2)?;
        self.each(place + 1, now)?;
        if self.at(now) != "{" {
            return Ok(now);
        }
        let behind = self.behind_group(now)?;
        now += 1;
        while now < behind - 1 {
            now = match self.at(now) {
                "ghost" => self.ghost_member(now, &[":"], ",", "a ghost field of no known form")?,
                _ => self.one(now)?,
            };
        }
        Ok(behind)
    }

    fn attribute(&mut self, place: usize) -> Made<usize> {
        let bracket = if self.at(place + 1) == "!" {
            place + 2
        } else {
            place + 1
        };
        let behind = self.behind_group(bracket)?;
        let name = self.at(bracket + 1);
        if self.package.attributes_left_out.contains(&name) {
            return Ok(self.leave_out(place, behind));
        }
        if self.are(place, &["#", "[", "doc", "(", "hidden", ")", "]"]) {
            // It goes with the module below it, and stands on nothing else.
            if self.are(behind, &["pub", "mod"]) && self.home.has_not(self.at(behind + 2)) {
                return Ok(self.leave_out_with_comments(place, behind));
            }
            if self.are(behind, &["pub", "mod"]) {
                return Ok(behind);
            }
            return self.refuse(place, "`doc(hidden)` on what is no public module");
        }
        match name {
            "derive" => self.derive(place, bracket, behind),
            _ if ATTRIBUTES.contains(&name) => Ok(behind),
            _ => self.refuse(place, format!("the attribute `{name}` is not known")),
        }
    }

    /// A `derive`, of which the names go that are left out.
    fn derive(&mut self, place: usize, bracket: usize, behind: usize) -> Made<usize> {
        let names: Vec<usize> = (bracket + 3..behind - 2).step_by(2).collect();
        let has_names = self.at(bracket + 2) == "(" && !names.is_empty();
        let is_known = has_names
            && names.iter().all(|now| {
                self.is(*now, Kind::Word) && (self.at(now + 1) == "," || now + 1 == behind - 2)
            });
        if !is_known {
            return self.refuse(place, "a `derive` of no known form");
        }
        let is_gone = |now: &&usize| self.package.derives_left_out.contains(&self.at(**now));
        let gone: Vec<usize> = names.iter().filter(is_gone).copied().collect();
        match gone[..] {
            _ if gone.len() == names.len() => _ = self.leave_out(place, behind),
            [] => {}
            [name] if self.before(name, 1) == "," => _ = self.leave_out(name - 1, name + 1),
            [name] => _ = self.leave_out(name, name + 2),
            _ => {
                let why = "a `derive` of two names that are left out, and of others";
                return self.refuse(place, why);
            }
        }
        Ok(behind)
    }

    /// A function, whose parameters and answer stand and whose clauses go, up to its body or `;`.
    fn function(&mut self, place: usize) -> Made<usize> {
        if !self.is(place + 1, Kind::Word) {
            return self.refuse(place, "a function without a name");
        }
        self.getter(place);
        let mut now = self.behind_angles(place + 2)?;
        now = self.behind_group(now)?;
        while !matches!(self.at(now), "{" | ";" | "requires" | "ensures") {
            now = match self.at(now) {
                "(" | "[" => self.behind_group(now)?,
                "" => return self.refuse(place, "a function without an end"),
                _ => now + 1,
            };
        }
        let head_end = now;
        while matches!(self.at(now), "requires" | "ensures") {
            let has_name = self.is(now + 1, Kind::Word);
            now = self.behind_group(now + 1 + usize::from(has_name))?;
        }
        if now > head_end {
            let space = match self.at(now) {
                "{" => " ",
                ";" => "",
                other => {
                    return self.refuse(now, format!("`{other}` behind the clauses of a function"))
                }
            };
            self.edit(
                self.tokens[head_end - 1].end(),
                self.tokens[now].start,
                space,
            );
        }
        self.each(place + 1, head_end)?;
        Ok(now)
    }

    /// What a public function gets before it where the package says so.
    fn getter(&mut self, place: usize) {
        let is_const = self.before(place, 1) == "const";
        let first = place.saturating_sub(1 + usize::from(is_const));
        let name = (self.home.name.as_str(), self.stem, self.at(place + 1));
        let is_getter = self.package.getters.contains(&(name.0, name.1));
        let is_asked = self.package.asked.contains(&name);
        if self.at(first) != "pub" || !(is_getter || is_asked) {
            return;
        }
        let start = self.tokens[first].start;
        let column = start - self.text[..start].rfind('\n').map_or(0, |end| end + 1);
        self.edit(start, start, format!("#[must_use]\n{}", " ".repeat(column)));
        if is_getter && !is_const {
            let start = self.tokens[place].start;
            self.edit(start, start, "const ");
        }
    }

    /// An `impl` that goes, or the place behind its word and its `<..>`.
    fn implementation(&mut self, place: usize) -> Made<usize> {
        let head = self.behind_angles(place + 1)?;
        if self.are(head, &["Model", "for"]) {
            let body = self.find(head, "{")?;
            let behind = self.behind_group(body)?;
            let (mut now, kept) = (body + 1, self.edits.len());
            while now < behind - 1 {
                if self.at(now) != "ghost" {
                    return self.refuse(now, "more than ghosts in an `impl Model`");
                }
                now = self.ghost(now)?;
            }
            self.edits.truncate(kept);
            return Ok(self.leave_out_with_comments(place, behind));
        }
        let mut left_out = self.package.impls_left_out.iter();
        if let Some(names) = left_out.find(|names| self.are(head, names)) {
            let behind = self.behind_group(head + names.len())?;
            return Ok(self.leave_out_with_comments(place, behind));
        }
        Ok(place + 1)
    }

    /// A `mod name;` or a `use path;`, with the `pub` before it: left out with its module.
    fn module(&mut self, place: usize) -> Made<usize> {
        let first = match self.before(place, 1) {
            "pub" => place - 1,
            ")" if self.before(place, 4) == "pub" => place - 4,
            _ => place,
        };
        let behind = self.find(place, ";")? + 1;
        let name = self.at(place + 1);
        if self.at(place) == "mod" {
            if behind != place + 3 {
                return self.refuse(place, "a module in the file of another");
            }
            if self.home.has_not(name) {
                return Ok(self.leave_out_with_comments(first, behind));
            }
            return Ok(behind);
        }
        let mut is_gone = self.home.has_not(name) || self.package.uses_left_out.contains(&name);
        is_gone &= self.at(place + 2) == "::";
        if name == "std" {
            let ghosts = (place + 5..behind - 1).all(|now| GHOSTS_OF_STD.contains(&self.at(now)));
            is_gone = ghosts && self.are(place + 2, &["::", "marker", "::"]);
            if !is_gone && !self.package.heads.iter().any(|(head, _)| *head == "std") {
                return self.refuse(place, "a `use` of `std` that is not of ghosts");
            }
        }
        if is_gone {
            return Ok(self.leave_out_with_comments(first, behind));
        }
        self.each(place + 1, behind)?;
        Ok(behind)
    }

    /// A word that stands: the head of a path is rewritten, what is not known refused.
    fn word(&mut self, place: usize) -> Made<usize> {
        let (token, text) = (self.tokens[place], self.at(place));
        if text == "Drop" && place > 1 && self.before(place, 1) == "+" {
            let start = self.tokens[place - 2].end();
            match self
                .tokens
                .get(place + 1)
                .filter(|next| next.text == "=")
                .copied()
            {
                Some(next) => self.edit(start, next.start, " "),
                None => self.edit(start, token.end(), ""),
            }
            return Ok(place + 1);
        }
        if self.at(place + 1) == "::" && self.before(place, 1) != "::" {
            if text == "crate" && self.home.has_not(self.at(place + 2)) {
                let why = format!("a path into `{}`, which is left out", self.at(place + 2));
                return self.refuse(place, why);
            }
            let head = self.package.heads.iter().find(|(head, _)| *head == text);
            let new = match head {
                _ if text == "crate" => format!("crate::{}", self.home.name),
                _ if self.is_own_crate(text) => format!("crate::{text}"),
                Some((_, new)) => (*new).into(),
                None => text.into(),
            };
            if new != text {
                self.edit(token.start, token.end(), new);
                return Ok(place + 1);
            }
        }
        let is_macro = self.at(place + 1) == "!" && matches!(self.at(place + 2), "(" | "[" | "{");
        if REFUSED.contains(&text) {
            return self.refuse(place, format!("`{text}` in a place where it is not known"));
        }
        if self.is_own_crate(text) {
            return self.refuse(
                place,
                format!("the crate `{text}` without a path behind it"),
            );
        }
        if is_macro && !self.package.macros.contains(&text) && !BEFORE_NOT.contains(&text) {
            return self.refuse(place, format!("the macro `{text}` is not known"));
        }
        Ok(place + 1)
    }

    /// What stands at this place, and the place behind it.
    fn one(&mut self, place: usize) -> Made<usize> {
        let token = self.tokens[place];
        let mut phrases = self.package.phrases.iter();
        if let Some((words, new)) = phrases.find(|(words, _)| self.are(place, words)) {
            let behind = place + words.len();
            self.edit(token.start, self.tokens[behind - 1].end(), *new);
            return Ok(behind);
        }
        let is_statement = matches!(self.before(place, 1), ";" | "{" | "}");
        match token.text {
            "ghost" => self.ghost(place),
            "prove" if self.at(place + 1) == "!" && is_statement => {
                let behind = self.behind_group(place + 2)?;
                if self.at(behind) != ";" {
                    return self.refuse(place, "a `prove!` that is no statement");
                }
                Ok(self.leave_out_with_comments(place, behind + 1))
            }
            "#" => self.attribute(place),
            "fn" => self.function(place),
            "struct" => self.structure(place),
            "impl" => self.implementation(place),
            "mod" | "use" => self.module(place),
            text if token.kind == Kind::Label && self.at(place + 1) == ":" => {
                let is_loop = matches!(self.at(place + 2), "for" | "loop" | "while" | "{");
                if is_loop && !self.jumps.contains(text) {
                    return Ok(self.leave_out(place, place + 2));
                }
                Ok(place + 1)
            }
            text if token.kind == Kind::Other => {
                self.refuse(place, format!("`{text}` is no sign of Rust that is known"))
            }
            _ if token.kind == Kind::Word => self.word(place),
            _ => Ok(place + 1),
        }
    }

    fn each(&mut self, mut place: usize, behind: usize) -> Made<()> {
        while place < behind.min(self.tokens.len()) {
            place = self.one(place)?;
        }
        Ok(())
    }
}

/// The text without its gaps, without the lines of which nothing else stands, and without the blank
/// lines that stood between those.
fn without_gaps(text: &str) -> String {
    let mut kept: Vec<String> = Vec::new();
    let mut is_behind_gap = false;
    for line in text.split('\n') {
        let has_gap = line.contains(GAP);
        let line = match has_gap {
            true => line
                .replace("\0 ", "")
                .replace(GAP, "")
                .trim_end()
                .to_string(),
            false => line.to_string(),
        };
        is_behind_gap |= has_gap && line.is_empty();
        let above = kept.last().map_or("", String::as_str);
        if line.is_empty() {
            let is_needless = above.is_empty() || above.ends_with('{');
            if !(has_gap || is_behind_gap && is_needless) {
                kept.push(line);
            }
            continue;
        }
        if is_behind_gap && line.trim() == "}" && above.is_empty() {
            kept.pop();
        }
        is_behind_gap = false;
        kept.push(line);
    }
    kept.join("\n").trim_end_matches('\n').to_string() + "\n"
}

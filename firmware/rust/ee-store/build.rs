//! With the feature `async`, makes the modules of `asynch` from this package's own sources: each function that reads or
//! steps, or calls one that does, is `async`, and its calls are `.await`ed. Nothing else changes but the heads of paths, and the types that
//! both have stand once. Rustc refuses a text with a token too few or too many.
use std::collections::{BTreeMap, BTreeSet, HashSet};
use std::ops::Range;
use std::path::{Path, PathBuf};
use std::{env, fs, io};

/// What waits to begin with: the steps and the reads of a device, and the borrow of a flash.
const WAITING: [&str; 7] = [
    ".program",
    ".erase",
    ".word",
    ".read_run",
    ".read",
    ".run",
    "storage.rs borrowed",
];
/// Types that the crate has once.
const SHARED: [&str; 10] = [
    "Address",
    "IndexMemory",
    "Kind",
    "Put",
    "Rescued",
    "ScanFault",
    "Shape",
    "Wanted",
    "Word",
    "Written",
];
/// What isn't made: the top of the crate, what it has once, and what the two have each in a way of their own.
const BY_HAND: [&str; 8] = [
    "asynch",
    "asynch.rs",
    "each.rs",
    "error.rs",
    "lib.rs",
    "logged.rs",
    "storage.rs",
    "value.rs",
];
/// What stands before a module, where it is one for a feature.
const FEATURES: [(&str, &str); 1] = [("nor", "#[cfg(feature = \"embedded-storage-async\")]\npub ")];
// The borrow of a flash is held over its read, and who reads it meanwhile waits.
const LINTS: &str = "#[allow(dead_code, unused_imports, unused_variables)]\n\
    #[allow(clippy::await_holding_refcell_ref, clippy::complexity)]\n\
    #[allow(clippy::must_use_candidate, clippy::perf, clippy::style)]\n";

fn main() -> io::Result<()> {
    println!("cargo:rerun-if-changed=build.rs\ncargo:rerun-if-changed=src");
    let (Some(_), Some(out)) = (env::var_os("CARGO_FEATURE_ASYNC"), env::var_os("OUT_DIR")) else {
        return Ok(());
    };
    let mut texts = BTreeMap::new();
    read(Path::new("src"), Path::new(""), &mut texts)?;
    texts.retain(|name, _| !BY_HAND.iter().any(|by_hand| name.starts_with(by_hand)));
    let folder = Path::new(&out).join("asynch");
    fs::create_dir_all(&folder)?;
    fs::write(folder.join("modules.rs"), modules(&texts))?;
    for (name, text) in waiting(&texts) {
        let path = folder.join(name);
        fs::create_dir_all(path.parent().unwrap_or(&path))?;
        fs::write(path, text)?;
    }
    Ok(())
}

/// The modules that `asynch` includes.
fn modules(texts: &BTreeMap<PathBuf, String>) -> String {
    let tops = texts.keys().filter_map(|name| name.iter().next()?.to_str());
    let names: BTreeSet<&str> = tops.map(|top| top.trim_end_matches(".rs")).collect();
    let before = |name| {
        FEATURES
            .iter()
            .find(|it| it.0 == name)
            .map_or("", |it| it.1)
    };
    names
        .iter()
        .map(|name| format!("{LINTS}{}mod {name};\n", before(*name)))
        .collect()
}

fn read(folder: &Path, name: &Path, texts: &mut BTreeMap<PathBuf, String>) -> io::Result<()> {
    for entry in fs::read_dir(folder)? {
        let (path, name) = entry.map(|entry| (entry.path(), name.join(entry.file_name())))?;
        match path.is_dir() {
            true => read(&path, &name, texts)?,
            false => _ = texts.insert(name, fs::read_to_string(path)?),
        }
    }
    Ok(())
}

/// The tokens of a text that are no comments, each with where it begins. Of a text in quotes nothing is a token.
fn tokens(text: &str) -> Vec<(usize, &str)> {
    let (mut found, mut start) = (Vec::new(), 0);
    let is_word = |letter: char| letter.is_ascii_alphanumeric() || letter == '_';
    while start < text.len() {
        let rest = &text[start..];
        let length = match rest.as_bytes() {
            [b'/', b'/', ..] => rest.find('\n').unwrap_or(rest.len()),
            [b'"', ..] => quoted(rest),
            [b'\'', b'\\', _, ..] => 3 + rest[3..].find('\'').map_or(0, |end| end + 1),
            [b'\'', _, b'\'', ..] => 3,
            [b':', b':', ..] => 2,
            _ => rest
                .find(|letter| !is_word(letter))
                .unwrap_or(rest.len())
                .max(1),
        };
        if rest.starts_with(|letter: char| is_word(letter) || "#()[]{}<>.:;,&!=-".contains(letter))
        {
            found.push((start, &rest[..length]));
        }
        start += length;
        start += text[start..].len()
            - text[start..]
                .trim_start_matches(|letter: char| !letter.is_ascii())
                .len();
    }
    found
}

fn quoted(rest: &str) -> usize {
    let mut letters = rest.bytes().enumerate().skip(1);
    while let Some((place, letter)) = letters.next() {
        match letter {
            b'"' => return place + 1,
            b'\\' => _ = letters.next(),
            _ => {}
        }
    }
    rest.len()
}

/// The module at the top of the crate that has a file.
fn module(file: &str) -> &str {
    file.split(['/', '\\', '.']).next().unwrap_or_default()
}

struct Text<'a> {
    file: &'a Path,
    tokens: Vec<(usize, &'a str)>,
    /// The place of each function's `fn`, its name as `Names` have it, and its body.
    functions: Vec<(usize, String, Range<usize>)>,
}

/// Functions: `.name` with a `self`, `Type::name` without one, and `file name` outside of a type.
type Names = HashSet<String>;

impl<'a> Text<'a> {
    fn new(file: &'a Path, text: &'a str) -> Text<'a> {
        let mut read = Text {
            file,
            tokens: tokens(text),
            functions: Vec::new(),
        };
        let mut item = (0..0, "");
        for place in 0..read.tokens.len() {
            let is_item = matches!(read.at(place), "impl" | "trait")
                && matches!(read.before(place), "" | "pub" | ";" | "}" | "]" | ")");
            if is_item && !item.0.contains(&place) {
                let body = read.body(place);
                item = (body.clone(), read.named(place, body.start));
            } else if read.at(place) == "fn" && read.at(place + 1) != "(" {
                let name = read.at(place + 1);
                let open = (place..)
                    .find(|place| matches!(read.at(*place), "(" | ""))
                    .unwrap_or(place);
                let has_self = (open..open + 5)
                    .take_while(|place| read.at(*place) != ":")
                    .any(|place| read.at(place) == "self");
                let name = match item.0.contains(&place) {
                    true if has_self => format!(".{name}"),
                    true => format!("{}::{name}", item.1),
                    false => format!("{} {name}", file.display()),
                };
                read.functions.push((place, name, read.body(place)));
            }
        }
        read
    }

    fn at(&self, place: usize) -> &'a str {
        self.tokens.get(place).map_or("", |token| token.1)
    }

    fn before(&self, place: usize) -> &'a str {
        place.checked_sub(1).map_or("", |place| self.at(place))
    }

    /// The place behind the group that opens here.
    fn behind(&self, place: usize) -> usize {
        let mut depth = 0;
        for now in place..self.tokens.len() {
            match self.at(now) {
                "(" | "[" | "{" => depth += 1,
                ")" | "]" | "}" => depth -= 1,
                _ => {}
            }
            if depth == 0 {
                return now + 1;
            }
        }
        self.tokens.len()
    }

    /// The group in braces behind this place, or the place of a `;` before it.
    fn body(&self, place: usize) -> Range<usize> {
        let mut now = place;
        loop {
            match self.at(now) {
                "(" | "[" => now = self.behind(now),
                "{" => return now..self.behind(now),
                ";" | "" => return now..now,
                _ => now += 1,
            }
        }
    }

    /// The type of an `impl`, or the name of a trait.
    fn named(&self, place: usize, end: usize) -> &'a str {
        let from = (place..end)
            .find(|place| self.at(*place) == "for")
            .unwrap_or(place)
            + 1;
        let mut depth = 0;
        for now in from..end {
            match self.at(now) {
                "<" => depth += 1,
                ">" => depth -= 1,
                "&" | "mut" => {}
                name if depth == 0 && self.at(now + 1) != "::" => return name,
                _ => {}
            }
        }
        ""
    }

    /// Whether a call of a function that waits begins at a place.
    fn waits(&self, place: usize, waiting: &Names) -> bool {
        let name = self.at(place);
        let is_name = name.starts_with(|letter: char| letter.is_ascii_lowercase() || letter == '_');
        if !is_name || self.at(place + 1) != "(" {
            return false;
        }
        let head = self.at(place.saturating_sub(2));
        match self.before(place) {
            "fn" => false,
            "." => waiting.contains(&format!(".{name}")),
            "::" if head.starts_with(|letter: char| letter.is_uppercase()) => {
                waiting.contains(&format!(".{name}"))
                    || waiting.contains(&format!("{head}::{name}"))
            }
            before => {
                let own = format!("{} {name}", self.file.display());
                if before != "::" && self.functions.iter().any(|function| function.1 == own) {
                    return waiting.contains(&own);
                }
                let renamed = self
                    .tokens
                    .windows(3)
                    .find(|it| it[1].1 == "as" && it[2].1 == name);
                let there = format!(" {}", renamed.map_or(name, |it| it[0].1));
                waiting.iter().any(|other| {
                    *other != own && other.ends_with(&there) && self.names(module(other))
                })
            }
        }
    }

    /// Whether a path of the text leads into a module at the top of the crate.
    fn names(&self, module: &str) -> bool {
        let leads = |it: &[(usize, &str)]| it[0].1 == "crate" && it[2].1 == module;
        self.tokens.windows(3).any(leads)
    }
}

/// The texts in which what steps waits, by the same names.
fn waiting(made: &BTreeMap<PathBuf, String>) -> BTreeMap<&PathBuf, String> {
    let texts: BTreeMap<_, _> = made
        .iter()
        .map(|(name, text)| (name, Text::new(name, text)))
        .collect();
    let mut names: Names = WAITING.map(String::from).into();
    loop {
        let functions = texts
            .values()
            .flat_map(|text| text.functions.iter().map(move |it| (text, it)));
        let calls = functions.filter(|(text, (_, name, body))| {
            !names.contains(name) && body.clone().any(|place| text.waits(place, &names))
        });
        let more: Vec<String> = calls.map(|(_, (_, name, _))| name.clone()).collect();
        if more.is_empty() {
            break;
        }
        names.extend(more);
    }
    made.iter()
        .map(|(name, text)| (name, rewritten(text, &texts[name], &names)))
        .collect()
}

fn rewritten(text: &str, read: &Text, names: &Names) -> String {
    let start = |place: usize| read.tokens.get(place).map_or(text.len(), |token| token.0);
    let mut edits: Vec<(Range<usize>, String)> = Vec::new();
    for (place, name, _) in &read.functions {
        if names.contains(name) {
            edits.push((start(*place)..start(*place), "async ".into()));
        }
    }
    for place in 0..read.tokens.len() {
        if read.waits(place, names) {
            let end = start(read.behind(place + 1) - 1) + 1;
            edits.push((end..end, ".await".into()));
        }
    }
    // What the crate has once goes, with the comment above it.
    let mut place = 0;
    while place < read.tokens.len() {
        let mut now = place;
        while !matches!(read.at(now), "struct" | "enum" | "impl" | ";" | "" | "{") {
            now = if read.at(now) == "[" {
                read.behind(now)
            } else {
                now + 1
            };
        }
        let body = read.body(now);
        let is_shared = |name: &str| SHARED.contains(&name);
        let new = match read.at(now) {
            "struct" | "enum" if is_shared(read.at(now + 1)) => Some(format!(
                "\npub use crate::{}::{};\n",
                module(read.file.to_str().unwrap_or_default()),
                read.at(now + 1)
            )),
            "impl" if is_shared(read.named(now, body.start)) => Some(String::new()),
            _ => None,
        };
        let behind = body.end.max(body.start + 1);
        if let Some(new) = new {
            let from = place.checked_sub(1).map_or(0, |last| start(last) + 1);
            let gone = from..start(behind - 1) + 1;
            edits.retain(|(edit, _)| !gone.contains(&edit.start));
            edits.push((gone, new));
        }
        place = behind;
    }
    edits.sort_by_key(|(range, _)| range.start);
    let (mut made, mut from) = (String::new(), 0);
    for (range, new) in edits {
        made += &text[from..range.start].replace("crate::", "crate::asynch::");
        made += &new;
        from = range.end;
    }
    made + &text[from..].replace("crate::", "crate::asynch::")
}

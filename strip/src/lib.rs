//! Makes plain Rust from proved sources, by leaving their contracts out.
//!
//! What is left out: ghost items and fields, the clauses of functions, `prove!`, `tactic`
//! attributes, `Drop` among derives and bounds, `impl Model` blocks of ghosts alone, labels that no
//! jump names, the `use` of ghosts from `std`, and the modules that a package has no use for, with
//! their `use` and with `doc(hidden)` on them. What is rewritten: the heads of paths, since the
//! crates become modules of one. A [`Package`] says what else is left out, written otherwise or
//! added in its sources. Every other token stands as it stood, and so do comments and lines. A word,
//! an attribute or a form that is not known here is refused with its file and line.
//!
//! `strip/checker.py`, which shares nothing with this crate, compares the two texts.
use std::fmt;

mod forms;
mod packages;
#[cfg(test)]
mod tests;
mod token;
mod tree;

pub use packages::{cli, ee_store};
pub use tree::{differing, made_files, modules, write};

type Words = &'static [&'static str];

/// What becomes of which crates.
#[derive(Default)]
pub struct Package {
    /// What makes the package, as the first line of each file says.
    pub maker: &'static str,
    pub crates: Vec<Crate>,
    /// The heads of paths that lead out of these crates, and what stands for them.
    pub heads: &'static [(&'static str, &'static str)],
    /// What stands for these tokens, wherever they follow each other.
    pub phrases: &'static [(Words, &'static str)],
    /// What stands for these texts. One place of one source has each.
    pub sayings: &'static [Saying],
    /// A line that each file has behind what its head says.
    pub prelude: &'static str,
    /// The macros that may stand.
    pub macros: Words,
    /// Attributes, names in derives and crates whose `use` is left out.
    pub attributes_left_out: Words,
    pub derives_left_out: Words,
    pub uses_left_out: Words,
    /// The heads of `impl` blocks that are left out, from behind the `impl` up to the `{`.
    pub impls_left_out: &'static [Words],
    /// The crates and stems of sources whose public functions become `const` and `must_use`.
    pub getters: &'static [(&'static str, &'static str)],
    /// The crate and the stem of a source, and a public function of it that becomes `must_use`.
    pub asked: &'static [(&'static str, &'static str, &'static str)],
    /// Whether a paragraph of a doc comment that begins with `Source: ours` is left out.
    pub hides_origins: bool,
}

/// A crate, and the modules of it that are left out.
pub struct Crate {
    pub name: String,
    pub left_out: Vec<String>,
}

impl Crate {
    fn has_not(&self, module: &str) -> bool {
        self.left_out.iter().any(|name| name == module)
    }
}

/// A text that a package says otherwise: its beginning, letters and digits if there are any, its
/// end, and what stands for the three.
pub struct Saying {
    pub begins: &'static str,
    pub ends: &'static str,
    pub new: &'static str,
}

/// Something that is not known, with its file, and its line where it has one.
#[derive(Debug, PartialEq, Eq)]
pub struct Refusal {
    pub file: String,
    pub line: Option<usize>,
    pub why: String,
}

impl fmt::Display for Refusal {
    fn fmt(&self, f: &mut fmt::Formatter<'_>) -> fmt::Result {
        match self.line {
            Some(line) => write!(f, "{}:{line}: {}", self.file, self.why),
            None => write!(f, "{}: {}", self.file, self.why),
        }
    }
}

impl std::error::Error for Refusal {}

impl Refusal {
    fn of(file: impl Into<String>, why: impl Into<String>) -> Refusal {
        Refusal {
            file: file.into(),
            line: None,
            why: why.into(),
        }
    }
}

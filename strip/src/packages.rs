//! The packages that are made of the sources.
use super::{Crate, Package, Refusal, Saying};
use std::fs;
use std::path::Path;

/// The program at a desk: the crates of `crates.txt` up to `ee`, without their laws. Rattle's own
/// `std` and its `toml` are the module `rattle`, which is written by hand, as its names are the
/// prelude of each file.
pub fn cli(top: &Path) -> Result<Package, Refusal> {
    Ok(Package {
        maker: "strip",
        crates: product(top)?,
        heads: &[("std", "crate::rattle"), ("toml", "crate::rattle::toml")],
        phrases: &[
            // A formatter of Rust has a lifetime, where one of Rattle has its writer as a parameter.
            (&["fmt", "<", "W", ":", "fmt", "::", "Write", ">"], "fmt"),
            (&["fmt", "::", "Formatter", "<", "W", ">"], "fmt::Formatter<'_>"),
            // These of Rust take no allocator, and no other method may have their names.
            (&[".", "collect", "("], ".collect_in("),
            (&[".", "to_ascii_uppercase", "("], ".to_ascii_uppercase_in("),
            // `src/main.rs` calls it.
            (&["fn", "main", "("], "pub fn main("),
        ],
        // What the proved program says of itself, and this one may not.
        sayings: &[
            Saying {
                begins: "(rattle logic ",
                ends: ")",
                new: "(the proved sources with their contracts left out, compiled by rustc; not the proved program)",
            },
            Saying {
                begins: "over images as text, ",
                ends: "\n",
                new: "over images as text, in plain Rust\n",
            },
            Saying {
                begins: "tells the version, and the toolchain that it is proved with",
                ends: "\n",
                new: "tells the version, and that this is not the proved program\n",
            },
            Saying {
                begins: "and the toolchain that it is proved with, in a line",
                ends: ".",
                new: "and what it is, in a line.",
            },
        ],
        prelude: "use crate::rattle::prelude::*;",
        macros: &["format", "matches", "unreachable", "vec", "write", "writeln"],
        // `thiserror` makes texts of faults for other programs. This one prints those of `fault_line`.
        attributes_left_out: &["error", "rattlefmt", "tactic"],
        derives_left_out: &["Drop", "Error"],
        uses_left_out: &["thiserror"],
        ..Package::default()
    })
}

fn product(top: &Path) -> Result<Vec<Crate>, Refusal> {
    let list = fs::read_to_string(top.join("crates.txt"))
        .map_err(|fault| Refusal::of("crates.txt", fault.to_string()))?;
    let mut crates = Vec::new();
    for line in list
        .lines()
        .filter(|line| !line.is_empty() && !line.starts_with('#'))
    {
        let name = line.split([':', ' ']).next().unwrap_or_default();
        let folder = top.join("crates").join(name).join("src");
        crates.push(Crate {
            name: name.into(),
            left_out: if has_laws(&folder) {
                vec!["laws".into()]
            } else {
                Vec::new()
            },
        });
        if name == "ee" {
            return Ok(crates);
        }
    }
    Err(Refusal::of("crates.txt", "no crate `ee`"))
}

/// Whether a module of the laws lies in a folder or below it.
fn has_laws(folder: &Path) -> bool {
    let entries = fs::read_dir(folder).into_iter().flatten().flatten();
    entries
        .map(|entry| entry.path())
        .any(|path| has_laws(&path) || path.ends_with("laws.rt"))
}

/// The store for firmware. Modules that firmware has no use for stay behind. The package stands on
/// nothing, so that `std` has no place in it but for ghosts.
pub fn ee_store() -> Package {
    let without = |name: &str, left_out: &str| Crate {
        name: name.into(),
        left_out: left_out.split_whitespace().map(String::from).collect(),
    };
    Package {
        maker: "strip",
        crates: vec![
            without("ee_flash", "cells fuse laws memory"),
            without("ee_codec", ""),
            without("ee_pages", "judging laws"),
            without("ee_core", "laws"),
            without("ee_records", "laws"),
            without(
                "ee_index",
                "costs gathering guessing index indexed inner looking slot_index",
            ),
            without("ee_nor", "laws"),
        ],
        macros: &["matches"],
        attributes_left_out: &["tactic"],
        derives_left_out: &["Drop"],
        // No address is the one to begin with.
        impls_left_out: &[&["Default", "for", "Address"]],
        getters: &[
            ("ee_codec", "address"),
            ("ee_flash", "shape"),
            ("ee_flash", "word"),
        ],
        // What a caller may see of an index is asked for its answer.
        asked: &[("ee_index", "lent_index", "is_given_up")],
        hides_origins: true,
        ..Package::default()
    }
}

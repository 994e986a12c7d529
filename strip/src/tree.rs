//! The files of a package.
use super::forms::Source;
use super::{Crate, Package, Refusal};
use std::collections::BTreeMap;
use std::fs;
use std::io;
use std::path::{Path, PathBuf};

/// Each file that is made of the sources below the top of the repository, by its path in the
/// package, with its text.
pub fn made_files(package: &Package, top: &Path) -> Result<BTreeMap<PathBuf, String>, Refusal> {
    let mut made = BTreeMap::new();
    let mut said = vec![false; package.sayings.len()];
    for home in &package.crates {
        let place = format!("crates/{}/src", home.name);
        let folder = top.join(&place);
        let files = files_below(&folder).map_err(|fault| Refusal::of(&place, fault.to_string()))?;
        let mut missing = home
            .left_out
            .iter()
            .filter(|name| !files.iter().any(|path| stem(path) == **name));
        if let Some(name) = missing.next() {
            return Err(Refusal::of(place, format!("no module {name}")));
        }
        for path in files {
            let name = path.strip_prefix(&folder).unwrap_or(&path);
            if is_left_out(home, name) {
                continue;
            }
            let file = format!("{place}/{}", name.display());
            if name.extension().is_none_or(|extension| extension != "rt") {
                return Err(Refusal::of(file, "no source file"));
            }
            let source =
                fs::read_to_string(&path).map_err(|fault| Refusal::of(&file, fault.to_string()))?;
            let text = made_file(package, home, &file, stem(&path), &source, &mut said)?;
            let is_top = name == Path::new("lib.rt") || name == Path::new("main.rt");
            let name = if is_top {
                "mod.rs".into()
            } else {
                name.with_extension("rs")
            };
            made.insert(Path::new(&home.name).join(name), text);
        }
    }
    match said.iter().position(|is_said| !is_said) {
        Some(place) => Err(Refusal::of(
            "crates",
            format!("no source has {:?}", package.sayings[place].begins),
        )),
        None => Ok(made),
    }
}

/// Whether a source is of a module that is left out, or of one within it.
fn is_left_out(home: &Crate, name: &Path) -> bool {
    let modules = name.with_extension("");
    let mut parts = modules.iter().filter_map(|part| part.to_str());
    parts.any(|module| home.has_not(module))
}

fn stem(path: &Path) -> &str {
    path.file_stem()
        .and_then(|stem| stem.to_str())
        .unwrap_or_default()
}

/// What is made of a source. `said` tells of each of the package's sayings whether a source had it.
fn made_file(
    package: &Package,
    home: &Crate,
    file: &str,
    stem: &str,
    source: &str,
    said: &mut [bool],
) -> Result<String, Refusal> {
    let mut text = Source::new(package, home, file, stem, source).stripped()?;
    for (saying, is_said) in package.sayings.iter().zip(said) {
        let mut from = 0;
        while let Some(found) = text[from..].find(saying.begins) {
            let start = from + found;
            let behind = &text[start + saying.begins.len()..];
            let end = behind.trim_start_matches(|letter: char| letter.is_ascii_alphanumeric());
            from = text.len() - behind.len();
            if let Some(rest) = end.strip_prefix(saying.ends) {
                if std::mem::replace(is_said, true) {
                    return Err(Refusal::of(
                        file,
                        format!("{:?} stands twice", saying.begins),
                    ));
                }
                let end = text.len() - rest.len();
                text.replace_range(start..end, saying.new);
                from = start + saying.new.len();
            }
        }
    }
    let head = format!(
        "// Made by {} from {file}. Change that file.\n// SPDX-License-Identifier: MIT OR Apache-2.0\n",
        package.maker
    );
    if package.prelude.is_empty() {
        return Ok(head + &text);
    }
    let lines = text.split_inclusive('\n');
    let above = lines.take_while(|line| line.starts_with("//!") || line.starts_with("#!["));
    let (above, below) = text.split_at(above.map(str::len).sum());
    Ok(format!("{head}{above}{}\n{below}", package.prelude))
}

/// A file that names each crate of a package as a module, for an `include!`.
pub fn modules(package: &Package) -> String {
    let mut names: Vec<&str> = package
        .crates
        .iter()
        .map(|home| home.name.as_str())
        .collect();
    names.sort();
    names.iter().map(|name| format!("mod {name};\n")).collect()
}

/// Writes what is made of a package below a folder, and removes there, in the folders of its crates,
/// what is not. A file that has its text already is left alone.
pub fn write(package: &Package, made: &BTreeMap<PathBuf, String>, folder: &Path) -> io::Result<()> {
    for name in differing(package, made, folder) {
        let path = folder.join(&name);
        match made.get(&name) {
            Some(text) => {
                fs::create_dir_all(path.parent().unwrap_or(folder))?;
                fs::write(path, text)?;
            }
            None => fs::remove_file(path)?,
        }
    }
    Ok(())
}

/// The files below a folder that are missing, have another text than the one that is made, or stand
/// in the folder of a crate and aren't made.
pub fn differing(
    package: &Package,
    made: &BTreeMap<PathBuf, String>,
    folder: &Path,
) -> Vec<PathBuf> {
    let folders = package.crates.iter().map(|home| folder.join(&home.name));
    let there = folders.flat_map(|folder| files_below(&folder).unwrap_or_default());
    let strange = there
        .filter_map(|path| path.strip_prefix(folder).ok().map(Path::to_path_buf))
        .filter(|name| !made.contains_key(name));
    let other = made.iter().filter(|(name, text)| {
        !fs::read(folder.join(name)).is_ok_and(|there| there == text.as_bytes())
    });
    strange.chain(other.map(|(name, _)| name.clone())).collect()
}

/// The files in a folder and below it, in order.
pub(crate) fn files_below(folder: &Path) -> io::Result<Vec<PathBuf>> {
    let mut found = Vec::new();
    for entry in fs::read_dir(folder)? {
        let path = entry?.path();
        if path.is_dir() {
            found.extend(files_below(&path)?);
        } else {
            found.push(path);
        }
    }
    found.sort();
    Ok(found)
}

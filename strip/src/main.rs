//! Makes plain Rust of the proved sources. It is called at the top of the repository:
//!
//! - `strip cli OUT` writes the modules of the program below `OUT`, as a build of `cli` does;
//! - `strip firmware` writes the store for firmware in its place, `firmware/rust/ee-store/src`;
//! - `strip firmware --compare` says whether it stands there as it would be made.
use std::collections::BTreeMap;
use std::env;
use std::error::Error;
use std::path::{Path, PathBuf};
use std::process::ExitCode;
use strip::Package;

const USAGE: &str = "strip cli OUT | strip firmware [--compare]";

fn main() -> ExitCode {
    let words: Vec<String> = env::args().skip(1).collect();
    let words: Vec<&str> = words.iter().map(String::as_str).collect();
    let done = match words[..] {
        ["cli", out] => cli(Path::new(out)),
        ["firmware"] => firmware(write),
        ["firmware", "--compare"] => firmware(compare),
        _ => {
            eprintln!("{USAGE}");
            return ExitCode::from(2);
        }
    };
    match done {
        Ok(said) => {
            println!("{said}");
            ExitCode::SUCCESS
        }
        Err(fault) => {
            eprintln!("{fault}");
            ExitCode::FAILURE
        }
    }
}

type Files = BTreeMap<PathBuf, String>;
type Said = Result<String, Box<dyn Error>>;

fn cli(out: &Path) -> Said {
    let top = Path::new(".");
    let package = strip::cli(top)?;
    write(&package, &strip::made_files(&package, top)?, out)
}

/// Does something with the files of the package and the folder in which they stand.
fn firmware(act: fn(&Package, &Files, &Path) -> Said) -> Said {
    let package = strip::ee_store();
    let made = strip::made_files(&package, Path::new("."))?;
    act(&package, &made, Path::new("firmware/rust/ee-store/src"))
}

fn write(package: &Package, made: &Files, folder: &Path) -> Said {
    strip::write(package, made, folder)?;
    Ok(format!("{}: {} files made", folder.display(), made.len()))
}

fn compare(package: &Package, made: &Files, folder: &Path) -> Said {
    let differing = strip::differing(package, made, folder);
    if differing.is_empty() {
        return Ok(format!(
            "{}: {} files, as made",
            folder.display(),
            made.len()
        ));
    }
    let named: Vec<_> = differing
        .iter()
        .map(|path| path.display().to_string())
        .collect();
    Err(format!("{}: other than made: {}", folder.display(), named.join(" ")).into())
}

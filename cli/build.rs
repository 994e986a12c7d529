//! Makes the modules of the program from the proved sources, by leaving their contracts out.
use std::env;
use std::fs;
use std::path::{Path, PathBuf};
use strip::Refusal;

fn main() {
    let out = PathBuf::from(env::var_os("OUT_DIR").expect("cargo names a folder"));
    // The sources lie beside this package, and in it where it is published.
    let top = if Path::new("crates.txt").exists() {
        "."
    } else {
        ".."
    };
    if let Err(refusal) = make(Path::new(top), &out) {
        println!("cargo::error={refusal}");
    }
}

fn make(top: &Path, out: &Path) -> Result<(), Refusal> {
    println!(
        "cargo::rerun-if-changed={}",
        top.join("crates.txt").display()
    );
    let package = strip::cli(top)?;
    for home in &package.crates {
        let folder = top.join("crates").join(&home.name).join("src");
        println!("cargo::rerun-if-changed={}", folder.display());
    }
    let made = strip::made_files(&package, top)?;
    let wrote = strip::write(&package, &made, out);
    wrote
        .and_then(|()| fs::write(out.join("crates.rs"), strip::modules(&package)))
        .map_err(|fault| Refusal {
            file: out.display().to_string(),
            line: None,
            why: fault.to_string(),
        })
}

//! Each form is left out or written otherwise, and what is not known is refused with its line.
use crate::forms::Source;
use crate::{cli, differing, ee_store, made_files, Crate, Package, Refusal};
use std::collections::BTreeMap;
use std::fs;
use std::path::{Path, PathBuf};

fn top() -> &'static Path {
    Path::new(concat!(env!("CARGO_MANIFEST_DIR"), "/.."))
}

fn home(name: &str) -> Crate {
    Crate {
        name: name.into(),
        left_out: vec!["laws".into()],
    }
}

fn package() -> Package {
    Package {
        crates: vec![home("ee_core"), home("ee_flash")],
        ..cli(top()).expect("a package")
    }
}

fn stripped_by(package: &Package, stem: &str, text: &str) -> Result<String, Refusal> {
    Source::new(package, &home("ee_core"), "x.rt", stem, text).stripped()
}

/// Holds what is made of each text to the one beside it.
fn each(package: &Package, cases: &[(&str, &str)]) {
    for (text, made) in cases {
        let found = stripped_by(package, "store", text);
        assert_eq!(found.as_deref(), Ok(*made), "{text}");
    }
}

/// Holds each text to be refused at a line for a reason with these words.
fn refused(package: &Package, cases: &[(&str, usize, &str)]) {
    for (text, line, why) in cases {
        match stripped_by(package, "store", text) {
            Ok(made) => panic!("{text} was not refused: {made}"),
            Err(refusal) => {
                assert_eq!(refusal.line, Some(*line), "{text}: {refusal}");
                assert!(refusal.why.contains(why), "{text}: {refusal}");
            }
        }
    }
}

#[test]
fn ghosts() {
    each(
        &package(),
        &[
            ("ghost use A.{b, ◌≡◌};\n\nfn a() {}\n", "fn a() {}\n"),
            (
                "fn a() {}\n\n// Of b.\nghost b = { \"}\" };\n\nfn c() {}\n",
                "fn a() {}\n\nfn c() {}\n",
            ),
            (
                "trait T {\n    ghost a: { Self → Type 0 };\n\n    fn b();\n}\n",
                "trait T {\n    fn b();\n}\n",
            ),
            (
                "trait T {\n    fn b();\n\n    ghost a: { 1 };\n}\n",
                "trait T {\n    fn b();\n}\n",
            ),
            (
                "struct S {\n    a: u8,\n    // Of b.\n    ghost b: { 1 },\n}\n",
                "struct S {\n    a: u8,\n}\n",
            ),
            (
                "fn a() {\n    // It holds.\n    prove!(one(2));\n    b()\n}\n",
                "fn a() {\n    b()\n}\n",
            ),
        ],
    );
    refused(
        &package(),
        &[
            ("\nghost let a = { 1 };", 2, "a ghost of no known form"),
            ("ghost one = 1;", 1, "a bracket was expected"),
            ("ghost one = { 1 }", 1, "a ghost of no known form"),
            ("ghost one = { 1 ", 1, "`{` is not closed"),
            ("ghost use A.{b}", 1, "no `;` behind this"),
            (
                "struct S {\n    a: u8,\n    ghost b = { 1 },\n}",
                3,
                "a ghost field of no known form",
            ),
            ("fn a() { ghost b: { 1 }, }", 1, "a ghost of no known form"),
            ("fn a() { let b = prove!(true); }", 1, "the macro `prove`"),
            (
                "fn a() { prove!(true) }",
                1,
                "a `prove!` that is no statement",
            ),
        ],
    );
}

#[test]
fn functions() {
    each(
        &package(),
        &[
            ("fn a(b: u8) -> u8\n    requires { b }\n    // So it is.\n    ensures c { d ≡ { 1 } }\n{\n    b\n}\n",
             "fn a(b: u8) -> u8 {\n    b\n}\n"),
            ("trait T {\n    fn a<L: Fn() -> u8>(b: [u8; 2])\n        ensures { b };\n}\n",
             "trait T {\n    fn a<L: Fn() -> u8>(b: [u8; 2]);\n}\n"),
            ("fn a(b: fmt::Formatter<W>) {}\n", "fn a(b: fmt::Formatter<'_>) {}\n"),
            ("fn fmt<W: fmt::Write>(&self) {\n    a.collect(b)\n}\n", "fn fmt(&self) {\n    a.collect_in(b)\n}\n"),
        ],
    );
    refused(
        &package(),
        &[
            (
                "fn a() requires { 1 } -> u32 { 1 }",
                1,
                "`-` behind the clauses",
            ),
            ("fn a() { let requires = 1; }", 1, "`requires` in a place"),
            ("fn a() -> u8", 1, "a function without an end"),
            ("type A = fn(u8);", 1, "a function without a name"),
            ("fn a", 1, "a bracket was expected"),
            ("fn a<T(b: T) {}", 1, "`<` is not closed"),
        ],
    );
}

#[test]
fn attributes() {
    each(
        &package(),
        &[
            (
                "//! Of a.\n#![tactic(auto)]\n\nmod a;\n",
                "//! Of a.\n\nmod a;\n",
            ),
            ("#[tactic(arith)]\nfn a() {}\n", "fn a() {}\n"),
            (
                "#[error(\"no\")]\n#[inline]\nfn a() {}\n",
                "#[inline]\nfn a() {}\n",
            ),
            ("#[derive(Drop)]\nenum A {}\n", "enum A {}\n"),
            ("#[derive(Drop, Error)]\nenum A {}\n", "enum A {}\n"),
            (
                "#[derive(Clone, Drop)]\nenum A {}\n",
                "#[derive(Clone)]\nenum A {}\n",
            ),
            (
                "#[derive(Clone, Drop, Eq)]\nenum A {}\n",
                "#[derive(Clone, Eq)]\nenum A {}\n",
            ),
            (
                "#[derive(Drop, Eq)]\nenum A {}\n",
                "#[derive(Eq)]\nenum A {}\n",
            ),
            (
                "// Laws.\n#[doc(hidden)]\npub mod laws;\nmod a;\n",
                "mod a;\n",
            ),
            (
                "#[doc(hidden)]\npub mod a;\n",
                "#[doc(hidden)]\npub mod a;\n",
            ),
        ],
    );
    refused(
        &package(),
        &[
            ("\n\n#[no_mangle]", 3, "the attribute `no_mangle`"),
            ("#![feature(odd)]", 1, "the attribute `feature`"),
            ("#[doc(inner)]", 1, "the attribute `doc`"),
            ("#[doc(hidden)]\nmod a;", 1, "`doc(hidden)`"),
            (
                "#[derive(Clone, Drop = 1)]",
                1,
                "a `derive` of no known form",
            ),
            ("#[derive()]", 1, "a `derive` of no known form"),
            ("#[derive]", 1, "a `derive` of no known form"),
            ("#[derive(Drop, Error, Debug)]", 1, "of two names"),
            ("# odd", 1, "a bracket was expected"),
        ],
    );
}

#[test]
fn bounds_and_blocks() {
    each(
        &package(),
        &[
            ("struct S<F: A + Drop, L: B + Drop = C> {\n    a: F,\n}\n", "struct S<F: A, L: B = C> {\n    a: F,\n}\n"),
            ("struct A<L: B + Drop = C>(L);\n", "struct A<L: B = C>(L);\n"),
            ("impl<F: A> Model for S<F> {\n    ghost a = { 1 };\n    ghost use B;\n}\n\nimpl A {}\n", "impl A {}\n"),
            ("fn a() {\n    'b: loop {\n        break;\n    }\n}\n", "fn a() {\n    loop {\n        break;\n    }\n}\n"),
            ("fn a() {\n    'b: loop {\n        break 'b;\n    }\n}\n", "fn a() {\n    'b: loop {\n        break 'b;\n    }\n}\n"),
        ],
    );
    refused(
        &package(),
        &[
            ("trait Closed: Drop {}", 1, "`Drop` in a place"),
            ("struct Closed<L: Drop = u8>(L);", 1, "`Drop` in a place"),
            (
                "impl Model for A {\n    ghost a = { 1 };\n    fn b() {}\n}",
                3,
                "more than ghosts",
            ),
            ("impl Drop for A {}", 1, "`Drop` in a place"),
        ],
    );
}

#[test]
fn modules_and_paths() {
    each(
        &package(),
        &[
            ("pub mod laws;\nmod a;\n", "mod a;\n"),
            ("pub(crate) use laws::{a};\nuse a::b;\n", "use a::b;\n"),
            ("use thiserror::Error;\nuse std::fmt;\nuse std::marker::{Brand, Model};\n", "use crate::rattle::fmt;\n"),
            ("use crate::a::b;\nuse ee_flash::Flash;\nuse toml::Value;\n",
             "use crate::ee_core::a::b;\nuse crate::ee_flash::Flash;\nuse crate::rattle::toml::Value;\n"),
            ("fn a() {\n    matches!(b, C) && !d\n}\n", "fn a() {\n    matches!(b, C) && !d\n}\n"),
            ("fn a() {\n    if !(b) {}\n}\n", "fn a() {\n    if !(b) {}\n}\n"),
        ],
    );
    refused(
        &package(),
        &[
            ("mod inner { pub fn none() {} }", 1, "no `;` behind this"),
            (
                "mod inner { fn a() { b(); } }",
                1,
                "a module in the file of another",
            ),
            ("use crate::laws::kept;", 1, "a path into `laws`"),
            (
                "let flash = ee_flash;",
                1,
                "the crate `ee_flash` without a path",
            ),
            ("use ee_flash;", 1, "the crate `ee_flash` without a path"),
            ("println!(\"pages\");", 1, "the macro `println`"),
            ("extern crate alloc;", 1, "`extern`"),
            ("static COUNT: usize = 0;", 1, "`static`"),
            ("unsafe fn wild() {}", 1, "`unsafe`"),
        ],
    );
    refused(
        &ee_store(),
        &[("use std::alloc::Global;", 1, "a `use` of `std`")],
    );
}

#[test]
fn signs() {
    let kept = "const A: &[u8] = b\"\\\" ghost {\"; // ghost {\nconst B: [u8; 3] = [b'\\'', b'{', b'\\x41'];\n";
    each(
        &package(),
        &[
            (kept, kept),
            (
                "const A: &str = \"a \n\n\nb\";\n",
                "const A: &str = \"a \n\n\nb\";\n",
            ),
        ],
    );
    refused(
        &package(),
        &[
            ("let here = 1 ≡ 1;", 1, "`≡` is no sign"),
            ("\n/* ghost */", 2, "`/*` is no sign"),
            ("let a = r\"\\\";", 1, "`r` is no sign"),
            ("let a = br#\"\"#;", 1, "`b` is no sign"),
            ("let a = \"b;", 1, "`\"` is no sign"),
        ],
    );
    let zero = stripped_by(&package(), "a", "fn a\0() {}").expect_err("a byte 0");
    assert_eq!(zero.to_string(), "x.rt: a byte 0");
}

#[test]
fn what_a_package_adds() {
    let package = Package {
        getters: &[("ee_core", "shape")],
        asked: &[("ee_core", "shape", "is_a")],
        ..ee_store()
    };
    let text = "impl Default for Address {\n    fn default() {}\n}\n\nimpl A {\n    /// A.\n    ///\n    /// Source: ours.\n    \
                pub fn a() {}\n    pub const fn b() {}\n    fn c() {}\n}\n";
    let made = "impl A {\n    /// A.\n    #[must_use]\n    pub const fn a() {}\n    #[must_use]\n    pub const fn b() {}\n    \
                fn c() {}\n}\n";
    assert_eq!(stripped_by(&package, "shape", text).as_deref(), Ok(made));
    let asked = Package {
        getters: &[],
        ..package
    };
    assert_eq!(
        stripped_by(&asked, "shape", "pub fn is_a() {}\n").as_deref(),
        Ok("#[must_use]\npub fn is_a() {}\n")
    );
    refused(
        &asked,
        &[(
            "fn a() {}\n/// Source: ours.\nfn b() {}",
            2,
            "no empty line above it",
        )],
    );
}

/// A line that is put before another one in a source of the program, or of the store, is refused
/// there.
#[test]
fn sources_with_a_line_more() {
    let store = [
        (
            "ee_flash/src/shape.rt",
            "impl Shape {",
            "unsafe fn wild() {}",
        ),
        (
            "ee_flash/src/shape.rt",
            "    ghost Value = { Size };",
            "    fn shown(&self) {}",
        ),
        (
            "ee_flash/src/lib.rt",
            "mod shape;",
            "mod inner { pub fn none() {} }",
        ),
        (
            "ee_flash/src/word.rt",
            "pub enum Word {",
            "#[derive(Clone, Drop = 1)]",
        ),
        ("ee_core/src/lib.rt", "mod marking;", "#[doc(hidden)]"),
        (
            "ee_nor/src/pairs.rt",
            "    nor: N,",
            "    ghost blank = { 1 },",
        ),
        (
            "ee_nor/src/pairs.rt",
            "        self.nor",
            "        ghost blank: { 1 },",
        ),
        (
            "ee_nor/src/pairs.rt",
            "    nor: N,",
            "    static count: usize,",
        ),
    ];
    for (file, before, line) in store {
        refused_in(&ee_store(), file, before, line);
    }
    let program = [
        (
            "ee_text/src/numbers.rt",
            "use itoa::Buffer;",
            "use crate::laws::kept;",
        ),
        ("ee_interface/src/fault.rt", "pub enum Fault {", "#[from]"),
        (
            "ee_interface/src/fault.rt",
            "impl fmt::Display for File {",
            "use ee_text;",
        ),
        (
            "ee_interface/src/command_line/words.rt",
            "fn form_of_flag(word: &str) -> Option<Form>",
            "fn odd<T: Drop>() {}",
        ),
        ("ee/src/main.rt", "use std::env;", "#![feature(odd)]"),
    ];
    for (file, before, line) in program {
        refused_in(&cli(top()).expect("a package"), file, before, line);
    }
}

fn refused_in(package: &Package, file: &str, before: &str, line: &str) {
    let text = fs::read_to_string(top().join("crates").join(file)).expect(file);
    let mut lines: Vec<&str> = text.lines().collect();
    let place = lines
        .iter()
        .position(|other| *other == before)
        .expect(before);
    lines.insert(place, line);
    let home = package
        .crates
        .iter()
        .find(|home| file.starts_with(&format!("{}/", home.name)))
        .expect(file);
    let stem = Path::new(file)
        .file_stem()
        .and_then(|stem| stem.to_str())
        .expect(file);
    let found = Source::new(package, home, file, stem, &lines.join("\n")).stripped();
    assert_eq!(found.expect_err(line).line, Some(place + 1), "{line}");
}

/// A source that ends too early, or without one of its tokens, is stripped or refused: nothing
/// panics.
#[test]
fn damaged_sources() {
    let package = cli(top()).expect("a package");
    for home in package
        .crates
        .iter()
        .filter(|home| ["ee_core", "ee_interface"].contains(&home.name.as_str()))
    {
        let folder = top().join("crates").join(&home.name).join("src");
        for path in super::tree::files_below(&folder).expect("a folder") {
            let text = fs::read_to_string(&path).expect("a source");
            for token in super::token::tokens(&text).iter().step_by(97) {
                let without = [&text[..token.start], &text[token.end()..]].concat();
                for text in [&text[..token.end()], &without] {
                    _ = Source::new(&package, home, "x.rt", "x", text).stripped();
                }
            }
        }
    }
}

/// Gives the files of a crate `ee_core` in a folder of its own, and strips them.
fn made_of(
    name: &str,
    files: &[(&str, &str)],
    package: &Package,
) -> Result<BTreeMap<PathBuf, String>, String> {
    let folder = std::env::temp_dir().join(format!("strip-{}-{name}", std::process::id()));
    for (file, text) in files {
        let path = folder.join("crates/ee_core/src").join(file);
        fs::create_dir_all(path.parent().expect("a folder")).expect("a folder");
        fs::write(path, text).expect("a file");
    }
    let made = made_files(package, &folder).map_err(|refusal| refusal.to_string());
    fs::remove_dir_all(folder).expect("the folder");
    made
}

#[test]
fn trees() {
    let saying = crate::Saying {
        begins: "(logic ",
        ends: ")",
        new: "(none)",
    };
    let package = Package {
        maker: "strip",
        crates: vec![home("ee_core")],
        sayings: Box::leak(Box::new([saying])),
        prelude: "use p;",
        ..Package::default()
    };
    let laws = ("laws.rt", "");
    let made = made_of(
        "good",
        &[
            ("lib.rt", "//! A (logic x).\n//! B.\nmod a;\n"),
            laws,
            ("a/b.rt", "// (logic -)\n"),
        ],
        &package,
    );
    let made = made.expect("what is made");
    let files: Vec<_> = made
        .iter()
        .map(|(path, text)| (path.to_str().expect("a name"), text.as_str()))
        .collect();
    assert_eq!(
        files,
        [
            ("ee_core/a/b.rs", "// Made by strip from crates/ee_core/src/a/b.rt. Change that file.\n// SPDX-License-Identifier: MIT OR Apache-2.0\nuse p;\n// (logic -)\n"),
            ("ee_core/mod.rs", "// Made by strip from crates/ee_core/src/lib.rt. Change that file.\n// SPDX-License-Identifier: MIT OR Apache-2.0\n//! A (none).\n//! B.\nuse p;\nmod a;\n"),
        ]
    );
    let says = ("a.rt", "// (logic 1)\n");
    type Files<'a> = &'a [(&'a str, &'a str)];
    let wrong: [(&str, Files, &str); 5] = [
        ("none", &[laws], "crates: no source has \"(logic \""),
        (
            "twice",
            &[laws, says, ("b.rt", says.1)],
            "crates/ee_core/src/b.rt: \"(logic \" stands twice",
        ),
        ("no-laws", &[says], "crates/ee_core/src: no module laws"),
        (
            "strange",
            &[laws, ("a.txt", "")],
            "crates/ee_core/src/a.txt: no source file",
        ),
        (
            "line",
            &[laws, ("a.rt", "\nref a")],
            "crates/ee_core/src/a.rt:2: `ref` in a place where it is not known",
        ),
    ];
    for (name, files, why) in wrong {
        assert_eq!(made_of(name, files, &package).expect_err(name), why);
    }
}

/// The committed store is what is made.
#[test]
fn the_store_as_committed() {
    let package = ee_store();
    let made = made_files(&package, top()).expect("what is made");
    let folder = top().join("firmware/rust/ee-store/src");
    assert_eq!(differing(&package, &made, &folder), [] as [PathBuf; 0]);
}

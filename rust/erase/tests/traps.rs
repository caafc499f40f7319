//! Small sources on which an eraser may stumble, each with the Rust that is left.

use erase::{Crates, ErasedFile, Stop};
use std::fs;
use std::path::{Path, PathBuf};

/// Erases a crate of these files, each a path without its ending and a text.
fn erased(test: &str, files: &[(&str, &str)]) -> Result<Vec<ErasedFile>, Stop> {
    erased_without(test, files, &[])
}

/// Does so without modules that are left out.
fn erased_without(
    test: &str,
    files: &[(&str, &str)],
    left_out: &[&str],
) -> Result<Vec<ErasedFile>, Stop> {
    let top = PathBuf::from(env!("CARGO_TARGET_TMPDIR")).join(test);
    let _ = fs::remove_dir_all(&top);
    let write = |path: &Path, text: &str| {
        fs::create_dir_all(path.parent().expect("a folder")).expect("it can be made");
        fs::write(path, text).expect("it can be written");
    };
    write(&top.join("crates.txt"), "trap:\n");
    write(&top.join("rust/fallible/src/lib.rs"), "");
    for (path, text) in files {
        write(
            &top.join("crates/trap/src").join(path).with_extension("rt"),
            text,
        );
    }
    Crates::of(&top, &["trap"])?.without(left_out).erase()
}

/// What is left of a crate of one file.
fn left(test: &str, source: &str) -> String {
    let files = erased(test, &[("lib", source)]).unwrap_or_else(|stop| panic!("{stop}"));
    files
        .into_iter()
        .find(|file| file.path == Path::new("trap.rs"))
        .expect("the file")
        .text
}

/// The line and the reason at which the eraser stops.
fn stop(test: &str, source: &str) -> (usize, String) {
    match erased(test, &[("lib", source)]) {
        Err(Stop::Source(_, line, what)) => (line, what),
        Err(stop) => panic!("{stop}"),
        Ok(_) => panic!("it doesn't stop: {source}"),
    }
}

#[test]
fn the_words_of_clauses_stay_in_texts_and_comments() {
    let source = "\
/// Returns what ensures { that },
/// and requires { nothing }.
pub fn told() -> &'static str {
    // ensures { this stays }
    \"
    requires { ghost use } \\\" ensures\"
}
";
    assert_eq!(left("words", source), source);
}

#[test]
fn braces_in_texts_and_letters_close_nothing() {
    let source = "\
pub fn brace(open: bool) -> (char, &'static str)
    ensures opens { IsTold \"}\" '}' { nested { deeply } } }
    ensures* closes { result ≡ \"}{\" }
{
    if open { ('{', \"}}\") } else { ('}', \"{ \\\"}\") }
}
";
    let rust = "\
pub fn brace(open: bool) -> (char, &'static str) {
    if open { ('{', \"}}\") } else { ('}', \"{ \\\"}\") }
}
";
    assert_eq!(left("braces", source), rust);
}

#[test]
fn a_backslash_that_is_escaped_escapes_no_quote() {
    let source = "pub fn f() -> &'static str\n    ensures { \"\\\\\" }\n{\n    \"\\\\\"\n}\n";
    let rust = "pub fn f() -> &'static str {\n    \"\\\\\"\n}\n";
    assert_eq!(left("backslash", source), rust);
}

#[test]
fn primes_lifetimes_and_letters_are_apart() {
    let source = "\
pub fn first<'a>(x: &'a [char]) -> &'a char
    requires { c' ≡ d' × x'y ≡ '}' }
{
    if x[0] == '\\'' { &'{' } else { &x[0] }
}
";
    let rust = "\
pub fn first<'a>(x: &'a [char]) -> &'a char {
    if x[0] == '\\'' { &'{' } else { &x[0] }
}
";
    assert_eq!(left("primes", source), rust);
}

#[test]
fn laws_ghost_items_and_models_go_with_their_docs() {
    let source = "\
//! A file.
#![tactic(auto)]

ghost use Rattle.specs.{◌≡◌};

/// Stays.
pub const ONE: u8 = 1;

/// Goes.
#[tactic(auto, using(crate::proofs::some))]
pub fn law(_x: u8)
    ensures { _x ≡ _x }
{}

impl Model for Thing {
    ghost view = { λ x. x };
}

/// Stays too.
pub struct Thing {
    pub kept: u8,
    /// Goes.
    ghost gone: u8,
}

impl Thing {
    /// Goes.
    ghost width: { Self → ℤ };

    /// Stays.
    fn kept(&self) {}
}

pub trait Only {
    ghost nothing = { 0 };
}
";
    let rust = "\
//! A file.

/// Stays.
pub const ONE: u8 = 1;

/// Stays too.
pub struct Thing {
    pub kept: u8,
}

impl Thing {
    /// Stays.
    fn kept(&self) {}
}

pub trait Only {}
";
    assert_eq!(left("laws", source), rust);
}

#[test]
fn comments_apart_from_what_is_cut_stay() {
    let source = "\
//! A file.
ghost use a.{b};

// A part.

/// Goes.
fn law()
    ensures { b }
{}

fn f() {}
";
    assert_eq!(
        left("comments", source),
        "//! A file.\n\n// A part.\n\nfn f() {}\n"
    );
}

#[test]
fn a_public_import_that_only_clauses_use_stays() {
    let source = "pub use a::b;\nuse a::c;\n\nfn f()\n    ensures { b c }\n{\n    g()\n}\n";
    assert_eq!(
        left("public", source),
        "pub use a::b;\n\nfn f() {\n    g()\n}\n"
    );
}

#[test]
fn an_empty_body_without_clauses_and_methods_without_a_body_stay() {
    let source = "\
pub trait Walk {
    fn step(&mut self)
        ensures { true };

    fn rest(&self) {}
}
";
    assert_eq!(
        left("bodies", source),
        source.replace("\n        ensures { true }", "")
    );
}

#[test]
fn a_brace_behind_bounds_stays_on_its_line() {
    let source = "\
pub fn held<T>(of: T) -> T
where
    T: Copy,
    ensures { result ≡ of }
{
    of
}
";
    assert_eq!(
        left("where", source),
        source.replace("    ensures { result ≡ of }\n", "")
    );
}

#[test]
fn bounds_by_drop_go_and_names_with_drop_stay() {
    let source = "\
#[derive(Drop)]
pub struct Dropped<T: Drop> {
    of: T,
}

#[derive(Clone, Drop, Debug)]
pub enum Drops {
    DropOne,
}

pub fn both<T: Drop + Copy, U: Copy + Drop, V: Dropper + Dropping>(of: T, _: U, _: V) -> T {
    of
}
";
    let rust = "\
pub struct Dropped<T> {
    of: T,
}

#[derive(Clone, Debug)]
pub enum Drops {
    DropOne,
}

pub fn both<T: Copy, U: Copy, V: Dropper + Dropping>(of: T, _: U, _: V) -> T {
    of
}
";
    assert_eq!(left("drops", source), rust);
}

#[test]
fn modules_of_laws_go_with_their_names() {
    let files = [
        (
            "lib",
            "pub mod kept;\npub mod laws;\n\npub use kept::one;\n",
        ),
        (
            "kept",
            "use crate::laws;\n\npub fn one() -> u8 {\n    1\n}\n",
        ),
        ("laws", "pub fn law()\n    ensures { 0 ≡ 0 }\n{}\n"),
    ];
    let files = erased("modules", &files).unwrap_or_else(|stop| panic!("{stop}"));
    let texts: Vec<_> = files
        .iter()
        .map(|file| (file.path.to_str(), file.text.as_str()))
        .collect();
    assert_eq!(
        texts[1..],
        [
            (Some("trap.rs"), "pub mod kept;\n\npub use kept::one;\n"),
            (Some("trap/kept.rs"), "pub fn one() -> u8 {\n    1\n}\n"),
        ]
    );
}

#[test]
fn a_function_that_imports_is_no_import() {
    let item = "pub fn one() -> u8 {\n    use core::cmp;\n    cmp::max(0, 1)\n}\n";
    let files = [("lib", "pub mod kept;\n"), ("kept", item)];
    let files = erased("imports", &files).unwrap_or_else(|stop| panic!("{stop}"));
    let texts: Vec<_> = files[1..].iter().map(|file| file.text.as_str()).collect();
    assert_eq!(texts, ["pub mod kept;\n", item]);
}

#[test]
fn a_module_that_is_left_out_takes_those_below_it_along() {
    let item = "pub const ONE: u8 = 1;\n";
    let files = [
        ("lib", "pub mod float;\npub mod floats;\n"),
        ("float", "pub mod below;\n"),
        ("float/below", "pub mod deep;\n"),
        ("float/below/deep", item),
        ("floats", item),
    ];
    let files = erased_without("left_out", &files, &["trap::float"])
        .unwrap_or_else(|stop| panic!("{stop}"));
    let texts: Vec<_> = files
        .iter()
        .map(|file| (file.path.to_str(), file.text.as_str()))
        .collect();
    assert_eq!(
        texts[1..],
        [
            (Some("trap.rs"), "pub mod floats;\n"),
            (Some("trap/floats.rs"), item),
        ]
    );
}

#[test]
fn an_exported_macro_is_imported_where_its_module_is_named() {
    let exported =
        "#[macro_export]\nmacro_rules! path {\n    () => {\n        $crate::path!()\n    };\n}\n";
    let files = [("lib", "mod macros;\n"), ("macros", exported)];
    let files = erased("exported", &files).unwrap_or_else(|stop| panic!("{stop}"));
    let texts: Vec<_> = files[1..].iter().map(|file| file.text.as_str()).collect();
    assert_eq!(
        texts,
        [
            "#[macro_use]\nmod macros;\npub(crate) use {path_macro as path};\n",
            "macro_rules! path_macro {\n    () => {\n        $crate::erased::trap::path!()\n    };\n}\n",
        ]
    );
}

#[test]
fn a_test_makes_its_runtime() {
    let source = "\
#[test]
fn of_lists(rt: HostRuntime) -> Result<(), Fail> {
    let list = [1].to_vec(rt.alloc())?;
    assert!(rt; list.len() == 1);
    Ok(())
}

#[test]
fn of_nothing() {}
";
    assert_eq!(
        left("runtime", source),
        "\
use crate::host::FallibleToVec as _;

#[test]
fn of_lists() -> Result<(), Fail> {
    let rt = crate::host::HostRuntime::new();
    let list = [1].fallible_to_vec(rt.alloc())?;
    assert!(rt; list.len() == 1);
    Ok(())
}

#[test]
fn of_nothing() {}
"
    );
}

#[test]
fn what_was_cut_put_back_is_the_source() {
    let source = "ghost use a.{b};\n\nuse std::ops::Range;\n\nfn f(r: Range<u8>) -> Vec<u8>\n    ensures { r }\n{\n    g(r)\n}\n";
    let files = erased("back", &[("lib", source)]).unwrap_or_else(|stop| panic!("{stop}"));
    let file = &files[1];
    let (mut back, mut at) = (String::new(), 0);
    for cut in &file.cuts {
        back += &file.text[at..cut.at];
        back += &cut.cut;
        at = cut.at + cut.length;
    }
    assert_eq!(back + &file.text[at..], source);
}

#[test]
fn what_is_not_known_stops_the_eraser_with_its_line() {
    let rows = [
        ("union Both { one: u8 }\n", 1, "no item"),
        ("\n#[must_use]\nfn f() {}\n", 2, "no attribute"),
        ("fn f() {\n    dbg!(1);\n}\n", 2, "no macro"),
        ("use std::thread::spawn;\n", 1, "no part of std"),
        ("fn f() {\n    ghost let x = 1;\n}\n", 2, "no Rust"),
        ("fn f() {\n    x ≡ y\n}\n", 2, "no Rust"),
        (
            "fn f()\n    ensures {\n{\n}\n",
            2,
            "a bracket that nothing closes",
        ),
        ("/* a comment */\n", 1, "a token"),
        ("const A: &str = r\"a\";\n", 1, "a token"),
        ("const A: &str = r##\"a\"b\"##, c\";\n", 1, "a token"),
        ("const A: &[u8] = br#\"a\"b\"#, c\";\n", 1, "a token"),
        ("struct Thing {\n    ghost: u8,\n}\n", 2, "no Rust"),
        ("fn f() {}\n#", 2, "a bracket"),
        ("extern \"system\" fn f() {}\n", 1, "an `extern`"),
        (
            "fn law() -> u8\n    ensures { 1 }\n{}\n",
            3,
            "a law that returns",
        ),
        (
            "impl Thing {\n    fn step(&mut self)\n        ensures { 1 }\n    {}\n}\n",
            4,
            "a law that is a method",
        ),
        (
            "impl<T> Rest for Thing<T> {\n    fn rest()\n        ensures { 1 }\n    {}\n}\n",
            4,
            "a law that is a method",
        ),
        ("#[test]\nfn f(a: u8) {}\n", 2, "a test of more"),
        ("fn f(rt: HostRuntime) {}\n", 1, "no Rust"),
        ("ghost use a; fn f() {}\n", 1, "what is cut shares a line"),
        ("fn f() {\n    (1]\n}\n", 2, "a bracket that closes another"),
    ];
    for (row, (source, line, what)) in rows.into_iter().enumerate() {
        let (at, told) = stop(&format!("stops{row}"), source);
        assert!(
            at == line && told.starts_with(what),
            "{source}: {at}: {told}"
        );
    }
}

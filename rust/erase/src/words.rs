//! The edits of the code that is kept: the words for which Rust has others, and the paths of crates, which become modules.

use crate::edit::{Edit, What, in_order};
use crate::fault::Fault;
use crate::items::{Parsed, closed, line_start};
use crate::token::{Token, tokens};
use std::ops::Range;

/// The modules that hold the erased crates, in the crate that includes them.
pub const MODULE: &str = "erased";

/// The shim, which is one of these modules.
pub const SHIM: &str = "fallible";

/// What the source has, and what the Rust has for it. `SHIM` is the path of the shim.
const WORDS: [(&str, &str); 25] = [
    ("std::alloc::", "SHIM::alloc::"),
    ("std::vec::Vec", "$SHIM::Vec"),
    ("std::cmp", "core::cmp"),
    ("std::error", "core::error"),
    ("std::fmt", "core::fmt"),
    ("std::iter", "core::iter"),
    ("std::mem", "core::mem"),
    ("std::ops", "core::ops"),
    ("std::slice", "core::slice"),
    ("str::from_utf8", "core::str::from_utf8"),
    ("str::from_utf8_unchecked", "core::str::from_utf8_unchecked"),
    (".cast_unsigned()", ".to_unsigned()"),
    (".read_to_end(", ".fallible_read_to_end("),
    (
        "const HAS_WIDE_PRODUCTS: bool = true;",
        "const HAS_WIDE_PRODUCTS: bool = cfg!(any(target_feature = \"sse4.1\", not(target_arch = \"x86_64\")));",
    ),
    (
        "fn fmt<W: fmt::Write>(&self, f: &mut fmt::Formatter<W>)",
        "fn fmt(&self, f: &mut fmt::Formatter<'_>)",
    ),
    // What only tests use.
    ("std::collections::BTreeSet", "crate::host::BTreeSet"),
    ("std::env", "crate::host::env"),
    ("std::process::Abort", "crate::host::Abort"),
    ("std::test::Fail", "crate::host::Fail"),
    ("Print", "crate::host::Print"),
    ("Fail::new(", "Fail::from("),
    (".collect(", ".fallible_collect("),
    (".expect(rt, name)", ".expect(name)"),
    (".repeat(", ".fallible_repeat("),
    (".to_vec(", ".fallible_to_vec("),
];

/// What is the same in the std of both.
const STD: [&str; 2] = ["fmt", "io"];

/// The attributes that Rust has too.
const ATTRIBUTES: [&str; 5] = ["cfg", "derive", "inline", "repr", "test"];

const MACROS: [&str; 30] = [
    "assert",
    "assert_eq",
    "call",
    "call_twice",
    "cleans",
    "count",
    "count_each",
    "count_some",
    "format",
    "int_path",
    "int_shape",
    "int_shapes",
    "lend",
    "lend_alike",
    "lend_borrowed",
    "lend_paths",
    "lend_points",
    "lend_shapes",
    "matches",
    "on",
    "path",
    "paths",
    "points",
    "println",
    "spared",
    "spots",
    "unreachable",
    "vec",
    "write",
    "writeln",
];

/// Words that Rust doesn't have, or has in another meaning.
const NO_RUST: [&str; 8] = [
    "Drop",
    "HostRuntime",
    "Model",
    "ensures",
    "extern",
    "ghost",
    "requires",
    "tactic",
];

/// Edits the code outside of what is cut. `crates` are the crates that are modules beside this one, `name`.
pub fn edit_words(parsed: &Parsed<'_>, name: &str, crates: &[String]) -> Result<Vec<Edit>, Fault> {
    let words = Words {
        parsed,
        kept: kept_code(parsed),
        name,
        crates,
        patterns: patterns(),
    };
    words.edits()
}

/// The places of the tokens that are left where the parser's edits are made.
fn kept_code(parsed: &Parsed<'_>) -> Vec<usize> {
    let is_cut = |token: &Token<'_>| {
        parsed
            .edits
            .iter()
            .any(|edit| edit.range.contains(&token.start))
    };
    let is_kept = |at: &usize| !is_cut(&parsed.code[*at]);
    (0..parsed.code.len()).filter(is_kept).collect()
}

fn patterns() -> Vec<(Vec<Token<'static>>, &'static str)> {
    let pattern = |text| tokens(text).expect("the table has tokens");
    WORDS
        .iter()
        .map(|(text, put)| (pattern(text), *put))
        .collect()
}

struct Words<'a> {
    parsed: &'a Parsed<'a>,
    kept: Vec<usize>,
    name: &'a str,
    crates: &'a [String],
    patterns: Vec<(Vec<Token<'static>>, &'static str)>,
}

impl Words<'_> {
    fn edits(&self) -> Result<Vec<Edit>, Fault> {
        let mut edits = Vec::new();
        let mut place = 0;
        while place < self.kept.len() {
            let at = self.kept[place];
            if let Some((length, put)) = self.word_of_std(place) {
                let range = self.parsed.code[at].start..self.parsed.code[at + length - 1].end();
                edits.push(Edit::new(range, put, What::Word));
                place += length;
                continue;
            }
            match self.token_edit(at)? {
                Some(edit) => {
                    while place < self.kept.len()
                        && self.parsed.code[self.kept[place]].start < edit.range.end
                    {
                        place += 1;
                    }
                    edits.push(edit);
                }
                None => place += 1,
            }
        }
        Ok(edits)
    }

    /// The words of the table that are here, by the number of their tokens, and what is put for them.
    fn word_of_std(&self, place: usize) -> Option<(usize, String)> {
        let at = self.kept[place];
        if at > 0 && self.is(at - 1, ":") && self.is(at - 2, ":") {
            return None;
        }
        let is_here = |pattern: &&(Vec<Token<'static>>, &'static str)| {
            let code = &self.parsed.code[at..];
            pattern.0.len() <= code.len()
                && pattern
                    .0
                    .iter()
                    .zip(code)
                    .all(|(one, other)| one.text == other.text)
        };
        let (pattern, put) = self.patterns.iter().find(is_here)?;
        Some((pattern.len(), put.replace("SHIM", &self.path_of(SHIM))))
    }

    fn path_of(&self, name: &str) -> String {
        format!("crate::{MODULE}::{name}")
    }

    /// The edit that begins at the token, if there is one.
    fn token_edit(&self, at: usize) -> Result<Option<Edit>, Fault> {
        let token = self.parsed.code[at];
        if token.is("#") {
            return self.attribute(at);
        }
        if let Some(edit) = self.bound_by_drop(at).or_else(|| self.path(at)) {
            return Ok(Some(edit));
        }
        self.is_rust(at).map(|()| None)
    }

    fn attribute(&self, at: usize) -> Result<Option<Edit>, Fault> {
        let opens = at + 1 + usize::from(self.is(at + 1, "!"));
        let closes = closed(&self.parsed.code, opens)?;
        let name = self.parsed.code[opens + 1];
        match name.text {
            "macro_export" | "tactic" | "unsafe" => self.whole_lines(at, closes).map(Some),
            "derive" => self.derived(at, opens + 2, closes),
            _ if ATTRIBUTES.contains(&name.text) => Ok(None),
            _ => Err(Fault::new(
                name.start,
                format!("no attribute that the eraser knows: `{}`", name.text),
            )),
        }
    }

    fn whole_lines(&self, first: usize, last: usize) -> Result<Edit, Fault> {
        let source = self.parsed.source;
        let token = self.parsed.code[first];
        let start = line_start(source, token.start);
        let end = self.parsed.code[last].end();
        if !source[start..token.start].trim().is_empty() || !source[end..].starts_with('\n') {
            return Err(Fault::new(token.start, "what is cut shares a line"));
        }
        Ok(Edit::new(start..end + 1, "", What::Attribute))
    }

    /// Without the `Drop` that a struct of Rattle derives.
    fn derived(&self, at: usize, opens: usize, closes: usize) -> Result<Option<Edit>, Fault> {
        let within = opens + 1..closes - 1;
        let Some(drop) = within.clone().find(|at| self.is(*at, "Drop")) else {
            return Ok(None);
        };
        if within.len() == 1 {
            return self.whole_lines(at, closes).map(Some);
        }
        let code = &self.parsed.code;
        let range = if drop == within.start {
            code[drop].start..code[drop + 2].start
        } else {
            code[drop - 1].start..code[drop].end()
        };
        let put = code[at].start..range.start;
        let put = &self.parsed.source[put];
        Ok(Some(Edit::new(code[at].start..range.end, put, What::Drop)))
    }

    /// Rust has no bound that each type meets: `: Drop` alone, `Drop + ` before others, or ` + Drop` after them.
    fn bound_by_drop(&self, at: usize) -> Option<Edit> {
        let code = &self.parsed.code;
        let is_bound = (self.is(at, ":") || self.is(at, "+")) && self.is(at + 1, "Drop");
        if !is_bound {
            return None;
        }
        let range = if self.is(at, ":") && self.is(at + 2, "+") {
            code[at + 1].start..code[at + 3].start
        } else {
            code[at - 1].end()..code[at + 1].end()
        };
        Some(Edit::new(range, "", What::Drop))
    }

    /// A path that begins with a crate begins with its module.
    fn path(&self, at: usize) -> Option<Edit> {
        let token = self.parsed.code[at];
        let goes_on = self.is(at + 1, ":") && self.is(at + 2, ":");
        let is_within = at > 1 && self.is(at - 1, ":") && self.is(at - 2, ":");
        if !goes_on || is_within {
            return None;
        }
        if token.is("crate") {
            return Some(self.put_path(token, self.name));
        }
        let known = self.crates.iter().find(|name| token.is(name))?;
        Some(self.put_path(token, known))
    }

    fn put_path(&self, token: Token<'_>, name: &str) -> Edit {
        Edit::new(token.start..token.end(), self.path_of(name), What::Path)
    }

    /// Stops at what Rust doesn't have, and at a macro or a part of std that the tables don't have.
    fn is_rust(&self, at: usize) -> Result<(), Fault> {
        let token = self.parsed.code[at];
        let fault = |what: &str| Err(Fault::new(token.start, format!("{what}: `{}`", token.text)));
        let is_code = token.is(token.text);
        if is_code && (!token.text.is_ascii() || NO_RUST.contains(&token.text)) {
            return fault("no Rust");
        }
        let has_group = self.parsed.code.get(at + 2).is_some_and(Token::opens);
        let is_called = self.is(at + 1, "!") && self.parsed.code[at + 1].start == token.end();
        if is_called && has_group && is_name(token) && !MACROS.contains(&token.text) {
            return fault("no macro that the eraser knows");
        }
        let is_path = self.is(at + 1, ":") && self.is(at + 2, ":");
        if token.is("std") && is_path && !self.is_known_of_std(at + 3) {
            return fault("no part of std that the eraser knows");
        }
        Ok(())
    }

    /// `io`, or `{env, io}`.
    fn is_known_of_std(&self, at: usize) -> bool {
        let is_known = |at: usize| STD.iter().any(|part| self.is(at, part));
        if !self.is(at, "{") {
            return is_known(at);
        }
        let end = closed(&self.parsed.code, at).unwrap_or(at);
        (at + 1..end).step_by(2).all(is_known)
    }

    fn is(&self, at: usize, text: &str) -> bool {
        self.parsed.code.get(at).is_some_and(|token| token.is(text))
    }
}

fn is_name(token: Token<'_>) -> bool {
    token
        .text
        .starts_with(|letter: char| letter.is_alphabetic())
}

/// The words of the code in these ranges of bytes.
pub fn words_in<'a>(parsed: &Parsed<'a>, is_in: impl Fn(&Range<usize>) -> bool) -> Vec<&'a str> {
    parsed
        .code
        .iter()
        .filter(|token| is_in(&(token.start..token.end())))
        .map(|token| token.text)
        .collect()
}

/// The edits that make a file of the shim one of a module: paths begin with the module in place of the crate, and what only
/// a crate has is cut.
pub fn as_module(source: &str) -> Result<Vec<Edit>, Fault> {
    const OF_A_CRATE: &str = "#![no_std]\n";
    let code: Vec<_> = tokens(source)?
        .into_iter()
        .filter(|token| !token.is_comment())
        .collect();
    let is_path =
        |at: &usize| code[*at].is("crate") && code.get(at + 1).is_some_and(|token| token.is(":"));
    let put = format!("crate::{MODULE}::{SHIM}");
    let of_paths = (0..code.len())
        .filter(is_path)
        .map(|at| Edit::new(code[at].start..code[at].end(), put.as_str(), What::Path));
    let of_crate = source
        .find(OF_A_CRATE)
        .map(|at| Edit::new(at..at + OF_A_CRATE.len(), "", What::Attribute));
    Ok(in_order(of_crate.into_iter().chain(of_paths).collect()))
}

//! What C calls: for each function of a library for C one that lends it C's pointers as slices.

use crate::crates::ErasedFile;
use crate::items::Call;
use crate::words::{MODULE, SHIM};
use std::collections::BTreeSet;

/// Returns a module that has a function for each call of the erased files.
pub fn lending(files: &[ErasedFile]) -> ErasedFile {
    let mut lender = Lender {
        files,
        types: BTreeSet::new(),
    };
    let functions: String = files
        .iter()
        .flat_map(|file| file.calls.iter().map(move |call| (path_of(file), call)))
        .map(|(path, call)| lender.lend(&path, call))
        .collect();
    let types: String = lender
        .types
        .iter()
        .map(|path| format!("use {path};\n"))
        .collect();
    let text = format!(
        "//! The functions of include/i_shape.h. Each lends the function of its name what C's pointers point to.\n\n\
         use crate::{MODULE}::{SHIM}::alloc::Global;\n{types}use core::slice;\n{functions}"
    );
    ErasedFile::written("lending.rs", text)
}

struct Lender<'a> {
    files: &'a [ErasedFile],
    /// The paths of the types that C's pointers point to.
    types: BTreeSet<String>,
}

/// What stands for one parameter: those of C, and where these are a pointer and a count, how a slice is made of them.
struct Lent {
    parameters: String,
    made: String,
}

impl Lent {
    fn as_it_is(name: &str, kind: &str) -> Lent {
        Lent {
            parameters: format!("    {name}: {kind},\n"),
            made: String::new(),
        }
    }

    fn slice(name: &str, pointer: &str, item: &str, made: &str) -> Lent {
        Lent {
            parameters: format!("    {name}: {pointer} {item},\n    {name}_len: usize,\n"),
            made: format!("    let {name} = unsafe {{ slice::{made}({name}, {name}_len) }};\n"),
        }
    }
}

/// What the names of calls have that the package for JavaScript doesn't make. Its module leaves these out.
const NOT_FOR_JAVASCRIPT: &str = "_features_";
const SAFETY: &str = "/// # Safety\n///\n/// docs/C.md says what a caller owes.\n";

impl Lender<'_> {
    fn lend(&mut self, path: &str, call: &Call) -> String {
        let (mut parameters, mut made, mut arguments) = (String::new(), String::new(), Vec::new());
        for (name, kind) in &call.parameters {
            if kind == "Global" {
                arguments.push("Global");
                continue;
            }
            let lent = self.lend_one(name, kind);
            parameters += &lent.parameters;
            made += &lent.made;
            arguments.push(name);
        }
        if !parameters.is_empty() {
            parameters.insert(0, '\n');
        }
        let (safety, is_unsafe) = if made.is_empty() {
            ("", "")
        } else {
            (SAFETY, "unsafe ")
        };
        let (name, result, arguments) = (&call.name, &call.result, arguments.join(", "));
        let condition = if name.contains(NOT_FOR_JAVASCRIPT) {
            "#[cfg(not(for_javascript))]\n"
        } else {
            ""
        };
        format!(
            "\n{safety}{condition}#[unsafe(no_mangle)]\npub {is_unsafe}extern \"C\" fn {name}({parameters}) -> {result} {{\n\
             {made}    {path}::{name}({arguments})\n}}\n"
        )
    }

    fn lend_one(&mut self, name: &str, kind: &str) -> Lent {
        let item = |start: &str| kind.strip_prefix(start)?.strip_suffix(']');
        if let Some(item) = item("&mut [") {
            self.take_type(item);
            return Lent::slice(name, "*mut", item, "from_raw_parts_mut");
        }
        if let Some(item) = item("&[") {
            self.take_type(item);
            return Lent::slice(name, "*const", item, "from_raw_parts");
        }
        self.take_type(kind.strip_prefix("&mut ").unwrap_or(kind));
        Lent::as_it_is(name, kind)
    }

    /// Imports the type, if it isn't one of Rust's own.
    fn take_type(&mut self, name: &str) {
        let head = format!("pub struct {name} ");
        let files = self.files.iter().filter(|file| file.text.contains(&head));
        self.types
            .extend(files.map(|file| format!("{}::{name}", path_of(file))));
    }
}

fn path_of(file: &ErasedFile) -> String {
    let path = file.path.with_extension("");
    let modules: Vec<_> = path.iter().map(|part| part.to_string_lossy()).collect();
    format!("crate::{MODULE}::{}", modules.join("::"))
}

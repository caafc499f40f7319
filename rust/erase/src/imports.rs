//! The imports of a source: without those that only contracts used, and with those of the shim.

use crate::edit::{Edit, What};
use crate::items::{Item, ItemKind, Parsed};
use crate::words::{MODULE, SHIM, words_in};
use std::collections::BTreeSet;

/// Cuts the names that only what is cut uses, and those of modules that are cut as a whole.
pub fn cut_imports(parsed: &Parsed<'_>, dropped: &BTreeSet<String>) -> Vec<Edit> {
    let is_cut = |place: usize| parsed.edits.iter().any(|edit| edit.range.contains(&place));
    let is_import = |place: usize| {
        let mut items = parsed.items.iter();
        items
            .any(|item| matches!(item.kind, ItemKind::Import { .. }) && item.range.contains(&place))
    };
    let cut: BTreeSet<_> = words_in(parsed, |range| is_cut(range.start))
        .into_iter()
        .collect();
    let used: BTreeSet<_> = words_in(parsed, |range| {
        !is_cut(range.start) && !is_import(range.start)
    })
    .into_iter()
    .collect();
    let mut edits = Vec::new();
    for item in &parsed.items {
        if let ItemKind::Import { is_public } = item.kind {
            let is_dead = |name: &str| {
                let is_of_contracts = !is_public && cut.contains(name);
                !used.contains(name)
                    && (is_of_contracts || dropped.contains(name) || name == "Model")
            };
            edits.extend(without_dead(parsed, item, is_dead));
        }
    }
    edits
}

/// The import without names that are dead. One that is nested is kept as it is.
fn without_dead(
    parsed: &Parsed<'_>,
    item: &Item<'_>,
    is_dead: impl Fn(&str) -> bool,
) -> Option<Edit> {
    let code = &parsed.code[item.code.clone()];
    let Some(opens) = code.iter().position(|token| token.is("{")) else {
        let name = code[code.len() - 2];
        let lines = item.range.start..item.range.end + 1;
        return is_dead(name.text).then(|| Edit::new(lines, "", What::Import));
    };
    let closes = code.len() - 2;
    let within = &code[opens + 1..closes];
    if within.iter().any(|token| token.opens()) {
        return None;
    }
    let names: Vec<_> = within
        .split(|token| token.is(","))
        .filter(|name| !name.is_empty())
        .collect();
    let is_left = |name: &&&[_]| {
        name.last()
            .is_some_and(|token: &crate::token::Token<'_>| !is_dead(token.text))
    };
    let left: Vec<_> = names
        .iter()
        .filter(is_left)
        .map(|name| &parsed.source[name[0].start..name[name.len() - 1].end()])
        .collect();
    if left.len() == names.len() {
        return None;
    }
    if left.is_empty() {
        return Some(Edit::new(
            item.range.start..item.range.end + 1,
            "",
            What::Import,
        ));
    }
    let put = if left.len() == 1 && left[0] != "self" {
        left[0].to_owned()
    } else {
        format!("{{{}}}", left.join(", "))
    };
    Some(Edit::new(
        code[opens].start..code[closes].end(),
        put,
        What::Import,
    ))
}

/// Whether no item is left but imports.
pub fn is_empty(parsed: &Parsed<'_>, is_dropped: impl Fn(&str) -> bool) -> bool {
    parsed.items.iter().all(|item| match item.kind {
        ItemKind::Import { .. } => true,
        ItemKind::Module { name, .. } => is_dropped(name),
        ItemKind::Macro { .. } | ItemKind::Other => false,
    })
}

/// What Rattle's prelude has, and the shim has for it, by the words that use it.
const OF_SHIM: [(&str, &[&str]); 4] = [
    ("String", &["String"]),
    ("Unsigned as _", &[".", "cast_unsigned", "("]),
    ("Vec", &["Vec"]),
    ("vec", &["vec", "!", "[", "in"]),
];

/// The same of the program's or the tests' own crate: the traits of methods.
const OF_HOST: [(&str, &[&str]); 4] = [
    ("FallibleCollect as _", &[".", "collect", "("]),
    ("FallibleRead as _", &[".", "read_to_end", "("]),
    ("FallibleRepeat as _", &[".", "repeat", "("]),
    ("FallibleToVec as _", &[".", "to_vec", "("]),
];

/// Imports what Rattle's prelude has, and the shim or the module `host` has for it, in front of the first import or item.
pub fn import_shim(parsed: &Parsed<'_>) -> Option<Edit> {
    let is_cut = |place: usize| parsed.edits.iter().any(|edit| edit.range.contains(&place));
    let used = |words: &[&str]| {
        let is_here = |at: usize| {
            let code = &parsed.code[at..];
            let is_within =
                at > 0 && parsed.code[at - 1].is(":") && at > 1 && parsed.code[at - 2].is(":");
            !is_within
                && !is_cut(code[0].start)
                && words.len() <= code.len()
                && words.iter().zip(code).all(|(word, token)| token.is(word))
        };
        (0..parsed.code.len()).any(is_here)
    };
    let imported = [
        (format!("{MODULE}::{SHIM}"), &OF_SHIM[..]),
        ("host".to_owned(), &OF_HOST),
    ]
    .iter()
    .filter_map(|(module, table)| import(module, table, used))
    .collect::<Vec<_>>()
    .join("\n");
    if imported.is_empty() {
        return None;
    }
    let kept: Vec<_> = parsed
        .items
        .iter()
        .filter(|item| !is_cut(item.range.start))
        .collect();
    let imports = |item: &&&Item<'_>| matches!(item.kind, ItemKind::Import { is_public: false });
    let first = kept.iter().find(imports);
    let end = if first.is_some() { "\n" } else { "\n\n" };
    let place = first.or(kept.first())?.range.start;
    let put = format!("{imported}{end}");
    Some(Edit::new(place..place, put, What::Shim))
}

/// The import of those names of the table that are used.
fn import(
    module: &str,
    table: &[(&str, &[&str])],
    used: impl Fn(&[&str]) -> bool,
) -> Option<String> {
    let names: Vec<_> = table
        .iter()
        .filter(|(_, words)| used(words))
        .map(|(name, _)| *name)
        .collect();
    let names = match names[..] {
        [] => return None,
        [name] => name.to_owned(),
        _ => format!("{{{}}}", names.join(", ")),
    };
    Some(format!("use crate::{module}::{names};"))
}

//! Crates of Rattle source, and the modules of Rust that they become.

use crate::edit::{Cut, Edit, What, apply, close_gaps, in_order};
use crate::fault::{Fault, Stop};
use crate::imports::{cut_imports, import_shim, is_empty};
use crate::items::{Call, ItemKind, Parsed, parse};
use crate::words::{SHIM, edit_words};
use std::collections::{BTreeMap, BTreeSet};
use std::fs;
use std::path::{Path, PathBuf};

/// The crates that become modules of one crate of Rust.
pub struct Crates {
    /// The top of the clone.
    top: PathBuf,
    /// Each after those that it uses.
    names: Vec<String>,
    /// Modules that are left out, each as `crate::module`.
    left_out: Vec<String>,
}

/// A file as it is after erasing.
pub struct ErasedFile {
    /// Its source, if it is made of one.
    pub source: Option<PathBuf>,
    /// Its place among the modules, such as `i_shape_core/point.rs`.
    pub path: PathBuf,
    pub text: String,
    pub cuts: Vec<Cut>,
    /// The functions that C calls.
    pub calls: Vec<Call>,
}

impl ErasedFile {
    /// A file that has no source.
    pub fn written(path: &str, text: String) -> ErasedFile {
        ErasedFile {
            source: None,
            path: PathBuf::from(path),
            text,
            cuts: Vec::new(),
            calls: Vec::new(),
        }
    }
}

struct SourceFile {
    path: PathBuf,
    /// The names of the modules down to it, none for `lib.rt`.
    modules: Vec<String>,
    text: String,
}

impl Crates {
    /// Returns crates of the clone at `top`, with those that they use, as `crates.txt` lists them.
    pub fn of(top: &Path, crates: &[&str]) -> Result<Crates, Stop> {
        let path = top.join("crates.txt");
        let list = fs::read_to_string(&path).map_err(Stop::of_file(&path))?;
        let mut names = Vec::new();
        for name in crates {
            add_with_used(&list, name, &mut names);
        }
        Ok(Crates {
            top: top.to_owned(),
            names,
            left_out: Vec::new(),
        })
    }

    /// Leaves modules out, each named as `crate::module`, with those below them.
    pub fn without(mut self, modules: &[&str]) -> Crates {
        self.left_out
            .extend(modules.iter().map(|module| (*module).to_owned()));
        self
    }

    /// Returns the erased files of all crates, and the shim's.
    pub fn erase(&self) -> Result<Vec<ErasedFile>, Stop> {
        let mut erased = self.shim()?;
        let mut dropped = BTreeSet::new();
        for name in &self.names {
            erased.extend(self.erase_crate(name, &mut dropped)?);
        }
        Ok(erased)
    }

    /// What a change of which changes the erased files.
    pub fn sources(&self) -> Vec<PathBuf> {
        let crates = self.names.iter().map(|name| self.folder(name));
        crates
            .chain([self.top.join("crates.txt"), self.shim_folder()])
            .collect()
    }

    fn folder(&self, name: &str) -> PathBuf {
        self.top.join("crates").join(name).join("src")
    }

    fn shim_folder(&self) -> PathBuf {
        self.top.join("rust").join(SHIM).join("src")
    }

    /// The shim is Rust, and keeps all but the paths that begin with its crate.
    fn shim(&self) -> Result<Vec<ErasedFile>, Stop> {
        let files = read_sources(&self.shim_folder(), "rs")?;
        files.iter().map(|file| self.shim_file(file)).collect()
    }

    fn shim_file(&self, file: &SourceFile) -> Result<ErasedFile, Stop> {
        let (text, cuts) = crate::words::as_module(&file.text)
            .map(|edits| apply(&file.text, &edits))
            .map_err(|fault| Stop::at(&file.path, &file.text, fault))?;
        Ok(ErasedFile {
            source: Some(file.path.clone()),
            path: place_of(SHIM, &file.modules),
            text,
            cuts,
            calls: Vec::new(),
        })
    }

    fn erase_crate(
        &self,
        name: &str,
        dropped: &mut BTreeSet<String>,
    ) -> Result<Vec<ErasedFile>, Stop> {
        let files = read_sources(&self.folder(name), "rt")?;
        let parsed: Vec<_> = files
            .iter()
            .map(|file| parse(&file.text).map_err(|fault| Stop::at(&file.path, &file.text, fault)))
            .collect::<Result<_, _>>()?;
        let empty = self.empty_modules(name, &files, &parsed);
        dropped.extend(empty.iter().filter_map(|modules| modules.last().cloned()));
        let macros = exported_macros(&files, &parsed);
        let kept = files
            .iter()
            .zip(parsed)
            .filter(|(file, _)| !empty.contains(&file.modules));
        kept.map(|(file, parsed)| {
            let calls = parsed.calls.clone();
            let (text, cuts) = self
                .erase_file(name, file, parsed, &empty, &macros, dropped)
                .map_err(|fault| Stop::at(&file.path, &file.text, fault))?;
            Ok(ErasedFile {
                source: Some(file.path.clone()),
                path: place_of(name, &file.modules),
                text,
                cuts,
                calls,
            })
        })
        .collect()
    }

    /// Whether this module, or one that it lies in, is left out.
    fn is_left_out(&self, name: &str, modules: &[String]) -> bool {
        (1..=modules.len()).any(|depth| {
            let path = format!("{name}::{}", modules[..depth].join("::"));
            self.left_out.contains(&path)
        })
    }

    /// The modules of which nothing is left, and those that are left out.
    fn empty_modules(
        &self,
        name: &str,
        files: &[SourceFile],
        parsed: &[Parsed<'_>],
    ) -> BTreeSet<Vec<String>> {
        let mut empty = BTreeSet::new();
        loop {
            let is_new = |(file, parsed): &(&SourceFile, &Parsed<'_>)| {
                let below = |module: &str| empty.contains(&child(&file.modules, module));
                let is_out = self.is_left_out(name, &file.modules) || is_empty(parsed, below);
                is_out && !file.modules.is_empty() && !empty.contains(&file.modules)
            };
            let more: Vec<_> = files
                .iter()
                .zip(parsed)
                .filter(is_new)
                .map(|(file, _)| file.modules.clone())
                .collect();
            if more.is_empty() {
                return empty;
            }
            empty.extend(more);
        }
    }

    fn erase_file(
        &self,
        name: &str,
        file: &SourceFile,
        mut parsed: Parsed<'_>,
        empty: &BTreeSet<Vec<String>>,
        macros: &BTreeMap<Vec<String>, Vec<String>>,
        dropped: &BTreeSet<String>,
    ) -> Result<(String, Vec<Cut>), Fault> {
        let is_library_for_c = name.ends_with("_c_calls");
        let modules = edit_modules(&parsed, is_library_for_c, |module| {
            empty.contains(&child(&file.modules, module))
        });
        parsed.edits.extend(modules);
        let exports = edit_exports(&parsed, |module| macros.get(&child(&file.modules, module)));
        parsed.edits.extend(exports);
        let imports = cut_imports(&parsed, dropped);
        parsed.edits.extend(imports);
        let words = edit_words(&parsed, name, &self.names)?;
        let shim = import_shim(&parsed);
        parsed.edits.extend(words);
        parsed.edits.extend(shim);
        let edits = close_gaps(&file.text, in_order(parsed.edits));
        Ok(apply(&file.text, &edits))
    }
}

/// Adds the crate behind those that it uses. A line of the list is `name kind..: used..`.
fn add_with_used(list: &str, name: &str, names: &mut Vec<String>) {
    if names.iter().any(|added| added == name) {
        return;
    }
    let lines = list.lines().filter_map(|line| line.split_once(':'));
    for (head, used) in lines {
        if head.split(' ').next() == Some(name) {
            for used in used.split_whitespace() {
                add_with_used(list, used, names);
            }
        }
    }
    names.push(name.to_owned());
}

/// Cuts the modules of which nothing is left. Those of a library for C, which no crate imports, become public, since what
/// lends them C's pointers lies beside them.
fn edit_modules(
    parsed: &Parsed<'_>,
    is_library_for_c: bool,
    is_dropped: impl Fn(&str) -> bool,
) -> Vec<Edit> {
    let mut edits = Vec::new();
    for item in &parsed.items {
        let ItemKind::Module { name, is_public } = item.kind else {
            continue;
        };
        let start = item.range.start;
        if is_dropped(name) {
            edits.push(Edit::new(start..item.range.end + 1, "", What::Module));
        } else if is_library_for_c && !is_public {
            edits.push(Edit::new(start..start, "pub ", What::Module));
        }
    }
    edits
}

/// The names of the macros that are exported, by the modules that have some.
fn exported_macros(
    files: &[SourceFile],
    parsed: &[Parsed<'_>],
) -> BTreeMap<Vec<String>, Vec<String>> {
    let mut exported: BTreeMap<_, Vec<_>> = BTreeMap::new();
    for (file, parsed) in files.iter().zip(parsed) {
        for item in &parsed.items {
            if let ItemKind::Macro { name } = item.kind {
                let names = exported.entry(file.modules.clone()).or_default();
                names.push(name.to_owned());
            }
        }
    }
    exported
}

/// The macros of a module that a crate exports are imported where the module is named: at the top of the crate.
fn edit_exports<'a>(
    parsed: &Parsed<'_>,
    exported: impl Fn(&str) -> Option<&'a Vec<String>>,
) -> Vec<Edit> {
    let mut edits = Vec::new();
    for item in &parsed.items {
        let ItemKind::Module { name, .. } = item.kind else {
            continue;
        };
        if let Some(names) = exported(name) {
            let (start, end) = (item.range.start, item.range.end);
            let names: Vec<_> = names
                .iter()
                .map(|name| format!("{name}_macro as {name}"))
                .collect();
            let imported = format!("\npub(crate) use {{{}}};", names.join(", "));
            edits.push(Edit::new(start..start, "#[macro_use]\n", What::Macro));
            edits.push(Edit::new(end..end, imported, What::Macro));
        }
    }
    edits
}

fn child(modules: &[String], module: &str) -> Vec<String> {
    let mut path = modules.to_vec();
    path.push(module.to_owned());
    path
}

fn place_of(name: &str, modules: &[String]) -> PathBuf {
    let mut path = PathBuf::from(name);
    path.extend(modules);
    path.set_extension("rs");
    path
}

/// The files of a crate, by their modules.
fn read_sources(folder: &Path, extension: &str) -> Result<Vec<SourceFile>, Stop> {
    let mut files = Vec::new();
    read_folder(folder, extension, &[], &mut files)?;
    files.sort_by(|one, other| one.modules.cmp(&other.modules));
    Ok(files)
}

fn read_folder(
    folder: &Path,
    extension: &str,
    modules: &[String],
    files: &mut Vec<SourceFile>,
) -> Result<(), Stop> {
    for entry in fs::read_dir(folder).map_err(Stop::of_file(folder))? {
        let path = entry.map_err(Stop::of_file(folder))?.path();
        let name = path
            .file_stem()
            .unwrap_or_default()
            .to_string_lossy()
            .into_owned();
        if path.is_dir() {
            read_folder(&path, extension, &child(modules, &name), files)?;
        } else if path.extension().is_some_and(|its| its == extension) {
            let is_top = modules.is_empty() && (name == "lib" || name == "main");
            let modules = if is_top {
                Vec::new()
            } else {
                child(modules, &name)
            };
            let text = fs::read_to_string(&path).map_err(Stop::of_file(&path))?;
            files.push(SourceFile {
                path,
                modules,
                text,
            });
        }
    }
    Ok(())
}

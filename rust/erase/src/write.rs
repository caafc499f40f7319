//! Writes erased files, and what was cut from each.

use crate::crates::ErasedFile;
use crate::edit::Cut;
use crate::fault::Stop;
use crate::words::MODULE;
use std::fmt::Write;
use std::fs;
use std::path::Path;

/// Writes the files into a folder `erased` of this one, with a file `mod.rs` that names their modules, and into a folder
/// `cuts` what was cut from each: its source, and a line of JSON for each cut, with the place and length in the erased file
/// of what was put, and what was cut. Both take the place of what is there.
pub fn write(mut files: Vec<ErasedFile>, folder: &Path) -> Result<(), Stop> {
    let is_top = |file: &&ErasedFile| file.path.components().count() == 1;
    let names = files
        .iter()
        .filter(is_top)
        .map(|file| file.path.with_extension(""));
    let modules = names
        .map(|name| format!("pub mod {};\n", name.display()))
        .collect();
    files.push(ErasedFile::written("mod.rs", modules));
    let (erased, cuts) = (folder.join(MODULE), folder.join("cuts"));
    remove(&erased)?;
    remove(&cuts)?;
    for file in &files {
        write_file(&erased.join(&file.path), &file.text)?;
        if let Some(source) = &file.source {
            let mut told = format!("{}\n", quoted(&source.to_string_lossy()));
            told.extend(file.cuts.iter().map(line));
            write_file(&cuts.join(file.path.with_extension("json")), &told)?;
        }
    }
    Ok(())
}

fn remove(folder: &Path) -> Result<(), Stop> {
    if folder.exists() {
        fs::remove_dir_all(folder).map_err(Stop::of_file(folder))?;
    }
    Ok(())
}

fn write_file(path: &Path, text: &str) -> Result<(), Stop> {
    if let Some(folder) = path.parent() {
        fs::create_dir_all(folder).map_err(Stop::of_file(folder))?;
    }
    fs::write(path, text).map_err(Stop::of_file(path))
}

fn line(cut: &Cut) -> String {
    let (at, length) = (cut.at, cut.length);
    let (what, cut) = (quoted(cut.what.name()), quoted(&cut.cut));
    format!("{{\"at\": {at}, \"length\": {length}, \"what\": {what}, \"cut\": {cut}}}\n")
}

/// The text as JSON has it.
fn quoted(text: &str) -> String {
    let mut quoted = String::from("\"");
    for letter in text.chars() {
        match letter {
            '"' | '\\' => quoted.extend(['\\', letter]),
            '\n' => quoted.push_str("\\n"),
            letter if letter.is_control() => {
                let _ = write!(quoted, "\\u{:04x}", u32::from(letter));
            }
            letter => quoted.push(letter),
        }
    }
    quoted + "\""
}

//! Writes what is left of the crates of a clone as Rust, for a reader or a check.

use erase::{Crates, write};
use std::env;
use std::error::Error;
use std::path::Path;
use std::process::ExitCode;

const USAGE: &str = "usage: erase CLONE CRATE FOLDER

Writes the crate of CLONE, and those that it uses, into FOLDER/erased, and into FOLDER/cuts what is cut from each file.";

fn main() -> ExitCode {
    let words: Vec<_> = env::args().skip(1).collect();
    match erase(&words) {
        Ok(()) => ExitCode::SUCCESS,
        Err(error) => {
            eprintln!("{error}");
            ExitCode::FAILURE
        }
    }
}

fn erase(words: &[String]) -> Result<(), Box<dyn Error>> {
    let [top, name, folder] = words else {
        return Err(USAGE.into());
    };
    let files = Crates::of(Path::new(top), &[name.as_str()])?.erase()?;
    Ok(write(files, Path::new(folder))?)
}

//! Cleans the contours on standard input.
#![deny(unsafe_code)]

mod erased;
mod host;
mod streams;

use erased::fallible::String;
use erased::fallible::alloc::Global;
use erased::i_shape_tool::{Complaint, serve};
use std::process::ExitCode;
use std::{env, io};

fn main() -> ExitCode {
    let mut errors = io::stderr();
    let words: Result<Vec<_>, _> = env::args_os()
        .skip(1)
        .map(|word| word.into_string().map(String::from))
        .collect();
    let status = match words {
        Ok(words) => serve(
            Global,
            &words,
            &mut streams::input(),
            &mut streams::output(),
            &mut errors,
        ),
        Err(_) => {
            let _ = Complaint::Input.tell(&mut errors);
            Complaint::Input.status()
        }
    };
    ExitCode::from(status)
}

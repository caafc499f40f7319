//! What the build scripts of the workspace call.

use crate::crates::Crates;
use crate::fault::Stop;
use crate::lending::lending;
use crate::write::write;
use std::env;
use std::path::PathBuf;

/// Erases a crate of the clone, and those that it uses, into the folder that cargo gives the build script, for
/// `include!(concat!(env!("OUT_DIR"), "/erased/mod.rs"))`. Modules that are left out are named as `crate::module`.
///
/// The included file has `mod` lines alone, and modules are files beside it, which messages, debuggers and `cargo doc`
/// name.
pub fn build(name: &str, left_out: &[&str]) {
    build_all(&[name], left_out);
}

/// Does the same for several crates.
pub fn build_all(names: &[&str], left_out: &[&str]) {
    stop_at(try_build(names, left_out, false));
}

/// Does the same, with a module `lending` that lends the crate's calls the pointers of C.
pub fn build_library(name: &str) {
    stop_at(try_build(&[name], &[], true));
}

fn stop_at(built: Result<(), Stop>) {
    if let Err(stop) = built {
        println!("cargo::error={stop}");
    }
}

fn try_build(names: &[&str], left_out: &[&str], lends: bool) -> Result<(), Stop> {
    let top = folder("CARGO_MANIFEST_DIR").join("../..");
    let top = top.canonicalize().map_err(Stop::of_file(&top))?;
    let crates = Crates::of(&top, names)?.without(left_out);
    for source in crates.sources() {
        println!("cargo::rerun-if-changed={}", source.display());
    }
    let mut erased = crates.erase()?;
    if lends {
        erased.push(lending(&erased));
    }
    write(erased, &folder("OUT_DIR"))
}

/// The folder that cargo names so. There is no default: what is at the place of the erased files is removed.
fn folder(name: &str) -> PathBuf {
    let folder =
        env::var_os(name).unwrap_or_else(|| panic!("cargo sets {name} for a build script"));
    PathBuf::from(folder)
}

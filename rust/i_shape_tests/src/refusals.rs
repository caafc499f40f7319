//! Refuses the growths of the calls in `crates/refusals` one by one, as `.ci/refusals.py` does where the kit has built them.
//!
//! Each test of that crate runs in a process of its own with its growth of number N refused, for N = 1, 2, .. up to the first
//! run in which none is. A test prints `NAME begins` before a call, and behind it `NAME done` or `NAME refused`. A call that
//! does without memory prints `NAME answered` either way, and counts as refused where a growth was refused in it.

use std::collections::{BTreeMap, BTreeSet};
use std::env;
use std::error::Error;
use std::io;
use std::process::{Command, Output};

/// How many growths each call makes, a number and a name a line.
const GROWTHS: &str = include_str!("../../../crates/refusals/growths.txt");

/// How often a call was refused, and how often it was done.
#[derive(Clone, Copy, Debug, Default, PartialEq, Eq)]
struct Ends {
    refused: usize,
    done: usize,
}

/// What a run with one growth refused printed.
struct Run<'a> {
    refused: Vec<&'a str>,
    done: Vec<&'a str>,
    has_refusal: bool,
    faults: Vec<String>,
}

impl<'a> Run<'a> {
    fn read(printed: &'a str) -> Run<'a> {
        let (refused, done, faults) = (Vec::new(), Vec::new(), Vec::new());
        let has_refusal = false;
        let mut run = Run {
            refused,
            done,
            has_refusal,
            faults,
        };
        // The call that has begun, and whether a growth was refused in it.
        let mut call = "";
        let mut is_within = false;
        for line in printed.lines() {
            if line == "growth refused" {
                run.has_refusal = true;
                is_within = true;
            } else if let Some(name) = line.strip_suffix(" begins") {
                call = name;
                is_within = false;
            } else if let Some(name) = line.strip_suffix(" done") {
                run.end(name, name == call && !is_within);
                run.done.push(name);
            } else if let Some(name) = line.strip_suffix(" refused") {
                run.end(name, name == call && is_within);
                run.refused.push(name);
            } else if let Some(name) = line.strip_suffix(" answered") {
                run.end(name, name == call);
                let ends = if is_within {
                    &mut run.refused
                } else {
                    &mut run.done
                };
                ends.push(name);
            }
        }
        run
    }

    /// A call is refused where a growth was refused in it, and done where none was.
    fn end(&mut self, name: &str, is_right: bool) {
        if !is_right {
            self.faults
                .push(format!("{name} doesn't end as it was let"));
        }
    }
}

/// The tests of `crates/refusals`, by the names that cargo's harness has for them.
fn tests() -> Result<Vec<String>, Box<dyn Error>> {
    let listed = Command::new(env::current_exe()?).arg("--list").output()?;
    let names = String::from_utf8(listed.stdout)?;
    let names = names.lines().filter_map(|line| line.strip_suffix(": test"));
    let of_refusals = names.filter(|name| name.starts_with("erased::refusals::"));
    Ok(of_refusals.map(str::to_owned).collect())
}

/// Runs the test with the growth of this number refused.
fn run(test: &str, growth: usize) -> io::Result<Output> {
    Command::new(env::current_exe()?)
        .args([test, "--exact", "--nocapture", "--test-threads=1"])
        .env("REFUSED_GROWTH", growth.to_string())
        .output()
}

/// Refuses each growth of the test, and returns what is wrong.
fn refuse_each(
    test: &str,
    ends: &mut BTreeMap<String, Ends>,
) -> Result<Vec<String>, Box<dyn Error>> {
    for growth in 1.. {
        let output = run(test, growth)?;
        let printed = String::from_utf8_lossy(&output.stdout);
        let run = Run::read(&printed);
        for name in &run.refused {
            ends.entry((*name).to_owned()).or_default().refused += 1;
        }
        if !output.status.success() || !run.faults.is_empty() {
            let told = String::from_utf8_lossy(&output.stderr);
            let faults = run.faults.join("\n");
            return Ok(vec![format!(
                "{test}, growth {growth}: {faults}\n{printed}{told}"
            )]);
        }
        if !run.has_refusal {
            for name in &run.done {
                ends.entry((*name).to_owned()).or_default().done += 1;
            }
            return Ok(Vec::new());
        }
    }
    unreachable!("a test makes fewer growths than there are numbers")
}

/// The growths that each call makes, as they are listed.
fn listed() -> impl Iterator<Item = (String, Ends)> {
    GROWTHS.lines().filter_map(|line| {
        let (growths, name) = line.split_once(' ')?;
        let refused = growths.parse().ok()?;
        Some((name.to_owned(), Ends { refused, done: 1 }))
    })
}

#[test]
fn each_growth_is_refused() -> Result<(), Box<dyn Error>> {
    let mut ends = BTreeMap::new();
    let mut faults = Vec::new();
    for test in tests()? {
        faults.extend(refuse_each(&test, &mut ends)?);
    }
    let listed: BTreeMap<_, _> = listed().collect();
    let names: BTreeSet<_> = listed.keys().chain(ends.keys()).collect();
    for name in names {
        let (wanted, ended) = (listed.get(name), ends.get(name));
        if wanted != ended {
            faults.push(format!("{name}: {ended:?}, and not {wanted:?}"));
        }
    }
    assert!(faults.is_empty(), "{}", faults.join("\n"));
    Ok(())
}

//! The proved archives against the plain account, on random lists of calls and on texts to repair.
//!
//!     archive [--seed N] [--length N]             the calls; the length is their number over all lists
//!     archive repair [--seed N] [--length N]      the repair; the length is the number of random texts
//!
//! Compared at every call is its whole answer and every place of the lent lists. The exit status is 0 where nothing
//! differs, and 1 with the first difference otherwise.

#[allow(dead_code)]
#[path = "../../../include/phayaklit.rs"]
mod phayaklit;
mod repair;
mod target;
#[cfg(test)]
mod tests;

use check::lists::compare;
use check::options::{exit, Options};
use check::repair as repairs;
use std::process::ExitCode;
use target::Archive;

/// The seed and the length, the latter where none is given by default.
fn sizes(words: &[String], length: u64) -> Result<(u64, usize), String> {
    let options = Options::parse(words, &["--seed", "--length"])?;
    Ok((options.number("--seed", 1)?, options.number("--length", length)? as usize))
}

fn run(words: &[String]) -> Result<String, String> {
    if words.first().is_some_and(|word| word == "repair") {
        let (seed, length) = sizes(&words[1..], 1000)?;
        repairs::compare(repair::repair, seed, length)?;
        return Ok(format!("archive repair: no difference in {length} texts, seed {seed}"));
    }
    let (seed, length) = sizes(words, 100_000)?;
    compare(&mut Archive::default(), seed, length)?.print();
    Ok(format!("archive: no difference in {length} calls, seed {seed}"))
}

fn main() -> ExitCode {
    exit(run(&std::env::args().skip(1).collect::<Vec<_>>()))
}

//! Tests the tests: each fault is put into a stand-in for what is compared with the account, and each comparison that
//! can see it must find it.
//!
//!     faults [--by lists|serve|stand|repair|lent] [--seeds N]     the faults, all or those of one comparison
//!     faults standin N serve|stand|repair [ARGUMENT..]            the stand-in with the fault N, as a program
//!
//! The exit status is 0 where each fault is found, by one of the seeds 1 to N, and where nothing is found in the stand-in
//! without a fault.

use account::call::{Answer, Call, Lists, Start};
use check::lists::{compare, Target};
use check::options::{exit, Options};
use check::program::Runner;
use check::{repair, serve, stand};
use standin::list::{self, Comparison, FAULTS};
use standin::wire::Wire;
use standin::{programs, switch};
use std::process::ExitCode;

/// The number of no fault.
const NONE: usize = FAULTS.len();
/// The seconds without a byte that count as a hang.
const TIMEOUT: u64 = 2;

#[derive(Default)]
struct Standin(Wire);

impl Target for Standin {
    fn begin(&mut self, start: &Start) -> Answer {
        self.0.begin(start)
    }

    fn call(&mut self, call: &Call, lists: &mut Lists) -> Answer {
        self.0.account.step(call, lists)
    }
}

/// The first difference that a comparison finds in the stand-in with that fault.
fn difference(fault: usize, comparison: Comparison, seed: u64) -> Option<String> {
    let this = std::env::current_exe().expect("this program has a path");
    let started = |program: &str| Runner::new(&format!("{} standin {fault} {program}", this.display()), TIMEOUT);
    match comparison {
        Comparison::Lists => {
            switch::set(fault);
            compare(&mut Standin::default(), seed, 50_000).err()
        }
        Comparison::Serve => serve::check(&started("serve"), seed, 2000).err(),
        Comparison::Stand => stand::check(&started("stand"), seed, 200).err(),
        Comparison::Repair => repair::check(&started("repair"), seed, 200).err(),
        Comparison::Lent => {
            switch::set(fault);
            repair::compare(standin::repair::repair, seed, 400).err()
        }
    }
}

/// How many of the faults that a comparison must find it finds, and of how many. Without a fault it finds nothing.
fn found_by(comparison: Comparison, seeds: u64) -> Result<(usize, usize), String> {
    if let Some(difference) = difference(NONE, comparison, 1) {
        return Err(format!("{comparison:?}, without a fault: {difference}"));
    }
    let (mut found, mut tried) = (0, 0);
    for (at, fault) in FAULTS.iter().enumerate().filter(|(_, fault)| fault.found_by.contains(&comparison)) {
        tried += 1;
        match (1..=seeds).find(|&seed| difference(at, comparison, seed).is_some()) {
            Some(1) => found += 1,
            Some(seed) => {
                found += 1;
                println!("{comparison:?}, not before seed {seed}: {}", fault.says);
            }
            None => println!("{comparison:?}: MISSED: {}", fault.says),
        }
    }
    Ok((found, tried))
}

fn run(words: &[String]) -> Result<String, String> {
    let options = Options::parse(words, &["--by", "--seeds"])?;
    let (by, seeds) = (options.text("--by"), options.number("--seeds", 3)?);
    let named = |comparison: &Comparison| by.is_none_or(|by| by == format!("{comparison:?}").to_lowercase());
    let comparisons: Vec<Comparison> = list::ALL.iter().copied().filter(named).collect();
    let (mut found, mut tried) = (0, 0);
    for comparison in comparisons {
        let (some, all) = found_by(comparison, seeds)?;
        (found, tried) = (found + some, tried + all);
    }
    let said = format!("faults: {found} of {tried} found");
    if found == tried && tried > 0 {
        Ok(said)
    } else {
        Err(said)
    }
}

fn main() -> ExitCode {
    let words: Vec<String> = std::env::args().skip(1).collect();
    if let [standin, fault, program @ ..] = &words[..] {
        if standin == "standin" {
            switch::set(fault.parse().expect("the number of a fault"));
            return programs::run(program);
        }
    }
    exit(run(&words))
}

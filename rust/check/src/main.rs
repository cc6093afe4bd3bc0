//! The comparisons with the plain account, by name; tests/check builds this program and says what there is.

use check::options::{exit, Options};
use check::program::Runner;
use check::{cases, documents, nonblocking, repair, serve, session, stand};
use std::io::{self, Write};
use std::process::ExitCode;

/// A comparison with a program: from a seed, and of so many requests or texts.
type Comparison = fn(&Runner, u64, usize) -> Result<(), String>;

fn compare(name: &str, words: &[String], comparison: Comparison) -> Result<String, String> {
    let options = Options::parse(words, &["--program", "--seed", "--length", "--timeout"])?;
    let command = options.text("--program").ok_or("--program is not given")?;
    let (seed, length) = (options.number("--seed", 1)?, options.number("--length", 1000)?);
    comparison(&Runner::new(command, options.number("--timeout", 20)?), seed, length as usize)?;
    Ok(format!("{name}: no difference, seed {seed}, length {length}"))
}

fn print(text: &[u8]) -> ExitCode {
    io::stdout().write_all(text).map_or(ExitCode::FAILURE, |()| ExitCode::SUCCESS)
}

fn main() -> ExitCode {
    let words: Vec<String> = std::env::args().skip(1).collect();
    let names: Vec<&str> = words.iter().map(String::as_str).collect();
    match names[..] {
        ["documents"] => exit(documents::check().map(|()| "documents: the protocol's example is one".to_string())),
        ["session", "requests"] => print(&session::requests()),
        ["session", "answers"] => print(&session::answers()),
        ["cases"] => print(cases::printed().as_bytes()),
        ["cases", "rows"] => print(cases::rows().as_bytes()),
        ["serve", ..] => exit(compare("serve", &words[1..], serve::check)),
        ["stand", ..] => exit(compare("stand", &words[1..], stand::check)),
        ["repair", ..] => exit(compare("repair", &words[1..], repair::check)),
        ["nonblocking", _, ..] => nonblocking::run(&words[1..]).unwrap_or_else(|error| {
            eprintln!("nonblocking: {error}");
            ExitCode::FAILURE
        }),
        _ => exit(Err("there is no such test: tests/check has the names".to_string())),
    }
}

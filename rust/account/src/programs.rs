//! The programs `serve`, `stand` and `repair` over the account. An error is what they tell on standard error.

use crate::account::Account;
use crate::call::{Answer, Call, Lists, Question, Start};
use crate::limits::{LAST_DAY, MOST_SPELLS};
use crate::register::tabbed;
use crate::repair::printed_and_told;
use crate::wire::{bytes_of, take, Wire};
use std::fs::File;
use std::io::{self, Read, Write};
use std::process::ExitCode;

/// The program that the arguments name: `serve`, `serve FILE`, `stand` or `repair`.
pub fn run(arguments: &[String]) -> ExitCode {
    let arguments: Vec<&str> = arguments.iter().map(String::as_str).collect();
    let run = match arguments[..] {
        ["serve"] => serve(None),
        ["serve", file] => serve(Some(file)),
        ["stand"] => stand(),
        ["repair"] => repair(),
        _ => Err("usage: serve [FILE], stand, or repair".to_string()),
    };
    match run {
        Ok(()) => ExitCode::SUCCESS,
        Err(told) => {
            eprintln!("{told}");
            ExitCode::FAILURE
        }
    }
}

fn failed(error: io::Error) -> String {
    error.to_string()
}

/// Serves requests. Where a file is named the service begins on its register, and serves nothing where that is refused.
fn serve(file: Option<&str>) -> Result<(), String> {
    let mut wire = Wire::default();
    if let Some(name) = file {
        let mut text = Vec::new();
        File::open(name).and_then(|mut file| file.read_to_end(&mut text)).map_err(failed)?;
        let answer = wire.begin(&Start::Text(text));
        send(&bytes_of(&answer))?;
        if answer != Answer::Done {
            return Err(format!("serve: {name}: the register is not taken"));
        }
    }
    while let Some(request) = take(&mut io::stdin().lock()).map_err(failed)? {
        send(&wire.answer(request))?;
    }
    Ok(())
}

/// An answer goes out at once.
fn send(answer: &[u8]) -> Result<(), String> {
    let mut output = io::stdout().lock();
    output.write_all(answer).and_then(|()| output.flush()).map_err(failed)
}

/// All of the input.
fn input() -> Result<Vec<u8>, String> {
    let mut text = Vec::new();
    io::stdin().lock().read_to_end(&mut text).map_err(failed)?;
    Ok(text)
}

fn stand() -> Result<(), String> {
    let (printed, told) = standing_days(&input()?);
    send(&printed)?;
    told.map_or(Ok(()), Err)
}

fn repair() -> Result<(), String> {
    let (printed, told) = printed_and_told(&input()?);
    send(&printed)?;
    io::stderr().write_all(&told).map_err(failed)
}

/// What `stand` prints for a text, and where the text is refused what it tells.
pub fn standing_days(text: &[u8]) -> (Vec<u8>, Option<String>) {
    let (mut account, begun) = Account::begin(&Start::Text(text.to_vec()));
    if let Answer::Misread(refusal, line) = begun {
        let told = format!("stand: the register is refused: {} at line {line}", refusal.0);
        return (bytes_of(&begun), Some(told));
    }
    let mut lists = Lists { numbers: vec![0; MOST_SPELLS], text: Vec::new() };
    account.step(&Call::Publish(1), &mut lists);
    let days = (1..=LAST_DAY).map(|d| day_line(d, account.step(&Call::Ask(Question::Day(d)), &mut lists)));
    (days.collect::<String>().into_bytes(), None)
}

/// The line of one day; nothing where nobody stands.
fn day_line(d: u16, answer: Answer) -> String {
    match answer {
        Answer::Listed { numbers, looks: Some(looks), .. } if !numbers.is_empty() => {
            format!("{d}\t{}\t{looks}{}\n", numbers.len(), tabbed(&numbers))
        }
        _ => String::new(),
    }
}

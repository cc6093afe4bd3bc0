//! Who changed what and when, in words.

use crate::archive::{Lent, State};
use crate::journal::{Journal, Refusal, Row};
use crate::replay::{again, parts};
use crate::time;
use std::collections::HashMap;
use std::fs;
use std::io::Write;

/// Which changes are told: those of a spell, those since a time.
#[derive(Default)]
pub struct Wanted {
    pub spell: Option<u16>,
    pub since: Option<i64>,
}

/// Prints the changes, one to a line. The journal is replayed, so that a change of a spell by `take-back` or `read` is told too.
pub fn print(journal: &Journal, wanted: &Wanted, out: &mut impl Write) -> Result<(), Refusal> {
    let names = user_names();
    let mut lent = Lent::new();
    let mut state = State::fresh();
    let mut stood = None;
    journal.each(|row| {
        again(&mut lent, &mut state, row)?;
        let stands = wanted.spell.and_then(|spell| line_of(spell, &lent.text(&mut state)));
        let concerns = wanted.spell.is_none_or(|spell| stands != stood || names_spell(row, spell));
        stood = stands;
        if concerns && wanted.since.is_none_or(|since| row.change.time >= since) {
            let user = names.get(&row.change.user).cloned().unwrap_or_else(|| row.change.user.to_string());
            let line = format!("{}\t{}\t{user}\t{}\n", row.sequence, time::shown(row.change.time), in_words(row));
            out.write_all(line.as_bytes()).map_err(|error| format!("standard output: {error}"))?;
        }
        Ok(())
    })?;
    Ok(())
}

/// The users of this machine by number.
fn user_names() -> HashMap<u32, String> {
    let users = fs::read_to_string("/etc/passwd").unwrap_or_default();
    let named = |line: &str| {
        let fields: Vec<&str> = line.split(':').collect();
        Some((fields.get(2)?.parse().ok()?, (*fields.first()?).to_string()))
    };
    users.lines().filter_map(named).collect()
}

/// The line of a spell in a register text.
fn line_of(spell: u16, text: &[u8]) -> Option<Vec<u8>> {
    let begin = format!("{spell}\t");
    text.split(|&b| b == b'\n').find(|line| line.starts_with(begin.as_bytes())).map(<[u8]>::to_vec)
}

fn fields_of(row: &Row) -> Vec<String> {
    let (line, _) = parts(&row.change.request);
    String::from_utf8_lossy(line).trim_end().split('\t').map(str::to_string).collect()
}

fn names_spell(row: &Row, spell: u16) -> bool {
    let fields = fields_of(row);
    let named = fields.get(1).is_some_and(|number| *number == spell.to_string());
    named && matches!(fields[0].as_str(), "enter" | "amend" | "strike")
}

fn in_words(row: &Row) -> String {
    let fields = fields_of(row);
    let fields: Vec<&str> = fields.iter().map(String::as_str).collect();
    match fields.as_slice() {
        ["enter", rest @ ..] => format!("entered {}", spell_in_words(rest)),
        ["amend", rest @ ..] => format!("amended {}", spell_in_words(rest)),
        ["strike", number] => format!("struck spell {number}"),
        ["take-back"] => "took the last edit back".to_string(),
        ["publish", ..] => "published the standing list".to_string(),
        ["read", length, ..] if row.change.answer == b"ok\n" => format!("began anew on a register of {length} bytes"),
        ["read", length, ..] => {
            format!("began anew on nothing: a register of {length} bytes was {}", answer_in_words(row))
        }
        other => other.join(" "),
    }
}

fn answer_in_words(row: &Row) -> String {
    String::from_utf8_lossy(&row.change.answer).trim_end().replace('\t', " ")
}

fn spell_in_words(fields: &[&str]) -> String {
    match fields {
        [number, candidate, first, last, letter, value] => {
            format!(
                "spell {number}: candidate {candidate}, days {first} to {last}, {}",
                urgency_in_words(letter, value)
            )
        }
        other => other.join(" "),
    }
}

fn urgency_in_words(letter: &str, value: &str) -> String {
    match u32::from_str_radix(value, 16) {
        Ok(bits) if letter == "C" => format!("reading {} ({value})", f32::from_bits(bits)),
        _ if letter == "G" => format!("grade {value}"),
        _ => format!("{letter} {value}"),
    }
}

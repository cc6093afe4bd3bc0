//! The other calls of the proved library on a full register, and the program `stand`.

use crate::contenders::*;
use crate::phayaklit::{self, Spell, Urgency};
use crate::proved::Proved;
use crate::rows::{text_of, Row, LAST_DAY, ROWS};
use crate::table;
use crate::timing::{median, median_of};
use std::fmt::Write;
use std::hint::black_box;
use std::io::Write as _;
use std::process::{Command, Stdio};
use std::time::Instant;

const STAND: &str = "../target/bin/stand";

fn microseconds(nanoseconds: f64) -> Vec<String> {
    vec![format!("{:.1}", nanoseconds / 1000.0)]
}

/// The time of one call, put behind those of the rounds before.
fn timed(times: &mut Vec<f64>, call: impl FnOnce()) {
    let begin = Instant::now();
    call();
    times.push(begin.elapsed().as_nanos() as f64);
}

/// Edits in the middle of a list that is full but for one place: enter, amend, take back, strike.
fn edits(proved: &mut Proved, rounds: usize) -> Vec<(String, Vec<String>)> {
    let (first, last) = (LAST_DAY / 2, LAST_DAY / 2 + 9);
    let spell = |last| Spell { number: 65_535, candidate: 1, first, last, urgency: Urgency::Grade(1) };
    let mut times = [const { Vec::new() }; 4];
    let service = &mut proved.service;
    for _ in 0..rounds {
        timed(&mut times[0], || service.enter(black_box(spell(last))).expect("a free place"));
        timed(&mut times[1], || service.amend(black_box(spell(last + 5))).expect("a standing spell"));
        timed(&mut times[2], || service.take_back().expect("an edit to take back"));
        timed(&mut times[3], || service.strike(black_box(65_535)).expect("a standing spell"));
    }
    let names = ["enter", "amend", "take back", "strike"].map(String::from);
    names.into_iter().zip(times.map(|times| microseconds(median(times)))).collect()
}

/// Reading, writing and publishing a full register.
fn whole_registers(rows: &[Row], rounds: usize) -> Vec<(String, Vec<String>)> {
    let text = text_of(rows);
    let mut proved = Proved::new(rows);
    let mut written = [0; phayaklit::WRITE_BYTES];
    let write = median_of(rounds, || {
        black_box(proved.service.write(black_box(&mut written)).expect("a list long enough"));
    });
    assert!(written.starts_with(text.as_bytes()), "what was read is written");
    let publish =
        median_of(rounds, || proved.service.publish(1, black_box(&mut proved.index)).expect("there is such a rule"));
    let (mut service, mut index) = (vec![0; phayaklit::SERVICE_WORDS], vec![0; phayaklit::INDEX_WORDS]);
    let read = median_of(rounds, || {
        let begun = phayaklit::read(black_box(text.as_bytes()), &mut service, &mut index);
        assert!(begun.is_ok_and(|begun| begun.2.is_ok()));
    });
    vec![
        (format!("read a register of {} bytes", text.len()), microseconds(read)),
        ("write it".to_string(), microseconds(write)),
        ("publish".to_string(), microseconds(publish)),
        (
            "publish readings of one first day by rule 2, ratio to publish".to_string(),
            ratio(publish_worst(rounds), publish),
        ),
    ]
}

fn ratio(taken: f64, other: f64) -> Vec<String> {
    vec![format!("{:.2}", taken / other)]
}

/// Publishing the rows that need the most sorting: readings with one first day, which under rule 2 also have one last day, so that they go by
/// their numbers, which stand in no order.
fn publish_worst(rounds: usize) -> f64 {
    let line = |k| format!("{}\t1\t1\t{}\tC\t00000000\n", 1 + k * 389 % ROWS, 7 + k);
    let text: String = (0..ROWS).map(line).collect();
    let (mut service, mut index) = (vec![0; phayaklit::SERVICE_WORDS], vec![0; phayaklit::INDEX_WORDS]);
    let (service, mut index, read) =
        phayaklit::read(text.as_bytes(), &mut service, &mut index).expect("blocks of their size");
    read.expect("a good register");
    median_of(rounds, || service.publish(2, black_box(&mut index)).expect("a rule that there is"))
}

/// What the other contenders take to build what they ask.
fn builds(rows: &[Row], rounds: usize) -> Vec<(String, Vec<String>)> {
    let row = |name: &str, taken| (format!("build, {name}"), microseconds(taken));
    vec![
        row("intervaltree (crate)", median_of(rounds, || drop(black_box(PackagedCrate::new(black_box(rows)))))),
        row("libiitii: iit", median_of(rounds, || drop(black_box(Linked::plain(black_box(rows)))))),
        row("libiitii: iitii", median_of(rounds, || drop(black_box(Linked::interpolated(black_box(rows)))))),
    ]
}

/// What `stand` is to print of the rows, by the library's own answers.
fn standing_lines(rows: &[Row]) -> String {
    let proved = Proved::new(rows);
    let mut out = [0; ROWS];
    let mut lines = String::new();
    for day in 1..=LAST_DAY {
        let listed = proved.ask(day, day, &mut out);
        if listed.count > 0 {
            let numbers: String = out[..listed.count].iter().map(|number| format!("\t{number}")).collect();
            writeln!(lines, "{day}\t{}\t{}{numbers}", listed.count, listed.looks).expect("a string takes all");
        }
    }
    lines
}

/// Runs `stand` on a text and returns what it prints.
fn stand(text: &str) -> Vec<u8> {
    let mut command = Command::new(STAND);
    let mut child = command.stdin(Stdio::piped()).stdout(Stdio::piped()).spawn().expect("target/bin/stand");
    let mut input = child.stdin.take().expect("a pipe");
    input.write_all(text.as_bytes()).expect("stand reads all of its input");
    drop(input);
    child.wait_with_output().expect("stand ends").stdout
}

fn stand_rows(rows: &[Row], rounds: usize) -> Vec<(String, Vec<String>)> {
    let text = text_of(rows);
    let printed = stand(&text);
    assert!(printed == standing_lines(rows).as_bytes(), "stand prints what the library answers");
    let full = median_of(rounds, || drop(black_box(stand(&text))));
    let empty = median_of(rounds, || drop(black_box(stand(""))));
    vec![
        (format!("`stand`, a process, {} bytes printed", printed.len()), microseconds(full)),
        ("`stand` on the empty register".to_string(), microseconds(empty)),
    ]
}

/// Prints what the calls take on a full register of these rows.
pub fn report(rows: &[Row], rounds: usize) {
    let mut lines = whole_registers(rows, rounds);
    lines.extend(edits(&mut Proved::new(&rows[1..]), rounds));
    lines.extend(stand_rows(rows, rounds.min(21)));
    lines.extend(builds(rows, rounds.min(21)));
    println!("\n## Other calls, on the waiting list of 1,024 spells");
    table::print(&["", "microseconds"], &lines);
}

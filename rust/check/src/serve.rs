//! Talks to a `serve` over pipes and compares every byte of its answers with the account's.

use crate::limits;
use crate::program::{wait_until_read, Pace, Program, Runner, SMALL};
use crate::scratch::Scratch;
use crate::session;
use crate::shown::{bytes, first_difference};
use account::register::REGISTER_A;
use generate::rng::Rng;
use generate::{endings, Conversation, Generator};
use std::fs::File;
use std::io::Write;
use std::process::Command;

/// How the requests of a conversation are sent.
#[derive(Clone, Copy, Debug)]
pub enum Manner {
    /// Each when the one before it is answered, so that a program that waits for more than a request shows as a hang.
    One,
    /// As one stream in random pieces.
    Pieces,
    /// In pieces of so many bytes, each when the program has taken the one before it, so that each of its reads is
    /// short.
    Drained(usize),
}

/// The requests that are sent a byte at a time, and the most bytes of one.
const SINGLE: usize = 800;
const SHORT: usize = 300;
/// The random registers on which a program begins.
const FILES: usize = 12;

/// All conversations: random ones of so many requests, those that begin on files, at the limits, at every end of the
/// input.
pub fn check(serve: &Runner, seed: u64, length: usize) -> Result<(), String> {
    let mut generator = Generator::new(seed);
    let talk = generator.conversation(length, usize::MAX);
    talk_in("random requests", serve, &talk, &[Manner::One, Manner::Pieces], seed)?;
    let talk = generator.conversation(SINGLE, SHORT);
    talk_in("short random requests", serve, &talk, &[Manner::Drained(1)], seed)?;
    for text in (0..FILES).map(|_| generator.text()).chain(limits::texts()) {
        talk_in("begun on a register", serve, &limits::begun_on(&text), &[Manner::One], seed)?;
    }
    for (name, talk, manners) in at_limits() {
        talk_in(name, serve, &talk, manners, seed)?;
    }
    for ending in endings() {
        let mut talk = Conversation::of([b"publish\t1\n".to_vec()]);
        talk.ending = ending;
        talk_in("the end of the input", serve, &talk, &[Manner::One], seed)?;
    }
    for text in [limits::longest_register(), limits::too_long()] {
        slow_file(serve, &text)?;
    }
    missing_file(serve)
}

fn at_limits() -> Vec<(&'static str, Conversation, &'static [Manner])> {
    const BOTH: &[Manner] = &[Manner::One, Manner::Pieces];
    vec![
        ("the stored conversation", session::conversation(), BOTH),
        ("begun on register A", limits::begun_on(REGISTER_A), BOTH),
        ("begun on the longest register", limits::begun_on(&limits::longest_register()), BOTH),
        ("rooms", limits::rooms(), BOTH),
        ("the longest lines", limits::longest_lines(), BOTH),
        ("long lines", limits::long_lines(), BOTH),
        ("long texts", limits::long_texts(), BOTH),
        ("many requests", limits::many(), &[Manner::Pieces]),
        ("small pieces", limits::small_pieces(), &[Manner::Drained(SMALL)]),
    ]
}

fn talk_in(name: &str, serve: &Runner, talk: &Conversation, manners: &[Manner], seed: u64) -> Result<(), String> {
    manners.iter().try_for_each(|&manner| {
        converse(serve, talk, manner, seed)
            .map_err(|difference| format!("{name}, {manner:?}, seed {seed}: {difference}"))
    })
}

/// One conversation, with a program started for it.
fn converse(serve: &Runner, talk: &Conversation, manner: Manner, seed: u64) -> Result<(), String> {
    let file = talk.file.as_ref().map(|text| Scratch::file(text)).transpose().map_err(|error| error.to_string())?;
    let pace = if let Manner::Drained(_) = manner { Pace::Drained } else { Pace::Free };
    let mut program = serve.start(file.as_ref().map(Scratch::as_path), pace)?;
    if let Manner::One = manner {
        one_by_one(&mut program, talk)?;
    } else {
        as_a_stream(&mut program, talk, manner, seed)?;
    }
    ended(program, talk)
}

fn one_by_one(program: &mut Program, talk: &Conversation) -> Result<(), String> {
    for (at, exchange) in talk.exchanges.iter().enumerate() {
        program.send(&exchange.request);
        program.expect(&exchange.answer).map_err(|(what, received)| differs(talk, at, what, &received))?;
    }
    Ok(())
}

fn as_a_stream(program: &mut Program, talk: &Conversation, manner: Manner, seed: u64) -> Result<(), String> {
    let (stream, expected) = (talk.requests(), talk.answers());
    match manner {
        Manner::Drained(size) => stream.chunks(size).for_each(|piece| program.send(piece)),
        _ => random_pieces(&stream, seed).for_each(|piece| program.send(piece)),
    }
    program.expect(&expected).map_err(|(what, received)| {
        let mut before = 0;
        let place = first_difference(&expected, &received);
        let at = talk.exchanges.iter().position(|exchange| {
            before += exchange.answer.len();
            place < before
        });
        let at = at.unwrap_or(talk.exchanges.len() - 1);
        let begin = before - talk.exchanges[at].answer.len();
        differs(talk, at, what, &received[begin.min(received.len())..])
    })
}

/// The stream cut at random places, into single bytes, short pieces and long ones.
fn random_pieces(stream: &[u8], seed: u64) -> impl Iterator<Item = &[u8]> {
    let mut rng = Rng::new(seed);
    let mut left = stream;
    std::iter::from_fn(move || {
        let largest = rng.pick(&[1, 3, 20, 400, 5_000, 65_536, 200_000]);
        let (piece, rest) = left.split_at(rng.range(1, largest).min(left.len()));
        left = rest;
        (!piece.is_empty()).then_some(piece)
    })
}

/// The difference at a request.
fn differs(talk: &Conversation, at: usize, what: &str, received: &[u8]) -> String {
    let exchange = &talk.exchanges[at];
    let (request, expected, received) = (bytes(&exchange.request), bytes(&exchange.answer), bytes(received));
    format!("{what} at request {at}\n  request  {request}\n  expected {expected}\n  received {received}")
}

/// The end of the input, inside a request too, gives no further answer and ends the program. Nothing is told on
/// standard error, but that its register is refused.
fn ended(program: Program, talk: &Conversation) -> Result<(), String> {
    program.send(&talk.ending);
    let left = program.finish()?;
    let input = format!("the input ends in {}", bytes(&talk.ending));
    if !left.output.is_empty() {
        return Err(format!("output behind the last answer: {}\n  {input}", bytes(&left.output)));
    }
    if left.told.is_empty() == talk.refused {
        return Err(format!("told on standard error: {}\n  {input}", bytes(&left.told)));
    }
    if !left.status.success() && !talk.refused {
        return Err(format!("{}\n  {input}", left.status));
    }
    Ok(())
}

/// A file that can't be opened is told on standard error, and nothing is served.
fn missing_file(serve: &Runner) -> Result<(), String> {
    let program = serve.start(Some(Scratch::path().as_path()), Pace::Free)?;
    program.send(b"publish\t1\n");
    let left = program.finish()?;
    if !left.output.is_empty() || left.told.is_empty() {
        return Err(format!("a missing file gives output {}, error {}", bytes(&left.output), bytes(&left.told)));
    }
    Ok(())
}

/// A file whose bytes come in small pieces: a named pipe, which is read to its end or to one byte more than a text may
/// have.
fn slow_file(serve: &Runner, text: &[u8]) -> Result<(), String> {
    let failed = |error: std::io::Error| error.to_string();
    let path = Scratch::path();
    Command::new("mkfifo").arg(path.as_path()).status().map_err(failed)?;
    let mut pipe = File::options().read(true).write(true).open(path.as_path()).map_err(failed)?;
    let mut program = serve.start(Some(path.as_path()), Pace::Free)?;
    for piece in text.chunks(SMALL) {
        pipe.write_all(piece).map_err(failed)?;
        wait_until_read(&pipe, serve.timeout).map_err(|_| "a file in small pieces is not read".to_string())?;
    }
    drop(pipe);
    let talk = Conversation::begin(Some(text.to_vec()));
    one_by_one(&mut program, &talk).map_err(|difference| format!("a file in small pieces: {difference}"))?;
    ended(program, &talk)
}

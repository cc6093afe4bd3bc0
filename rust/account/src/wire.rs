//! The wire of `serve`: requests taken off a stream, what each asks, and its answer's bytes.

use crate::account::Account;
use crate::call::{Answer, Call, Lists, Question, Start};
use crate::limits::{LARGEST_LENGTH, LARGEST_ROOM, LONGEST_LINE};
use crate::register::{decimal, fields_of, hex, line_of, number, spell_of, tabbed};
use std::io::{self, BufRead, Read};

/// What a line asks.
#[derive(Clone, PartialEq, Eq, Debug)]
pub enum Asked {
    Call(Call),
    /// To lend lists of so many places from here on.
    Room(usize),
    /// To begin anew on the text of so many bytes that follows the line.
    Read(u64),
}

/// What a line without its LF asks; none where it has no form.
pub fn asked_by(line: &[u8]) -> Option<Asked> {
    let fields = fields_of(line);
    let (word, fields) = fields.split_first()?;
    let call = match (*word, fields) {
        (b"enter", _) => Call::Enter(spell_of(fields)?),
        (b"amend", _) => Call::Amend(spell_of(fields)?),
        (b"strike", [spell]) => Call::Strike(number(spell)?),
        (b"take-back", []) => Call::TakeBack,
        (b"publish", [rule]) => Call::Publish(number(rule)?),
        (b"write", []) => Call::Write,
        (b"day", [d]) => Call::Ask(Question::Day(number(d)?)),
        (b"span", [a, b]) => Call::Ask(Question::Span(number(a)?, number(b)?)),
        (b"cover", [spell]) => Call::Ask(Question::Cover(number(spell)?)),
        (b"days", days) => Call::Ask(Question::Days(days.iter().map(|d| number(d)).collect::<Option<_>>()?)),
        (b"mask", [base, bits]) => Call::Ask(Question::Mask(number(base)?, hex(bits, 16)?)),
        (b"room", [places]) => return Some(Asked::Room(decimal(places, LARGEST_ROOM as u64)? as usize)),
        (b"read", [length]) => return Some(Asked::Read(decimal(length, LARGEST_LENGTH)?)),
        _ => return None,
    };
    Some(Asked::Call(call))
}

/// The line by which a call is asked, with its LF.
pub fn line_asking(call: &Call) -> Vec<u8> {
    let arguments = match call {
        Call::Enter(spell) | Call::Amend(spell) => tabbed(&[line_of(spell)]),
        Call::Strike(number) | Call::Ask(Question::Cover(number)) => tabbed(&[number]),
        Call::Publish(rule) => tabbed(&[rule]),
        Call::TakeBack | Call::Write => String::new(),
        Call::Ask(Question::Day(d)) => tabbed(&[d]),
        Call::Ask(Question::Span(a, b)) => tabbed(&[a, b]),
        Call::Ask(Question::Days(days)) => tabbed(days),
        Call::Ask(Question::Mask(base, mask)) => format!("\t{base}\t{mask:016X}"),
    };
    format!("{}{arguments}\n", call.word()).into_bytes()
}

/// The request to begin anew on a text.
pub fn reading_of(text: &[u8]) -> Vec<u8> {
    [format!("read\t{}\n", text.len()).as_bytes(), text].concat()
}

/// A whole request: what its line asks, none where it has no form, and the text after the line of a `read`.
pub struct Request {
    pub asked: Option<Asked>,
    pub text: Vec<u8>,
}

/// The next whole request of a stream; none where the stream ends, inside a request too.
pub fn take(stream: &mut impl BufRead) -> io::Result<Option<Request>> {
    let mut line = Vec::new();
    stream.read_until(b'\n', &mut line)?;
    if !line.ends_with(b"\n") {
        return Ok(None);
    }
    let asked = if line.len() <= LONGEST_LINE { asked_by(&line[..line.len() - 1]) } else { None };
    let text = match asked {
        Some(Asked::Read(length)) => take_text(stream, length)?,
        _ => Some(Vec::new()),
    };
    Ok(text.map(|text| Request { asked, text }))
}

/// So many bytes; none where the stream ends before.
fn take_text(stream: &mut impl BufRead, length: u64) -> io::Result<Option<Vec<u8>>> {
    let mut text = Vec::new();
    stream.take(length).read_to_end(&mut text)?;
    Ok((text.len() as u64 == length).then_some(text))
}

/// A service on the wire: the account, and the lists that it is lent.
pub struct Wire {
    pub account: Account,
    lists: Lists,
}

impl Default for Wire {
    fn default() -> Wire {
        Wire { account: Account::default(), lists: lists_of(LARGEST_ROOM) }
    }
}

fn lists_of(places: usize) -> Lists {
    Lists { numbers: vec![0; places], text: vec![0; places] }
}

impl Wire {
    /// Begins anew; the lists stay.
    pub fn begin(&mut self, start: &Start) -> Answer {
        let (account, answer) = Account::begin(start);
        self.account = account;
        answer
    }

    pub fn answer(&mut self, request: Request) -> Vec<u8> {
        let answer = match request.asked {
            None => return b"malformed\n".to_vec(),
            Some(Asked::Call(call)) => self.account.step(&call, &mut self.lists),
            Some(Asked::Read(_)) => self.begin(&Start::Text(request.text)),
            Some(Asked::Room(places)) => {
                self.lists = lists_of(places);
                Answer::Done
            }
        };
        bytes_of(&answer)
    }

    /// The answers to the whole requests of some bytes.
    pub fn answers(&mut self, mut bytes: &[u8]) -> Vec<Vec<u8>> {
        let mut answers = Vec::new();
        while let Ok(Some(request)) = take(&mut bytes) {
            answers.push(self.answer(request));
        }
        answers
    }
}

/// An answer's bytes.
pub fn bytes_of(answer: &Answer) -> Vec<u8> {
    let line = match answer {
        Answer::Refused(refusal) => format!("refused\t{}\n", refusal.0),
        Answer::Misread(refusal, line) => format!("refused\t{}\t{line}\n", refusal.0),
        Answer::Done => "ok\n".to_string(),
        Answer::Listed { numbers, looks, ticked } => {
            let opening = ticked.map_or("listed".to_string(), |days| format!("ticked\t{days}"));
            let looks = looks.map_or("-".to_string(), |looks| looks.to_string());
            format!("{opening}\t{}\t{looks}{}\n", numbers.len(), tabbed(numbers))
        }
        Answer::Text(text) => return [format!("text\t{}\n", text.len()).as_bytes(), text].concat(),
    };
    line.into_bytes()
}

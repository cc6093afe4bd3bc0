//! The account on the documents' examples and at the edges of its rules.

mod calls;
mod examples;
mod masks;
mod repairs;
mod rules;
mod texts;
mod twins;
mod wire;

use account::account::Account;
use account::call::{Answer, Call, Lists, Question, Spell, Start, Urgency};
use account::limits::MOST_SPELLS;
use account::register::text_of;

fn spell(number: u16, first: u16, last: u16) -> Spell {
    Spell { number, candidate: 1, first, last, urgency: Urgency::Grade(1) }
}

fn read(text: &[u8]) -> (Account, Answer) {
    Account::begin(&Start::Text(text.to_vec()))
}

/// The account of a good text.
fn begun(text: &[u8]) -> Account {
    let (account, answer) = read(text);
    assert_eq!(answer, Answer::Done);
    account
}

fn published(text: &[u8]) -> Account {
    let mut account = begun(text);
    assert_eq!(step(&mut account, Call::Publish(1)), Answer::Done);
    account
}

/// As many spells as may stand, each on the day of its number.
fn full() -> Account {
    begun(&text_of(&(1..=MOST_SPELLS as u16).map(|n| spell(n, n, n)).collect::<Vec<_>>()))
}

/// A call with lists that are never short.
fn step(account: &mut Account, call: Call) -> Answer {
    account.step(&call, &mut Lists { numbers: vec![0; MOST_SPELLS], text: vec![0; 65_536] })
}

/// The refusal of a call with lists of no place.
fn refusal(account: &mut Account, call: Call) -> u16 {
    account.step(&call, &mut Lists::default()).refusal()
}

fn ask(account: &mut Account, question: Question) -> (Vec<u16>, Option<usize>) {
    let Answer::Listed { numbers, looks, .. } = step(account, Call::Ask(question)) else {
        panic!("the question is refused");
    };
    (numbers, looks)
}

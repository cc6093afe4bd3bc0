//! What the generator reaches: every check of every call, a past that runs over, and on the wire every kind of answer.

use account::account::Account;
use account::call::{Answer, Call, Refusal};
use account::limits::MOST_PAST;
use account::wire::{asked_by, line_asking, Asked};
use generate::Generator;
use std::collections::BTreeSet;

/// The refusals of each call, 0 where it is accepted.
const CHECKS: [(&str, &[u16]); 12] = [
    ("read", &[0, 1, 2, 3, 4, 5, 6, 8, 12, 13]),
    ("enter", &[0, 1, 2, 3, 4, 5, 6, 8]),
    ("amend", &[0, 1, 2, 3, 4, 5, 7]),
    ("strike", &[0, 7]),
    ("take-back", &[0, 9]),
    ("publish", &[0, 14]),
    ("write", &[0, 11]),
    ("day", &[0, 3, 11]),
    ("span", &[0, 3, 4, 11]),
    ("cover", &[0, 7, 11]),
    ("days", &[0, 3, 10, 11]),
    ("mask", &[0, 3, 11]),
];

/// Random lists of calls: each beginning, which is no call, and each call, with its answer and the account after it.
fn over_calls(mut made: impl FnMut(Option<&Call>, &Answer, &Account)) {
    let mut generator = Generator::new(1);
    for _ in 0..400 {
        let (start, calls) = generator.list();
        let (mut account, answer) = Account::begin(&start);
        made(None, &answer, &account);
        for _ in 0..calls {
            let call = generator.call(&account);
            let mut lists = generator.lists(&account, &call);
            let answer = account.step(&call, &mut lists);
            made(Some(&call), &answer, &account);
        }
    }
}

#[test]
fn every_check_of_every_call() {
    let mut met = BTreeSet::new();
    over_calls(|call, answer, _| {
        met.insert((call.map_or("read", Call::word), answer.refusal()));
    });
    let expected = CHECKS.iter().flat_map(|(call, refusals)| refusals.iter().map(move |refusal| (*call, *refusal)));
    let differences: Vec<_> = met.symmetric_difference(&expected.collect()).copied().collect();
    assert_eq!(differences, []);
}

#[test]
fn a_past_that_runs_over_and_empties() {
    let (mut full, mut emptied) = (false, 0);
    over_calls(|call, _, account| {
        full = call.is_some() && (full || account.past.len() == MOST_PAST);
        if full && account.past.is_empty() {
            (full, emptied) = (false, emptied + 1);
        }
    });
    assert!(emptied >= 10, "a past of 64 lists was emptied {emptied} times");
}

#[test]
fn a_calls_line_asks_that_call() {
    over_calls(|call, _, _| {
        let line = call.map_or(b"\n".to_vec(), line_asking);
        assert_eq!(asked_by(&line[..line.len() - 1]), call.cloned().map(Asked::Call));
    });
}

/// The first word of each answer, and the number behind `refused`.
#[test]
fn every_answer_of_the_wire() {
    let talk = Generator::new(1).conversation(3000, usize::MAX);
    let kind = |answer: &[u8]| {
        let fields: Vec<&[u8]> = answer.split(|byte| b"\t\n".contains(byte)).collect();
        String::from_utf8_lossy(&fields[..if fields[0] == b"refused" { 2 } else { 1 }].join(&b' ')).into_owned()
    };
    let met: BTreeSet<String> = talk.exchanges.iter().map(|exchange| kind(&exchange.answer)).collect();
    let refused = Refusal::NUMBERS.map(|number| format!("refused {number}"));
    let expected = refused.chain(["listed", "malformed", "ok", "text", "ticked"].map(String::from)).collect();
    let differences: Vec<_> = met.symmetric_difference(&expected).collect();
    assert!(differences.is_empty(), "{differences:?}");
}

//! Spells with equal days: answers go by candidate and then by number, the text by number.

use crate::{begun, step};
use account::call::Call::{Ask, Publish, Write};
use account::call::Question::Day;
use account::call::{Answer, Refusal};
use account::register;

const TWINS: &[u8] =
    b"1\t9\t5\t9\tG\t1\n2\t8\t5\t9\tG\t1\n3\t8\t5\t9\tG\t1\n4\t9\t5\t20\tC\t00000000\n5\t7\t5\t30\tC\t00000000\n";

fn on_day(rule: u16, day: u16) -> Vec<u16> {
    let account = &mut begun(TWINS);
    assert_eq!(step(account, Publish(rule)), Answer::Done);
    assert_eq!(step(account, Write), Answer::Text(TWINS.to_vec()));
    let Answer::Listed { numbers, .. } = step(account, Ask(Day(day))) else { panic!("a day is refused") };
    numbers
}

#[test]
fn answers_go_by_candidate() {
    assert_eq!(on_day(1, 6), [2, 3, 1, 4, 5]);
}

/// Readings that end on day 11 under rule 2 are twins of each other.
#[test]
fn twins_by_published_days() {
    assert_eq!(on_day(2, 6), [2, 3, 1, 5, 4]);
}

#[test]
fn texts_go_by_number() {
    let by_candidate = b"2\t8\t5\t9\tG\t1\n1\t9\t5\t9\tG\t1\n";
    assert_eq!(register::read(by_candidate), Err((Refusal::MISPLACED, 2)));
}

//! The rules of publishing.

use crate::{refusal, spell, step};
use account::account::Account;
use account::call::Call::{Amend, Ask, Enter, Publish, TakeBack, Write};
use account::call::Question::{Cover, Day};
use account::call::{Answer, Spell, Urgency};

fn reading(number: u16, first: u16, last: u16) -> Spell {
    Spell { urgency: Urgency::Reading(0), ..spell(number, first, last) }
}

fn entered(spells: &[Spell]) -> Account {
    let mut account = Account::default();
    for spell in spells {
        assert_eq!(step(&mut account, Enter(*spell)), Answer::Done);
    }
    account
}

fn published(account: &mut Account, rule: u16) -> Vec<(u16, u16, u16)> {
    assert_eq!(refusal(account, Publish(rule)), 0);
    account.published.spells.iter().map(|spell| (spell.number, spell.first, spell.last)).collect()
}

#[test]
fn readings_count_for_seven_days_under_rule_2() {
    let account = &mut entered(&[reading(1, 1, 6), reading(2, 1, 7), reading(3, 1, 8), spell(4, 1, 8)]);
    assert_eq!(published(account, 1), [(1, 1, 6), (2, 1, 7), (3, 1, 8), (4, 1, 8)]);
    assert_eq!(published(account, 2), [(1, 1, 6), (2, 1, 7), (3, 1, 7), (4, 1, 8)]);
}

#[test]
fn readings_at_the_end_of_the_calendar() {
    for first in 3994..=4000 {
        assert_eq!(published(&mut entered(&[reading(1, first, 4000)]), 2), [(1, first, 4000)]);
    }
    assert_eq!(published(&mut entered(&[reading(1, 3993, 4000)]), 2), [(1, 3993, 3999)]);
}

/// Spells with one first day change places, and with them the heads.
#[test]
fn cut_days_put_the_list_in_another_order() {
    let account = &mut entered(&[reading(1, 5, 30), reading(2, 5, 20), reading(3, 5, 11)]);
    assert_eq!(published(account, 1), [(3, 5, 11), (2, 5, 20), (1, 5, 30)]);
    assert_eq!(published(account, 2), [(1, 5, 11), (2, 5, 11), (3, 5, 11)]);
    assert_eq!(account.published.spells.len(), account.standing.len());
    assert_eq!(account.standing.iter().map(|spell| spell.last).collect::<Vec<_>>(), [11, 20, 30]);
}

/// There are two rules; another publishes nothing.
#[test]
fn a_rule_that_there_is_not() {
    let account = &mut entered(&[reading(1, 1, 9)]);
    assert_eq!(published(account, 2), [(1, 1, 7)]);
    step(account, Amend(reading(1, 1, 30)));
    assert_eq!([0, 3, 65_535].map(|rule| refusal(account, Publish(rule))), [14; 3]);
    let Answer::Listed { numbers, .. } = step(account, Ask(Day(8))) else { panic!("a day is refused") };
    assert!(numbers.is_empty());
}

/// A cover question goes by the published days of its spell, whatever stands; text and past have the days as entered.
#[test]
fn what_goes_by_the_published_days() {
    let account = &mut entered(&[reading(1, 1, 30), spell(2, 1, 8)]);
    published(account, 2);
    let covering = Answer::Listed { numbers: vec![1, 2], looks: Some(1), ticked: None };
    assert_eq!(step(account, Ask(Cover(1))), covering);
    step(account, Amend(reading(1, 20, 30)));
    assert_eq!(step(account, Ask(Cover(1))), covering);
    step(account, TakeBack);
    let Answer::Text(text) = step(account, Write) else { panic!("writing is refused") };
    assert_eq!(text, b"2\t1\t1\t8\tG\t1\n1\t1\t1\t30\tC\t00000000\n");
}

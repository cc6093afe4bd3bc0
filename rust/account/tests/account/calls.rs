//! The checks of each call in their order, the past, and lent lists.

use crate::{begun, full, published, refusal, spell, step};
use account::account::Account;
use account::call::Call::{Amend, Ask, Enter, Publish, Strike, TakeBack, Write};
use account::call::Question::{Cover, Day, Days, Span};
use account::call::{Answer, Lists, Refusal, Spell, Urgency};
use account::limits::{LARGEST_READING, MOST_PAST};
use account::register::REGISTER_A;

const NAN: Urgency = Urgency::Reading(0x7FC0_0000);

/// Each spell has every later fault as well, so that the first check must be the one that speaks.
#[test]
fn checks_of_an_entry_in_their_order() {
    let good = Spell { urgency: Urgency::Reading(LARGEST_READING), ..spell(5, 8, 9) };
    let ladder = [
        Spell { candidate: 0, urgency: Urgency::Grade(0), ..spell(0, 0, 4001) },
        Spell { candidate: 0, urgency: Urgency::Grade(0), ..spell(5, 0, 4001) },
        Spell { urgency: NAN, ..spell(5, 9, 4001) },
        Spell { urgency: NAN, ..spell(5, 9, 8) },
        Spell { urgency: NAN, ..good },
        good,
        Spell { number: 2000, ..good },
    ];
    assert_eq!(ladder.map(|spell| refusal(&mut full(), Enter(spell))), [1, 2, 3, 4, 5, 6, 8]);
    assert_eq!(ladder.map(|spell| refusal(&mut full(), Amend(spell))), [1, 2, 3, 4, 5, 0, 7]);
}

#[test]
fn readings_out_of_their_range() {
    for bits in [0x8000_0000, 0x7F80_0000, 0x7FC0_0000, 0xFFFF_FFFF, LARGEST_READING + 1, 0xBF80_0000] {
        let spell = Spell { urgency: Urgency::Reading(bits), ..spell(1, 1, 1) };
        assert_eq!(refusal(&mut Account::default(), Enter(spell)), 5);
    }
}

#[test]
fn checks_of_the_other_calls() {
    let account = &mut full();
    assert_eq!([0, 2000].map(|number| refusal(account, Strike(number))), [7, 7]);
    assert_eq!([vec![5, 5, 0], vec![5, 5, 6]].map(|days| refusal(account, Ask(Days(days)))), [3, 10]);
    assert_eq!([(9, 0), (0, 9), (9, 8)].map(|(a, b)| refusal(account, Ask(Span(a, b)))), [3, 3, 4]);
    assert_eq!([0, 4001].map(|d| refusal(account, Ask(Day(d)))), [3, 3]);
    // before the publish nobody is listed, and no list is short
    assert_eq!([Ask(Day(5)), Ask(Days(vec![5])), Ask(Cover(5))].map(|call| refusal(account, call)), [0, 0, 7]);
    assert_eq!(step(account, Publish(1)), Answer::Done);
    assert_eq!([Ask(Day(5)), Ask(Days(vec![5])), Ask(Cover(5))].map(|call| refusal(account, call)), [11, 11, 11]);
}

#[test]
fn the_past_has_64_lists() {
    let mut account = Account::default();
    for number in 1..=70 {
        assert_eq!(step(&mut account, Enter(spell(number, number, number))), Answer::Done);
    }
    for _ in 0..MOST_PAST {
        assert_eq!(step(&mut account, TakeBack), Answer::Done);
    }
    assert_eq!(step(&mut account, TakeBack), Answer::Refused(Refusal::NO_PAST));
    assert_eq!(account.standing.len(), 6);
}

/// 64 idle saves after real edits, each of which can still be taken back.
#[test]
fn idle_saves_leave_the_past() {
    let mut account = begun(REGISTER_A);
    let mut lists = vec![account.standing.clone()];
    let saved = Spell { candidate: 8, ..account.standing[0] };
    for call in [Amend(saved), Strike(12), Enter(spell(20, 1, 1))] {
        assert_eq!(step(&mut account, call), Answer::Done);
        lists.push(account.standing.clone());
    }
    for _ in 0..MOST_PAST {
        assert_eq!(step(&mut account, Amend(saved)), Answer::Done);
    }
    for standing in lists.iter().rev().skip(1) {
        assert_eq!(step(&mut account, TakeBack), Answer::Done);
        assert_eq!(account.standing, *standing);
    }
    assert_eq!(step(&mut account, TakeBack), Answer::Refused(Refusal::NO_PAST));
}

/// One field at a time, and of a reading its lowest bit alone. What is refused as an entry changes nothing either.
#[test]
fn an_amend_of_any_field_is_an_edit() {
    let reading = |bits| Spell { urgency: Urgency::Reading(bits), ..spell(12, 3, 4) };
    let good = reading(0x3F80_0000);
    let edits = [
        Spell { candidate: 9, ..good },
        Spell { first: 2, ..good },
        Spell { last: 5, ..good },
        Spell { urgency: Urgency::Grade(1), ..good },
        reading(0x3F80_0001),
        reading(0x3F7F_FFFF),
    ];
    for edit in edits {
        let mut account = Account::default();
        assert_eq!(step(&mut account, Enter(good)), Answer::Done);
        assert_eq!(step(&mut account, Amend(edit)), Answer::Done);
        assert_eq!((account.past.len(), &account.standing), (2, &vec![edit]));
    }
    let mut account = Account::default();
    assert_eq!(step(&mut account, Enter(reading(0))), Answer::Done);
    assert_eq!([1 << 31, 0x7FC0_0000].map(|bits| refusal(&mut account, Amend(reading(bits)))), [5, 5]);
    assert_eq!((account.past.len(), account.standing), (1, vec![reading(0)]));
}

#[test]
fn publishing_leaves_the_past() {
    let mut account = begun(REGISTER_A);
    for call in [Strike(11), Publish(1), TakeBack] {
        assert_eq!(step(&mut account, call), Answer::Done);
    }
    assert_eq!((account.standing.len(), account.published.spells.len()), (6, 5));
}

/// A list of exactly the places that are taken, one of less, and one of more, whose later places stay.
#[test]
fn lists_that_are_lent() {
    let mut account = published(REGISTER_A);
    let length = REGISTER_A.len();
    let (answer, text) = write_into(&mut account, length);
    assert_eq!((answer, text), (Answer::Text(REGISTER_A.to_vec()), REGISTER_A.to_vec()));
    let (answer, text) = write_into(&mut account, length - 1);
    assert_eq!((answer, text), (Answer::Refused(Refusal::SHORT_LIST), vec![b'z'; length - 1]));
    let (_, text) = write_into(&mut account, length + 3);
    assert_eq!(text, [REGISTER_A, b"zzz"].concat());
    for (places, numbers) in [(3, vec![11, 14, 13]), (2, vec![7, 7]), (5, vec![11, 14, 13, 7, 7])] {
        let mut lists = Lists { numbers: vec![7; places], text: vec![] };
        account.step(&Ask(Day(5)), &mut lists);
        assert_eq!(lists.numbers, numbers);
    }
}

fn write_into(account: &mut Account, places: usize) -> (Answer, Vec<u8>) {
    let mut lists = Lists { numbers: vec![], text: vec![b'z'; places] };
    (account.step(&Write, &mut lists), lists.text)
}

//! Questions put by mask.

use crate::{published, refusal, step};
use account::call::Call::Ask;
use account::call::Question::{Days, Mask};
use account::call::{Answer, Refusal};
use account::register::REGISTER_A;

/// The mask's answer is that of the days question for the ticked days, which are written down here, with their number.
fn as_days(base: u16, mask: u64, ticked: &[u16]) {
    let account = &mut published(REGISTER_A);
    let Answer::Listed { numbers, looks, ticked: None } = step(account, Ask(Days(ticked.to_vec()))) else {
        panic!("the days question is refused");
    };
    assert_eq!(step(account, Ask(Mask(base, mask))), Answer::Listed { numbers, looks, ticked: Some(ticked.len()) });
}

#[test]
fn bits_are_days_from_the_base_on() {
    as_days(4, 0x81, &[4, 11]);
    as_days(0, 0b110, &[1, 2]);
    as_days(10, 0b101, &[10, 12]);
    as_days(1, 1 << 63, &[64]);
    as_days(3937, 1 << 63, &[4000]);
    as_days(3937, u64::MAX, &(3937..=4000).collect::<Vec<_>>());
}

#[test]
fn a_ticked_day_off_the_calendar() {
    let off = [(0, 1), (0, u64::MAX), (3938, 1 << 63), (4001, 1), (65_535, 1), (65_535, 1 << 63), (65_473, 1 << 63)];
    for (base, mask) in off {
        assert_eq!(step(&mut published(REGISTER_A), Ask(Mask(base, mask))), Answer::Refused(Refusal::OFF_CALENDAR));
    }
}

/// With no place lent: an empty mask is accepted whatever its base, and a short list comes after the calendar.
#[test]
fn lists_of_no_place() {
    let account = &mut published(REGISTER_A);
    assert_eq!([0, 1, 4000, 4001, 65_535].map(|base| refusal(account, Ask(Mask(base, 0)))), [0; 5]);
    assert_eq!([(13, 1), (5, 1), (0, 0x21)].map(|(base, mask)| refusal(account, Ask(Mask(base, mask)))), [0, 11, 3]);
}

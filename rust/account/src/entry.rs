//! A spell by itself and among others: the checks of an entry, the order, who stands.

use crate::call::{Refusal, Spell, Urgency};
use crate::limits::{LARGEST_GRADE, LARGEST_READING, LAST_DAY};

/// The key of the order of register texts and of the standing list: first day, then last day, then spell number.
pub fn order(spell: &Spell) -> (u16, u16, u16) {
    (spell.first, spell.last, spell.number)
}

/// The key of the order of answers: where the days are equal, the candidate, and the spell number only after that.
pub fn answer_order(spell: &Spell) -> (u16, u16, u16, u16) {
    (spell.first, spell.last, spell.candidate, spell.number)
}

pub fn find(spells: &[Spell], number: u16) -> Option<&Spell> {
    spells.iter().find(|spell| spell.number == number)
}

pub fn stands(spells: &[Spell], number: u16) -> bool {
    find(spells, number).is_some()
}

/// The check that refuses with that number where it does not hold.
pub fn check(holds: bool, refusal: Refusal) -> Result<(), Refusal> {
    holds.then_some(()).ok_or(refusal)
}

pub fn check_day(day: u16) -> Result<(), Refusal> {
    check((1..=LAST_DAY).contains(&day), Refusal::OFF_CALENDAR)
}

fn good_urgency(urgency: Urgency) -> bool {
    match urgency {
        Urgency::Grade(grade) => (1..=LARGEST_GRADE).contains(&grade),
        Urgency::Reading(bits) => bits <= LARGEST_READING,
    }
}

/// Checks 1 to 5, in their order.
pub fn check_spell(spell: &Spell) -> Result<(), Refusal> {
    check(spell.number > 0, Refusal::NO_SPELL)?;
    check(spell.candidate > 0, Refusal::NO_CANDIDATE)?;
    check_day(spell.first)?;
    check_day(spell.last)?;
    check(spell.first <= spell.last, Refusal::BACKWARDS)?;
    check(good_urgency(spell.urgency), Refusal::BAD_URGENCY)
}

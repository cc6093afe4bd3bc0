//! Random numbers, days and spells.

use crate::{odd, Generator};
use account::call::{Spell, Urgency};
use account::entry::stands;
use account::limits::{LARGEST_GRADE, LARGEST_READING, LAST_DAY, MOST_SPELLS};

impl Generator {
    /// A spell number from a small pool, and now and then an odd one.
    pub(crate) fn number(&mut self) -> u16 {
        if self.rng.chance(3) {
            self.rng.pick(&odd::NUMBERS)
        } else {
            self.rng.range(1, 60) as u16
        }
    }

    /// The number of one of these spells, mostly.
    pub(crate) fn number_among(&mut self, spells: &[Spell]) -> u16 {
        if spells.is_empty() || self.rng.chance(12) {
            self.number()
        } else {
            self.rng.pick(spells).number
        }
    }

    /// A number of none of these spells.
    pub(crate) fn free_number(&mut self, spells: &[Spell]) -> u16 {
        loop {
            let number = self.rng.range(1, 3 * MOST_SPELLS) as u16;
            if !stands(spells, number) {
                return number;
            }
        }
    }

    pub(crate) fn any_day(&mut self) -> u16 {
        self.rng.range(1, LAST_DAY as usize) as u16
    }

    /// A day, mostly near the centre, and now and then one that is odd.
    pub(crate) fn day(&mut self) -> u16 {
        match self.rng.range(0, 99) {
            0..=2 => self.rng.pick(&odd::DAYS),
            3..=9 => self.any_day(),
            _ => (self.centre + self.rng.range(0, 24) as u16).saturating_sub(12).clamp(1, LAST_DAY),
        }
    }

    fn good_urgency(&mut self) -> Urgency {
        if self.rng.chance(50) {
            Urgency::Grade(self.rng.range(1, LARGEST_GRADE as usize) as u16)
        } else {
            Urgency::Reading(self.rng.range(0, LARGEST_READING as usize) as u32)
        }
    }

    /// A spell of any candidate, or of one of three, so that there are twins of one candidate and of several.
    pub(crate) fn spell_on(&mut self, number: u16, first: u16, last: u16) -> Spell {
        let most = self.rng.pick(&[3, 65_535]);
        let candidate = self.rng.range(1, most) as u16;
        Spell { number: number.max(1), candidate, first, last, urgency: self.good_urgency() }
    }

    /// A spell that passes checks 1 to 5.
    pub(crate) fn good_spell(&mut self, number: u16) -> Spell {
        let (a, b) = (self.day().clamp(1, LAST_DAY), self.day().clamp(1, LAST_DAY));
        self.spell_on(number, a.min(b), a.max(b))
    }

    /// A spell that is mostly good.
    pub(crate) fn spell(&mut self, number: u16) -> Spell {
        let spell = self.good_spell(number);
        if self.rng.chance(75) {
            spell
        } else {
            self.spoilt(spell)
        }
    }

    /// A spell with some fields replaced by others, which may be wrong.
    pub(crate) fn spoilt(&mut self, mut spell: Spell) -> Spell {
        if self.rng.chance(20) {
            let number = self.rng.pick(&odd::NUMBERS);
            spell.number = self.rng.pick(&[0, number]);
        }
        if self.rng.chance(20) {
            spell.candidate = 0;
        }
        if self.rng.chance(30) {
            spell.first = if self.rng.chance(50) { self.rng.pick(&odd::DAYS) } else { self.day() };
        }
        if self.rng.chance(30) {
            spell.last = self.day();
        }
        if self.rng.chance(50) {
            let grade = Urgency::Grade(self.rng.pick(&odd::GRADES));
            let reading = Urgency::Reading(self.rng.pick(&odd::READINGS));
            spell.urgency = self.rng.pick(&[grade, reading]);
        }
        spell
    }
}

//! Random lists of calls, in phases that are drawn at random:
//!
//! - mixed: all calls;
//! - edits: nearly all accepted, which runs the past over and a long list into its limit;
//! - take-backs, behind the edits and more of them: they empty the past;
//! - questions: a publish, then questions of all kinds.

use crate::Generator;
use account::account::Account;
use account::call::{Answer, Call, Lists, Question, Spell, Start, Urgency};
use account::entry::find;
use account::limits::{LAST_DAY, LONGEST_TEXT, MOST_SPELLS};

#[derive(Clone, Copy, PartialEq)]
pub enum Phase {
    Mixed,
    Edits,
    TakeBacks,
    Questions,
}

pub const PHASES: [Phase; 4] = [Phase::Mixed, Phase::Mixed, Phase::Edits, Phase::Questions];

impl Generator {
    /// What the next list of calls begins on, and how many calls it has.
    pub fn list(&mut self) -> (Start, usize) {
        self.centre = self.any_day();
        (self.phase, self.left) = (Phase::Mixed, 0);
        let (start, most) = self.start();
        (start, self.rng.range(most / 2, most))
    }

    /// The next call, aimed at the account's state.
    pub fn call(&mut self, account: &Account) -> Call {
        if self.left == 0 {
            self.next_phase();
            if self.phase == Phase::Questions {
                return Call::Publish(self.rule());
            }
        }
        self.left -= 1;
        match self.phase {
            Phase::Edits if self.rng.chance(95) => self.likely_edit(account),
            Phase::TakeBacks if self.rng.chance(85) => Call::TakeBack,
            Phase::Questions => Call::Ask(self.question(account)),
            _ => self.mixed(account),
        }
    }

    fn next_phase(&mut self) {
        if self.phase == Phase::Edits {
            self.phase = Phase::TakeBacks;
            self.left = 90;
        } else {
            self.phase = self.phases.draw(&mut self.rng);
            self.left = self.rng.range(40, 120);
        }
    }

    fn mixed(&mut self, account: &Account) -> Call {
        match self.rng.range(0, 99) {
            0..=29 => {
                let number = if self.rng.chance(20) { self.number_among(&account.standing) } else { self.number() };
                Call::Enter(self.spell(number))
            }
            30..=44 => Call::Amend(self.amended(account)),
            45..=54 => Call::Strike(self.number_among(&account.standing)),
            55..=62 => Call::TakeBack,
            63..=70 => Call::Publish(self.rule()),
            71..=73 => Call::Write,
            _ => Call::Ask(self.question(account)),
        }
    }

    /// A rule of publishing, and now and then none.
    fn rule(&mut self) -> u16 {
        self.rng.pick(&[1, 1, 1, 2, 2, 2, 2, 0, 3, 65_535])
    }

    /// An edit that is accepted, but for a full list and an empty one.
    fn likely_edit(&mut self, account: &Account) -> Call {
        match self.rng.range(0, 3) {
            0 => Call::Strike(self.number_among(&account.standing)),
            1 => Call::Amend(self.amended(account)),
            _ => {
                let number = self.free_number(&account.standing);
                Call::Enter(self.good_spell(number))
            }
        }
    }

    /// A spell to amend with, mostly good: often the standing one, unaltered or with one field changed.
    fn amended(&mut self, account: &Account) -> Spell {
        let number = self.number_among(&account.standing);
        match find(&account.standing, number) {
            Some(spell) if self.rng.chance(30) => *spell,
            Some(spell) if self.rng.chance(30) => self.nearly(*spell),
            _ if self.rng.chance(60) => self.good_spell(number),
            _ => self.spell(number),
        }
    }

    /// The spell with one field changed by little; of a reading one bit, mostly the lowest.
    fn nearly(&mut self, spell: Spell) -> Spell {
        match (self.rng.range(0, 4), spell.urgency) {
            (0, _) => Spell { candidate: spell.candidate ^ 1, ..spell },
            (1, _) => Spell { first: spell.first.saturating_sub(1), ..spell },
            (2, _) => Spell { last: spell.last + 1, ..spell },
            (_, Urgency::Grade(grade)) => Spell { urgency: Urgency::Grade(grade % 4 + 1), ..spell },
            (_, Urgency::Reading(bits)) => {
                let bit = self.rng.pick(&[0, 0, 0, 1, 15, 16, 22, 31]);
                Spell { urgency: Urgency::Reading(bits ^ (1 << bit)), ..spell }
            }
        }
    }

    fn question(&mut self, account: &Account) -> Question {
        match self.rng.range(0, 4) {
            0 => Question::Day(self.day()),
            1 => self.span(),
            2 => Question::Cover(self.number_among(&account.published.spells)),
            3 => Question::Days(self.days()),
            _ => self.mask(),
        }
    }

    /// A sheet, mostly around a day of the calendar: empty, of one day, of some, of many, or full.
    fn mask(&mut self) -> Question {
        let mask = match self.rng.range(0, 9) {
            0 => 0,
            1 => u64::MAX,
            2..=3 => 1 << self.rng.range(0, 63),
            4..=6 => self.rng.word() & self.rng.word() & self.rng.word(),
            7 => self.rng.word() >> self.rng.range(0, 63),
            _ => self.rng.word(),
        };
        let base = match self.rng.range(0, 9) {
            0 => self.rng.pick(&[0, 1, LAST_DAY - 63, LAST_DAY, LAST_DAY + 1, u16::MAX - 62, u16::MAX]),
            1 => (LAST_DAY - 63) + self.rng.range(0, 70) as u16,
            2 => u16::MAX - self.rng.range(0, 63) as u16,
            _ => self.day().saturating_sub(self.rng.range(0, 63) as u16),
        };
        Question::Mask(base, mask)
    }

    /// A span, mostly of rising days, and often a short one; of those that fall some are off the calendar as well.
    fn span(&mut self) -> Question {
        let (a, b) = (self.day(), self.day());
        let (a, b) = match self.rng.range(0, 19) {
            0 => (a.max(b), a.min(b)),
            1 => self.rng.pick(&[(a, 0), (4001, b), (65_535, 4001)]),
            2..=7 => (a, a.saturating_add(b % 3)),
            _ => (a.min(b), a.max(b)),
        };
        Question::Span(a, b)
    }

    /// A list of days, mostly rising and on the calendar.
    fn days(&mut self) -> Vec<u16> {
        let count = self.rng.pick(&[0, 1, 2, 3, 5, 12, 40]);
        let mut days: Vec<u16> = (0..count).map(|_| self.day()).collect();
        if self.rng.chance(1) {
            days = (1..=LAST_DAY).collect();
        }
        if self.rng.chance(93) {
            days.sort();
        }
        if self.rng.chance(90) {
            days.dedup();
        }
        if self.rng.chance(85) {
            days.retain(|d| (1..=LAST_DAY).contains(d));
        }
        days
    }

    /// The lists that a call is lent: of a length that is chosen by what its answer takes, with random numbers in them.
    pub fn lists(&mut self, account: &Account, call: &Call) -> Lists {
        let (all_numbers, all_text) = match call {
            Call::Write => (0, LONGEST_TEXT),
            Call::Ask(_) => (MOST_SPELLS, 0),
            _ => (0, 0),
        };
        let given = account.tell(call).unwrap_or(Answer::Done);
        let numbers = self.room(given.numbers().len(), all_numbers);
        let text = self.room(given.text().len(), all_text);
        Lists {
            numbers: (0..numbers).map(|_| self.rng.word() as u16).collect(),
            text: (0..text).map(|_| self.rng.word() as u8).collect(),
        }
    }

    /// How many places a list has: few, exactly those that are taken, one less, some more, or enough for all.
    pub(crate) fn room(&mut self, taken: usize, enough: usize) -> usize {
        match self.rng.range(0, 9) {
            0 => self.rng.pick(&[0, 1, 2, 5]),
            1..=2 => taken,
            3 => taken.saturating_sub(1),
            4..=5 => taken + self.rng.range(1, 20),
            _ => enough,
        }
    }
}

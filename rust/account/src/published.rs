//! The published list and the questions put to it.

use crate::account::Answered;
use crate::call::{Answer, Question, Refusal, Spell, Urgency};
use crate::entry::{answer_order, check, check_day, find};
use crate::tree::Tree;
use std::cell::OnceCell;

#[derive(Clone, Default)]
pub struct Published {
    /// In the order of the answers.
    pub spells: Vec<Spell>,
    /// Made when the first question needs it.
    tree: OnceCell<Tree>,
}

impl Published {
    pub fn of(standing: &[Spell], rule: u16) -> Published {
        let mut spells: Vec<Spell> = standing.iter().map(|spell| published_by(rule, spell)).collect();
        spells.sort_by_key(answer_order);
        Published { spells, tree: OnceCell::new() }
    }

    pub fn tree(&self) -> &Tree {
        self.tree.get_or_init(|| Tree::of(&self.spells))
    }

    pub fn ask(&self, question: &Question) -> Answered {
        match question {
            Question::Day(d) => {
                check_day(*d)?;
                Ok(self.with_looks(|spell| on_day(spell, *d)))
            }
            Question::Span(a, b) => {
                check_day(*a)?;
                check_day(*b)?;
                check(a <= b, Refusal::BACKWARDS)?;
                Ok(self.with_looks(|spell| spell.first <= *b && spell.last >= *a))
            }
            Question::Cover(number) => {
                let covered = find(&self.spells, *number).ok_or(Refusal::UNKNOWN)?;
                Ok(self.with_looks(|spell| spell.first <= covered.first && spell.last >= covered.last))
            }
            Question::Days(days) => self.several(days, None),
            Question::Mask(base, mask) => {
                let ticked = ticked_days(*base, *mask)?;
                self.several(&ticked, Some(ticked.len()))
            }
        }
    }

    fn several(&self, days: &[u16], ticked: Option<usize>) -> Answered {
        days.iter().try_for_each(|d| check_day(*d))?;
        check(days.windows(2).all(|pair| pair[0] < pair[1]), Refusal::DAYS_UNSORTED)?;
        Ok(self.listed(&self.fitting(|spell| days.iter().any(|d| on_day(spell, *d))), None, ticked))
    }

    /// The positions of the spells that fit.
    pub fn fitting(&self, fits: impl Fn(&Spell) -> bool) -> Vec<usize> {
        (0..self.spells.len()).filter(|&at| fits(&self.spells[at])).collect()
    }

    fn with_looks(&self, fits: impl Fn(&Spell) -> bool) -> Answer {
        let listed = self.fitting(fits);
        self.listed(&listed, Some(self.tree().looks(&listed)), None)
    }

    fn listed(&self, listed: &[usize], looks: Option<usize>, ticked: Option<usize>) -> Answer {
        Answer::Listed { numbers: listed.iter().map(|&at| self.spells[at].number).collect(), looks, ticked }
    }
}

/// Under rule 2 a reading counts for seven days, its first day among them.
fn published_by(rule: u16, spell: &Spell) -> Spell {
    match spell.urgency {
        Urgency::Reading(_) if rule == 2 => Spell { last: spell.last.min(spell.first + 6), ..*spell },
        _ => *spell,
    }
}

fn on_day(spell: &Spell, d: u16) -> bool {
    spell.first <= d && d <= spell.last
}

/// The ticked days of a sheet. A sum of more than 16 bits is no day of the calendar.
fn ticked_days(base: u16, mask: u64) -> Result<Vec<u16>, Refusal> {
    let ticked = (0..64).filter(|bit| mask >> bit & 1 == 1).map(|bit| u32::from(base) + bit);
    ticked.map(|day| day.try_into().map_err(|_| Refusal::OFF_CALENDAR)).collect()
}

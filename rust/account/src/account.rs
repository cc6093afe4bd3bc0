//! The account itself: its state, and what each call does to it.

use crate::call::{Answer, Call, Lists, Refusal, Spell, Start};
use crate::entry::{check, check_spell, find, order, stands};
use crate::limits::{MOST_PAST, MOST_SPELLS};
use crate::published::Published;
use crate::register;

/// What a call is answered, or why it is refused.
pub type Answered = Result<Answer, Refusal>;

#[derive(Clone, Default)]
pub struct Account {
    /// The standing list, in the order.
    pub standing: Vec<Spell>,
    /// Earlier standing lists, newest first.
    pub past: Vec<Vec<Spell>>,
    pub published: Published,
}

impl Account {
    /// The account that a list of calls begins on, a fresh one where its text is refused, and what that is answered.
    pub fn begin(start: &Start) -> (Account, Answer) {
        let fresh = Account::default();
        let Start::Text(text) = start else {
            return (fresh, Answer::Done);
        };
        match register::read(text) {
            Ok(standing) => (Account { standing, ..fresh }, Answer::Done),
            Err((refusal, line)) => (fresh, Answer::Misread(refusal, line)),
        }
    }

    /// Makes one call. What it gives goes into the first places of its list; a refused call changes nothing.
    pub fn step(&mut self, call: &Call, lists: &mut Lists) -> Answer {
        let answered = match call {
            Call::Enter(spell) => self.enter(spell),
            Call::Amend(spell) => self.amend(spell),
            Call::Strike(number) => self.strike(*number),
            Call::TakeBack => self.take_back(),
            Call::Publish(rule) => self.publish(*rule),
            Call::Write | Call::Ask(_) => self.tell(call),
        };
        answered.and_then(|answer| put(answer, lists)).unwrap_or_else(Answer::Refused)
    }

    /// What a question or a writing is answered where its list is never short; other calls tell nothing.
    pub fn tell(&self, call: &Call) -> Answered {
        match call {
            Call::Write => Ok(Answer::Text(register::text_of(&self.standing))),
            Call::Ask(question) => self.published.ask(question),
            _ => Ok(Answer::Done),
        }
    }

    fn enter(&mut self, spell: &Spell) -> Answered {
        check_spell(spell)?;
        check(!stands(&self.standing, spell.number), Refusal::TAKEN)?;
        check(self.standing.len() < MOST_SPELLS, Refusal::FULL)?;
        self.edit(self.standing.iter().chain([spell]).copied().collect())
    }

    fn amend(&mut self, spell: &Spell) -> Answered {
        check_spell(spell)?;
        let standing = find(&self.standing, spell.number).ok_or(Refusal::UNKNOWN)?;
        if idle(standing, spell) {
            return Ok(Answer::Done);
        }
        self.edit(self.without(spell.number).chain([spell]).copied().collect())
    }

    fn strike(&mut self, number: u16) -> Answered {
        check(stands(&self.standing, number), Refusal::UNKNOWN)?;
        self.edit(self.without(number).copied().collect())
    }

    fn take_back(&mut self) -> Answered {
        check(!self.past.is_empty(), Refusal::NO_PAST)?;
        self.standing = self.past.remove(0);
        Ok(Answer::Done)
    }

    fn publish(&mut self, rule: u16) -> Answered {
        check((1..=2).contains(&rule), Refusal::NO_SUCH_RULE)?;
        self.published = Published::of(&self.standing, rule);
        Ok(Answer::Done)
    }

    fn without(&self, number: u16) -> impl Iterator<Item = &Spell> {
        self.standing.iter().filter(move |spell| spell.number != number)
    }

    /// An accepted edit: the former standing list goes to the front of the past, and a 65th falls off.
    fn edit(&mut self, mut standing: Vec<Spell>) -> Answered {
        standing.sort_by_key(order);
        self.past.insert(0, std::mem::replace(&mut self.standing, standing));
        self.past.truncate(MOST_PAST);
        Ok(Answer::Done)
    }
}

/// An amend by a spell that equals the standing one in all fields, reading bits included: it changes nothing.
fn idle(standing: &Spell, spell: &Spell) -> bool {
    standing == spell
}

/// Puts what an answer gives into the first places of its list, or refuses it where the list is short.
fn put(answer: Answer, lists: &mut Lists) -> Answered {
    put_over(answer.numbers(), &mut lists.numbers)?;
    put_over(answer.text(), &mut lists.text)?;
    Ok(answer)
}

fn put_over<T: Copy>(given: &[T], list: &mut [T]) -> Result<(), Refusal> {
    check(given.len() <= list.len(), Refusal::SHORT_LIST)?;
    list[..given.len()].copy_from_slice(given);
    Ok(())
}

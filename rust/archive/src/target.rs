//! The archive as a target of the comparison, through the module for hosts in Rust.

use crate::phayaklit::{self, Index, Listed, Published, Service, INDEX_WORDS, SERVICE_WORDS};
use account::call::{Answer, Call, Lists, Question, Refusal, Spell, Start, Urgency};
use check::lists::Target;

/// A service in blocks that live as long as the program; none before the first list of calls begins.
#[derive(Default)]
pub struct Archive(Option<(Service<'static>, Index<'static>)>);

type Words = &'static mut [u16];

pub const LENGTHS: &str = "blocks of the right lengths are accepted";

/// Words that hold something else than zeros before a service begins in them.
pub fn words(count: usize) -> Words {
    Box::leak(vec![0xA5C3; count].into_boxed_slice())
}

impl Archive {
    /// The blocks to begin in: those of the service before, with what it left in them.
    fn blocks(&mut self) -> (Words, Words) {
        match self.0.take() {
            Some((service, index)) => (service.into_words(), index.into_words()),
            None => (words(SERVICE_WORDS), words(INDEX_WORDS)),
        }
    }
}

impl Target for Archive {
    fn begin(&mut self, start: &Start) -> Answer {
        let (service, index) = self.blocks();
        let (service, index, read) = match start {
            Start::Fresh => {
                let (service, index) = phayaklit::fresh(service, index).expect(LENGTHS);
                (service, index, Ok(()))
            }
            Start::Text(text) => phayaklit::read(text, service, index).expect(LENGTHS),
        };
        self.0 = Some((service, index));
        match read {
            Ok(()) => Answer::Done,
            Err(misread) => Answer::Misread(Refusal(misread.refusal.number()), misread.line as usize),
        }
    }

    fn call(&mut self, call: &Call, lists: &mut Lists) -> Answer {
        let (service, index) = self.0.as_mut().expect("a list of calls has begun");
        match call {
            Call::Enter(spell) => edit(service, |service| service.enter(spell_of(spell))),
            Call::Amend(spell) => edit(service, |service| service.amend(spell_of(spell))),
            Call::Strike(number) => edit(service, |service| service.strike(*number)),
            Call::TakeBack => edit(service, Service::take_back),
            Call::Publish(rule) => match service.publish(*rule, index) {
                Ok(()) => Answer::Done,
                Err(why) => refused(why),
            },
            Call::Write => match service.write(&mut lists.text) {
                Ok(length) => Answer::Text(lists.text[..length].to_vec()),
                Err(why) => refused(why),
            },
            Call::Ask(question) => ask(index.published(), question, &mut lists.numbers),
        }
    }
}

/// Makes an edit. A refused one must leave the service's block as it was, word for word.
fn edit(
    service: &mut Service<'static>,
    call: impl FnOnce(&mut Service<'static>) -> Result<(), phayaklit::Refusal>,
) -> Answer {
    let before = service.words().to_vec();
    match call(service) {
        Ok(()) => Answer::Done,
        Err(why) => {
            assert!(service.words() == before, "a refused edit changed the service's words");
            refused(why)
        }
    }
}

fn ask(published: Published<'_>, question: &Question, numbers: &mut [u16]) -> Answer {
    let (listed, reports_looks, reports_ticked) = match question {
        Question::Day(d) => (published.day(*d, numbers), true, false),
        Question::Span(a, b) => (published.span(*a, *b, numbers), true, false),
        Question::Cover(number) => (published.cover(*number, numbers), true, false),
        Question::Days(days) => (published.days(days, numbers), false, false),
        Question::Mask(base, mask) => (published.mask(*base, *mask, numbers), false, true),
    };
    match listed {
        Ok(Listed { count, looks, ticked }) => {
            // what a question does not report is 0
            let looks = (reports_looks || looks > 0).then_some(looks);
            let ticked = (reports_ticked || ticked > 0).then_some(ticked);
            Answer::Listed { numbers: numbers[..count].to_vec(), looks, ticked }
        }
        Err(why) => refused(why),
    }
}

fn refused(why: phayaklit::Refusal) -> Answer {
    Answer::Refused(Refusal(why.number()))
}

fn spell_of(spell: &Spell) -> phayaklit::Spell {
    let urgency = match spell.urgency {
        Urgency::Grade(grade) => phayaklit::Urgency::Grade(grade),
        Urgency::Reading(bits) => phayaklit::Urgency::Reading(bits),
    };
    let Spell { number, candidate, first, last, .. } = *spell;
    phayaklit::Spell { number, candidate, first, last, urgency }
}

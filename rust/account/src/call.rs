//! What is said to the account and what it answers: types, and no rule.

use std::ops::RangeInclusive;

/// A listed grade, or the IEEE 754 bits of a measured reading.
#[derive(Clone, Copy, PartialEq, Eq, Debug)]
pub enum Urgency {
    Grade(u16),
    Reading(u32),
}

/// A spell. Both days are counted in.
#[derive(Clone, Copy, PartialEq, Eq, Debug)]
pub struct Spell {
    pub number: u16,
    pub candidate: u16,
    pub first: u16,
    pub last: u16,
    pub urgency: Urgency,
}

/// What a list of calls begins on: a fresh service, or the one that a register text makes.
#[derive(Clone, PartialEq, Eq, Debug)]
pub enum Start {
    Fresh,
    Text(Vec<u8>),
}

#[derive(Clone, PartialEq, Eq, Debug)]
pub enum Call {
    Enter(Spell),
    Amend(Spell),
    Strike(u16),
    TakeBack,
    /// By rule 1 or 2.
    Publish(u16),
    Write,
    Ask(Question),
}

/// A question of the published list.
#[derive(Clone, PartialEq, Eq, Debug)]
pub enum Question {
    Day(u16),
    Span(u16, u16),
    Cover(u16),
    Days(Vec<u16>),
    /// A base day and a mask: bit i, bit 0 the lowest, ticks the base day + i.
    Mask(u16, u64),
}

impl Call {
    /// The word by which the wire knows the call.
    pub fn word(&self) -> &'static str {
        match self {
            Call::Enter(_) => "enter",
            Call::Amend(_) => "amend",
            Call::Strike(_) => "strike",
            Call::TakeBack => "take-back",
            Call::Publish(_) => "publish",
            Call::Write => "write",
            Call::Ask(Question::Day(_)) => "day",
            Call::Ask(Question::Span(..)) => "span",
            Call::Ask(Question::Cover(_)) => "cover",
            Call::Ask(Question::Days(_)) => "days",
            Call::Ask(Question::Mask(..)) => "mask",
        }
    }
}

/// A refusal, by its number in the table. The names are the trade words.
#[derive(Clone, Copy, PartialEq, Eq, Debug)]
pub struct Refusal(pub u16);

impl Refusal {
    pub const NO_SPELL: Refusal = Refusal(1);
    pub const NO_CANDIDATE: Refusal = Refusal(2);
    pub const OFF_CALENDAR: Refusal = Refusal(3);
    pub const BACKWARDS: Refusal = Refusal(4);
    pub const BAD_URGENCY: Refusal = Refusal(5);
    pub const TAKEN: Refusal = Refusal(6);
    pub const UNKNOWN: Refusal = Refusal(7);
    pub const FULL: Refusal = Refusal(8);
    pub const NO_PAST: Refusal = Refusal(9);
    pub const DAYS_UNSORTED: Refusal = Refusal(10);
    pub const SHORT_LIST: Refusal = Refusal(11);
    pub const MALFORMED: Refusal = Refusal(12);
    pub const MISPLACED: Refusal = Refusal(13);
    pub const NO_SUCH_RULE: Refusal = Refusal(14);

    /// The numbers of the whole table.
    pub const NUMBERS: RangeInclusive<u16> = 1..=14;
}

/// What a call is answered, with what its lent list is given.
#[derive(Clone, PartialEq, Eq, Debug)]
pub enum Answer {
    Refused(Refusal),
    /// A text is refused, at that line; 0 where it is for its length.
    Misread(Refusal, usize),
    Done,
    /// The numbers of the spells that fit, the looks where the question reports them, and how many days a mask ticks.
    Listed {
        numbers: Vec<u16>,
        looks: Option<usize>,
        ticked: Option<usize>,
    },
    Text(Vec<u8>),
}

impl Answer {
    /// The refusal's number, and 0 where the call is accepted.
    pub fn refusal(&self) -> u16 {
        match self {
            Answer::Refused(refusal) | Answer::Misread(refusal, _) => refusal.0,
            _ => 0,
        }
    }

    /// What goes into the list lent for spell numbers.
    pub fn numbers(&self) -> &[u16] {
        match self {
            Answer::Listed { numbers, .. } => numbers,
            _ => &[],
        }
    }

    /// What goes into the list lent for a text.
    pub fn text(&self) -> &[u8] {
        match self {
            Answer::Text(text) => text,
            _ => &[],
        }
    }
}

/// The lists that a call is lent, with what they hold.
#[derive(Clone, PartialEq, Eq, Debug, Default)]
pub struct Lists {
    pub numbers: Vec<u16>,
    pub text: Vec<u8>,
}

/// What the repair of a text answers: the refusal's number with its line, or 0 and 0; then three numbers, which are 0
/// where it is refused: the length of the repaired text, how many lines are dropped, and how many kept ones now stand
/// after a line that followed them.
#[derive(Clone, Copy, PartialEq, Eq, Debug, Default)]
pub struct Repaired {
    pub refusal: u16,
    pub line: usize,
    pub length: usize,
    pub dropped: usize,
    pub displaced: usize,
}

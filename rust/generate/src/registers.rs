//! Random registers: lists of spells in the order, their texts, and texts that are damaged.

use crate::odd::{self, Fields};
use crate::Generator;
use account::call::{Spell, Start, Urgency};
use account::entry::{check_spell, order};
use account::limits::{LAST_DAY, LONGEST_TEXT, MOST_SPELLS};
use account::register::{line_of, text_of};

/// What a list of calls begins on.
#[derive(Clone, Copy)]
pub enum Begun {
    Fresh,
    Small,
    Full,
    Readings,
    Damaged,
}

pub const BEGUN: [Begun; 16] = {
    use Begun::*;
    [
        Fresh, Fresh, Fresh, Small, Small, Small, Full, Full, Readings, Readings, Damaged, Damaged, Damaged, Damaged,
        Damaged, Damaged,
    ]
};

/// A way in which a text is damaged.
pub type Damage = fn(&mut Generator) -> Vec<u8>;

pub const DAMAGES: [Damage; 10] = [
    Generator::wrong_byte,
    Generator::wrong_byte,
    Generator::wrong_line,
    Generator::wrong_line,
    Generator::refused_line,
    Generator::refused_line,
    Generator::wrong_field,
    Generator::wrong_field,
    Generator::line_too_many,
    Generator::longest_and_longer,
];

impl Generator {
    /// What a list of calls begins on, and the most calls that it then has.
    pub(crate) fn start(&mut self) -> (Start, usize) {
        let most = self.rng.pick(&[8, 60, 600]);
        match self.begun.draw(&mut self.rng) {
            Begun::Fresh => (Start::Fresh, most),
            Begun::Small => (Start::Text(self.small_text()), most),
            Begun::Full => (Start::Text(self.full_text()), 300),
            Begun::Readings => (Start::Text(self.readings_text()), most),
            Begun::Damaged => (Start::Text(self.damaged_text()), 10),
        }
    }

    /// A register text, good in one case of three.
    pub fn text(&mut self) -> Vec<u8> {
        if self.rng.chance(33) {
            self.small_text()
        } else {
            self.damaged_text()
        }
    }

    pub fn damaged_text(&mut self) -> Vec<u8> {
        let damage = self.damages.draw(&mut self.rng);
        damage(self)
    }

    pub fn small_text(&mut self) -> Vec<u8> {
        let count = self.rng.pick(&[0, 1, 2, 5, 20, 60]);
        text_of(&self.register(count))
    }

    /// A text of all the spells that may stand, or of nearly all.
    fn full_text(&mut self) -> Vec<u8> {
        let count = self.rng.range(MOST_SPELLS - 30, MOST_SPELLS);
        let count = self.rng.pick(&[MOST_SPELLS, MOST_SPELLS - 1, count]);
        text_of(&self.register(count))
    }

    /// Readings of one to nine days that begin on one day, or on one of the calendar's last seven.
    fn readings_text(&mut self) -> Vec<u8> {
        let count = self.rng.pick(&[3, 20, 60, MOST_SPELLS]);
        let (first, at_the_end) = (self.any_day(), self.rng.chance(50));
        let numbers = self.distinct_numbers(count, 65_535);
        let spell = |number| {
            let first = if at_the_end { self.rng.range(3_994, 4_000) as u16 } else { first };
            let last = (first + self.rng.pick(&[0, 5, 6, 7, 8])).min(LAST_DAY);
            let urgency = Urgency::Reading(self.rng.range(0, 1_000) as u32);
            Spell { urgency, ..self.spell_on(number, first, last) }
        };
        text_of(&in_order(numbers.into_iter().map(spell).collect()))
    }

    /// So many spells in the order: on days near the centre for half of the lists, over the whole calendar for the
    /// others.
    pub(crate) fn register(&mut self, count: usize) -> Vec<Spell> {
        if self.rng.chance(50) {
            return self.waiting_list(count);
        }
        let numbers = self.distinct_numbers(count, 2 * MOST_SPELLS);
        in_order(numbers.into_iter().map(|number| self.good_spell(number)).collect())
    }

    /// Spells that begin uniformly over the calendar and last exponentially, 500 days in the mean.
    pub fn waiting_list(&mut self, count: usize) -> Vec<Spell> {
        let numbers = self.distinct_numbers(count, 65_535);
        let spell = |number| {
            let first = self.any_day();
            let last = first.saturating_add(self.rng.exponential(500.0) as u16).min(LAST_DAY);
            self.spell_on(number, first, last)
        };
        in_order(numbers.into_iter().map(spell).collect())
    }

    fn distinct_numbers(&mut self, count: usize, largest: usize) -> Vec<u16> {
        let mut numbers: Vec<u16> = (1..=largest as u16).collect();
        self.rng.shuffle(&mut numbers);
        numbers.truncate(count);
        numbers
    }

    /// A few good spells to damage, at least one.
    fn some_spells(&mut self) -> Vec<Spell> {
        let count = self.rng.pick(&[1, 2, 5, 20, 40]);
        self.register(count)
    }

    fn place_in<T>(&mut self, list: &[T]) -> usize {
        self.rng.range(0, list.len() - 1)
    }

    /// One byte lost, added or changed.
    fn wrong_byte(&mut self) -> Vec<u8> {
        let mut text = text_of(&self.some_spells());
        let (at, byte) = (self.place_in(&text), self.rng.pick(odd::BYTES));
        match self.rng.range(0, 4) {
            0 => drop(text.remove(at)),
            1 => text.insert(at, byte),
            2 => text[at] = byte,
            3 => text.push(byte),
            _ => drop(text.pop()),
        }
        text
    }

    /// A line whose spell the checks 1 to 5 refuse.
    fn refused_line(&mut self) -> Vec<u8> {
        let mut spells = self.some_spells();
        let at = self.place_in(&spells);
        while check_spell(&spells[at]).is_ok() {
            spells[at] = self.spoilt(spells[at]);
        }
        text_of(&spells)
    }

    /// A line moved, doubled, renumbered, or an empty one.
    fn wrong_line(&mut self) -> Vec<u8> {
        let mut spells = self.some_spells();
        let (a, b) = (self.place_in(&spells), self.place_in(&spells));
        match self.rng.range(0, 3) {
            0 => spells.swap(a, b),
            1 => spells.insert(a, spells[b]),
            2 => spells[a].number = spells[b].number,
            _ => return [text_of(&spells[..a]), b"\n".to_vec(), text_of(&spells[a..])].concat(),
        }
        text_of(&spells)
    }

    /// Up to three fields of one line replaced, each by one that can't be read or that a check refuses.
    fn wrong_field(&mut self) -> Vec<u8> {
        let spells = self.some_spells();
        let at = self.place_in(&spells);
        let most = self.rng.range(1, 3);
        let line = self.line_with_odd_fields(&spells[at], most);
        [text_of(&spells[..at]), line, text_of(&spells[at + 1..])].concat()
    }

    /// The line of a spell with its LF, up to so many of its fields replaced.
    pub(crate) fn line_with_odd_fields(&mut self, spell: &Spell, most: usize) -> Vec<u8> {
        let mut fields = Fields::of(line_of(spell).as_bytes());
        for _ in 0..most {
            let place = self.place_in(&fields.0);
            fields.0[place] = self.odd_field(place, &fields.0);
        }
        fields.line()
    }

    /// Another field for that place of a line: out of its range, with a zero before it, or not of its form.
    fn odd_field(&mut self, place: usize, fields: &[Vec<u8>]) -> Vec<u8> {
        let bits = self.rng.pick(&odd::READINGS);
        let (kind, reading) = (self.rng.range(0, 9), fields[4] == b"C");
        match place {
            4 if kind < 4 => self.rng.pick(&[b"G", b"C"]).to_vec(),
            4 => self.odd_among(odd::LETTERS),
            5 if reading && kind < 4 => format!("{bits:08X}").into_bytes(),
            5 if reading => self.odd_among(odd::HEX),
            _ if kind < 4 => self.rng.pick(&["0", "0", "1", "4001", "65535"]).as_bytes().to_vec(),
            _ if kind < 6 => [b"0".as_slice(), &fields[place]].concat(),
            _ => self.odd_among(odd::DECIMALS),
        }
    }

    pub(crate) fn odd_among(&mut self, list: &[u8]) -> Vec<u8> {
        self.rng.pick(&odd::parted(list)).to_vec()
    }

    /// More lines than may stand. The last one is good, wrong, taken, out of its place or not of the form.
    fn line_too_many(&mut self) -> Vec<u8> {
        let mut spells = self.register(MOST_SPELLS + 1);
        let last = spells[MOST_SPELLS];
        match self.rng.range(0, 5) {
            0 => spells[MOST_SPELLS].number = spells[0].number,
            1 => spells[MOST_SPELLS].first = 1,
            2 => spells[MOST_SPELLS] = self.spoilt(last),
            3 => return [text_of(&spells[..MOST_SPELLS]), line_of(&last).into_bytes()].concat(),
            _ => {}
        }
        text_of(&spells)
    }

    /// A text of the longest length, or above it. Its lines behind the first ones are requests.
    fn longest_and_longer(&mut self) -> Vec<u8> {
        let length = LONGEST_TEXT + self.rng.pick(&[0, 0, 1, 2, 5_000, 70_000]);
        let requests = b"publish\t1\nday\t5\n".iter().cycle().copied();
        text_of(&self.some_spells()).into_iter().chain(requests).take(length).collect()
    }
}

fn in_order(mut spells: Vec<Spell>) -> Vec<Spell> {
    spells.sort_by_key(order);
    spells
}

//! Random conversations: the lists of calls as requests, and between them rooms and lines of no form.

use crate::odd::{self, Fields};
use crate::{Conversation, Generator};
use account::call::{Answer, Call, Start};
use account::limits::{LARGEST_ROOM, LONGEST_LINE};
use account::wire::{line_asking, reading_of};

impl Generator {
    /// A conversation of that many requests, none of which has more than so many bytes. It begins on a good register or
    /// on none. Lists of calls come, and between them readings of texts that are mostly damaged.
    pub fn conversation(&mut self, length: usize, longest: usize) -> Conversation {
        let file = if self.rng.chance(40) { Some(self.small_text()) } else { None };
        let mut talk = Conversation::begin(file);
        talk.longest = longest;
        while talk.exchanges.len() < length {
            let (start, calls) = self.list();
            talk.send(reading_of(match &start {
                Start::Fresh => b"",
                Start::Text(text) => text,
            }));
            for _ in 0..calls {
                self.turn(&mut talk);
            }
            for _ in 0..self.rng.range(0, 6) {
                talk.send(reading_of(&self.text()));
                if self.rng.chance(30) {
                    talk.send(line_asking(&Call::Write));
                }
                self.turn(&mut talk);
            }
        }
        talk.exchanges.truncate(length);
        let endings = odd::endings();
        talk.ending = endings[self.rng.range(0, endings.len() - 1)].clone();
        talk
    }

    /// A call, now and then with a room that is chosen for it; or a line of no form.
    fn turn(&mut self, talk: &mut Conversation) {
        if self.rng.chance(6) {
            return talk.send(self.odd_request(talk));
        }
        let call = self.call(talk.account());
        let takes_a_list = matches!(call, Call::Write | Call::Ask(_));
        if !takes_a_list || self.rng.chance(80) {
            return talk.send(line_asking(&call));
        }
        let given = talk.account().tell(&call).unwrap_or(Answer::Done);
        talk.send(room_line(self.room(given.numbers().len() + given.text().len(), LARGEST_ROOM)));
        talk.send(line_asking(&call));
        if self.rng.chance(70) {
            talk.send(room_line(LARGEST_ROOM));
        }
    }

    /// A request that is not of its form, or nearly so.
    fn odd_request(&mut self, talk: &Conversation) -> Vec<u8> {
        match self.rng.range(0, 99) {
            0..=39 => [self.odd_among(odd::LINES), b"\n".to_vec()].concat(),
            40..=59 => self.odd_spell(),
            60..=96 => {
                let call = self.call(talk.account());
                self.damaged_request(&call)
            }
            _ => self.long_line(),
        }
    }

    /// An enter or amend with some fields replaced.
    fn odd_spell(&mut self) -> Vec<u8> {
        let number = self.number();
        let spell = self.good_spell(number);
        let most = self.rng.range(1, 2);
        let word: &[u8] = self.rng.pick(&[b"enter\t", b"amend\t"]);
        [word, &self.line_with_odd_fields(&spell, most)].concat()
    }

    /// A good request with one fault.
    fn damaged_request(&mut self, call: &Call) -> Vec<u8> {
        let line = line_asking(call);
        let Fields(mut fields) = Fields::of(&line[..line.len() - 1]);
        let (at, last) = (self.rng.range(0, fields.len() - 1), fields.len() - 1);
        match self.rng.range(0, 10) {
            0 => drop(fields.remove(at)),
            1 => fields.insert(at, fields[last].clone()),
            2 => fields.insert(at, Vec::new()),
            3 => fields[at].insert(0, b'0'),
            4 => fields[at] = self.odd_among(odd::DECIMALS),
            5 => fields[0][0].make_ascii_uppercase(),
            6 => fields[0].make_ascii_uppercase(),
            7 => fields[last].make_ascii_lowercase(),
            8 => fields[last].push(b'\r'),
            9 => fields.push(Vec::new()),
            _ => fields = vec![fields.join(&b' ')],
        }
        Fields(fields).line()
    }

    /// A line of the longest length, one byte less, or longer: days that do not rise, or a word with empty fields.
    fn long_line(&mut self) -> Vec<u8> {
        let length = LONGEST_LINE - 1 + self.rng.pick(&[0, 1, 1, 2, 3, 101, LONGEST_LINE, 3 * LONGEST_LINE]);
        if self.rng.chance(50) {
            days_line(length)
        } else {
            [b"publish".to_vec(), b"\t".repeat(length - 8), b"\n".to_vec()].concat()
        }
    }
}

/// A `days` request of exactly that many bytes, its days on the calendar and not rising.
pub fn days_line(length: usize) -> Vec<u8> {
    let begin = if length % 2 == 0 { "days\t10" } else { "days\t1" };
    [begin, &"\t1".repeat((length - begin.len()) / 2), "\n"].concat().into_bytes()
}

pub fn room_line(places: usize) -> Vec<u8> {
    format!("room\t{places}\n").into_bytes()
}

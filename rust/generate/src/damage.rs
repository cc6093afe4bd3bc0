//! Random texts to repair: registers that came through a bad line, with one damage upon another.

use crate::odd::{self, Fields};
use crate::Generator;
use account::limits::{LONGEST_TEXT, MOST_SPELLS};
use account::register::{line_alone, lines_of, text_of};

/// The lines of a register on its way, each with its LF while it has one.
pub struct Lines(Vec<Vec<u8>>);

/// What happens to them.
pub type Mishap = fn(&mut Generator, &mut Lines);

pub const MISHAPS: [Mishap; 16] = [
    Generator::change_bytes,
    Generator::lose_byte,
    Generator::add_byte,
    Generator::double_line,
    Generator::shuffle_stretch,
    Generator::move_line,
    Generator::turn_round,
    Generator::cut_line,
    Generator::join_lines,
    Generator::drop_lines,
    Generator::add_empty_line,
    Generator::replace_fields,
    Generator::spoil_fields,
    Generator::renumber,
    Generator::add_bad_twin,
    Generator::cut_end,
];

impl Generator {
    /// A text to repair: mostly short, now and then near the limits of lines and bytes; one in ten is good.
    pub fn text_to_repair(&mut self) -> Vec<u8> {
        self.centre = self.any_day();
        let count = match self.rng.range(0, 19) {
            0 => self.rng.range(MOST_SPELLS - 3, MOST_SPELLS + 3),
            1 => self.rng.range(MOST_SPELLS + 1, MOST_SPELLS + 400),
            2 => 0,
            _ => self.rng.pick(&[1, 2, 3, 5, 8, 20, 60]),
        };
        let mut lines = Lines(lines_of(&text_of(&self.register(count))).map(<[u8]>::to_vec).collect());
        let mishaps = self.rng.pick(&[0, 1, 1, 2, 2, 3, 4, 6, 10, 25]);
        for _ in 0..if count < MOST_SPELLS { mishaps } else { 4 * mishaps } {
            let mishap = self.mishaps.draw(&mut self.rng);
            if !lines.0.is_empty() {
                mishap(self, &mut lines);
            }
        }
        let text = lines.0.concat();
        if self.rng.chance(3) {
            self.lengthened(text)
        } else {
            text
        }
    }

    /// The text with more lines behind it, good ones over and over, to the longest length, one byte less, or one more.
    fn lengthened(&mut self, text: Vec<u8>) -> Vec<u8> {
        let further = text_of(&self.register(200));
        let length = LONGEST_TEXT - 1 + self.rng.range(0, 2);
        text.into_iter().chain(further.into_iter().cycle()).take(length).collect()
    }

    /// A line; of more than may stand often one behind those.
    fn line_of_many(&mut self, lines: &[Vec<u8>]) -> usize {
        let least = if lines.len() > MOST_SPELLS && self.rng.chance(50) { MOST_SPELLS } else { 0 };
        self.rng.range(least, lines.len() - 1)
    }

    /// A line and a byte of it.
    fn byte_of_many(&mut self, lines: &[Vec<u8>]) -> (usize, usize) {
        let line = self.line_of_many(lines);
        (line, self.rng.range(0, lines[line].len().max(1) - 1))
    }

    fn change_bytes(&mut self, Lines(lines): &mut Lines) {
        for _ in 0..self.rng.pick(&[1, 1, 2, 5]) {
            let (line, at) = self.byte_of_many(lines);
            let byte = if self.rng.chance(70) { self.rng.pick(odd::BYTES) } else { self.rng.word() as u8 };
            if let Some(place) = lines[line].get_mut(at) {
                *place = byte;
            }
        }
    }

    fn lose_byte(&mut self, Lines(lines): &mut Lines) {
        let (line, at) = self.byte_of_many(lines);
        if at < lines[line].len() {
            lines[line].remove(at);
        }
    }

    fn add_byte(&mut self, Lines(lines): &mut Lines) {
        let (line, at) = self.byte_of_many(lines);
        lines[line].insert(at, self.rng.pick(odd::BYTES));
    }

    /// A line comes again, anywhere.
    fn double_line(&mut self, Lines(lines): &mut Lines) {
        let (from, to) = (self.line_of_many(lines), self.line_of_many(lines));
        lines.insert(to, lines[from].clone());
    }

    fn shuffle_stretch(&mut self, Lines(lines): &mut Lines) {
        let (a, b) = (self.line_of_many(lines), self.line_of_many(lines));
        self.rng.shuffle(&mut lines[a.min(b)..=a.max(b)]);
    }

    fn move_line(&mut self, Lines(lines): &mut Lines) {
        let (from, to) = (self.line_of_many(lines), self.line_of_many(lines));
        let line = lines.remove(from);
        lines.insert(to, line);
    }

    /// The lines from the last to the first, or those behind some line before those up to it.
    fn turn_round(&mut self, Lines(lines): &mut Lines) {
        let at = self.line_of_many(lines);
        if self.rng.chance(50) {
            lines.rotate_left(at);
        } else {
            lines.reverse();
        }
    }

    /// The end of a line is lost: its LF stays or goes too.
    fn cut_line(&mut self, Lines(lines): &mut Lines) {
        let (line, at) = self.byte_of_many(lines);
        lines[line].truncate(at);
        if self.rng.chance(60) {
            lines[line].push(b'\n');
        }
    }

    /// A line loses its LF, or has a tab in its place.
    fn join_lines(&mut self, Lines(lines): &mut Lines) {
        let line = self.line_of_many(lines);
        lines[line].pop();
        if self.rng.chance(30) {
            lines[line].push(b'\t');
        }
    }

    fn drop_lines(&mut self, Lines(lines): &mut Lines) {
        let (from, count) = (self.line_of_many(lines), self.rng.range(1, 3));
        lines.drain(from..(from + count).min(lines.len()));
    }

    fn add_empty_line(&mut self, Lines(lines): &mut Lines) {
        let at = self.line_of_many(lines);
        lines.insert(at, b"\n".to_vec());
    }

    /// Another spell's line in the place of one, up to three of its fields replaced.
    fn replace_fields(&mut self, Lines(lines): &mut Lines) {
        let line = self.line_of_many(lines);
        let most = self.rng.range(1, 3);
        let number = self.number();
        let spell = self.good_spell(number);
        lines[line] = self.line_with_odd_fields(&spell, most);
    }

    /// A line whose spell has some fields replaced by others, which may be wrong.
    fn spoil_fields(&mut self, Lines(lines): &mut Lines) {
        let line = self.line_of_many(lines);
        lines[line] = self.spoilt_line(&lines[line]);
    }

    /// The line with its spell spoilt; as it is where it has none.
    fn spoilt_line(&mut self, line: &[u8]) -> Vec<u8> {
        match line_alone(line) {
            Ok(spell) => text_of(&[self.spoilt(spell)]),
            Err(_) => line.to_vec(),
        }
    }

    /// A line gets the number of another one.
    fn renumber(&mut self, Lines(lines): &mut Lines) {
        let (from, to) = (self.line_of_many(lines), self.line_of_many(lines));
        let number = Fields::of(&lines[from]).0.swap_remove(0);
        let line = lines[to].strip_suffix(b"\n").unwrap_or(&lines[to]);
        let mut fields = Fields::of(line);
        fields.0[0] = number;
        lines[to] = fields.line();
    }

    /// A line that is dropped comes before one of the same number.
    fn add_bad_twin(&mut self, Lines(lines): &mut Lines) {
        let at = self.line_of_many(lines);
        let mut twin = self.spoilt_line(&lines[at]);
        if self.rng.chance(30) {
            twin.insert(twin.len().max(1) - 1, b'x');
        }
        let before = self.rng.range(0, at);
        lines.insert(before, twin);
    }

    /// The last line ends early, or has no LF.
    fn cut_end(&mut self, Lines(lines): &mut Lines) {
        let most = self.rng.pick(&[1, 1, 2, 9]);
        if let Some(last) = lines.last_mut() {
            last.truncate(last.len().saturating_sub(most));
        }
    }
}

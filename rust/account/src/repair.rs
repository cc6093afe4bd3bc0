//! The repair of a register that came through a bad line: from the top, each line kept or dropped.

use crate::call::{Refusal, Repaired, Spell};
use crate::entry::{check, order, stands};
use crate::limits::{LONGEST_TEXT, MOST_SPELLS};
use crate::register::{line_alone, lines_of, text_of};

/// The lines of a text, told apart.
#[derive(Default)]
pub struct Sifted {
    /// The spells of the kept lines, as these came.
    pub kept: Vec<Spell>,
    /// The dropped lines, counted from 1, each with the first check that it does not pass.
    pub dropped: Vec<(usize, Refusal)>,
}

/// The checks of a line, in their order: 12, 1 to 5, then 6 and 8 against the kept lines.
fn kept_line(line: &[u8], kept: &[Spell]) -> Result<Spell, Refusal> {
    let spell = line_alone(line)?;
    check(!stands(kept, spell.number), Refusal::TAKEN)?;
    check(kept.len() < MOST_SPELLS, Refusal::FULL)?;
    Ok(spell)
}

impl Sifted {
    pub fn of(text: &[u8]) -> Result<Sifted, Refusal> {
        check(text.len() <= LONGEST_TEXT, Refusal::MALFORMED)?;
        let mut sifted = Sifted::default();
        for (at, line) in lines_of(text).enumerate() {
            match kept_line(line, &sifted.kept) {
                Ok(spell) => sifted.kept.push(spell),
                Err(refusal) => sifted.dropped.push((at + 1, refusal)),
            }
        }
        Ok(sifted)
    }

    /// The text of the kept lines, put into the order.
    pub fn text(&self) -> Vec<u8> {
        let mut spells = self.kept.clone();
        spells.sort_by_key(order);
        text_of(&spells)
    }

    /// Two places for each dropped line: the line and the number.
    pub fn remarks(&self) -> Vec<u32> {
        self.dropped.iter().flat_map(|(line, refusal)| [*line as u32, u32::from(refusal.0)]).collect()
    }

    /// How many kept lines now stand after a line that followed them in the input.
    pub fn displaced(&self) -> usize {
        let passed = |at: usize| self.kept[at + 1..].iter().any(|later| order(later) < order(&self.kept[at]));
        (0..self.kept.len()).filter(|&at| passed(at)).count()
    }

    /// What is told of it: the dropped lines, then the three numbers.
    fn told(&self) -> String {
        let line = |(line, refusal): &(usize, Refusal)| format!("dropped\t{line}\t{}\n", refusal.0);
        let lines: String = self.dropped.iter().map(line).collect();
        format!("{lines}repaired\t{}\t{}\t{}\n", self.text().len(), self.dropped.len(), self.displaced())
    }
}

/// Puts the repaired text and the remarks into the first places of the lists that are lent for them. A refusal leaves
/// both as they were; its line is 0.
pub fn repair(text: &[u8], lent: &mut [u8], remarked: &mut [u32]) -> Repaired {
    put(text, lent, remarked).unwrap_or_else(|refusal| Repaired { refusal: refusal.0, ..Repaired::default() })
}

fn put(text: &[u8], lent: &mut [u8], remarked: &mut [u32]) -> Result<Repaired, Refusal> {
    let sifted = Sifted::of(text)?;
    let (text, remarks) = (sifted.text(), sifted.remarks());
    check(text.len() <= lent.len(), Refusal::SHORT_LIST)?;
    check(remarks.len() <= remarked.len(), Refusal::SHORT_LIST)?;
    lent[..text.len()].copy_from_slice(&text);
    remarked[..remarks.len()].copy_from_slice(&remarks);
    let (length, dropped, displaced) = (text.len(), sifted.dropped.len(), sifted.displaced());
    Ok(Repaired { refusal: 0, line: 0, length, dropped, displaced })
}

/// What the program `repair` prints for a text, and what it tells on standard error.
pub fn printed_and_told(text: &[u8]) -> (Vec<u8>, Vec<u8>) {
    match Sifted::of(text) {
        Ok(sifted) => (sifted.text(), sifted.told().into_bytes()),
        Err(refusal) => (Vec::new(), format!("refused\t{}\t0\n", refusal.0).into_bytes()),
    }
}

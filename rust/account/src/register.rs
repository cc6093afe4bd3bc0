//! The register text, read and written.

use crate::call::{Refusal, Spell, Urgency};
use crate::entry::{check, check_spell, order, stands};
use crate::limits::{LARGEST_NUMBER, LONGEST_TEXT, MOST_SPELLS};
use std::fmt::Display;

/// Document 01's register A.
pub const REGISTER_A: &[u8] = b"11\t7\t1\t10\tG\t2\n12\t8\t3\t4\tC\t3F800000\n14\t9\t5\t6\tG\t4\n\
    13\t9\t5\t8\tG\t1\n15\t7\t7\t12\tC\t00000000\n16\t5\t9\t9\tG\t3\n";

/// A decimal without a leading zero, at most `largest`.
pub fn decimal(field: &[u8], largest: u64) -> Option<u64> {
    let digits = field.iter().all(u8::is_ascii_digit);
    let leading_zero = field.starts_with(b"0") && field != b"0";
    let value = std::str::from_utf8(field).ok()?.parse().ok()?;
    (digits && !leading_zero && value <= largest).then_some(value)
}

/// A decimal of 16 bits.
pub fn number(field: &[u8]) -> Option<u16> {
    Some(decimal(field, LARGEST_NUMBER)? as u16)
}

/// So many digits 0-9 A-F, highest first.
pub fn hex(field: &[u8], count: usize) -> Option<u64> {
    let digits = field.iter().all(|byte| matches!(byte, b'0'..=b'9' | b'A'..=b'F'));
    let value = u64::from_str_radix(std::str::from_utf8(field).ok()?, 16).ok()?;
    (digits && field.len() == count).then_some(value)
}

/// The fields of a line, which are parted by one tab each.
pub fn fields_of(line: &[u8]) -> Vec<&[u8]> {
    line.split(|&byte| byte == b'\t').collect()
}

/// The spell of six fields, whatever its numbers are; none where a field can't be read.
pub fn spell_of(fields: &[&[u8]]) -> Option<Spell> {
    let [number_field, candidate, first, last, letter, value] = *fields else {
        return None;
    };
    let urgency = match letter {
        b"G" => Urgency::Grade(number(value)?),
        b"C" => Urgency::Reading(hex(value, 8)? as u32),
        _ => return None,
    };
    Some(Spell {
        number: number(number_field)?,
        candidate: number(candidate)?,
        first: number(first)?,
        last: number(last)?,
        urgency,
    })
}

/// The lines of a text, each with its LF; the last one may have none.
pub fn lines_of(text: &[u8]) -> impl Iterator<Item = &[u8]> {
    text.split_inclusive(|&byte| byte == b'\n')
}

/// The checks of a line by itself, in their order: 12, 1 to 5.
pub fn line_alone(line: &[u8]) -> Result<Spell, Refusal> {
    let spell = line.strip_suffix(b"\n").and_then(|line| spell_of(&fields_of(line))).ok_or(Refusal::MALFORMED)?;
    check_spell(&spell)?;
    Ok(spell)
}

/// The checks of a line behind the earlier ones, in their order: 12, 1 to 5, 6, 13, 8.
fn read_line(line: &[u8], earlier: &[Spell]) -> Result<Spell, Refusal> {
    let spell = line_alone(line)?;
    check(!stands(earlier, spell.number), Refusal::TAKEN)?;
    check(earlier.last().is_none_or(|before| order(before) < order(&spell)), Refusal::MISPLACED)?;
    check(earlier.len() < MOST_SPELLS, Refusal::FULL)?;
    Ok(spell)
}

/// The spells of a text, or the refusal with its line, counted from 1; 0 where it is for the length.
pub fn read(text: &[u8]) -> Result<Vec<Spell>, (Refusal, usize)> {
    check(text.len() <= LONGEST_TEXT, Refusal::MALFORMED).map_err(|refusal| (refusal, 0))?;
    let mut spells = Vec::new();
    for (at, line) in lines_of(text).enumerate() {
        spells.push(read_line(line, &spells).map_err(|refusal| (refusal, at + 1))?);
    }
    Ok(spells)
}

/// Values on a line, with a tab before each.
pub fn tabbed<T: Display>(values: &[T]) -> String {
    values.iter().map(|value| format!("\t{value}")).collect()
}

/// The line of a spell, without its LF.
pub fn line_of(spell: &Spell) -> String {
    let Spell { number, candidate, first, last, urgency } = spell;
    match urgency {
        Urgency::Grade(grade) => format!("{number}\t{candidate}\t{first}\t{last}\tG\t{grade}"),
        Urgency::Reading(bits) => format!("{number}\t{candidate}\t{first}\t{last}\tC\t{bits:08X}"),
    }
}

/// The text of spells, whatever their fields hold.
pub fn text_of(spells: &[Spell]) -> Vec<u8> {
    spells.iter().map(|spell| line_of(spell) + "\n").collect::<String>().into_bytes()
}

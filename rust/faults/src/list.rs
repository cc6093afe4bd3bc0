//! The faults: what each does, an expression of the account with what stands in its place, and the comparisons that
//! must find it.

pub struct Fault {
    pub says: &'static str,
    pub module: &'static str,
    pub good: &'static str,
    pub bad: &'static str,
    pub found_by: &'static [Comparison],
}

#[derive(Clone, Copy, PartialEq, Debug)]
pub enum Comparison {
    Lists,
    Serve,
    Stand,
    Repair,
    Lent,
}

const LISTS: &[Comparison] = &[Comparison::Lists];
const SERVE: &[Comparison] = &[Comparison::Serve];
const STAND: &[Comparison] = &[Comparison::Stand];
const BOTH: &[Comparison] = &[Comparison::Lists, Comparison::Serve];
const CALLS: &[Comparison] = &[Comparison::Lists, Comparison::Serve, Comparison::Stand];
const REPAIR: &[Comparison] = &[Comparison::Repair];
const LENT: &[Comparison] = &[Comparison::Lent];
const REPAIRS: &[Comparison] = &[Comparison::Repair, Comparison::Lent];
const TEXTS: &[Comparison] = &[Comparison::Stand, Comparison::Repair];
pub const ALL: &[Comparison] =
    &[Comparison::Lists, Comparison::Serve, Comparison::Stand, Comparison::Repair, Comparison::Lent];

/// The faults, each as `FOUND_BY module "what it does": "good" => "bad";`.
macro_rules! faults {
    ($($found_by:ident $module:ident $says:literal: $good:literal => $bad:literal;)*) => {
        &[$(Fault { says: $says, module: stringify!($module), good: $good, bad: $bad, found_by: $found_by }),*]
    };
}

pub const FAULTS: &[Fault] = faults! {
    // Edits, the past and publishing.
    BOTH account "the past loses a list too early":
        "self.past.truncate(MOST_PAST)" => "self.past.truncate(MOST_PAST - 1)";
    BOTH account "the past has a list too many":
        "self.past.truncate(MOST_PAST)" => "self.past.truncate(MOST_PAST + 1)";
    BOTH account "an amend that changes nothing is remembered":
        "standing == spell" => "standing == spell && standing.number == 0";
    BOTH account "an amend is idle by its number alone":
        "standing == spell" => "standing.number == spell.number";
    BOTH account "an amend of the candidate alone is idle":
        "standing == spell" => "*standing == Spell { candidate: standing.candidate, ..*spell }";
    BOTH account "an amend of the urgency alone is idle":
        "standing == spell" => "*standing == Spell { urgency: standing.urgency, ..*spell }";
    BOTH account "an amend of a reading's lowest bit is idle":
        "standing == spell" => r"
            use crate::call::Urgency::Reading;
            let blurred = |spell: &Spell| match spell.urgency {
                Reading(bits) => Spell { urgency: Reading(bits | 1), ..*spell },
                _ => *spell,
            };
            blurred(standing) == blurred(spell)";
    BOTH account "an idle amend is refused":
        "return Ok(Answer::Done)" => "return Err(Refusal::TAKEN)";
    BOTH account "publishing empties the past":
        "self.published = Published::of(&self.standing, rule)"
        => "self.past.clear(); self.published = Published::of(&self.standing, rule)";
    BOTH account "publishing by rule 2 cuts the standing list as well":
        "self.published = Published::of(&self.standing, rule)" => r"
            self.published = Published::of(&self.standing, rule);
            self.standing = self.published.spells.clone()";
    BOTH account "rule 0 is taken for rule 1":
        "(1..=2).contains(&rule)" => "(0..=2).contains(&rule)";
    BOTH account "a publish that is refused publishes":
        "(1..=2).contains(&rule)" => r"
            let there = (1..=2).contains(&rule);
            if !there {
                self.published = Published::of(&self.standing, 1);
            }
            there";
    BOTH published "a reading counts for eight days":
        "spell.last.min(spell.first + 6)" => "spell.last.min(spell.first + 7)";
    BOTH published "a reading counts for six days":
        "spell.last.min(spell.first + 6)" => "spell.last.min(spell.first + 5)";
    BOTH published "a reading ends on the later of the two days":
        "spell.last.min(spell.first + 6)" => "spell.last.max(spell.first + 6)";
    BOTH published "grades lapse as readings do":
        "published_by(rule, spell)" => r"
            let last = if rule == 2 { spell.last.min(spell.first + 6) } else { spell.last };
            Spell { last, ..*spell }";
    BOTH published "spells that are cut keep their old places":
        "spells.sort_by_key(answer_order)" => "spells.sort_by_key(|_| 0)";
    BOTH published "twins go by number":
        "spells.sort_by_key(answer_order)" => "spells.sort_by_key(crate::entry::order)";
    BOTH published "twins of one candidate go by falling numbers":
        "spells.sort_by_key(answer_order)"
        => "spells.sort_by_key(|spell| (spell.first, spell.last, spell.candidate, u16::MAX - spell.number))";
    BOTH published "the candidate comes before the last day":
        "spells.sort_by_key(answer_order)"
        => "spells.sort_by_key(|spell| (spell.first, spell.candidate, spell.last, spell.number))";
    BOTH published "spells are twins by the days as entered":
        "spells.sort_by_key(answer_order)" => r"
            let entered = |spell: &Spell| crate::entry::find(standing, spell.number).map(answer_order);
            spells.sort_by_key(entered)";
    BOTH account "taking back leaves the past as it is":
        "self.past.remove(0)" => "self.past[0].clone()";
    BOTH account "one spell less may stand":
        "self.standing.len() < MOST_SPELLS" => "self.standing.len() < MOST_SPELLS - 1";
    BOTH account "full comes before taken":
        "Refusal::TAKEN" => "if self.standing.len() < MOST_SPELLS { Refusal::TAKEN } else { Refusal::FULL }";
    BOTH wire "a refused text leaves the former service":
        "self.account = account" => "if answer == Answer::Done { self.account = account }";
    BOTH account "a refused text leaves its lines before the wrong one":
        "(fresh, Answer::Misread(refusal, line))" => r"
            let good = text.split_inclusive(|&byte| byte == b'\n').take(line.max(1) - 1).collect::<Vec<_>>().concat();
            (Account { standing: register::read(&good).unwrap_or_default(), ..fresh }, Answer::Misread(refusal, line))";
    // The checks.
    BOTH entry "a reading above 1,000 passes":
        "bits <= LARGEST_READING" => "bits <= LARGEST_READING + 1";
    BOTH entry "negative readings pass":
        "bits <= LARGEST_READING" => "bits & 0x7FFF_FFFF <= LARGEST_READING";
    BOTH entry "minus zero passes for zero":
        "bits <= LARGEST_READING" => "bits <= LARGEST_READING || bits == 1 << 31";
    BOTH entry "a grade is cut to eight bits":
        "(1..=LARGEST_GRADE).contains(&grade)" => "(1..=LARGEST_GRADE).contains(&(grade & 255))";
    ALL entry "a spell of one day is backwards":
        "spell.first <= spell.last" => "spell.first < spell.last";
    BOTH published "a day may come twice":
        "pair[0] < pair[1]" => "pair[0] <= pair[1]";
    BOTH published "backwards comes before off calendar":
        "check_day(*a)?" => "check(a <= b, Refusal::BACKWARDS).and_then(|()| check_day(*a))?";
    // Lent lists.
    BOTH account "a list of exactly the answer's length is short":
        "given.len() <= list.len()" => "given.len() < list.len() || given.is_empty()";
    BOTH account "a list of exactly the text's length is short":
        "put_over(answer.text(), &mut lists.text)?" => r"
            let text = answer.text();
            check(text.is_empty() || text.len() < lists.text.len(), Refusal::SHORT_LIST)?;
            put_over(text, &mut lists.text)?";
    LISTS account "a refused call clears the first place":
        "answered.and_then(|answer| put(answer, lists)).unwrap_or_else(Answer::Refused)" => r"
            answered.and_then(|answer| put(answer, lists)).unwrap_or_else(|refusal| {
                lists.numbers.iter_mut().take(1).for_each(|place| *place = 0);
                Answer::Refused(refusal)
            })";
    LISTS account "a short list is filled":
        "put_over(answer.numbers(), &mut lists.numbers)?" => r"
            lists.numbers.iter_mut().zip(answer.numbers()).for_each(|(place, number)| *place = *number);
            put_over(answer.numbers(), &mut lists.numbers)?";
    LISTS account "places behind the answer are written":
        "list[..given.len()].copy_from_slice(given)" => r"
            if let Some(last) = given.last() { list.fill(*last) }
            list[..given.len()].copy_from_slice(given)";
    // Listings and looks.
    CALLS published "nobody stands on a last day":
        "spell.first <= d && d <= spell.last" => "spell.first <= d && d < spell.last";
    BOTH published "a span starts at the later of two stored starts (M1)":
        "spell.first <= *b && spell.last >= *a" => r"
            let begun = self.spells.iter().rfind(|other| other.first <= *b);
            spell.first <= *b && spell.last >= *a && begun.is_some_and(|other| other.last >= *a)";
    BOTH published "a spell does not cover itself":
        "spell.first <= covered.first && spell.last >= covered.last"
        => "spell.first < covered.first && spell.last >= covered.last";
    BOTH published "days are left at the first spell that reaches back (M2)":
        "days.iter().any(|d| on_day(spell, *d))" => r"
            let reaches_back = |d: &[u16]| self.spells.iter().any(|other| on_day(other, d[1]) && other.first <= d[0]);
            let left = days.windows(2).rposition(reaches_back).map_or(0, |at| at + 1);
            days[left..].iter().any(|d| on_day(spell, *d))";
    BOTH published "bit i of a mask is the day base + i + 1":
        "u32::from(base) + bit" => "u32::from(base) + bit + 1";
    BOTH published "a ticked day is cut to 16 bits":
        "day.try_into().map_err(|_| Refusal::OFF_CALENDAR)" => "Ok(day as u16)";
    BOTH published "the highest bit of a mask is lost":
        "mask >> bit & 1 == 1" => "mask << 1 >> 1 >> bit & 1 == 1";
    BOTH published "an empty mask off the calendar is refused":
        "ticked_days(*base, *mask)?" => "check_day(*base).and_then(|()| ticked_days(*base, *mask))?";
    BOTH published "one day ticked is not told":
        "Some(ticked.len())" => "Some(ticked.len().saturating_sub(1))";
    ALL entry "twins stand in falling order":
        "(spell.first, spell.last, spell.number)" => "(spell.first, spell.last, u16::MAX - spell.number)";
    CALLS tree "a head of the same last day is no parent":
        "spells[up].last >= spells[at].last" => "spells[up].last > spells[at].last";
    CALLS tree "looks of heads on the path count":
        "!path.contains(&at) && self.last_child[at].is_some()" => "self.last_child[at].is_some()";
    CALLS tree "looks at left siblings do not count":
        "with_next + with_left + off_path_with_child" => "with_next + 0 * with_left + off_path_with_child";
    CALLS tree "one look too many where somebody is listed":
        "with_next + with_left + off_path_with_child"
        => "with_next + with_left + off_path_with_child + listed.len().min(1)";
    // The text.
    ALL register "a leading zero passes":
        r#"field.starts_with(b"0") && field != b"0""# => r#"field.starts_with(b"00")"#;
    SERVE register "small hex letters pass":
        "matches!(byte, b'0'..=b'9' | b'A'..=b'F')" => "byte.is_ascii_hexdigit()";
    ALL register "a last line without its LF passes":
        r#"line.strip_suffix(b"\n")"# => r#"line.strip_suffix(b"\n").or(Some(line))"#;
    BOTH register "full comes before the other checks of a line":
        "read_line(line, &spells)"
        => "check(spells.len() < MOST_SPELLS, Refusal::FULL).and_then(|()| read_line(line, &spells))";
    CALLS register "lines are counted from 0":
        "(refusal, at + 1)" => "(refusal, at)";
    BOTH register "leading zeros of a reading are not written":
        r#"format!("{number}\t{candidate}\t{first}\t{last}\tC\t{bits:08X}")"#
        => r#"format!("{number}\t{candidate}\t{first}\t{last}\tC\t{bits:X}")"#;
    CALLS register "a text of the longest length is too long":
        "text.len() <= LONGEST_TEXT" => "text.len() < LONGEST_TEXT";
    // Repairs: which lines are kept, and why the others are not.
    REPAIRS repair "the number of a dropped line is taken":
        "kept_line(line, &sifted.kept)" => r"
            use crate::register::{fields_of, spell_of};
            let number_of = |line: &[u8]| spell_of(&fields_of(&line[..line.len() - 1])).map(|spell| spell.number);
            let taken = |number| lines_of(text).take(at).any(|line| number_of(line) == Some(number));
            let kept = kept_line(line, &sifted.kept);
            kept.and_then(|spell| check(!taken(spell.number), Refusal::TAKEN).map(|()| spell))";
    REPAIRS repair "lines behind the 1,024th are dropped as full":
        "kept_line(line, &sifted.kept)"
        => "check(at < MOST_SPELLS, Refusal::FULL).and_then(|()| kept_line(line, &sifted.kept))";
    REPAIRS repair "misplaced lines are dropped":
        "kept_line(line, &sifted.kept)" => r"
            let last = sifted.kept.last();
            let placed = |spell: &Spell| last.is_none_or(|before| order(before) < order(spell));
            let kept = kept_line(line, &sifted.kept);
            kept.and_then(|spell| check(placed(&spell), Refusal::MISPLACED).map(|()| spell))";
    REPAIRS repair "full comes before taken in a repair":
        "check(!stands(kept, spell.number), Refusal::TAKEN)?" => r"
            check(kept.len() < MOST_SPELLS, Refusal::FULL)?;
            check(!stands(kept, spell.number), Refusal::TAKEN)?";
    REPAIRS repair "one line less is kept":
        "kept.len() < MOST_SPELLS" => "kept.len() < MOST_SPELLS - 1";
    REPAIRS repair "one line more is kept":
        "kept.len() < MOST_SPELLS" => "kept.len() <= MOST_SPELLS";
    REPAIRS repair "a kept line behind a dropped one is lost":
        "sifted.kept.push(spell)"
        => "if sifted.dropped.last().is_none_or(|dropped| dropped.0 != at) { sifted.kept.push(spell) }";
    REPAIRS repair "lines of a repair are counted from 0":
        "sifted.dropped.push((at + 1, refusal))" => "sifted.dropped.push((at, refusal))";
    REPAIRS repair "an empty line is passed over":
        "sifted.dropped.push((at + 1, refusal))"
        => r#"if line != b"\n" { sifted.dropped.push((at + 1, refusal)) }"#;
    REPAIRS repair "the longest text to repair is too long":
        "text.len() <= LONGEST_TEXT" => "text.len() < LONGEST_TEXT";
    REPAIRS repair "a text of one byte more is repaired":
        "text.len() <= LONGEST_TEXT" => "text.len() <= LONGEST_TEXT + 1";
    // Repairs: the order of the kept lines, and how many are displaced.
    REPAIRS repair "kept lines stay as they came":
        "spells.sort_by_key(order)" => "()";
    REPAIRS repair "kept lines of the same days stay as they came":
        "spells.sort_by_key(order)" => "spells.sort_by_key(|spell| (spell.first, spell.last))";
    REPAIRS repair "the last of 1,024 kept lines is lost":
        "text_of(&spells)" => "text_of(&spells[..spells.len().min(MOST_SPELLS - 1)])";
    REPAIRS repair "lines count that passed another one":
        "self.kept[at + 1..].iter().any(|later| order(later) < order(&self.kept[at]))"
        => "self.kept[..at].iter().any(|earlier| order(earlier) > order(&self.kept[at]))";
    REPAIRS repair "only the next line displaces one":
        "self.kept[at + 1..].iter().any(|later| order(later) < order(&self.kept[at]))"
        => "self.kept.get(at + 1).is_some_and(|later| order(later) < order(&self.kept[at]))";
    REPAIRS repair "lines are displaced by their days alone":
        "self.kept[at + 1..].iter().any(|later| order(later) < order(&self.kept[at]))" => r"
            let days = |spell: &Spell| (spell.first, spell.last);
            self.kept[at + 1..].iter().any(|later| days(later) < days(&self.kept[at]))";
    REPAIRS repair "lines count that stand at another place":
        "(0..self.kept.len()).filter(|&at| passed(at)).count()" => r"
            let place = |at: usize| self.kept.iter().filter(|other| order(other) < order(&self.kept[at])).count();
            (0..self.kept.len()).filter(|&at| passed(at) || place(at) != at).count()";
    // Repairs: the lists that are lent, and what is told.
    LENT repair "the line of a remark is cut to 16 bits":
        "*line as u32" => "*line as u16 as u32";
    LENT repair "remarks are written before the text is known to be short":
        "check(text.len() <= lent.len(), Refusal::SHORT_LIST)?" => r"
            remarked.iter_mut().zip(&remarks).for_each(|(place, remark)| *place = *remark);
            check(text.len() <= lent.len(), Refusal::SHORT_LIST)?";
    LENT repair "a list of exactly the repaired text's length is short":
        "check(text.len() <= lent.len(), Refusal::SHORT_LIST)?"
        => "check(text.len() < lent.len(), Refusal::SHORT_LIST)?";
    LENT repair "the text is written before the remarks are known to be short":
        "check(remarks.len() <= remarked.len(), Refusal::SHORT_LIST)?" => r"
            lent[..text.len()].copy_from_slice(&text);
            check(remarks.len() <= remarked.len(), Refusal::SHORT_LIST)?";
    LENT repair "a list of exactly the remarks' places is short":
        "check(remarks.len() <= remarked.len(), Refusal::SHORT_LIST)?"
        => "check(remarks.len() < remarked.len(), Refusal::SHORT_LIST)?";
    LENT repair "places behind the repaired text are cleared":
        "lent[..text.len()].copy_from_slice(&text)" => "lent.fill(0); lent[..text.len()].copy_from_slice(&text)";
    LENT repair "places behind the remarks are cleared":
        "remarked[..remarks.len()].copy_from_slice(&remarks)"
        => "remarked.fill(0); remarked[..remarks.len()].copy_from_slice(&remarks)";
    LENT repair "a short list comes before the length":
        "Sifted::of(text)?"
        => "check(!lent.is_empty() || text.len() <= LONGEST_TEXT, Refusal::SHORT_LIST).and_then(|()| Sifted::of(text))?";
    LENT repair "a refused repair tells a line":
        "Repaired { refusal: refusal.0, ..Repaired::default() }"
        => "Repaired { refusal: refusal.0, line: 1, ..Repaired::default() }";
    LENT repair "a refused repair tells a length":
        "Repaired { refusal: refusal.0, ..Repaired::default() }"
        => "Repaired { refusal: refusal.0, length: text.len(), ..Repaired::default() }";
    REPAIR repair "the line of what is told is cut to 16 bits":
        r#"format!("dropped\t{line}\t{}\n", refusal.0)"#
        => r#"format!("dropped\t{}\t{}\n", *line as u16, refusal.0)"#;
    REPAIR repair "nothing is told of a good register":
        r#"format!("{lines}repaired\t{}\t{}\t{}\n", self.text().len(), self.dropped.len(), self.displaced())"# => r#"
            if self.dropped.is_empty() { return String::new() }
            format!("{lines}repaired\t{}\t{}\t{}\n", self.text().len(), self.dropped.len(), self.displaced())"#;
    REPAIR repair "a text that is too long is printed":
        "Vec::new()" => "text.to_vec()";
    REPAIR programs "what is told goes to standard output":
        "io::stderr().write_all(&told)" => "io::stdout().write_all(&told)";
    REPAIR programs "the status of a repair is 1 where lines are dropped":
        "io::stderr().write_all(&told)" => r#"
            let all = io::stderr().write_all(&told);
            if told.starts_with(b"dropped") { std::process::exit(1) }
            all"#;
    // The wire.
    SERVE wire "the largest room is malformed":
        "LARGEST_ROOM as u64" => "LARGEST_ROOM as u64 - 1";
    SERVE wire "the longest line is too long":
        "line.len() <= LONGEST_LINE" => "line.len() < LONGEST_LINE";
    SERVE wire "a line of one byte more is read":
        "line.len() <= LONGEST_LINE" => "line.len() <= LONGEST_LINE + 1";
    SERVE wire "write and take-back take further fields":
        "return None"
        => r#"match *word { b"write" => Call::Write, b"take-back" => Call::TakeBack, _ => return None }"#;
    SERVE wire "a line that is cut short is answered":
        r#"!line.ends_with(b"\n")"# => "line.is_empty()";
    SERVE wire "a reading gives back the largest room":
        "self.begin(&Start::Text(request.text))"
        => "self.lists = lists_of(LARGEST_ROOM); self.begin(&Start::Text(request.text))";
    // Around the account: what a program may do wrong with the bytes that it takes and sends.
    SERVE programs "answers are held back":
        "send(&wire.answer(request))?" => r"
            static HELD: std::sync::Mutex<Vec<u8>> = std::sync::Mutex::new(Vec::new());
            let mut held = HELD.lock().unwrap();
            held.extend(wire.answer(request));
            if held.len() >= 4096 { send(&std::mem::take(&mut *held))? }";
    SERVE programs "nothing is answered after 65,536 requests":
        "take(&mut io::stdin().lock()).map_err(failed)?" => r"
            use std::sync::atomic::{AtomicUsize, Ordering};
            static TAKEN: AtomicUsize = AtomicUsize::new(0);
            let request = take(&mut io::stdin().lock()).map_err(failed)?;
            request.filter(|_| TAKEN.fetch_add(1, Ordering::Relaxed) < 65_536)";
    SERVE wire "the length of a text counts up to a megabyte":
        "take_text(stream, length)" => "take_text(stream, length % (1 << 20))";
    SERVE wire "the end of a line above a megabyte is taken for a line":
        "{ None }" => "if line.len() > 1 << 20 { asked_by(&line[line.len() - 10..line.len() - 1]) } else { None }";
    SERVE programs "a register that was read from a file is forgotten":
        "send(&bytes_of(&answer))?" => "wire = Wire::default(); send(&bytes_of(&answer))?";
    SERVE programs "a file is read once":
        "file.read_to_end(&mut text)" => r"
            text.resize(65_537, 0);
            let count = file.read(&mut text)?;
            text.truncate(count);
            Ok(count)";
    SERVE wire "a short read is the end of a long text":
        "stream.take(length).read_to_end(&mut text)?" => r"
            let kept = stream.take(length.min(65_537)).read_to_end(&mut text)?;
            if length > 65_537 && kept == 65_537 {
                let mut piece = vec![0; length as usize - kept];
                let count = stream.read(&mut piece)?;
                text.resize(if count > 0 { length as usize } else { kept }, 0);
            }
            kept";
    SERVE programs "the longest answers are not sent":
        "output.write_all(answer).and_then(|()| output.flush()).map_err(failed)" => r#"
            let answer = if answer.len() < 33_792 { answer } else { b"" };
            output.write_all(answer).and_then(|()| output.flush()).map_err(failed)"#;
    STAND programs "long lines of a day are not printed":
        "!numbers.is_empty()" => "!numbers.is_empty() && numbers.len() <= 190";
    TEXTS programs "the input is read once":
        "io::stdin().lock().read_to_end(&mut text).map_err(failed)?" => r"
            text.resize(65_537, 0);
            let count = io::stdin().lock().read(&mut text).map_err(failed)?;
            text.truncate(count);
            count";
};

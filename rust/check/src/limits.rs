//! What a program meets at its limits: the longest register, the longest answers, lines and texts far above what is
//! taken, many requests.

use crate::lines::{days, line, lines};
use account::call::{Spell, Urgency};
use account::limits::{LARGEST_READING, LARGEST_ROOM, LAST_DAY, LONGEST_LINE, LONGEST_TEXT, MOST_SPELLS};
use account::register::{text_of, REGISTER_A};
use account::wire::reading_of;
use generate::{days_line, room_line, Conversation, Exchange};

const MEGABYTE: usize = 1 << 20;
/// More requests than 16 bits count.
const MANY: usize = 70_000;

/// 1,024 spells whose lines have as many bytes as a good line can, all of them standing on day 3,998.
pub fn longest_register() -> Vec<u8> {
    let mut rows: Vec<(u16, u16, u16)> = (0..MOST_SPELLS)
        .map(|k| (3990 + k as u16 % 8, 3998 + k as u16 % 3, (10_000 + k * 7_919 % 50_000) as u16))
        .collect();
    rows.sort();
    let spell = |(k, (first, last, number)): (u16, _)| Spell {
        number,
        candidate: 65_535 - k,
        first,
        last,
        urgency: Urgency::Reading(LARGEST_READING - k as u32),
    };
    text_of(&(0..).zip(rows).map(spell).collect::<Vec<_>>())
}

/// One byte more than a text may have.
pub fn too_long() -> Vec<u8> {
    longest_register().repeat(2)[..=LONGEST_TEXT].to_vec()
}

/// Texts for `stand`, and for a `serve` that begins on a file.
pub fn texts() -> Vec<Vec<u8>> {
    let mut cut_short = longest_register();
    cut_short.pop();
    let plain = [b"".as_slice(), REGISTER_A, &REGISTER_A[..REGISTER_A.len() - 1], b"\n"];
    let crosses = [LONGEST_TEXT, LONGEST_TEXT + 1, 2 * MEGABYTE].map(|length| b"x".repeat(length));
    let long = [longest_register(), cut_short, too_long()].into_iter().chain(crosses);
    plain.into_iter().map(<[u8]>::to_vec).chain(long).collect()
}

/// A service that begins on a file: what was read stands, is not published, and no edit can be taken back.
pub fn begun_on(text: &[u8]) -> Conversation {
    let mut talk = Conversation::begin(Some(text.to_vec()));
    talk.send_all(lines("write, day 5, take-back, publish 1, day 5, day 3998, span 4 3998, span 1 4000"));
    talk.send_all(lines("cover 14, cover 10000, days 4 3998 3999 4000"));
    for room in [text.len().saturating_sub(1), text.len(), LARGEST_ROOM] {
        talk.send_all([room_line(room), line("write")]);
    }
    talk.send_all(lines("strike 14, take-back, write"));
    talk
}

/// A room lasts until the next one, over a reading too.
pub fn rooms() -> Conversation {
    let read = || reading_of(REGISTER_A);
    let mut talk = Conversation::of([read(), line("room 5"), read()]);
    talk.send_all(lines("write, publish 1, day 5, room 2, day 5"));
    talk.send_all([read(), line("publish 1"), line("day 5"), line("days 5"), line("room 65536"), line("write")]);
    talk
}

/// The longest lines that are read.
pub fn longest_lines() -> Conversation {
    let talk = Conversation::of([LONGEST_LINE - 1, LONGEST_LINE].map(days_line));
    assert_answers(&talk, &["refused\t10\n"]);
    talk
}

/// Lines above the longest one. Each would be a request, or ends in one, which is not carried out.
pub fn long_lines() -> Conversation {
    let lengths =
        [MEGABYTE - 8, MEGABYTE, MEGABYTE + 1, 2 * MEGABYTE, LONGEST_LINE, LONGEST_LINE + 1, 2 * LONGEST_LINE];
    let long = lengths.map(|length| [b"x".repeat(length), line("publish 1")].concat());
    let long = long.into_iter().chain([LONGEST_LINE + 1, LONGEST_LINE + 2].map(days_line));
    let talk = Conversation::of(long.flat_map(|long| [long, line("take-back")]));
    assert_answers(&talk, &["malformed\n", "refused\t9\n"]);
    talk
}

/// Texts above the longest one: their bytes, which would be requests, are dropped, and the service is a fresh one.
pub fn long_texts() -> Conversation {
    let lengths = [LONGEST_TEXT + 1, 2 * LONGEST_TEXT, MEGABYTE, MEGABYTE + 16, 2 * MEGABYTE, 2 * MEGABYTE + 3];
    let talk = Conversation::of(lengths.into_iter().flat_map(|length| {
        let long: Vec<u8> = b"publish\t1\n".iter().cycle().take(length).copied().collect();
        [reading_of(REGISTER_A), line("publish 1"), reading_of(&long), line("day 5"), line("write")]
    }));
    assert_answers(&talk, &["ok\n", "ok\n", "refused\t12\t0\n", "listed\t0\t0\n", "text\t0\n"]);
    talk
}

/// The answers are these, over and over.
fn assert_answers(talk: &Conversation, expected: &[&str]) {
    for (exchange, expected) in talk.exchanges.iter().zip(expected.iter().cycle()) {
        assert_eq!(exchange.answer, expected.as_bytes());
    }
}

/// More requests than 16 bits count, with answers that differ from one to the next.
pub fn many() -> Conversation {
    let mut talk = Conversation::of([reading_of(REGISTER_A), line("publish 1")]);
    talk.send_all((1..14).map(|d| line(&format!("day {d}"))));
    let turns: Vec<Exchange> = talk.exchanges[2..].iter().cycle().take(MANY).cloned().collect();
    talk.exchanges.extend(turns);
    talk
}

/// Requests longer than a read brings them: a long text that is dropped, the longest register, the longest line and one
/// above it.
pub fn small_pieces() -> Conversation {
    Conversation::of([
        reading_of(&b"publish\t1\n".repeat(9_000)),
        line("take-back"),
        reading_of(&longest_register()),
        line("publish 1"),
        line("day 3998"),
        days(1..=LAST_DAY),
        days_line(LONGEST_LINE),
        [b"x".repeat(LONGEST_LINE), line("publish 1")].concat(),
        line("write"),
    ])
}

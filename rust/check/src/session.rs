//! The conversation on which the gate runs `serve`: crates/serve/stdin is what is sent, crates/serve/stdout what comes
//! back.
//!
//! It goes through every request and every refusal, a list of 1,024 spells, more than 64 take-backs and idle saves, rooms,
//! texts that are good and damaged, lines of no form, a day list of 4,000, and ends inside a request.

use crate::lines::{days, line, lines, Lines};
use account::call::Refusal;
use account::limits::{LONGEST_LINE, MOST_SPELLS};
use account::wire::reading_of;
use generate::Conversation;

/// Spells that are refused as entries, by one check or by several at once, so that their order shows.
const WRONG: &str = "0 7 1 10 G 2, 0 0 0 0 G 0, 1 0 1 10 G 2, 1 0 0 10 G 2, 1 7 0 10 G 2, 1 7 10 4001 G 2, \
    1 7 4001 0 G 2, 1 7 10 9 G 2, 1 7 10 9 G 5, 1 7 1 10 G 0, 1 7 1 10 G 5, 1 7 1 10 G 65535, 1 7 1 10 C 447A0001, \
    1 7 1 10 C 7FC00000, 1 7 1 10 C 80000000";
const GOOD: &str = "11 7 1 10 G 2, 12 7 1 4000 C 447A0000, 13 65535 4000 4000 C 00000000";

/// Each question at the calendar's ends and beyond them.
const QUESTIONS: &str = "day 0, day 1, day 5, day 11, day 4000, day 4001, day 65535, span 1 4000, span 0 5, span 5 0, \
    span 5 4001, span 9 8, span 11 3999, span 4000 4000, cover 0, cover 11, cover 12, cover 13, cover 14, cover 65535, \
    days, days 1, days 1 2 4000, days 2 2, days 3 2, days 0 1, days 1 4001, days 4001 1, \
    mask 1 0000000000000000, mask 65535 0000000000000000, mask 0 0000000000000001, mask 0 0000000000000002, \
    mask 1 FFFFFFFFFFFFFFFF, mask 3937 FFFFFFFFFFFFFFFF, mask 3937 8000000000000000, mask 3938 8000000000000000, \
    mask 4000 0000000000000003, mask 65535 8000000000000000, mask 65535 0000000000000002, mask 5 0123456789ABCDEF";

/// Lines of no form, of every kind.
const MALFORMED: &[u8] =
    b"|\t| publish\t1|publish |publish|publish\t|publish\t01|publish\t1\t|publish\t1\t2|publish\t65536|PUBLISH|Day\t5|publish\t1\r|take back|take-back\t1|write\t|day|day\t\
    |day\t05|day\t65536|day\t-1|day\t+1|day\t1\t2|day 5|day\t5\t|span\t1|span\t1\t|span\t1\t2\t3|cover|cover\tx|days\t\
    |days\t1\t|days\t1\t\t2|days\t01|mask|mask\t|mask\t1|mask\t1\t|mask\t1\t0|mask\t1\t00000000000000001|mask\t1\t000000000000000a\
    |mask\t1\t000000000000000G|mask\t1\t0000000000000001\t|mask\t65536\t0000000000000001|mask\t01\t0000000000000001|strike|strike\t1\t|strike\t99999|enter|enter\t1\t1\t1\t1\tG\
    |enter\t1\t1\t1\t1\tG\t1\t|enter\t1\t1\t1\t1\tH\t1|enter\t1\t1\t1\t1\tC\t1|enter\t1\t1\t1\t1\tC\t0000000a\
    |enter\t1\t1\t1\t1\tC\t000000000|enter\t1\t1\t1\t1\tg\t1|amend\t1\t1\t1\t1\tG\t01|amend\t\t1\t1\t1\tG\t1\
    |room|room\t65537|room\t-1|room\t00|read|read\t|read\t01|read\t12345678901|read\t1x|entering";

/// A line for each value, the value behind the word.
fn each<T: ToString>(word: &str, values: impl IntoIterator<Item = T>) -> Lines {
    values.into_iter().map(|value| line(&format!("{word} {}", value.to_string()))).collect()
}

fn checks() -> Lines {
    let entered = format!("{WRONG}, {GOOD}, {GOOD}");
    [each("enter", entered.split(", ")), each("amend", WRONG.split(", ")), lines("amend 99 1 1 1 G 2")].concat()
}

/// Before and after publishing.
fn questions() -> Lines {
    [lines(QUESTIONS), lines("publish 1"), lines(QUESTIONS)].concat()
}

/// Rules 1 and 2 in turn and rules that there are not, on readings of 6, 7 and 8 days, a reading at the calendar's end and
/// grades: the standing list keeps its days, cover goes by the published ones.
fn rules() -> Lines {
    let asked =
        "day 6, day 7, day 8, day 9, day 4000, span 7 9, cover 21, cover 22, cover 23, cover 24, days 7 8 3999, write";
    let published = |rule: &str| lines(&format!("publish {rule}, {asked}"));
    [
        lines("read 0, enter 21 5 1 8 C 3F800000, enter 22 5 1 7 C 3F800000, enter 23 5 1 6 C 3F800000"),
        lines("enter 24 5 1 8 G 2, enter 25 5 3994 4000 C 42280000, enter 26 5 3995 4000 C 42280000"),
        lines("enter 27 5 4000 4000 C 00000000"),
        ["1", "2", "0", "3", "65535", "1", "2"].into_iter().flat_map(published).collect(),
        lines("amend 21 5 2 9 C 3F800000, day 8, cover 21, publish 2, day 8, take-back, cover 21, publish 2, cover 21"),
    ]
    .concat()
}

/// Spells with equal days, some of them under rule 2 alone, of several candidates.
fn twins() -> Lines {
    lines(
        "read 0, enter 41 9 5 9 G 1, enter 42 8 5 9 G 1, enter 43 8 5 9 G 1, enter 44 9 5 20 C 00000000, \
        enter 45 7 5 30 C 00000000, enter 46 7 6 20 G 2, publish 1, day 7, span 5 30, cover 42, days 6 25, write, publish 2, \
        day 7, span 5 30, cover 44, days 6 25, amend 41 7 5 9 G 1, publish 1, day 7, write",
    )
}

fn malformed() -> Lines {
    let ended = |line: &[u8]| [line, b"\n"].concat();
    let short = MALFORMED.split(|&byte| byte == b'|').map(ended);
    short.chain([ended(&b"x".repeat(300)), ended(b"\0\xff"), ended(b"day\t5\0")]).collect()
}

fn too_long() -> Lines {
    let days = format!("days{}\n", "\t1".repeat(LONGEST_LINE / 2));
    vec![days.into_bytes(), [b"y".repeat(2 * LONGEST_LINE), b"\n".to_vec()].concat()]
}

/// 70 edits, refused ones among them, and 67 take-backs: the past holds the last 64 lists.
fn taking_back() -> Lines {
    [
        (0..50).map(|k| line(&format!("enter {} 7 {} {} G 2", 1000 + k, 1 + k, 100 + k))).collect(),
        lines("enter 1000 7 1 1 G 2, strike 5, amend 999 1 1 1 G 2"),
        (0..10).map(|k| line(&format!("amend {} 8 {} 300 C 3F800000", 1000 + k, 2 + k))).collect(),
        each("strike", 1000..1010),
        lines("publish 1, write"),
        vec![line("take-back"); 67],
        lines("write, day 50, publish 1, day 50"),
    ]
    .concat()
}

/// Three edits, the last of a reading's lowest bit alone, and 64 idle saves: each edit can still be taken back.
fn saving() -> Lines {
    let saved = line("amend 1 7 1 10 C 3F800001");
    [
        lines("enter 1 7 1 10 G 2, amend 1 7 1 10 C 3F800000"),
        vec![saved; 65],
        lines("amend 1 7 1 10 C 80000000, amend 1 7 1 10 C 7FC00000, write"),
        lines("take-back, amend 1 7 1 10 C 3F800000, write, take-back, write, take-back, write, take-back"),
    ]
    .concat()
}

/// 1,024 spells entered, the edits at the limit, and questions with long answers.
fn full_list() -> Lines {
    let entered = (0..1030).map(|k| {
        let first = 1 + (k * 37) % 3600;
        line(&format!("enter {} {} {first} {} G 2", 2000 + k, 1 + k % 97, first + (k * k) % 400))
    });
    let at_rooms = [0, 1023, 1024]
        .into_iter()
        .flat_map(|places| [line(&format!("room {places}")), line("span 1 4000"), days(1..=4000), line("write")]);
    [
        lines("read 0"),
        entered.collect(),
        lines("enter 2000 1 1 1 G 2, enter 1 0 1 1 G 2, amend 2000 9 1 4000 G 2, strike 2001"),
        lines("enter 1 1 1 1 G 2, enter 2 1 1 1 G 2, publish 1"),
        each("day", (1..=4000).step_by(331)),
        lines("span 1 4000, span 1200 1300, cover 2000, cover 2500"),
        vec![days(1..=4000), days((7..=4000).step_by(500))],
        at_rooms.collect(),
        lines("room 65536, write"),
    ]
    .concat()
}

/// Registers that are good, empty, damaged in each way, too long; and questions on what they leave.
fn texts() -> Lines {
    let [a, b] = ["5 1 1 9 G 2", "6 1 1 10 G 2"].map(line);
    let good = lines("5 1 1 9 G 2, 6 1 1 10 G 2, 7 1 2 2 C 42280000").concat();
    let full: Lines = (0..=MOST_SPELLS).map(|k| line(&format!("{} 1 {} {} G 2", 1 + k, 1 + k, 2000 + k))).collect();
    let behind_a =
        "5 1 3 3 G 2, 0 1 3 3 G 2, 9 0 3 3 G 2, 9 1 3 4001 G 2, 9 1 4 3 G 2, 9 1 3 3 G 9, 9 1 3 3 X 1, 9 1 3 3 G";
    let mut read = vec![good.clone(), Vec::new(), full[..MOST_SPELLS].concat()];
    read.extend([a[..a.len() - 1].to_vec(), [&a[..], b"\n"].concat(), [&b[..], &a].concat(), a.repeat(2)]);
    read.extend(lines(behind_a).into_iter().map(|line| [a.clone(), line].concat()));
    read.extend([line("09 1 3 3 G 1"), full.concat(), b"z".repeat(65_536), b"z".repeat(65_537), good]);
    let after = lines("write, take-back, publish 1, day 2");
    read.iter().flat_map(|text| [vec![reading_of(text)], after.clone()].concat()).collect()
}

/// The input ends inside this request, which gets no answer.
const CUT_SHORT: &[u8] = b"read\t40\n5\t1\t1\t9\tG\t2\n";

pub fn conversation() -> Conversation {
    let parts = [
        checks(),
        questions(),
        rules(),
        twins(),
        malformed(),
        too_long(),
        taking_back(),
        saving(),
        full_list(),
        texts(),
        malformed(),
    ];
    let mut talk = Conversation::of(parts.concat());
    talk.ending = CUT_SHORT.to_vec();
    talk
}

pub fn requests() -> Vec<u8> {
    let talk = conversation();
    [talk.requests(), talk.ending].concat()
}

/// What the account answers. Every refusal of the table is among it.
pub fn answers() -> Vec<u8> {
    let talk = conversation();
    for number in Refusal::NUMBERS {
        let [alone, in_a_text] = ["\n", "\t"].map(|end| format!("refused\t{number}{end}"));
        let refuses = |answer: &[u8]| answer.starts_with(alone.as_bytes()) || answer.starts_with(in_a_text.as_bytes());
        assert!(talk.exchanges.iter().any(|exchange| refuses(&exchange.answer)), "nothing is refused with {number}");
    }
    talk.answers()
}

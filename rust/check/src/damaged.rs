//! Texts to repair at the limits: of lines, of kept lines, of bytes.

use crate::limits::{longest_register, texts};
use account::limits::{LONGEST_TEXT, MOST_SPELLS};
use account::register::lines_of;
use std::ops::RangeInclusive;

/// A line of that number; good where its grade is.
fn line(number: usize, grade: &str) -> Vec<u8> {
    format!("{number}\t1\t1\t1\tG\t{grade}\n").into_bytes()
}

fn good(numbers: RangeInclusive<usize>) -> Vec<u8> {
    numbers.flat_map(|number| line(number, "1")).collect()
}

/// Bad lines before and after the 1,024th that is kept. The numbers of dropped lines come again.
fn around_the_last() -> [Vec<u8>; 2] {
    let bad = [b"\n".to_vec(), line(2000, "0"), line(1, "5"), b"7\n".to_vec()].concat();
    let more = [line(1, "1"), line(2000, "1"), line(2000, "0"), line(2001, "x"), line(2000, "1"), line(1024, "0")];
    let (full, more) = (good(1..=MOST_SPELLS), more.concat());
    [[&bad[..], &full, &more].concat(), [&full[..], &bad, &more].concat()]
}

/// The longest lines that a register can have: from the last to the first, the second half first, and over again.
fn longest_lines() -> [Vec<u8>; 3] {
    let text = longest_register();
    let (first, second) = text.split_at(text.len() / 2);
    let mut lines: Vec<&[u8]> = lines_of(&text).collect();
    lines.reverse();
    [lines.concat(), [second, first].concat(), text.repeat(2)[..LONGEST_TEXT].to_vec()]
}

/// Empty lines, and one that is not empty at the end.
fn empty_lines() -> [Vec<u8>; 5] {
    let (empty, last) = (|count: usize| b"\n".repeat(count), line(1, "1"));
    [
        empty(LONGEST_TEXT),
        empty(LONGEST_TEXT + 1),
        [empty(LONGEST_TEXT - 1), b"x".to_vec()].concat(),
        [empty(LONGEST_TEXT - last.len()), last.clone()].concat(),
        [empty(LONGEST_TEXT - last.len() + 1), last].concat(),
    ]
}

pub fn damaged_texts() -> Vec<Vec<u8>> {
    let short = [b"x".to_vec(), line(5, "1"), [line(5, "1"), b"\n".to_vec()].concat()];
    let one_line = [b"x".repeat(LONGEST_TEXT - 1), b"\n".to_vec()].concat();
    let many = [good(1..=MOST_SPELLS + 1), good(1..=3000), good(1..=9000)[..LONGEST_TEXT].to_vec(), one_line];
    let short = texts().into_iter().chain(short).chain(around_the_last());
    short.chain(longest_lines()).chain(empty_lines()).chain(many).collect()
}

//! Register texts: what each is refused for, and at which line.

use crate::{begun, full, read, spell};
use account::call::{Answer, Spell};
use account::limits::{LONGEST_TEXT, MOST_SPELLS};
use account::register::{text_of, REGISTER_A};

/// The refusal and the line of a text, which then gives a fresh account.
fn misread(text: &[u8]) -> (u16, usize) {
    let (account, answer) = read(text);
    let Answer::Misread(refusal, line) = answer else {
        return (0, 0);
    };
    assert!(account.standing.is_empty() && account.past.is_empty() && account.published.spells.is_empty());
    (refusal.0, line)
}

#[test]
fn lines_that_are_refused() {
    let line = |number: &str, end: &str| format!("{number}\t1\t1\t1\t{end}\n");
    let good = line("1", "G\t1");
    let cases = [
        (String::new(), (0, 0)),
        (good.clone(), (0, 0)),
        (good.trim_end().to_string(), (12, 1)),
        ("\n".to_string(), (12, 1)),
        (good.clone() + "\n", (12, 2)),
        (line("", "G\t1"), (12, 1)),
        (line("01", "G\t1"), (12, 1)),
        (line("+1", "G\t1"), (12, 1)),
        (line("65536", "G\t1"), (12, 1)),
        (line("0", "G\t0"), (1, 1)),
        (line("1", "G\t0"), (5, 1)),
        (line("1", "G\t5"), (5, 1)),
        (line("1", "G\t65535"), (5, 1)),
        (line("1", "C\t447A0001"), (5, 1)),
        (line("1", "C\t447a0000"), (12, 1)),
        (line("1", "C\t+47A0000"), (12, 1)),
        (line("1", "C\t0447A0000"), (12, 1)),
        (line("1", "C\t44"), (12, 1)),
        (line("1", "H\t1"), (12, 1)),
        (line("1", "G"), (12, 1)),
        (line("1", "G\t1\t"), (12, 1)),
        (line("1", "G\t1\r"), (12, 1)),
        (good.repeat(2), (6, 2)),
        (line("2", "G\t1") + &good, (13, 2)),
        ("x".repeat(LONGEST_TEXT + 1), (12, 0)),
        ("x".repeat(LONGEST_TEXT), (12, 1)),
    ];
    for (text, expected) in cases {
        assert_eq!(misread(text.as_bytes()), expected, "{text:.40}");
    }
    assert_eq!(misread(&REGISTER_A[..REGISTER_A.len() - 1]), (12, 6));
}

/// The last line of 1,025: full comes after taken and misplaced.
#[test]
fn a_line_too_many() {
    let line = |last: Spell| misread(&text_of(&[full().standing, vec![last]].concat()));
    let number = MOST_SPELLS as u16 + 1;
    assert_eq!(line(spell(number, number, number)), (8, MOST_SPELLS + 1));
    assert_eq!(line(spell(1, 1, 1)), (6, MOST_SPELLS + 1));
    assert_eq!(line(spell(number, 1, number)), (13, MOST_SPELLS + 1));
}

#[test]
fn a_text_comes_back() {
    for text in [REGISTER_A.to_vec(), text_of(&full().standing)] {
        assert_eq!(text_of(&begun(&text).standing), text);
    }
}

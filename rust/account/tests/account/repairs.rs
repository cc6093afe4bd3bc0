//! Repairs: which lines are dropped, and why; the order of those that are kept; lent lists.

use crate::{full, spell};
use account::call::{Repaired, Spell};
use account::limits::{LONGEST_TEXT, MOST_SPELLS};
use account::register::{lines_of, text_of, REGISTER_A};
use account::repair::{printed_and_told, repair, Sifted};

fn sifted(text: &[u8]) -> Sifted {
    Sifted::of(text).expect("the text is not too long")
}

/// The dropped lines of a text, each with its number.
fn dropped(text: &[u8]) -> Vec<(usize, u16)> {
    sifted(text).dropped.iter().map(|(line, refusal)| (*line, refusal.0)).collect()
}

/// Register A with its lines in that order, counted from 1.
fn in_turn(turn: [usize; 6]) -> Vec<u8> {
    let lines: Vec<&[u8]> = lines_of(REGISTER_A).collect();
    turn.map(|line| lines[line - 1]).concat()
}

#[test]
fn a_good_register_passes_through() {
    for text in [b"".to_vec(), REGISTER_A.to_vec(), text_of(&full().standing)] {
        let told = format!("repaired\t{}\t0\t0\n", text.len());
        assert_eq!(printed_and_told(&text), (text, told.into_bytes()));
    }
}

#[test]
fn what_is_told() {
    let text = b"11\t7\t1\t10\tG\t2\n\n12\t8\t3\t4\tC\t3F80000\n14\t9\t5\t6\tG\t4\n13\t9\t5\t4\tG\t1\n\
        12\t8\t3\t4\tC\t3F800000\n15";
    let printed = b"11\t7\t1\t10\tG\t2\n12\t8\t3\t4\tC\t3F800000\n14\t9\t5\t6\tG\t4\n";
    let told = b"dropped\t2\t12\ndropped\t3\t12\ndropped\t5\t4\ndropped\t7\t12\nrepaired\t47\t4\t1\n";
    assert_eq!(printed_and_told(text), (printed.to_vec(), told.to_vec()));
    assert_eq!(sifted(text).remarks(), [2, 12, 3, 12, 5, 4, 7, 12]);
    let long = b"\n".repeat(LONGEST_TEXT + 1);
    assert_eq!(printed_and_told(&long), (vec![], b"refused\t12\t0\n".to_vec()));
}

/// Each line has the later faults too. The number of a line that is dropped is not taken by it.
#[test]
fn the_first_check_speaks() {
    let lines = [
        "0\t0\t0\t4001\tG\t00\n",
        "0\t0\t0\t4001\tG\t0\n",
        "5\t0\t0\t4001\tG\t0\n",
        "5\t1\t9\t4001\tG\t0\n",
        "5\t1\t9\t8\tG\t0\n",
        "5\t1\t9\t9\tG\t0\n",
        "5\t1\t9\t9\tG\t1\n",
        "5\t1\t9\t9\tG\t1\n",
        "5\t1\t1\t1\tG\t0\n",
        "4\t1\t9\t9\tG\t1",
    ];
    let expected = [(1, 12), (2, 1), (3, 2), (4, 3), (5, 4), (6, 5), (8, 6), (9, 5), (10, 12)];
    assert_eq!(dropped(lines.concat().as_bytes()), expected);
    assert_eq!(sifted(lines.concat().as_bytes()).text(), lines[6].as_bytes());
}

/// 1,024 kept lines, with dropped ones among them, before any further one.
#[test]
fn lines_behind_a_full_list() {
    let spells = full().standing;
    let (some, others) = spells.split_at(500);
    let further = [spell(1, 1, 1), spell(2000, 1, 1), spell(2000, 0, 1), spell(2000, 1, 1), spell(1024, 5, 9)];
    let text = [&text_of(some), b"x\n".as_slice(), &text_of(&[some[0]]), &text_of(others), &text_of(&further)].concat();
    let behind = MOST_SPELLS + 2;
    let expected = [(501, 12), (502, 6)].into_iter().chain((behind + 1..).zip([6, 8, 3, 8, 6]));
    assert_eq!(dropped(&text), expected.collect::<Vec<_>>());
    assert_eq!(sifted(&text).text(), text_of(&spells));
}

#[test]
fn lines_of_one_lf_each() {
    let dropped = dropped(&b"\n".repeat(LONGEST_TEXT));
    assert_eq!(dropped.len(), LONGEST_TEXT);
    assert_eq!((dropped[0], dropped[LONGEST_TEXT - 1]), ((1, 12), (LONGEST_TEXT, 12)));
}

/// Misplaced lines are kept. Those count that a line passed, and not those that passed a line.
#[test]
fn kept_lines_are_put_into_the_order() {
    let turns = [
        ([1, 2, 3, 4, 5, 6], 0),
        ([6, 5, 4, 3, 2, 1], 5),
        ([6, 1, 2, 3, 4, 5], 1),
        ([2, 3, 4, 5, 6, 1], 5),
        ([1, 2, 4, 3, 5, 6], 1),
        ([3, 4, 1, 2, 6, 5], 3),
    ];
    for (turn, displaced) in turns {
        let sifted = sifted(&in_turn(turn));
        assert_eq!((sifted.text(), sifted.displaced()), (REGISTER_A.to_vec(), displaced), "{turn:?}");
        assert_eq!(sifted.remarks(), []);
    }
    // a dropped line displaces none, and the number decides where the days are equal
    let spells = |numbers: [u16; 3]| text_of(&numbers.map(|number| Spell { number, ..spell(1, 7, 9) }));
    let text = [spells([30, 20, 25]), b"1\t1\t1\t1\tG\t0\n".to_vec()].concat();
    assert_eq!((sifted(&text).text(), sifted(&text).displaced()), (spells([20, 25, 30]), 1));
}

/// Lists of exactly the places that are taken, of one less, and of more, whose later places stay.
#[test]
fn lists_that_are_lent() {
    let text = [REGISTER_A, b"\n\n11"].concat();
    let (length, places) = (REGISTER_A.len(), 6);
    let lent = |bytes: usize, words: usize| {
        let (mut lent, mut remarked) = (vec![b'z'; bytes], vec![7; words]);
        (repair(&text, &mut lent, &mut remarked), lent, remarked)
    };
    let accepted = Repaired { length, dropped: 3, ..Repaired::default() };
    let remarks = [7, 12, 8, 12, 9, 12];
    assert_eq!(lent(length, places), (accepted, REGISTER_A.to_vec(), remarks.to_vec()));
    let longer = ([REGISTER_A, b"zz"].concat(), [&remarks[..], &[7]].concat());
    assert_eq!(lent(length + 2, places + 1), (accepted, longer.0, longer.1));
    let short = Repaired { refusal: 11, ..Repaired::default() };
    for (bytes, words) in [(length - 1, places), (length, places - 1), (length, places - 2), (0, 0), (length + 9, 0)] {
        assert_eq!(lent(bytes, words), (short, vec![b'z'; bytes], vec![7; words]));
    }
    let long = Repaired { refusal: 12, ..Repaired::default() };
    assert_eq!(repair(&b"\n".repeat(LONGEST_TEXT + 1), &mut [], &mut []), long);
}

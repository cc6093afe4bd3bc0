//! Random texts to repair: what is claimed of every repair, and what the texts reach.

use account::entry::order;
use account::limits::{LONGEST_TEXT, MOST_SPELLS};
use account::register::{lines_of, read, text_of};
use account::repair::Sifted;
use generate::Generator;
use std::collections::BTreeSet;

/// So many texts, with their repair where they are not too long.
fn over_texts(count: usize, mut made: impl FnMut(&[u8], Option<&Sifted>)) {
    let mut generator = Generator::new(1);
    for _ in 0..count {
        let text = generator.text_to_repair();
        made(&text, Sifted::of(&text).ok().as_ref());
    }
}

/// What comes out is read as accepted, to exactly the kept spells; the third number is 0 where they stood in the order.
#[test]
fn a_repaired_text_is_a_register() {
    over_texts(800, |_, sifted| {
        let Some(sifted) = sifted else { return };
        let mut spells = sifted.kept.clone();
        spells.sort_by_key(order);
        assert_eq!(read(&sifted.text()), Ok(spells));
        assert_eq!(sifted.displaced() == 0, sifted.kept.is_sorted_by_key(order));
    });
}

/// Every line is kept, with its bytes, or dropped, and the dropped ones rise.
#[test]
fn each_line_is_kept_or_dropped() {
    over_texts(800, |text, sifted| {
        let Some(sifted) = sifted else { return };
        assert!(sifted.dropped.is_sorted_by(|a, b| a.0 < b.0));
        let dropped: BTreeSet<usize> = sifted.dropped.iter().map(|(line, _)| *line).collect();
        let kept = (1..).zip(lines_of(text)).filter(|(line, _)| !dropped.contains(line));
        assert_eq!(kept.flat_map(|(_, line)| line).copied().collect::<Vec<_>>(), text_of(&sifted.kept));
        assert!(dropped.last().is_none_or(|last| *last <= lines_of(text).count()));
    });
}

/// A text repaired twice is the text repaired once; a good register passes through.
#[test]
fn a_good_register_stays() {
    let mut good = 0;
    over_texts(800, |text, sifted| {
        let Some(sifted) = sifted else { return };
        let again = Sifted::of(&sifted.text()).expect("it is no longer than it was");
        assert_eq!((again.text(), again.remarks(), again.displaced()), (sifted.text(), vec![], 0));
        if read(text).is_ok() {
            good += 1;
            assert_eq!((sifted.text(), sifted.remarks(), sifted.displaced()), (text.to_vec(), vec![], 0));
        }
    });
    assert!(good >= 40, "{good} registers are good");
}

/// Every check drops lines, among the first 1,024 and behind them; full lists, lines out of order, numbers of dropped
/// lines that are kept, a last line without LF, the longest text and one byte more.
#[test]
fn what_the_texts_reach() {
    let (mut early, mut late) = (BTreeSet::new(), BTreeSet::new());
    let mut met = BTreeSet::new();
    over_texts(2000, |text, sifted| {
        if text.len() >= LONGEST_TEXT - 1 {
            met.insert(format!("a text of {} bytes", text.len()));
        }
        let Some(sifted) = sifted else { return };
        for (line, refusal) in &sifted.dropped {
            if *line <= MOST_SPELLS { &mut early } else { &mut late }.insert(refusal.0);
        }
        let happens = [
            ("a full list", sifted.kept.len() == MOST_SPELLS),
            ("nothing kept", sifted.kept.is_empty() && !text.is_empty()),
            ("an empty text", text.is_empty()),
            ("one line displaced", sifted.displaced() == 1),
            ("all lines but one displaced", sifted.kept.len() > 3 && sifted.displaced() == sifted.kept.len() - 1),
            ("no line displaced among dropped ones", sifted.displaced() == 0 && sifted.dropped.len() > 3),
            ("a last line without LF", !text.ends_with(b"\n") && !text.is_empty()),
            ("a dropped line's number kept", number_kept_later(text, sifted)),
        ];
        met.extend(happens.iter().filter(|(_, happens)| *happens).map(|(what, _)| what.to_string()));
    });
    assert_eq!(early, BTreeSet::from([1, 2, 3, 4, 5, 6, 12]));
    assert_eq!(late, BTreeSet::from([1, 2, 3, 4, 5, 6, 8, 12]));
    assert_eq!(met.len(), 11, "{met:?}");
}

/// Whether a line is kept that has the number of one dropped before it.
fn number_kept_later(text: &[u8], sifted: &Sifted) -> bool {
    let dropped: BTreeSet<usize> = sifted.dropped.iter().map(|(line, _)| *line).collect();
    let mut numbers = BTreeSet::new();
    (1..).zip(lines_of(text)).any(|(at, line)| {
        let number = line.split(|&byte| byte == b'\t').next();
        if dropped.contains(&at) {
            numbers.insert(number);
        }
        !dropped.contains(&at) && numbers.contains(&number)
    })
}

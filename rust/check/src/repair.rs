//! Repairs: a `repair` run on texts, and a function with lent lists, against the plain tool.

use crate::damaged::damaged_texts;
use crate::program::{Pace, Runner, SMALL};
use crate::shown::{around, bytes, debug};
use account::call::Repaired;
use account::repair::{self, printed_and_told, Sifted};
use generate::Generator;

/// The texts at the limits and so many random ones; the longer ones of the former in small pieces too.
pub fn check(repair: &Runner, seed: u64, length: usize) -> Result<(), String> {
    for_each_text(seed, 0, |text| if text.len() > SMALL { check_text(repair, text, Pace::Drained) } else { Ok(()) })?;
    for_each_text(seed, length, |text| check_text(repair, text, Pace::Free))
}

fn for_each_text(seed: u64, length: usize, mut check: impl FnMut(&[u8]) -> Result<(), String>) -> Result<(), String> {
    let mut generator = Generator::new(seed);
    let random = (0..length).map(|_| generator.text_to_repair());
    for (at, text) in damaged_texts().into_iter().chain(random).enumerate() {
        let shown = |difference| format!("seed {seed}, text {at}: {difference}\n  text     {}", bytes(&text));
        check(&text).map_err(shown)?;
    }
    Ok(())
}

/// One run of the program: what it prints, what it tells on standard error, and a status of 0, but where it refuses.
fn check_text(repair: &Runner, text: &[u8], pace: Pace) -> Result<(), String> {
    let (printed, told) = printed_and_told(text);
    let program = repair.start(None, pace)?;
    text.chunks(if pace == Pace::Drained { SMALL } else { 1 << 16 }).for_each(|piece| program.send(piece));
    let ended = program.finish()?;
    same("told", &told, &ended.told)?;
    same("printed", &printed, &ended.output)?;
    if !ended.status.success() && !told.starts_with(b"refused") {
        return Err(ended.status.to_string());
    }
    Ok(())
}

fn same(what: &str, expected: &[u8], received: &[u8]) -> Result<(), String> {
    if expected == received {
        return Ok(());
    }
    let (at, expected, received) = around(expected, received);
    Err(format!("{what} near byte {at}\n  expected {}\n  received {}", bytes(expected), bytes(received)))
}

/// What repairs a text: it is lent a list for the text and one for the remarks.
pub type Tool = fn(&[u8], &mut [u8], &mut [u32]) -> Repaired;

/// The places behind a lent list, which are not lent.
const BEHIND: usize = 8;

/// The texts at the limits and so many random ones, each with lists that are just long enough, short by one place,
/// longer, and of no place. Compared is the whole answer and every place, those behind the lists too.
pub fn compare(tool: Tool, seed: u64, length: usize) -> Result<(), String> {
    for_each_text(seed, length, |text| {
        // an over-long text takes no place
        let sifted = Sifted::of(text).unwrap_or_default();
        let (bytes, words) = (sifted.text().len(), sifted.remarks().len());
        let short = (bytes.saturating_sub(1), words.saturating_sub(1));
        let rooms = [(bytes, words), (short.0, words), (bytes, short.1), short, (bytes + 5, words + 3), (0, 0)];
        rooms.into_iter().try_for_each(|room| compare_lent(tool, text, room))
    })
}

/// One repair with lists of so many places.
fn compare_lent(tool: Tool, text: &[u8], (bytes, words): (usize, usize)) -> Result<(), String> {
    let run = |tool: Tool| {
        let mut lent: Vec<u8> = (1..=u8::MAX).cycle().take(bytes + BEHIND).collect();
        let mut remarked: Vec<u32> = (0..).map(|at| u32::MAX - at).take(words + BEHIND).collect();
        let answer = tool(text, &mut lent[..bytes], &mut remarked[..words]);
        (answer, lent, remarked)
    };
    let (expected, received) = (run(repair::repair), run(tool));
    if expected == received {
        return Ok(());
    }
    let answers = format!("expected {:?}\n  received {:?}", expected.0, received.0);
    let ((at, a, b), (at_word, c, d)) = (around(&expected.1, &received.1), around(&expected.2, &received.2));
    let lent = format!("bytes from place {at}: {} and {}", debug(&a), debug(&b));
    let remarked = format!("remarks from place {at_word}: {} and {}", debug(&c), debug(&d));
    Err(format!("lists of {bytes} and {words} places\n  {answers}\n  {lent}\n  {remarked}"))
}

//! Runs a `stand` on register texts, good and damaged, and compares every byte that it prints, and what it tells on
//! standard error, with the account's.

use crate::limits;
use crate::program::{Pace, Runner, SMALL};
use crate::shown::{around, bytes};
use account::limits::MOST_SPELLS;
use account::programs::standing_days;
use account::register::text_of;
use generate::Generator;

/// Two texts in small pieces, those at the limits, a full waiting list, then so many random ones.
pub fn check(stand: &Runner, seed: u64, length: usize) -> Result<(), String> {
    for text in [limits::longest_register(), limits::too_long()] {
        check_text(stand, &text, Pace::Drained)?;
    }
    let mut generator = Generator::new(seed);
    let full = text_of(&generator.waiting_list(MOST_SPELLS));
    let random = (0..length).map(|_| generator.text());
    for (at, text) in limits::texts().into_iter().chain([full]).chain(random).enumerate() {
        check_text(stand, &text, Pace::Free).map_err(|difference| format!("seed {seed}, text {at}: {difference}"))?;
    }
    Ok(())
}

/// One run of the program. At a slow pace the text comes in small pieces, each when the program has taken the one
/// before it.
fn check_text(stand: &Runner, text: &[u8], pace: Pace) -> Result<(), String> {
    let (expected, refused) = standing_days(text);
    let program = stand.start(None, pace)?;
    text.chunks(if pace == Pace::Drained { SMALL } else { 1 << 16 }).for_each(|piece| program.send(piece));
    let ended = program.finish().map_err(|hang| format!("{hang}\n  text     {}", bytes(text)))?;
    let told = refused.map_or(String::new(), |told| told + "\n");
    if ended.told != told.as_bytes() {
        return Err(format!("told {}\n  text     {}", bytes(&ended.told), bytes(text)));
    }
    if ended.output != expected {
        let (at, expected, printed) = around(&expected, &ended.output);
        let (text, expected, printed) = (bytes(text), bytes(expected), bytes(printed));
        return Err(format!("near byte {at}\n  text     {text}\n  expected {expected}\n  printed  {printed}"));
    }
    Ok(())
}

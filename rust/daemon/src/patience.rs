//! Whether the loop stays awake for what comes next. A processor that sleeps may take longer to wake than a request takes to answer, so
//! where waits have lately been short, the next one is begun awake; where they have not, the loop sleeps at once and costs nothing.

use crate::system::{times_displaced, Poll};
use std::io;
use std::thread::available_parallelism;
use std::time::{Duration, Instant};

/// The longest time that a wait is passed awake.
const AWAKE: Duration = Duration::from_micros(80);
/// A wait that was slept through is short up to this time, since a good part of it may have gone by in waking.
const SHORT: Duration = Duration::from_micros(160);
/// So many short waits are needed before one is begun awake, at first and at most.
const FEW: u16 = 4;
const MANY: u16 = 256;

/// What is known of the waits up to now.
#[derive(Clone, Copy)]
struct Waits {
    /// How many of the last were short.
    short: u16,
    /// How many have to be.
    needed: u16,
}

impl Waits {
    const NONE: Waits = Waits { short: 0, needed: FEW };

    fn are_awake(self) -> bool {
        self.short >= self.needed
    }

    /// The waits with one that was begun awake. Where that did not pay, twice as many short ones are needed before the next trial; where it
    /// did, half as many.
    fn and_awake(self, paid: bool) -> Waits {
        match paid {
            true => Waits { short: self.short, needed: FEW.max(self.needed / 2) },
            false => Waits { short: 0, needed: MANY.min(self.needed * 2) },
        }
    }

    /// The waits with one that was slept through.
    fn and_asleep(self, time: Duration) -> Waits {
        let short = if time <= SHORT { MANY.min(self.short + 1) } else { 0 };
        Waits { short, ..self }
    }
}

pub struct Patience {
    /// With one processor nobody else could do anything meanwhile.
    alone: bool,
    displaced: i64,
    /// Waits for requests alone, and those with a commit in hand.
    waits: [Waits; 2],
}

impl Patience {
    pub fn new() -> Patience {
        let alone = available_parallelism().map_or(true, |processors| processors.get() == 1);
        Patience { alone, displaced: 0, waits: [Waits::NONE; 2] }
    }

    /// Waits until something changes, or until it is time to sleep: how much has changed.
    pub fn wait(&mut self, poll: &mut Poll, committing: bool) -> io::Result<usize> {
        let waits = &mut self.waits[usize::from(committing)];
        if !waits.are_awake() || self.alone {
            let begun = Instant::now();
            let found = poll.wait()?;
            *waits = waits.and_asleep(begun.elapsed());
            return Ok(found);
        }
        let found = poll.look()?;
        if found > 0 {
            return Ok(found);
        }
        let found = poll.look_for(AWAKE)?;
        // it is better to sleep where others want this processor, which may be whoever has the next request
        let displaced = times_displaced();
        *waits = waits.and_awake(found > 0 && displaced == self.displaced);
        self.displaced = displaced;
        Ok(found)
    }
}

#[cfg(test)]
mod tests {
    use super::{Waits, AWAKE, FEW, MANY, SHORT};
    use std::iter::repeat_n;
    use std::time::Duration;

    const LONG: Duration = Duration::from_millis(1);

    /// How many of these waits, one after another, are begun awake; the rest of one that is so in vain is slept through.
    fn awake(waits: impl IntoIterator<Item = Duration>) -> usize {
        let mut so_far = Waits::NONE;
        let mut begun = 0;
        for mut wait in waits {
            if so_far.are_awake() {
                begun += 1;
                so_far = so_far.and_awake(wait <= AWAKE);
                if wait <= AWAKE {
                    continue;
                }
                wait -= AWAKE;
            }
            so_far = so_far.and_asleep(wait);
        }
        begun
    }

    #[test]
    fn a_talk_is_awaited_awake_and_a_silence_asleep() {
        let talk = || repeat_n(AWAKE, 100);
        let silence = || repeat_n(LONG, 100);
        assert_eq!(awake(talk()), 100 - usize::from(FEW));
        assert_eq!(awake(silence()), 0);
        assert_eq!(awake(talk().chain(silence())), 100 - usize::from(FEW) + 1);
        assert_eq!(awake((0..100).map(|wait| if wait % 4 == 0 { LONG } else { AWAKE })), 0);
    }

    #[test]
    fn what_was_in_vain_is_seldom_tried_again() {
        let begun = awake(repeat_n(SHORT, 100_000));
        assert!((380..420).contains(&begun), "{begun}");
        assert_eq!(awake(repeat_n(SHORT + AWAKE, 100_000)), 0);
    }

    #[test]
    fn it_is_tried_again() {
        let begun = awake(repeat_n(SHORT, 100_000).chain(repeat_n(AWAKE, 100_000)));
        assert!(begun > 100_000 - usize::from(MANY), "{begun}");
        let some_in_vain = awake((0..100_000).map(|wait| if wait % 100 == 0 { SHORT } else { AWAKE }));
        assert!(some_in_vain > 90_000, "{some_in_vain}");
    }
}

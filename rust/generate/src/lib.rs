//! Random input for the account and for what is compared with it: spells, register texts, texts to repair, lists of calls
//! with what their lent lists hold, conversations on the wire. All comes from a seed, and the same seed gives the same.
//!
//! What is drawn is mostly good: numbers from a small pool and days near one centre, so that both collide often, and
//! wrong fields strewn in, several at once. Calls are aimed at the account's state, so that every check of every call
//! is reached (`tests/reach.rs`).

mod calls;
mod conversation;
mod damage;
mod odd;
mod registers;
mod requests;
pub mod rng;
mod spells;

use calls::Phase;
pub use conversation::{Conversation, Exchange};
use damage::Mishap;
pub use odd::endings;
use registers::{Begun, Damage};
pub use requests::{days_line, room_line};
use rng::{Deck, Rng};

pub struct Generator {
    rng: Rng,
    /// The day near which most days lie.
    centre: u16,
    /// The phase of the calls, and how many are left of it.
    phase: Phase,
    left: usize,
    begun: Deck<Begun>,
    phases: Deck<Phase>,
    damages: Deck<Damage>,
    mishaps: Deck<Mishap>,
}

impl Generator {
    pub fn new(seed: u64) -> Generator {
        Generator {
            rng: Rng::new(seed),
            centre: 2000,
            phase: Phase::Mixed,
            left: 0,
            begun: Deck::new(&registers::BEGUN),
            phases: Deck::new(&calls::PHASES),
            damages: Deck::new(&registers::DAMAGES),
            mishaps: Deck::new(&damage::MISHAPS),
        }
    }
}

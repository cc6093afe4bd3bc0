//! What the service says of itself.

use crate::archive::{self, Lent, State};
use crate::journal::Head;
use crate::time;

/// What is counted of a state stands until the next change.
#[derive(Default)]
pub struct Status {
    counted: Option<(i64, String)>,
}

impl Status {
    /// The answer to `status`: names and values, parted by tabs.
    pub fn shown(&mut self, lent: &mut Lent, state: &mut State, head: &Head, connections: usize) -> String {
        let lists = match self.counted.take() {
            Some((sequence, lists)) if sequence == head.sequence => lists,
            _ => lists_of(lent, state),
        };
        let last = if head.sequence == 0 { "-".to_string() } else { time::shown(head.time) };
        let text = format!(
            "status\t{lists}\tsequence\t{}\ttime\t{last}\tconnections\t{connections}\tversion\t{}.{}\n",
            head.sequence,
            env!("CARGO_PKG_VERSION"),
            archive::version()
        );
        self.counted = Some((head.sequence, lists));
        text
    }
}

fn lists_of(lent: &mut Lent, state: &mut State) -> String {
    let standing = lent.text(state);
    let published = lent.published_text(state);
    let differs = if standing == published { "no" } else { "yes" };
    let past = lent.past(state);
    format!("standing\t{}\tpublished\t{}\tpast\t{past}\tdiffers\t{differs}", lines(&standing), lines(&published))
}

fn lines(text: &[u8]) -> usize {
    text.iter().filter(|&&b| b == b'\n').count()
}

//! The journal carried out again: each stored answer is compared with the one that is given now.

use crate::archive::{Allowed, Came, Lent, State, ROOM};
use crate::journal::{Head, Journal, Refusal, Row, Snapshot};

/// A stored request's line, with its LF, and the text after it.
pub fn parts(request: &[u8]) -> (&[u8], &[u8]) {
    let end = request.iter().position(|&b| b == b'\n').map_or(request.len(), |at| at + 1);
    request.split_at(end)
}

/// Carries out one row on the state before it.
pub fn again(lent: &mut Lent, state: &mut State, row: &Row) -> Result<(), Refusal> {
    let (line, payload) = parts(&row.change.request);
    match lent.request(state, ROOM, Allowed::Everything, line, payload) {
        Came::Answered { changed: true, answer, .. } if answer == row.change.answer => Ok(()),
        Came::Answered { answer, .. } => Err(format!(
            "row {} of the journal was answered {:?} and is now answered {:?}",
            row.sequence,
            String::from_utf8_lossy(&row.change.answer),
            String::from_utf8_lossy(answer)
        )),
        Came::HeldBack { .. } => Err(format!("row {} of the journal is no request", row.sequence)),
    }
}

/// The state that a journal leads to, from the last words that were kept on, with its head.
pub fn restore(journal: &Journal) -> Result<(State, Head), Refusal> {
    let mut lent = Lent::new();
    let (from, mut state) = match journal.snapshots()?.pop() {
        Some((sequence, Snapshot { words, published, publish }, _)) => {
            let state = State::restored(words, published, &publish);
            (sequence, state.ok_or_else(|| other_words(sequence))?)
        }
        None => (0, State::fresh()),
    };
    let head = journal.each(|row| match row.sequence > from {
        true => again(&mut lent, &mut state, row),
        false => Ok(()),
    })?;
    if from > head.sequence {
        return Err(format!("journal.db is damaged: words are kept for row {from}, which is missing"));
    }
    Ok((state, head))
}

/// Replays all rows from the first on, and compares the words that were kept on the way. Gives how many rows there are.
pub fn verify(journal: &Journal) -> Result<i64, Refusal> {
    let mut lent = Lent::new();
    let mut state = State::fresh();
    let mut kept = journal.snapshots()?.into_iter().peekable();
    let head = journal.each(|row| {
        again(&mut lent, &mut state, row)?;
        match kept.next_if(|(sequence, ..)| *sequence == row.sequence) {
            Some((sequence, snapshot, _)) => same(sequence, &snapshot, &state),
            None => Ok(()),
        }
    })?;
    match kept.next() {
        Some((sequence, ..)) => Err(format!("words are kept for row {sequence}, which is missing")),
        None => Ok(head.sequence),
    }
}

fn other_words(sequence: i64) -> Refusal {
    format!("the words kept at row {sequence} are not those of the rows up to it")
}

fn same(sequence: i64, snapshot: &Snapshot, state: &State) -> Result<(), Refusal> {
    let published = *snapshot.published == *state.published() && snapshot.publish == state.publish();
    if *snapshot.words != *state.words() || !published {
        return Err(other_words(sequence));
    }
    Ok(())
}

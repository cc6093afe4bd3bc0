//! What a reader is shown of long values, and where two of them differ.

use std::fmt::Debug;

const SHOWN: usize = 300;

/// A text, cut where it grows long.
pub fn cut(text: &str) -> String {
    match text.char_indices().nth(SHOWN) {
        Some((end, _)) => format!("{} ... ({} characters)", &text[..end], text.len()),
        None => text.to_string(),
    }
}

/// Bytes with their tabs and line ends spelled out.
pub fn bytes(bytes: &[u8]) -> String {
    cut(&format!("\"{}\"", bytes.escape_ascii()))
}

pub fn debug(value: &impl Debug) -> String {
    cut(&format!("{value:?}"))
}

/// The first place in which two lists differ; their length where they are equal.
pub fn first_difference<T: PartialEq>(expected: &[T], received: &[T]) -> usize {
    let same = expected.iter().zip(received).position(|(a, b)| a != b);
    same.unwrap_or(expected.len().min(received.len()))
}

/// Both lists from a few places before the one in which they differ.
pub fn around<'a, T: PartialEq>(expected: &'a [T], received: &'a [T]) -> (usize, &'a [T], &'a [T]) {
    let at = first_difference(expected, received).saturating_sub(20);
    (at, &expected[at..], &received[at..])
}

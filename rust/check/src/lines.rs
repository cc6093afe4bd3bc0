//! Lines written down with spaces for their tabs.

use account::register::tabbed;

pub type Lines = Vec<Vec<u8>>;

/// A line with its LF.
pub fn line(text: &str) -> Vec<u8> {
    (text.replace(' ', "\t") + "\n").into_bytes()
}

/// The lines of a list that commas part.
pub fn lines(list: &str) -> Lines {
    list.split(", ").map(line).collect()
}

/// The question of these days.
pub fn days(asked: impl Iterator<Item = u16>) -> Vec<u8> {
    format!("days{}\n", tabbed(&asked.collect::<Vec<_>>())).into_bytes()
}

//! Rows to ask about, and the random lists they come from.

use crate::rng::Rng;

/// The most rows of a list.
pub const ROWS: usize = 1024;
pub const LAST_DAY: u16 = 4000;

#[derive(Clone, Copy, PartialEq, Eq, PartialOrd, Ord)]
pub struct Row {
    pub first: u16,
    pub last: u16,
    pub number: u16,
}

/// A list of rows and how it was made.
pub struct Workload {
    pub name: &'static str,
    pub rows: Vec<Row>,
}

/// Sorted rows that begin uniformly over the calendar, with the given lengths and shuffled numbers.
fn rows(rng: &mut Rng, count: usize, mut length: impl FnMut(&mut Rng) -> f64) -> Vec<Row> {
    let mut numbers: Vec<u16> = (1..=count as u16).collect();
    for at in (1..count).rev() {
        numbers.swap(at, rng.range(0, at));
    }
    let mut rows: Vec<Row> = numbers
        .into_iter()
        .map(|number| {
            let first = rng.range(1, LAST_DAY as usize) as u16;
            let last = (first as f64 + length(rng)).min(LAST_DAY as f64) as u16;
            Row { first, last, number }
        })
        .collect();
    rows.sort();
    rows
}

/// How many rows a day lists in the mean.
fn listed_a_day(rows: &[Row]) -> f64 {
    let days: usize = rows.iter().map(|row| (row.last - row.first + 1) as usize).sum();
    days as f64 / LAST_DAY as f64
}

/// Rows of which a day lists `mean` in the mean: lengths are uniform up to the bound that gives that.
pub fn rows_listing(seed: u64, count: usize, mean: f64) -> Vec<Row> {
    let made = |bound: f64| rows(&mut Rng::new(seed), count, |rng| rng.range(0, 1_000_000) as f64 / 1e6 * bound);
    let (mut low, mut high) = (0.0, 2.0 * LAST_DAY as f64);
    for _ in 0..40 {
        let middle = (low + high) / 2.0;
        if listed_a_day(&made(middle)) < mean {
            low = middle;
        } else {
            high = middle;
        }
    }
    made(high)
}

/// Lists of 1,024 rows whose days have about 1, 15, 90 and 210 rows each, and a waiting list with exponential lengths.
pub fn workloads(seed: u64) -> Vec<Workload> {
    let listing = |name, mean| Workload { name, rows: rows_listing(seed, ROWS, mean) };
    let waiting = rows(&mut Rng::new(seed), ROWS, |rng| rng.exponential(500.0));
    vec![
        listing("about 1", 1.0),
        listing("about 15", 15.0),
        listing("about 90", 90.0),
        listing("about 210", 210.0),
        Workload { name: "waiting list", rows: waiting },
    ]
}

/// The register text of the rows.
pub fn text_of(rows: &[Row]) -> String {
    let value = |row: &Row| match row.number % 2 {
        0 => format!("G\t{}", row.number % 4 + 1),
        _ => format!("C\t{:08X}", (row.number as f32).sqrt().to_bits()),
    };
    let line =
        |row: &Row| format!("{}\t{}\t{}\t{}\t{}\n", row.number, row.number + 9000, row.first, row.last, value(row));
    rows.iter().map(line).collect()
}

//! Cover and days questions of the proved library, which find rows by their numbers, at each length of an answer.

use crate::phayaklit::Listed;
use crate::proved::Proved;
use crate::rng::Rng;
use crate::rows::{Workload, LAST_DAY, ROWS};
use crate::table;
use crate::timing::{median, STRETCH};
use std::hint::black_box;
use std::time::Instant;

/// The days of a question.
const DAYS: usize = 8;

/// Days anywhere on the calendar, rising.
fn spread(rng: &mut Rng) -> Vec<u16> {
    let mut days: Vec<u16> = Vec::new();
    while days.len() < DAYS {
        let day = rng.range(1, LAST_DAY as usize) as u16;
        if !days.contains(&day) {
            days.push(day);
        }
    }
    days.sort_unstable();
    days
}

/// Days one after the other.
fn running(rng: &mut Rng) -> Vec<u16> {
    let first = rng.range(1, LAST_DAY as usize - DAYS + 1) as u16;
    (first..).take(DAYS).collect()
}

/// How many spells a question lists in the mean, and the nanoseconds that it takes: in each round all questions are asked, a stretch after
/// the other.
fn timed<Q>(rounds: usize, questions: &[Q], ask: impl Fn(&Q, &mut [u16]) -> Listed) -> [String; 2] {
    let mut out = [0; ROWS];
    let listed: usize = questions.iter().map(|question| ask(question, &mut out).count).sum();
    let stretches: Vec<&[Q]> = questions.chunks(STRETCH).collect();
    let mut times = vec![Vec::new(); stretches.len()];
    for _ in 0..rounds {
        for (stretch, times) in stretches.iter().zip(&mut times) {
            let begin = Instant::now();
            for question in *stretch {
                black_box(ask(black_box(question), black_box(&mut out)));
            }
            times.push(begin.elapsed().as_nanos() as f64);
        }
    }
    let taken: f64 = times.into_iter().map(median).sum();
    [listed as f64, taken].map(|sum| format!("{:.1}", sum / questions.len() as f64))
}

/// Prints what such questions take on each workload.
pub fn report(workloads: &[Workload], rounds: usize, count: usize, seed: u64) {
    let mut rows: Vec<(String, Vec<String>)> = Vec::new();
    for kind in ["cover", "8 days anywhere", "8 days in a row"] {
        rows.extend(["spells listed, mean", "nanoseconds"].map(|what| (format!("{kind}: {what}"), Vec::new())));
    }
    for workload in workloads {
        let proved = Proved::new(&workload.rows);
        let published = proved.index.published();
        let mut rng = Rng::new(seed);
        let numbers: Vec<u16> = (0..count).map(|_| rng.pick(&workload.rows).number).collect();
        let apart: Vec<Vec<u16>> = (0..count / DAYS).map(|_| spread(&mut rng)).collect();
        let together: Vec<Vec<u16>> = (0..count / DAYS).map(|_| running(&mut rng)).collect();
        let cover = |number: &u16, out: &mut [u16]| published.cover(*number, out).expect("a published number");
        let days = |days: &Vec<u16>, out: &mut [u16]| published.days(days, out).expect("rising days");
        let cells = [timed(rounds, &numbers, cover), timed(rounds, &apart, days), timed(rounds, &together, days)];
        for (row, cell) in rows.iter_mut().zip(cells.into_iter().flatten()) {
            row.1.push(cell);
        }
    }
    println!("\n## Cover and days questions of the proved library, 1,024 spells");
    let columns: Vec<&str> = std::iter::once("").chain(workloads.iter().map(|workload| workload.name)).collect();
    table::print(&columns, &rows);
}

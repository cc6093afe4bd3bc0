//! The families of rows that the program `stabbing_cases` asks about.

use account::limits::MOST_SPELLS;

/// A row in the order: number, first day, last day.
pub type Row = (u16, u16, u16);

/// A family of rows. A far one is asked about days all over the calendar and beyond, and else about the days 0, 1, 2
/// and so on.
pub struct Family {
    pub name: &'static str,
    pub rows: Vec<Row>,
    pub far: bool,
    /// Whether the rows are a published list: the others are refused.
    pub fit: bool,
}

const REGISTER_A: [Row; 6] = [(11, 1, 10), (12, 3, 4), (14, 5, 6), (13, 5, 8), (15, 7, 12), (16, 9, 9)];

/// The first and last day of the row at a position.
type Days = fn(u16) -> (u16, u16);

const REGULAR: [(&str, Days); 7] = [
    ("one-day", |_| (7, 7)),
    ("one-first", |p| (5, 5 + p)),
    ("staircase", |p| (1 + p, 1025 + p)),
    ("nested", |p| (1 + p, 4000 - p)),
    ("disjoint", |p| (1 + 3 * p, 2 + 3 * p)),
    ("chains", |p| (1 + p / 8 * 5, 1 + p / 8 * 5 + p % 8 * 3)),
    ("levels", |p| (1 + 3 * p, 1 + 3 * p + level(p))),
];

/// How many days a row of `levels` goes past its first.
fn level(p: u16) -> u16 {
    match p {
        _ if p % 64 == 0 => 191,
        _ if p % 8 == 0 => 23,
        _ => 1,
    }
}

fn number_of(p: usize) -> u16 {
    (p * 61 % 65_535 + 1) as u16
}

fn regular(days: Days) -> Vec<Row> {
    let row = |p: usize| {
        let (first, last) = days(p as u16);
        (number_of(p), first, last)
    };
    (0..MOST_SPELLS).map(row).collect()
}

/// Rows whose first days are less than `apart` days apart, each up to `long` days long, none past the day `end`.
fn random(seed: u64, apart: u64, long: u64, end: u64) -> Vec<Row> {
    let (mut seed, mut first, mut last) = (seed, 1, 0);
    let row = |p: usize| {
        let a = seed * 75 % 65_537;
        seed = a * 75 % 65_537;
        let before = first;
        first = (first + a % apart).min(end);
        let new_last = (first + seed % long).min(end);
        last = if first == before { new_last.max(last) } else { new_last };
        (number_of(p), first as u16, last as u16)
    };
    (0..MOST_SPELLS).map(row).collect()
}

fn numbered(days: &[(u16, u16)]) -> Vec<Row> {
    (1..).zip(days).map(|(number, &(first, last))| (number, first, last)).collect()
}

pub fn families() -> Vec<Family> {
    let near = |name, rows| Family { name, rows, far: false, fit: true };
    let far = |name, rows| Family { name, rows, far: true, fit: true };
    let mut families = vec![
        near("none", vec![]),
        near("one", REGISTER_A[..1].to_vec()),
        near("a", REGISTER_A.to_vec()),
        near("m1", numbered(&[(1, 10), (3, 4)])),
        near("m2", numbered(&[(1, 20), (2, 5), (6, 8), (10, 12)])),
        far("edges", vec![(65_535, 1, 4000), (1, 4000, 4000)]),
    ];
    families.extend((0..16).map(|i| near("short", random(i as u64 + 1, 3, 8, 13)[..i].to_vec())));
    families.extend(REGULAR.iter().flat_map(|(name, days)| {
        let rows = regular(*days);
        [near(name, rows[..12].to_vec()), far(name, rows)]
    }));
    families.extend([far("waiting", random(1, 9, 1000, 4000)), far("waiting", random(2, 4, 1000, 4000))]);
    families.extend(unfit());
    families
}

/// Rows that cannot be published: too many, a last day before its first, days on no calendar, a first or a last day
/// before that of the row before.
fn unfit() -> Vec<Family> {
    let (_, chains) = REGULAR[5];
    let ended = |last: Row| regular(chains)[..15].iter().copied().chain([last]).collect();
    let too_many = regular(chains).into_iter().chain([(1, 700, 701)]).collect();
    let families: [(&str, Vec<Row>); 6] = [
        ("too-many", too_many),
        ("backwards", ended((1, 700, 699))),
        ("late", ended((1, 700, 4001))),
        ("first-early", ended((1, 5, 700))),
        ("last-early", ended((1, 6, 23))),
        ("day-0", vec![(1, 0, 9)]),
    ];
    families.into_iter().map(|(name, rows)| Family { name, rows, far: false, fit: false }).collect()
}

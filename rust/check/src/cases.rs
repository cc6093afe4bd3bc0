//! What the program `stabbing_cases` is given, the families of rows, and what it must print, by the account: of each family
//! and each kind of question how many were asked, how many spells they listed, with how many looks, and a checksum over
//! every answer.

use crate::rows::{families, Family};
use account::account::Account;
use account::call::{Answer, Call, Lists, Question, Spell, Urgency};
use account::entry::order;
use account::limits::{LAST_DAY, MOST_SPELLS};
use account::published::Published;
use std::fmt::Write;

/// What every place of a list holds before it is lent.
const MARK: u16 = 60_001;
/// A list of so many places is never short.
const PLACES: usize = MOST_SPELLS + 1;
/// How many days are asked about, how many of them in pairs, and how far apart those of several days are.
const DAYS: u16 = 120;
const PAIRED: usize = 15;
const STEPS: [u16; 5] = [1, 7, 30, 365, 4000];

fn mix(hash: u64, x: u64) -> u64 {
    (hash * 31 + x) % 1_000_003
}

/// The sums over the questions of one kind.
#[derive(Default)]
struct Tally {
    asked: usize,
    listed: usize,
    looks: usize,
    hash: u64,
}

impl Tally {
    /// One asking with a list of so many places, in a longer one whose other places must stay: the count and the looks.
    fn hear(&mut self, account: &mut Account, call: &Call, places: usize) -> (usize, usize) {
        let mut lists = Lists { numbers: vec![MARK; places], text: vec![] };
        let answer = account.step(call, &mut lists);
        let count = answer.numbers().len();
        let looks = if let Answer::Listed { looks: Some(looks), .. } = answer { looks } else { 0 };
        let out = lists.numbers.into_iter().chain(std::iter::repeat(MARK)).take(count + 1).map(u64::from);
        self.hash = [answer.refusal() as u64, count as u64, looks as u64].into_iter().chain(out).fold(self.hash, mix);
        (count, looks)
    }

    /// Asks with room for all, and where some are listed with just as many places and with one less.
    fn ask(&mut self, account: &mut Account, question: Question) {
        let call = Call::Ask(question);
        let (count, looks) = self.hear(account, &call, PLACES);
        if count > 0 {
            self.hear(account, &call, count);
            self.hear(account, &call, count - 1);
        }
        self.asked += 1;
        self.listed += count;
        self.looks += looks;
    }
}

/// The days 0, 1, 2 and so on; or what lies past the calendar, its ends and the day of one-day, and days all over it.
fn pick(i: u16, far: bool) -> u16 {
    const ENDS: [u16; 6] = [0, 4001, 65_535, 1, 7, 4000];
    match ENDS.get(i as usize) {
        _ if !far => i,
        Some(&end) => end,
        None => (i as u32 * 269 % 4001) as u16,
    }
}

fn published(family: &Family) -> Account {
    let spell = |&(number, first, last): &_| Spell { number, candidate: 1, first, last, urgency: Urgency::Grade(1) };
    let spells: Vec<Spell> = family.rows.iter().map(spell).collect();
    assert!(spells.is_sorted_by_key(order), "{} is not in the order", family.name);
    Account { published: Published::of(&spells, 1), ..Account::default() }
}

/// The questions that do not depend on the rows, each as two days and how many days it has. Those of several days go on in
/// equal steps, and spans and questions of two days are of the same pairs.
fn table(far: bool) -> Vec<[u16; 3]> {
    let picks: Vec<u16> = (0..DAYS).map(|i| pick(i, far)).collect();
    let days = picks.iter().map(|&d| [d, 0, 0]);
    let twos = picks[..PAIRED].iter().flat_map(|&a| picks[..PAIRED].iter().map(move |&b| [a, b, 2]));
    let steps = STEPS.map(|step| [1, 1 + step, LAST_DAY.div_ceil(step)]);
    days.chain(twos).chain([[0, 0, 0]]).chain(steps).collect()
}

fn tables() -> Vec<[u16; 3]> {
    [table(false), table(true)].concat()
}

/// Of each kind that a family is asked its name, and its number, the line of its first question, and how many there are.
fn kinds(family: &Family) -> Vec<(&'static str, [usize; 3])> {
    let begin = if family.far { table(false).len() } else { 0 };
    let (days, pairs) = (DAYS as usize, PAIRED * PAIRED);
    let covers = 2 * family.rows.len() + 1;
    let all = [
        ("day", [0, begin, days]),
        ("span", [1, begin + days, pairs]),
        ("cover", [2, 0, covers]),
        ("two", [3, begin + days, pairs]),
        ("days", [3, begin + days + pairs, STEPS.len() + 1]),
    ];
    all.into_iter().filter(|_| family.fit).collect()
}

/// The questions of a kind. The covers are of each place among the rows, and between two of these of a row's number.
fn questions(family: &Family, [kind, from, count]: [usize; 3]) -> Vec<Question> {
    if kind == 2 {
        let covered = (1..).zip(&family.rows).flat_map(|(position, &(number, _, _))| [number, position]);
        return [0].into_iter().chain(covered).map(Question::Cover).collect();
    }
    let question = |&[a, b, n]: &[u16; 3]| match kind {
        0 => Question::Day(a),
        1 => Question::Span(a, b),
        _ => Question::Days((0..n).map(|i| a.wrapping_add(i.wrapping_mul(b.wrapping_sub(a)))).collect()),
    };
    tables()[from..from + count].iter().map(question).collect()
}

/// How many questions and how many families there are, and these. A line is a name, or three numbers.
pub fn rows() -> String {
    let numbers = |[a, b, c]: [usize; 3]| format!("{a:5} {b:5} {c:5}\n");
    let named = |name| format!("{name:<17}\n");
    let (table, families) = (tables(), families());
    let mut text = numbers([table.len(), families.len(), 0]);
    text.extend(table.into_iter().map(|question| numbers(question.map(usize::from))));
    for family in families {
        let kinds = kinds(&family);
        let held = family.rows.len().min(MOST_SPELLS);
        text += &named(family.name);
        text += &numbers([kinds.len(), held, family.rows.len()]);
        text.extend(
            family.rows[..held].iter().map(|&(number, first, last)| numbers([number, first, last].map(usize::from))),
        );
        text.extend(kinds.into_iter().flat_map(|(name, kind)| [named(name), numbers(kind)]));
    }
    text
}

pub fn printed() -> String {
    let mut text = String::new();
    for family in families() {
        let held = &family.rows[..family.rows.len().min(MOST_SPELLS)];
        let columns =
            held.iter().map(|row| row.0).chain(held.iter().map(|row| row.1)).chain(held.iter().map(|row| row.2));
        let hash = columns.map(u64::from).fold(0, mix);
        writeln!(text, "{} rows {} {hash}", family.name, family.rows.len()).expect("a text grows");
        if !family.fit {
            text.push_str("refused kept\n");
            continue;
        }
        let mut account = published(&family);
        for (name, kind) in kinds(&family) {
            let mut tally = Tally::default();
            questions(&family, kind).into_iter().for_each(|question| tally.ask(&mut account, question));
            let Tally { asked, listed, looks, hash } = tally;
            writeln!(text, "{name} {asked} {listed} {looks} {hash}").expect("a text grows");
        }
    }
    text
}

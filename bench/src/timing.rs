//! How contenders are timed: side by side, in rounds.
//!
//! In each round every contender takes its turn on every case, so that a slow moment of the machine falls on all of them.
//! Questions are timed in stretches that are short beside the machine's time slices; what counts is the sum over the stretches of their
//! median times.

use crate::contenders::*;
use crate::proved::Proved;
use crate::rows::{Row, ROWS};
use std::hint::black_box;
use std::time::Instant;

/// A question for the days a to b; a day question has both equal.
pub type Question = (u16, u16);

/// A list of rows, and the questions put to it; `warm` is whether contenders bring what they go by near before they are timed.
pub struct Case {
    pub rows: Vec<Row>,
    pub questions: Vec<Question>,
    pub warm: bool,
}

/// The number of questions timed at once.
pub const STRETCH: usize = 100;

/// A contender with its name. The batch is timed inside, so that no dynamic call falls on a single question.
pub trait Contender {
    fn name(&self) -> &'static str;
    fn answers(&mut self, questions: &[Question]) -> Vec<Vec<u16>>;
    fn time(&mut self, questions: &[Question]) -> f64;
    fn warm(&self);
}

struct Named<L>(&'static str, L);

impl<L: Lists> Named<L> {
    fn ask(&mut self, (a, b): Question, out: &mut [u16]) -> usize {
        if a == b {
            self.1.day(a, out)
        } else {
            self.1.span(a, b, out)
        }
    }
}

impl<L: Lists> Contender for Named<L> {
    fn name(&self) -> &'static str {
        self.0
    }

    fn answers(&mut self, questions: &[Question]) -> Vec<Vec<u16>> {
        let mut out = [0; ROWS];
        let mut answer = |question: &Question| {
            let count = self.ask(*question, &mut out);
            out[..count].to_vec()
        };
        questions.iter().map(&mut answer).collect()
    }

    /// Nanoseconds for all the questions.
    fn time(&mut self, questions: &[Question]) -> f64 {
        let mut out = [0; ROWS];
        let begin = Instant::now();
        for &question in questions {
            black_box(self.ask(black_box(question), black_box(&mut out)));
        }
        begin.elapsed().as_nanos() as f64
    }

    fn warm(&self) {
        self.1.warm();
    }
}

pub const PROVED: &str = "proved library";
pub const PAIRS: &str = "scan of pairs";
pub const PAIRS_CPP: &str = "scan of pairs, C++";
pub const CRATE: &str = "intervaltree (crate)";
pub const IIT: &str = "libiitii: iit";
pub const IITII: &str = "libiitii: iitii";

fn contenders(rows: &[Row]) -> Vec<Box<dyn Contender>> {
    vec![
        Box::new(Named(PROVED, Proved::new(rows))),
        Box::new(Named(PAIRS, Scan::new(rows))),
        Box::new(Named(PAIRS_CPP, Linked::pairs(rows))),
        Box::new(Named("sorted scan, early stop", SortedScan(Scan::new(rows)))),
        Box::new(Named("sorted scan, branch-free", BranchFreeScan::new(rows))),
        Box::new(Named(CRATE, PackagedCrate::new(rows))),
        Box::new(Named(IIT, Linked::plain(rows))),
        Box::new(Named(IITII, Linked::interpolated(rows))),
        Box::new(Named("plain walk over links", PlainWalk::new(rows))),
    ]
}

/// What a list of questions took: for each contender the nanoseconds a question, how many were asked, and how many rows one lists in
/// the mean.
pub struct Taken {
    pub asked: f64,
    pub listed: f64,
    pub nanoseconds: Vec<(&'static str, f64)>,
}

impl Taken {
    pub fn of(&self, name: &str) -> f64 {
        self.nanoseconds.iter().find(|taken| taken.0 == name).expect("a contender's name").1
    }
}

/// Checks that all contenders answer alike, and returns how many rows are listed in all.
fn agree(contenders: &mut [Box<dyn Contender>], questions: &[Question]) -> usize {
    let expected = contenders[0].answers(questions);
    for contender in contenders.iter_mut() {
        assert!(contender.answers(questions) == expected, "{} answers otherwise", contender.name());
    }
    expected.iter().map(Vec::len).sum()
}

/// The times of a contender: for each stretch of questions one a round.
type Times = Vec<Vec<f64>>;

/// A case under way: its contenders with the times that they have taken.
struct Course<'a> {
    stretches: Vec<&'a [Question]>,
    warm: bool,
    listed: usize,
    contenders: Vec<Box<dyn Contender>>,
    times: Vec<Times>,
}

impl Course<'_> {
    fn new(case: &Case) -> Course<'_> {
        let mut contenders = contenders(&case.rows);
        let listed = agree(&mut contenders, &case.questions);
        let stretches: Vec<&[Question]> = case.questions.chunks(STRETCH).collect();
        let times = vec![vec![Vec::new(); stretches.len()]; contenders.len()];
        Course { stretches, warm: case.warm, listed, contenders, times }
    }

    /// Lets all contenders take part, one after the other.
    fn round(&mut self) {
        for (contender, times) in self.contenders.iter_mut().zip(&mut self.times) {
            if self.warm {
                contender.warm();
            }
            for (stretch, times) in self.stretches.iter().zip(times) {
                times.push(contender.time(stretch));
            }
        }
    }

    fn taken(self) -> Taken {
        let asked = self.stretches.iter().map(|stretch| stretch.len()).sum::<usize>() as f64;
        let a_question = |times: Times| times.into_iter().map(median).sum::<f64>() / asked;
        let names = self.contenders.iter().map(|contender| contender.name());
        let nanoseconds = names.zip(self.times.into_iter().map(a_question)).collect();
        Taken { asked, listed: self.listed as f64 / asked, nanoseconds }
    }
}

pub fn median(mut times: Vec<f64>) -> f64 {
    times.sort_by(f64::total_cmp);
    times[times.len() / 2]
}

/// Times all contenders on all cases, once they have been seen to answer alike.
pub fn measure(cases: &[Case], rounds: usize) -> Vec<Taken> {
    let mut courses: Vec<Course> = cases.iter().map(Course::new).collect();
    for _ in 0..rounds {
        courses.iter_mut().for_each(Course::round);
    }
    courses.into_iter().map(Course::taken).collect()
}

/// The median nanoseconds of a call over so many rounds.
pub fn median_of(rounds: usize, mut call: impl FnMut()) -> f64 {
    let time = |_| {
        let begin = Instant::now();
        call();
        begin.elapsed().as_nanos() as f64
    };
    median((0..rounds).map(time).collect())
}

//! Times ways to list the rows that stand on a day or a span, side by side in one run, and prints tables in Markdown.
//!
//!     bench [--rounds N] [--questions N] [--seed N]
//!
//! All contenders answer the same questions over the same rows, and all answers are compared before anything is timed.

mod calls;
mod contenders;
mod links;
mod lookups;
#[allow(dead_code)]
#[path = "../../include/phayaklit.rs"]
mod phayaklit;
mod proved;
#[allow(dead_code)]
#[path = "../../rust/generate/src/rng.rs"]
mod rng;
mod rows;
mod table;
mod timing;

use proved::Proved;
use rng::Rng;
use rows::{rows_listing, workloads, Workload, LAST_DAY, ROWS};
use timing::{measure, Case, Question, Taken, CRATE, IIT, IITII, PAIRS, PAIRS_CPP, PROVED};

/// The length of the spans asked about.
const SPAN: u16 = 2;

struct Options {
    rounds: usize,
    questions: usize,
    seed: u64,
}

fn options() -> Options {
    let mut options = Options { rounds: 41, questions: 2000, seed: 1 };
    let mut arguments = std::env::args().skip(1);
    while let Some(name) = arguments.next() {
        let value = arguments.next().and_then(|value| value.parse().ok()).expect("each option takes a number");
        match name.as_str() {
            "--rounds" => options.rounds = value,
            "--questions" => options.questions = value,
            "--seed" => options.seed = value as u64,
            _ => panic!("no option {name}"),
        }
    }
    options
}

/// Questions for spans of so many days, anywhere on the calendar.
fn questions(options: &Options, length: u16) -> Vec<Question> {
    let mut rng = Rng::new(options.seed + length as u64);
    let mut day = || rng.range(1, (LAST_DAY - length + 1) as usize) as u16;
    (0..options.questions).map(|_| day()).map(|a| (a, a + length - 1)).collect()
}

/// A table with a column for each workload: its first row says how many rows are listed.
fn print_by_workload(workloads: &[Workload], taken: &[Taken], rows: Vec<(String, Vec<String>)>) {
    let columns: Vec<&str> = std::iter::once("").chain(workloads.iter().map(|workload| workload.name)).collect();
    let listed = taken.iter().map(|taken| format!("{:.1}", taken.listed)).collect();
    let rows: Vec<_> = std::iter::once(("spells listed, mean".to_string(), listed)).chain(rows).collect();
    table::print(&columns, &rows);
}

/// A row for each contender with what `cell` makes of each workload's times.
fn by_contender(taken: &[Taken], cell: impl Fn(&Taken, &str) -> f64) -> Vec<(String, Vec<String>)> {
    let row = |name: &str| (name.to_string(), taken.iter().map(|taken| format!("{:.1}", cell(taken, name))).collect());
    taken[0].nanoseconds.iter().map(|(name, _)| row(name)).collect()
}

/// How many times as fast as the contender the proved library is, and whether that reaches the target.
fn ratio(taken: &Taken, name: &str, target: f64) -> String {
    let ratio = taken.of(name) / taken.of(PROVED);
    format!("{ratio:.2}{}", mark(ratio >= target))
}

/// What stands behind a figure that does not reach its target.
fn mark(reached: bool) -> &'static str {
    if reached {
        ""
    } else {
        " **short**"
    }
}

/// The ratios that are to be reached: against both forms of libiitii's tree, the crate, and the scan of pairs.
fn ratios(workloads: &[Workload], taken: &[Taken]) -> Vec<(String, Vec<String>)> {
    let pairs_target = |name: &str| if name == "about 1" { 15.0 } else { 2.0 };
    let against = |name, target| taken.iter().map(|taken| ratio(taken, name, target)).collect();
    let against_pairs = |name| {
        let both = workloads.iter().zip(taken);
        both.map(|(workload, taken)| ratio(taken, name, pairs_target(workload.name))).collect()
    };
    vec![
        (format!("{IIT}, at least 1.5"), against(IIT, 1.5)),
        (format!("{IITII}, at least 1.5"), against(IITII, 1.5)),
        (format!("{CRATE}, at least 4"), against(CRATE, 4.0)),
        (format!("{PAIRS}, at least 2 (15 at about 1)"), against_pairs(PAIRS)),
        (format!("{PAIRS_CPP}, at least 2 (15 at about 1)"), against_pairs(PAIRS_CPP)),
        ("sorted scan, early stop".to_string(), against("sorted scan, early stop", 0.0)),
        ("sorted scan, branch-free".to_string(), against("sorted scan, branch-free", 0.0)),
    ]
}

/// The looks for each listed row.
fn looks(case: &Case) -> String {
    let proved = Proved::new(&case.rows);
    let mut out = [0; ROWS];
    let answers: Vec<_> = case.questions.iter().map(|&(a, b)| proved.ask(a, b, &mut out)).collect();
    let sum = |field: fn(&phayaklit::Listed) -> usize| answers.iter().map(field).sum::<usize>() as f64;
    format!("{:.2}", sum(|listed| listed.looks) / sum(|listed| listed.count))
}

fn report_questions(options: &Options, workloads: &[Workload], kind: &str, length: u16) {
    let asked = questions(options, length);
    let case = |workload: &Workload| Case { rows: workload.rows.clone(), questions: asked.clone(), warm: false };
    let cases: Vec<Case> = workloads.iter().map(case).collect();
    let taken = measure(&cases, options.rounds);
    println!("\n## {kind}, 1,024 spells\n\nNanoseconds a question:");
    print_by_workload(workloads, &taken, by_contender(&taken, |taken, name| taken.of(name)));
    println!("\nNanoseconds a listed spell, and the proved library's looks a listed spell:");
    let mut rows = by_contender(&taken, |taken, name| taken.of(name) / taken.listed);
    rows.push(("looks".to_string(), cases.iter().map(looks).collect()));
    print_by_workload(workloads, &taken, rows);
    println!("\nHow many times as fast the proved library is as:");
    print_by_workload(workloads, &taken, ratios(workloads, &taken));
}

/// The sizes of the lists over which growth is told.
const SIZES: [usize; 5] = [64, 128, 256, 512, ROWS];

/// The nanoseconds for each listed row at lists of each size of which a day lists the same number: one list of a size, or as many
/// as make 1,024 rows, among which the questions are shared out.
fn report_growth(options: &Options, mean: f64, many: bool) {
    let lists = |size| if many { ROWS / size } else { 1 };
    let days = questions(options, 1);
    let case = |size, list: usize| {
        let part = days.len() / lists(size);
        let rows = rows_listing(options.seed + list as u64, size, mean);
        Case { rows, questions: days[list * part..][..part].to_vec(), warm: many }
    };
    let cases: Vec<Case> = SIZES.iter().flat_map(|&size| (0..lists(size)).map(move |list| case(size, list))).collect();
    let mut taken = measure(&cases, options.rounds).into_iter();
    let by_size: Vec<Vec<Taken>> = SIZES.iter().map(|&size| taken.by_ref().take(lists(size)).collect()).collect();
    let row = |name: &str| {
        let sum = |taken: &[Taken], of: &dyn Fn(&Taken) -> f64| taken.iter().map(|taken| taken.asked * of(taken)).sum::<f64>();
        let each: Vec<f64> =
            by_size.iter().map(|taken| sum(taken, &|taken| taken.of(name)) / sum(taken, &|taken| taken.listed)).collect();
        let growth = each.iter().copied().fold(0.0, f64::max) / each.iter().copied().fold(f64::MAX, f64::min);
        let factor = format!("{growth:.2}{}", mark(name != PROVED || growth <= 1.5));
        let cells = each.iter().map(|each| format!("{each:.1}")).chain([factor]);
        (name.to_string(), cells.collect())
    };
    let rows: Vec<_> = by_size[0][0].nanoseconds.iter().map(|(name, _)| row(name)).collect();
    let lists = if many { "as many registers of each size as make 1,024 spells" } else { "one register of each size" };
    println!("\nAbout {mean} spells listed a day, {lists}, nanoseconds a listed spell:");
    table::print(&["", "n = 64", "128", "256", "512", "1,024", "largest / smallest, at most 1.5"], &rows);
}

fn report_bytes() {
    println!("\n## Memory\n");
    println!("- index block: {} bytes", 2 * phayaklit::INDEX_WORDS);
    println!("- service block: {} bytes", 2 * phayaklit::SERVICE_WORDS);
    println!("- pairs of days with their numbers, as the scans have them: {} bytes", 6 * ROWS);
}

fn main() {
    let options = options();
    let workloads = workloads(options.seed);
    report_questions(&options, &workloads, "Day questions", 1);
    report_questions(&options, &workloads, "Span questions of 2 days", SPAN);
    println!("\n## Growth, day questions");
    for (mean, many) in [(1.0, false), (15.0, false), (1.0, true), (15.0, true)] {
        report_growth(&options, mean, many);
    }
    lookups::report(&workloads, options.rounds, options.questions, options.seed);
    calls::report(&workloads[4].rows, 10 * options.rounds);
    report_bytes();
}

//! Lists of calls: an implementation against the account, at every call its whole answer and every place of the lent
//! lists.

use crate::shown::{around, debug};
use account::account::Account;
use account::call::{Answer, Call, Lists, Start};
use generate::Generator;
use std::collections::BTreeMap;

/// An implementation of the service that holds its own state.
pub trait Target {
    /// Begins anew.
    fn begin(&mut self, start: &Start) -> Answer;
    /// Makes a call with these lists.
    fn call(&mut self, call: &Call, lists: &mut Lists) -> Answer;
}

/// How often each call met each refusal, as a measure of what a run has covered.
#[derive(Default)]
pub struct Tally(BTreeMap<&'static str, BTreeMap<u16, usize>>);

impl Tally {
    fn note(&mut self, call: &'static str, answer: &Answer) {
        *self.0.entry(call).or_default().entry(answer.refusal()).or_default() += 1;
    }

    pub fn print(&self) {
        for (call, refusals) in &self.0 {
            let refusals: String = refusals.iter().map(|(number, count)| format!("  {number}: {count}")).collect();
            println!("{call:<10}{refusals}");
        }
    }
}

/// Makes so many random calls on both.
pub fn compare(target: &mut dyn Target, seed: u64, length: usize) -> Result<Tally, String> {
    let mut generator = Generator::new(seed);
    let mut tally = Tally::default();
    let (mut made, mut list) = (0, 0);
    while made < length {
        let (start, calls) = generator.list();
        let calls = calls.min(length - made);
        list += 1;
        compare_list(target, &mut generator, &start, calls, &mut tally)
            .map_err(|difference| format!("seed {seed}, list {list} from {}: {difference}", debug(&start)))?;
        made += calls;
    }
    Ok(tally)
}

fn compare_list(
    target: &mut dyn Target,
    generator: &mut Generator,
    start: &Start,
    calls: usize,
    tally: &mut Tally,
) -> Result<(), String> {
    let (mut account, expected) = Account::begin(start);
    let received = target.begin(start);
    tally.note("read", &expected);
    if expected != received {
        return Err(format!("start\n  expected {expected:?}\n  received {received:?}"));
    }
    for at in 1..=calls {
        let call = generator.call(&account);
        let mut expected_lists = generator.lists(&account, &call);
        let mut lists = expected_lists.clone();
        let (expected, received) = (account.step(&call, &mut expected_lists), target.call(&call, &mut lists));
        tally.note(call.word(), &expected);
        if (&expected, &expected_lists) != (&received, &lists) {
            let (expected, received) = (debug(&expected), debug(&received));
            return Err(format!(
                "call {at}: {}\n  expected {expected}\n  received {received}\n  {}",
                debug(&call),
                lists_compared(&expected_lists, &lists)
            ));
        }
    }
    Ok(())
}

fn lists_compared(expected: &Lists, received: &Lists) -> String {
    if expected == received {
        return "the lent lists are equal".to_string();
    }
    let (at, a, b) = around(&expected.numbers, &received.numbers);
    let (at_byte, c, d) = around(&expected.text, &received.text);
    let numbers = format!("numbers from place {at}: {} and {}", debug(&a), debug(&b));
    format!("{numbers}\n  bytes from place {at_byte}: {} and {}", debug(&c), debug(&d))
}

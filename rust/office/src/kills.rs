//! The service is killed at random moments, also with requests in flight, and started again: nothing that was acknowledged is lost, and
//! every answer is the plain account's.

use crate::service::{Client, Place, Program, Service};
use account::account::Account;
use account::call::{Answer, Call, Lists, Question};
use account::limits::LARGEST_ROOM;
use account::wire::{bytes_of, line_asking};
use check::shown::bytes;
use generate::rng::Rng;
use generate::Generator;
use std::thread::{sleep, spawn};
use std::time::Duration;

/// The account, and how many changes it has accepted.
#[derive(Clone, Default)]
struct Known {
    account: Account,
    changes: u64,
}

impl Known {
    fn step(&mut self, call: &Call) -> Vec<u8> {
        let mut lists = Lists { numbers: vec![0; LARGEST_ROOM], text: vec![0; LARGEST_ROOM] };
        let answer = self.account.step(call, &mut lists);
        self.changes += u64::from(matches!(answer, Answer::Done));
        bytes_of(&answer)
    }
}

pub fn check(program: &Program, kills: usize, seed: u64) -> Result<String, String> {
    let place = Place::new("kills");
    let mut generator = Generator::new(seed);
    let mut rng = Rng::new(seed);
    let mut known = Known::default();
    let mut unanswered = 0;
    for kill in 0..kills {
        let service = program.start(&place)?;
        let mut client = service.connect()?;
        compare(&mut client, &mut known).map_err(|why| format!("after kill {kill}: {why}"))?;
        let calls = calls_from(&mut generator, &known.account, rng.range(20, 200));
        let requests: Vec<u8> = calls.iter().flat_map(line_asking).collect();
        let pause = Duration::from_micros(rng.range(0, 30_000) as u64);
        let killed = spawn(move || {
            sleep(pause);
            service.kill()
        });
        // the connection may end while they are sent
        let _ = client.send(&requests);
        let (mut answered, mut wrong) = (0, None);
        while let (None, Ok(Some(answer))) = (&wrong, client.answer()) {
            let expected = known.step(&calls[answered]);
            if answer != expected {
                wrong = Some(format!("kill {kill}: {} for {}", bytes(&answer), bytes(&expected)));
            }
            answered += 1;
        }
        // a difference is told after the service has ended, so that none is left behind
        killed.join().map_err(|_| "the killer failed".to_string())??;
        if let Some(wrong) = wrong {
            return Err(wrong);
        }
        unanswered += calls.len() - answered;
        let service = program.start(&place)?;
        known = found(&service, known, &calls[answered..]).map_err(|why| format!("kill {kill}: {why}"))?;
        // now and then it ends as it should, so that the next start begins on the words that are kept then
        match kill % 4 {
            0 => service.end().map(|_| ())?,
            _ => service.kill()?,
        }
    }
    program.verified(&place, known.changes)?;
    Ok(format!("{kills} kills, {} changes, {unanswered} requests in flight", known.changes))
}

/// Calls that follow each other, as one client makes them.
fn calls_from(generator: &mut Generator, account: &Account, count: usize) -> Vec<Call> {
    let mut known = Known { account: account.clone(), changes: 0 };
    let mut calls = Vec::new();
    for _ in 0..count {
        let call = generator.call(&known.account);
        known.step(&call);
        calls.push(call);
    }
    calls
}

/// The account after a start: some of the requests that were in flight may have been carried out, from the first on.
fn found(service: &Service, mut known: Known, in_flight: &[Call]) -> Result<Known, String> {
    let changes: u64 = service.connect()?.status("sequence")?.parse().map_err(|_| "no sequence".to_string())?;
    if changes < known.changes {
        return Err(format!("{changes} changes are left of {} that were acknowledged", known.changes));
    }
    for call in in_flight {
        if known.changes == changes {
            break;
        }
        known.step(call);
    }
    if known.changes != changes {
        return Err(format!("{changes} changes, and {} were asked for", known.changes));
    }
    Ok(known)
}

/// The whole state: what stands, what is published, what can be taken back.
fn compare(client: &mut Client, known: &mut Known) -> Result<(), String> {
    let days = [1, 2, 17, 100, 365, 1000, 2500, 4000].map(|day| Call::Ask(Question::Day(day)));
    for call in [Call::Write, Call::Ask(Question::Span(1, 4000))].iter().chain(&days) {
        let answer = client.ask(&line_asking(call))?;
        let expected = known.step(call);
        if answer != expected {
            return Err(format!("{} for {}", bytes(&answer), bytes(&expected)));
        }
    }
    let past: usize = client.status("past")?.parse().map_err(|_| "no past".to_string())?;
    let mut back = known.clone();
    let expected = (0..=64).take_while(|_| back.step(&Call::TakeBack) == b"ok\n").count();
    if past != expected {
        return Err(format!("{past} edits can be taken back, and {expected} could"));
    }
    Ok(())
}

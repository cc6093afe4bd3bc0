//! Many connections edit and ask at once: the journal's order explains every answer, where changes can be kept and where they no more can.

use crate::rows::{self, Exchange};
use crate::service::{Client, Place, Program, Service, UNAVAILABLE};
use account::account::Account;
use account::wire::Wire;
use check::shown::bytes;
use generate::rng::Rng;
use std::thread::{spawn, JoinHandle};

const CONNECTIONS: usize = 16;
/// The spells of one connection: others do not name them.
const SPELLS: usize = 60;
/// The largest file of a journal that is soon full, in blocks of 512 bytes.
const FEW_BLOCKS: usize = 600;

type Talk = Vec<Exchange>;

pub fn check(program: &Program, requests: usize, seed: u64) -> Result<String, String> {
    let place = Place::new("many");
    let service = program.start(&place)?;
    let (changes, dropped) = crowd(&service, &place, requests, seed)?;
    let (status, told) = service.end()?;
    if !status.success() || dropped > 0 {
        return Err(format!("{dropped} requests are answered `unavailable`, and it ended with {status}: {told}"));
    }
    let place = Place::new("many-full");
    let service = program.start_limited(&place, FEW_BLOCKS)?;
    let (kept, dropped) = crowd(&service, &place, requests, seed)?;
    service.kill()?;
    if kept == 0 || dropped == 0 {
        return Err(format!("the journal is not full after some changes: {kept} are kept and {dropped} not"));
    }
    Ok(format!("{CONNECTIONS} connections, {changes} changes, {requests} requests each; {kept} changes where no more can be kept"))
}

/// So many requests of each connection: how many changes the journal has, and how many requests could not be carried out.
fn crowd(service: &Service, place: &Place, requests: usize, seed: u64) -> Result<(usize, usize), String> {
    let mut talks: Vec<JoinHandle<Result<Talk, String>>> = Vec::new();
    for connection in 0..CONNECTIONS {
        let client = service.connect()?;
        talks.push(spawn(move || talk(client, connection, requests, seed)));
    }
    let mut heard = Vec::new();
    for talk in talks {
        heard.push(talk.join().map_err(|_| "a client failed".to_string())??);
    }
    let rows = rows::of(place)?;
    let states = explained(&rows)?;
    for talk in &heard {
        explain(talk, &rows, &states)?;
    }
    let dropped = heard.iter().flatten().filter(|(_, answer)| answer == UNAVAILABLE).count();
    Ok((rows.len(), dropped))
}

/// Requests one at a time, or some at once, and their answers.
fn talk(mut client: Client, connection: usize, count: usize, seed: u64) -> Result<Talk, String> {
    let mut rng = Rng::new(seed * 100 + connection as u64);
    let mut talk: Talk = Vec::new();
    while talk.len() < count {
        let some: Vec<Vec<u8>> = (0..rng.range(1, 8)).map(|_| request(&mut rng, connection)).collect();
        client.send(&some.concat())?;
        for request in some {
            let answer = client.answer()?.ok_or("the connection ended")?;
            talk.push((request, answer));
        }
    }
    Ok(talk)
}

/// An edit of the connection's own spells, a question, and of one connection now and then a publish.
fn request(rng: &mut Rng, connection: usize) -> Vec<u8> {
    let number = connection * SPELLS + rng.range(1, SPELLS);
    let first = rng.range(1, 3900);
    let last = first + rng.range(0, 90);
    let line = match rng.range(0, 9) {
        0..=2 => format!("enter\t{number}\t{}\t{first}\t{last}\tG\t{}\n", rng.range(1, 900), rng.range(1, 4)),
        3 => format!("amend\t{number}\t{}\t{first}\t{last}\tC\t3F800000\n", rng.range(1, 900)),
        4 => format!("strike\t{number}\n"),
        5 if connection == 0 => "publish\t1\n".to_string(),
        5 | 6 => format!("day\t{first}\n"),
        7 => format!("span\t{first}\t{last}\n"),
        8 => format!("cover\t{number}\n"),
        _ => "write\n".to_string(),
    };
    line.into_bytes()
}

/// The account's states before each row and after the last; each row's answer is the account's.
fn explained(rows: &[Exchange]) -> Result<Vec<Account>, String> {
    let mut wire = Wire::default();
    let mut states = vec![wire.account.clone()];
    for (request, answer) in rows {
        let expected = wire.answers(request).concat();
        if *answer != expected {
            return Err(format!("{} is answered {} and not {}", bytes(request), bytes(answer), bytes(&expected)));
        }
        states.push(wire.account.clone());
    }
    Ok(states)
}

/// Each answer is one in a state not before that of the answer before it; an accepted change is the journal's next row of that request. What
/// could not be carried out is no row.
fn explain(talk: &Talk, rows: &[Exchange], states: &[Account]) -> Result<(), String> {
    let mut at = 0;
    for (request, answer) in talk.iter().filter(|(_, answer)| answer != UNAVAILABLE) {
        let unexplained = || format!("{} answers {} in no state from change {at} on", bytes(answer), bytes(request));
        let changes = answer == b"ok\n";
        let found = (at..states.len()).find(|&state| {
            let mut wire = Wire::default();
            wire.account = states[state].clone();
            let is_row = !changes || rows.get(state).is_some_and(|(row, _)| row == request);
            is_row && wire.answers(request).concat() == *answer
        });
        at = found.ok_or_else(unexplained)? + usize::from(changes);
    }
    Ok(())
}

//! A disk that is full: changes are answered `unavailable`, questions go on, and so does the service when there is space again.

use crate::service::{Client, Place, Program, UNAVAILABLE};
use account::wire::Wire;
use check::shown::bytes;
use std::fs;

pub fn check(program: &Program) -> Result<String, String> {
    let limited = limited(program)?;
    let place = Place::new("disk");
    let full = place.with_disk(|place| full(program, place))?;
    Ok(format!("{limited}; {}", full.unwrap_or("no disk can be mounted here".to_string())))
}

/// On a small disk, with a file that takes half of it until it is full; when there is space again the service goes on.
fn full(program: &Program, place: &Place) -> Result<String, String> {
    let ballast = place.data().join("ballast");
    fs::write(&ballast, vec![1; 400_000]).map_err(|error| error.to_string())?;
    let service = program.start(place)?;
    let mut client = service.connect()?;
    let mut wire = Wire::default();
    let before = fill(&mut client, &mut wire, 1)?;
    same(&mut client, &mut wire)?;
    fs::remove_file(&ballast).map_err(|error| error.to_string())?;
    let after = fill(&mut client, &mut wire, before + 1)? - before;
    if after == 0 {
        return Err("it did not go on when there was space again".to_string());
    }
    same(&mut client, &mut wire)?;
    service.kill()?;
    let service = program.start(place)?;
    same(&mut service.connect()?, &mut wire)?;
    Ok(format!("a disk is full after {before} changes, and takes {after} more when there is space again"))
}

/// A limit on the size of files, which must not kill it, nor that nobody can be told of it.
fn limited(program: &Program) -> Result<String, String> {
    let place = &Place::new("limited");
    let service = program.start_limited(place, 600)?;
    let mut client = service.connect()?;
    let mut wire = Wire::default();
    let before = fill(&mut client, &mut wire, 1)?;
    same(&mut client, &mut wire)?;
    service.kill()?;
    same(&mut program.start(place)?.connect()?, &mut wire)?;
    Ok(format!("a file is at its limit after {before} changes"))
}

/// Enters and strikes until it can't: the last number that was taken.
fn fill(client: &mut Client, wire: &mut Wire, from: usize) -> Result<usize, String> {
    let mut number = from;
    loop {
        let spell = number % 1000 + 1;
        for request in [format!("enter\t{spell}\t7\t1\t10\tG\t2\n"), format!("strike\t{spell}\n")] {
            let answer = client.ask(request.as_bytes())?;
            if answer == UNAVAILABLE {
                return Ok(number - 1);
            }
            let expected = wire.answers(request.as_bytes()).concat();
            if answer != expected {
                return Err(format!("{request:?} is answered {}", bytes(&answer)));
            }
        }
        number += 1;
        if number > 100_000 {
            return Err("the disk does not fill".to_string());
        }
    }
}

fn same(client: &mut Client, wire: &mut Wire) -> Result<(), String> {
    for request in ["write\n", "day\t5\n", "take-back-\n"] {
        let (answer, expected) = (client.ask(request.as_bytes())?, wire.answers(request.as_bytes()).concat());
        if answer != expected {
            return Err(format!("{request:?}: {} for {}", bytes(&answer), bytes(&expected)));
        }
    }
    Ok(())
}

//! What is kept beside the rows, and copies: the words after some thousand changes, a copy that is made while the service runs, and what an
//! end in the midst of changes leaves.

use crate::rows::with_database;
use crate::service::{expect, Client, Place, Program};
use std::fs;

/// More changes than there are between two keepings of the words.
const CHANGES: usize = 4_400;

pub fn check(program: &Program) -> Result<String, String> {
    let place = Place::new("kept");
    let service = program.start(&place)?;
    let mut client = service.connect()?;
    client.send(b"enter\t7\t7\t1\t10\tG\t2\n")?;
    expect("a change is refused", accepted(&mut client, 1)? == 1)?;
    published_and_refused(&mut client)?;
    let entries_and_strikes = "enter\t8\t7\t1\t10\tG\t2\nstrike\t8\n".repeat(CHANGES / 2);
    client.send(entries_and_strikes.as_bytes())?;
    expect("a change is refused", accepted(&mut client, CHANGES)? == CHANGES)?;
    let restored = Place::new("restored");
    copied(&place, &restored)?;
    service.kill()?;
    let kept = with_database(&place.data(), "print(*db.execute('SELECT count(*) FROM snapshot').fetchone())")?;
    expect(&format!("{} words are kept", kept.trim()), kept.trim() == "1")?;
    for place in [&place, &restored] {
        program.verified(place, CHANGES as u64 + 2)?;
        let service = program.start(place)?;
        let mut client = service.connect()?;
        all_there(&mut client)?;
        published_and_refused(&mut client)?;
        service.end()?;
        program.verified(place, CHANGES as u64 + 3)?;
        all_there(&mut program.start(place)?.connect()?)?;
    }
    of_another_mode(program, &place)?;
    ended_in_the_midst(program)?;
    Ok("words, copies, and an end in the midst of changes".to_string())
}

/// A publish, and one that is refused, in one piece: what is kept of the last publish is the first one's.
fn published_and_refused(client: &mut Client) -> Result<(), String> {
    client.send(b"publish\t1\npublish\t3\n")?;
    let answers = (client.answer()?, client.answer()?);
    let expected = (Some(b"ok\n".to_vec()), Some(b"refused\t14\n".to_vec()));
    expect(&format!("publishing is answered {answers:?}"), answers == expected)
}

fn all_there(client: &mut Client) -> Result<(), String> {
    expect("what is published is lost", client.ask(b"day\t5\n")? == b"listed\t1\t0\t7\n")?;
    expect("what stands is lost", client.ask(b"write\n")? == b"text\t13\n7\t7\t1\t10\tG\t2\n")?;
    expect("the past is lost", client.status("past")? == "64")
}

/// How many of so many changes are accepted, up to the connection's end.
fn accepted(client: &mut Client, of: usize) -> Result<usize, String> {
    for number in 0..of {
        if client.answer()?.as_deref() != Some(b"ok\n") {
            return Ok(number);
        }
    }
    Ok(of)
}

/// A copy by SQLite's own way, which `.backup` is too.
fn copied(place: &Place, to: &Place) -> Result<(), String> {
    fs::create_dir_all(to.data()).map_err(|error| error.to_string())?;
    let file = to.data().join("journal.db");
    let copy = format!("copy = sqlite3.connect({file:?})\ndb.backup(copy)\ncopy.close()");
    with_database(&place.data(), &copy).map(|_| ())
}

/// A copy by `VACUUM INTO` has no write-ahead log, and a commit without one may be taken back by a loss of power: it has one from the start on.
fn of_another_mode(program: &Program, place: &Place) -> Result<(), String> {
    let other = Place::new("mode");
    fs::create_dir_all(other.data()).map_err(|error| error.to_string())?;
    let file = other.data().join("journal.db");
    with_database(&place.data(), &format!("db.execute('VACUUM INTO ?', [{file:?}])"))?;
    let mode = "print(*db.execute('PRAGMA journal_mode').fetchone())";
    expect("the copy has a write-ahead log", with_database(&other.data(), mode)?.trim() == "delete")?;
    let service = program.start(&other)?;
    all_there(&mut service.connect()?)?;
    expect("it has no write-ahead log", with_database(&other.data(), mode)?.trim() == "wal")?;
    service.end()?;
    program.verified(&other, CHANGES as u64 + 3)
}

/// Where it is asked to end while changes arrive, exactly those are made that are answered.
fn ended_in_the_midst(program: &Program) -> Result<(), String> {
    let place = Place::new("midst");
    let service = program.start(&place)?;
    let mut client = service.connect()?;
    let many: String = (1..=1000).map(|number| format!("enter\t{number}\t7\t1\t10\tG\t2\n")).collect();
    client.send(many.as_bytes())?;
    let (status, told) = service.end()?;
    expect(&format!("it ended with {status}: {told}"), status.success())?;
    let answered = accepted(&mut client, 1000)?;
    program.verified(&place, answered as u64)
}

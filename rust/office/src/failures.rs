//! Commits that fail: where nothing was written the service says so and goes on; where a synchronisation failed or a file is gone it ends, and answers nobody.

use crate::rows::with_database;
use crate::service::{expect, Client, Place, Program, Service, UNAVAILABLE};
use crate::tracer::Tracer;
use std::fs;
use std::thread::{sleep, spawn};
use std::time::{Duration, Instant};

pub fn check(program: &Program) -> Result<String, String> {
    let of_another = program.clone();
    let held = spawn(move || held_by_another(&of_another));
    write_fails(program)?;
    synchronisation_fails(program)?;
    files_go(program)?;
    connection_fails(program)?;
    held.join().map_err(|_| "a test failed".to_string())??;
    Ok("a write, a synchronisation, files that go and another program's hold, each as it should be".to_string())
}

fn enter(client: &mut Client, number: usize) -> Result<Vec<u8>, String> {
    client.ask(format!("enter\t{number}\t7\t1\t10\tG\t2\n").as_bytes())
}

/// A service with one spell.
fn begun(program: &Program, place: &Place) -> Result<(Service, Client), String> {
    let service = program.start(place)?;
    let mut client = service.connect()?;
    expect("the first change is refused", enter(&mut client, 1)? == b"ok\n")?;
    Ok((service, client))
}

/// A write that fails: nothing has changed, what came behind it in one piece is not answered from a state that never was, and the next goes well.
fn write_fails(program: &Program) -> Result<(), String> {
    let place = Place::new("write");
    let (service, mut client) = begun(program, &place)?;
    let before = client.ask(b"write\n")?;
    let tracer = Tracer::of(&service, place.folder(), &["-e", "inject=pwrite64:error=EIO"])?;
    client.send(b"enter\t2\t7\t1\t10\tG\t2\nwrite\nnonsense\n")?;
    for expected in [UNAVAILABLE, UNAVAILABLE, b"malformed\n"] {
        let answer = client.answer()?;
        expect(&format!("a change that can't be written has {answer:?}"), answer.as_deref() == Some(expected))?;
    }
    expect("the state has changed", client.ask(b"write\n")? == before)?;
    drop(tracer);
    expect("it does not go on", enter(&mut client, 2)? == b"ok\n")?;
    let (status, told) = service.end()?;
    expect(&format!("it ended with {status}: {told}"), status.success() && told.contains("nothing was written"))?;
    program.verified(&place, 2)
}

/// A synchronisation that fails: an end with an error, and no answer; the row may be there after the next start.
fn synchronisation_fails(program: &Program) -> Result<(), String> {
    let place = Place::new("synchronisation");
    let (service, mut client) = begun(program, &place)?;
    let tracer = Tracer::of(&service, place.folder(), &["-e", "inject=fdatasync,fsync:error=EIO"])?;
    client.send(b"enter\t2\t7\t1\t10\tG\t2\n")?;
    expect("a change that may be lost is answered", client.answer()?.is_none())?;
    let (status, told) = service.ended()?;
    expect(&format!("it ended with {status}: {told}"), status.code() == Some(1))?;
    expect(&format!("it told {told}"), told.contains("may or may not have the last changes"))?;
    drop(tracer);
    let service = program.start(&place)?;
    let mut client = service.connect()?;
    let rows: u64 = client.status("sequence")?.parse().map_err(|_| "no sequence".to_string())?;
    let standing: u64 = client.status("standing")?.parse().map_err(|_| "no count".to_string())?;
    expect(&format!("{standing} stand after {rows} changes"), standing == rows && (1..=2).contains(&rows))?;
    service.end()?;
    program.verified(&place, rows)
}

/// A file of the journal is removed, or another is put in its place: what is written to it would be lost, so that it is not answered.
fn files_go(program: &Program) -> Result<(), String> {
    for (name, is_replaced) in [("journal.db", false), ("journal.db", true), ("journal.db-wal", false)] {
        let place = Place::new("files");
        let (service, mut client) = begun(program, &place)?;
        let (file, copy) = (place.data().join(name), place.folder().join("copy"));
        let gone = match is_replaced {
            true => fs::copy(&file, &copy).and_then(|_| fs::rename(&copy, &file)),
            false => fs::remove_file(&file),
        };
        gone.map_err(|error| format!("{name}: {error}"))?;
        client.send(b"enter\t2\t7\t1\t10\tG\t2\n")?;
        expect(&format!("a change is answered without {name}"), client.answer()?.is_none())?;
        let (status, told) = service.ended()?;
        let is_told = told.contains(&format!("{name} was removed or replaced"));
        expect(&format!("without {name} it ended with {status}: {told}"), status.code() == Some(1) && is_told)?;
        match name {
            // at its end all of the log is carried over
            "journal.db-wal" => program.verified(&place, 2)?,
            _ => expect("the log is not left", place.data().join("journal.db-wal").exists())?,
        }
    }
    Ok(())
}

/// A connection that the system does not let it wait for is let go, and that is told; the next is served.
fn connection_fails(program: &Program) -> Result<(), String> {
    let place = Place::new("connection");
    let (service, mut client) = begun(program, &place)?;
    let tracer = Tracer::of(&service, place.folder(), &["-e", "inject=epoll_ctl:error=ENOSPC"])?;
    expect("a connection is kept", service.connect()?.answer()?.is_none())?;
    drop(tracer);
    expect("others are not served", enter(&mut client, 2)? == b"ok\n")?;
    expect("the next is not served", service.connect()?.ask(b"days\n")? == b"listed\t0\t-\n")?;
    let (status, told) = service.end()?;
    let is_told = told.contains("a connection can't be taken");
    expect(&format!("it ended with {status}: {told}"), status.success() && is_told)
}

/// Another program holds the database for longer than the service waits; questions are answered meanwhile.
fn held_by_another(program: &Program) -> Result<(), String> {
    let place = Place::new("held");
    let (service, mut client) = begun(program, &place)?;
    let (data, held, enough) = (place.data(), place.folder().join("held"), place.folder().join("enough"));
    let hold = format!(
        "import os, time\ndb.execute('BEGIN IMMEDIATE')\nopen({held:?}, 'w').close()\n\
         while not os.path.exists({enough:?}): time.sleep(0.01)\ndb.execute('ROLLBACK')"
    );
    let holder = spawn(move || with_database(&data, &hold));
    while !held.exists() {
        sleep(Duration::from_millis(5));
    }
    client.send(b"enter\t2\t7\t1\t10\tG\t2\n")?;
    let begun = Instant::now();
    expect("another client is not answered", service.connect()?.ask(b"days\n")? == b"listed\t0\t-\n")?;
    expect("a question is held up", begun.elapsed() < Duration::from_secs(1))?;
    expect("a change is answered that can't be written", client.answer()?.as_deref() == Some(UNAVAILABLE))?;
    fs::write(enough, "").map_err(|error| error.to_string())?;
    holder.join().map_err(|_| "the holder failed".to_string())??;
    expect("it does not go on", enter(&mut client, 2)? == b"ok\n")?;
    service.end()?;
    program.verified(&place, 2)
}

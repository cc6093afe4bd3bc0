//! Clients of all manners on one service: slow, silent and rude ones, who hurt nobody but themselves, and what each may count on.

use crate::service::{expect, Client, Place, Program, Service};
use std::fs;
use std::process::Command;
use std::thread::sleep;
use std::time::{Duration, Instant};

const NOBODY_LISTED: &[u8] = b"listed\t0\t-\n";

pub fn check(program: &Program) -> Result<String, String> {
    let place = Place::new("clients");
    let service = program.start(&place)?;
    let mut other = service.connect()?;
    for number in 1..=400 {
        other.send(enter(number).as_bytes())?;
    }
    for _ in 1..=400 {
        expect("an entry is refused", other.answer()?.as_deref() == Some(b"ok\n"))?;
    }
    slow_and_rude(&service, &mut other)?;
    own_room(&service, &mut other)?;
    long_line(&service)?;
    half_closed(&service)?;
    burst(&service, &mut other)?;
    behind_a_change(&service, &mut other)?;
    without_descriptors(program)?;
    Ok("slow, silent and rude ones hurt nobody but themselves".to_string())
}

fn enter(number: usize) -> String {
    format!("enter\t{number}\t7\t1\t10\tG\t2\n")
}

/// One takes no answers, one sends half a request, one sends nothing, one sends garbage: others do not notice.
fn slow_and_rude(service: &Service, other: &mut Client) -> Result<(), String> {
    let mut slow = service.connect()?;
    slow.send(&b"write\n".repeat(2000))?;
    let _silent = service.connect()?;
    let mut half = service.connect()?;
    half.send(b"enter\t900\t7\t1")?;
    let mut garbage = service.connect()?;
    garbage.send(&[0xFF; 50_000])?;
    garbage.send(b"\n")?;
    expect("garbage is not malformed", garbage.answer()?.as_deref() == Some(b"malformed\n"))?;
    drop(garbage);
    for number in 401..=500 {
        expect("another client is held up", other.ask(enter(number).as_bytes())? == b"ok\n")?;
    }
    half.send(b"\t10\tG\t2\n")?;
    expect("the rest of a request is lost", half.answer()?.as_deref() == Some(b"ok\n"))?;
    for _ in 0..2000 {
        expect("a slow client loses answers", slow.answer()?.is_some_and(|answer| answer.starts_with(b"text\t")))?;
    }
    Ok(())
}

/// A conversation's `room` is its own.
fn own_room(service: &Service, other: &mut Client) -> Result<(), String> {
    let mut small = service.connect()?;
    expect("a room is refused", small.ask(b"room\t5\n")? == b"ok\n")?;
    expect("the room is not kept", small.ask(b"write\n")? == b"refused\t11\n")?;
    expect("the room is another's too", other.ask(b"write\n")?.starts_with(b"text\t"))
}

/// Lines and texts that are too long are passed over, and what follows them is answered.
fn long_line(service: &Service) -> Result<(), String> {
    let mut client = service.connect()?;
    client.send(&[&[b'7'; 300_000][..], b"\ndays\n"].concat())?;
    expect("a long line is not malformed", client.answer()?.as_deref() == Some(b"malformed\n"))?;
    expect("what follows it is lost", client.answer()?.as_deref() == Some(NOBODY_LISTED))
}

/// Who sends no more still gets all answers, and then the end, inside a request and with no request too.
fn half_closed(service: &Service) -> Result<(), String> {
    let edits: String = (1..=300).map(|_| "strike\t900\nenter\t900\t7\t1\t10\tG\t2\ndays\n").collect();
    for (requests, answers) in [(edits.as_str(), 900), ("days\ndays\nda", 2), ("da", 0), ("", 0)].repeat(4) {
        let mut client = service.connect()?;
        expect("it is not served", client.ask(b"days\n")? == NOBODY_LISTED)?;
        client.send(requests.as_bytes())?;
        client.send_no_more()?;
        for _ in 0..answers {
            expect("an answer is lost", client.answer()?.is_some())?;
        }
        expect("there is no end", client.answer()?.is_none())?;
    }
    Ok(())
}

/// More than the socket's buffers hold is sent before anything is read.
fn burst(service: &Service, other: &mut Client) -> Result<(), String> {
    let mut client = service.connect()?;
    client.send(&b"days\n".repeat(80_000))?;
    expect("another client is held up", other.ask(b"days\n")? == NOBODY_LISTED)?;
    for _ in 0..80_000 {
        expect("an answer is lost", client.answer()?.as_deref() == Some(NOBODY_LISTED))?;
    }
    Ok(())
}

/// Long answers that wait behind a change, and that nobody takes, do not fill the memory.
fn behind_a_change(service: &Service, other: &mut Client) -> Result<(), String> {
    let mut client = service.connect()?;
    client.send(&[&b"strike\t1\n"[..], &b"write\n".repeat(10_000)].concat())?;
    expect("the change is refused", client.answer()?.as_deref() == Some(b"ok\n"))?;
    expect("another client is held up", other.ask(b"strike\t2\n")? == b"ok\n")?;
    for _ in 0..10_000 {
        expect("an answer is lost", client.answer()?.is_some_and(|answer| answer.starts_with(b"text\t")))?;
    }
    let status =
        fs::read_to_string(format!("/proc/{}/status", service.process())).map_err(|error| error.to_string())?;
    let most = status.lines().find_map(|line| line.strip_prefix("VmHWM:")?.trim().strip_suffix(" kB")?.parse().ok());
    expect(&format!("{most:?} kB are taken"), most.is_some_and(|most: u64| most < 32_768))
}

/// With no descriptor left nothing spins, who is connected goes on, and who waits is served when one is free again.
fn without_descriptors(program: &Program) -> Result<(), String> {
    let place = Place::new("descriptors");
    let mut command = Command::new("sh");
    command.arg("-c").arg("ulimit -n 20; exec \"$0\" --data \"$1\" --socket \"$2\"");
    command.arg(&program.0).arg(place.data()).arg(place.socket());
    let service = Service::of(command, &place)?;
    let mut clients = Vec::new();
    for _ in 0..30 {
        let mut client = service.connect()?;
        client.send(b"days\n")?;
        clients.push(client);
    }
    expect("the first is not served", clients[0].answer()?.as_deref() == Some(NOBODY_LISTED))?;
    let before = time_of(&service)?;
    sleep(Duration::from_millis(100));
    expect("it spins", time_of(&service)? - before <= 2)?;
    expect("who is connected is held up", clients[0].ask(b"days\n")? == NOBODY_LISTED)?;
    clients.remove(0);
    let begun = Instant::now();
    for mut client in clients {
        // each makes room for one that waits
        let answer = client.answer()?;
        expect("who waited is not served", answer.as_deref() == Some(NOBODY_LISTED))?;
    }
    expect("they wait long", begun.elapsed() < Duration::from_secs(5))?;
    let (_, told) = service.end()?;
    expect("nothing is told", told.contains("a connection can't be taken: Too many open files"))
}

/// The processor time of a service so far, in hundredths of a second.
fn time_of(service: &Service) -> Result<u64, String> {
    let line = fs::read_to_string(format!("/proc/{}/stat", service.process())).map_err(|error| error.to_string())?;
    let fields = line.rsplit(')').next().unwrap_or("").split_whitespace();
    Ok(fields.skip(11).take(2).filter_map(|field| field.parse::<u64>().ok()).sum())
}

//! Sends requests over a Unix socket, on so many connections, so many at once, for so many seconds, and prints a line: requests a second,
//! the server's processor time a request in microseconds, and the mean length of an answer.
//!
//!     load SOCKET PROCESS WORKLOAD CONNECTIONS AT-ONCE SECONDS [LENGTH]
//!     load PROGRAM --serve WORKLOAD REGISTER AT-ONCE SECONDS
//!
//! The workloads: `day` and `edit` to phayaklitd; `get` and `set` to Redis, with a value of LENGTH bytes. With `--serve` the program `serve` is
//! started on a register, between the ends of a socket of its own, and publishes it.

#[allow(dead_code)]
#[path = "../../../rust/daemon/src/system.rs"]
mod system;
mod talk;

use std::error::Error;
use std::io::{Read, Write};
use std::os::fd::{AsRawFd, OwnedFd};
use std::os::unix::net::UnixStream;
use std::process::{Child, Command, Stdio};
use std::time::{Duration, Instant};
use talk::{Talk, Workload};

type Result<T> = std::result::Result<T, Box<dyn Error>>;

/// Clock ticks of a process's time in a second, as Linux counts them.
const TICKS: f64 = 100.0;

fn main() -> Result<()> {
    let words: Vec<String> = std::env::args().skip(1).collect();
    let [socket, process, workload, connections, at_once, seconds, rest @ ..] = &words[..] else {
        return Err("usage: load SOCKET PROCESS WORKLOAD CONNECTIONS AT-ONCE SECONDS [LENGTH]".into());
    };
    let length = rest.first().map_or(Ok(100), |word| word.parse())?;
    let workload = Workload::named(workload, length)?;
    let mut talks = Vec::new();
    let mut poll = system::Poll::new()?;
    let mut process = process.clone();
    let mut streams = Vec::new();
    if process == "--serve" {
        let (child, stream) = begin(socket, connections)?;
        process = child.id().to_string();
        streams.push(stream);
    } else {
        for _ in 0..connections.parse::<usize>()? {
            streams.push(UnixStream::connect(socket)?);
        }
    }
    for (number, stream) in streams.into_iter().enumerate() {
        stream.set_nonblocking(true)?;
        poll.add(stream.as_raw_fd(), number as u64)?;
        talks.push(Talk::new(stream, &workload, number, at_once.parse()?));
    }
    let length = Duration::from_secs_f64(seconds.parse()?);
    run(&mut poll, &mut talks, length / 5)?;
    let (before, counted) = (time_of(&process)?, count(&talks));
    let begun = Instant::now();
    run(&mut poll, &mut talks, length)?;
    let taken = begun.elapsed().as_secs_f64();
    let (used, requests) = (time_of(&process)? - before, count(&talks) - counted);
    let bytes: usize = talks.iter().map(|talk| talk.bytes).sum();
    let mean = bytes as f64 / count(&talks) as f64;
    println!("{:.0}\t{:.2}\t{mean:.0}", requests as f64 / taken, used * 1e6 / requests as f64);
    Ok(())
}

/// `serve` on a register that it has published, and the other end of its socket.
fn begin(program: &str, register: &str) -> Result<(Child, UnixStream)> {
    let (mut ours, theirs) = UnixStream::pair()?;
    let output = OwnedFd::from(theirs.try_clone()?);
    let child = Command::new(program)
        .arg(register)
        .stdin(OwnedFd::from(theirs))
        .stdout(output)
        .stderr(Stdio::null())
        .spawn()?;
    ours.write_all(b"publish\t1\n")?;
    let mut answers = [0; 6];
    ours.read_exact(&mut answers)?;
    if &answers != b"ok\nok\n" {
        return Err("serve does not begin".into());
    }
    Ok((child, ours))
}

fn count(talks: &[Talk]) -> usize {
    talks.iter().map(|talk| talk.answered).sum()
}

fn run(poll: &mut system::Poll, talks: &mut [Talk], length: Duration) -> Result<()> {
    let begun = Instant::now();
    for talk in talks.iter_mut() {
        talk.go_on()?;
    }
    while begun.elapsed() < length {
        let found = poll.wait()?;
        for event in poll.found(found) {
            let number = event.token as usize;
            talks[number].go_on()?;
        }
    }
    Ok(())
}

/// The processor time of a process so far, in seconds.
fn time_of(process: &str) -> Result<f64> {
    let line = std::fs::read_to_string(format!("/proc/{process}/stat"))?;
    let fields: Vec<&str> = line.rsplit(')').next().unwrap_or("").split_whitespace().collect();
    Ok((fields[11].parse::<f64>()? + fields[12].parse::<f64>()?) / TICKS)
}

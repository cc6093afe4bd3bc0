//! A running program with its pipes. Threads send and receive, so that neither the program nor the test waits for the
//! other for ever.

use crate::shown::bytes;
use crate::system::unread;
use std::ffi::OsStr;
use std::io::{self, Read, Write};
use std::os::fd::AsRawFd;
use std::path::Path;
use std::process::{Child, ChildStdin, Command, ExitStatus, Stdio};
use std::sync::mpsc::{channel, Receiver, RecvTimeoutError, Sender};
use std::thread;
use std::time::{Duration, Instant};

const PIECE: usize = 1 << 16;

/// The bytes of a small piece.
pub const SMALL: usize = 900;

/// Starts a program by its words. So long without a byte counts as a hang.
pub struct Runner {
    words: Vec<String>,
    pub timeout: Duration,
}

/// Whether a piece is sent as soon as the pipe takes it, or only when the program has read the one before it.
#[derive(Clone, Copy, PartialEq)]
pub enum Pace {
    Free,
    Drained,
}

/// What a program gave between two moments.
enum Received {
    Bytes(Vec<u8>),
    End,
    Nothing,
}

/// What was left when a program ended.
pub struct Ended {
    pub output: Vec<u8>,
    pub told: Vec<u8>,
    pub status: ExitStatus,
}

pub struct Program {
    child: Child,
    input: Option<Sender<Vec<u8>>>,
    output: Receiver<Vec<u8>>,
    told: Receiver<Vec<u8>>,
    timeout: Duration,
}

impl Runner {
    /// Of a command of words that are parted by spaces.
    pub fn new(command: &str, seconds: u64) -> Runner {
        let words = command.split_whitespace().map(String::from).collect();
        Runner { words, timeout: Duration::from_secs(seconds) }
    }

    /// A program of its own, with one more argument where one is given.
    pub fn start(&self, argument: Option<&Path>, pace: Pace) -> Result<Program, String> {
        let arguments = self.words.iter().skip(1).map(OsStr::new).chain(argument.map(Path::as_os_str));
        let mut child = Command::new(self.words.first().ok_or("no program is named")?)
            .args(arguments)
            .stdin(Stdio::piped())
            .stdout(Stdio::piped())
            .stderr(Stdio::piped())
            .spawn()
            .map_err(|error| format!("{}: {error}", self.words[0]))?;
        let (input, pieces) = channel();
        let (pipe, timeout) = (child.stdin.take().expect("a pipe"), self.timeout);
        thread::spawn(move || send_all(pipe, pieces, pace, timeout));
        let output = receiver(child.stdout.take().expect("a pipe"));
        let told = receiver(child.stderr.take().expect("a pipe"));
        Ok(Program { child, input: Some(input), output, told, timeout })
    }
}

/// Sends the pieces until there are no more, or nobody takes them.
fn send_all(mut pipe: ChildStdin, pieces: Receiver<Vec<u8>>, pace: Pace, timeout: Duration) {
    for piece in pieces {
        let sent = pipe.write_all(&piece).and_then(|()| match pace {
            Pace::Free => Ok(()),
            Pace::Drained => wait_until_read(&pipe, timeout),
        });
        if sent.is_err() {
            return;
        }
    }
}

/// Waits until nothing is left in a pipe.
pub fn wait_until_read(pipe: &impl AsRawFd, timeout: Duration) -> io::Result<()> {
    let deadline = Instant::now() + timeout;
    while unread(pipe)? > 0 {
        if Instant::now() > deadline {
            return Err(io::ErrorKind::TimedOut.into());
        }
        thread::sleep(Duration::from_micros(20));
    }
    Ok(())
}

/// The bytes of a stream as they come. At its end the channel is closed.
fn receiver(mut stream: impl Read + Send + 'static) -> Receiver<Vec<u8>> {
    let (sender, receiver) = channel();
    thread::spawn(move || {
        let mut piece = vec![0; PIECE];
        while let Ok(count @ 1..) = stream.read(&mut piece) {
            if sender.send(piece[..count].to_vec()).is_err() {
                return;
            }
        }
    });
    receiver
}

impl Program {
    pub fn send(&self, piece: &[u8]) {
        // a program that has ended takes nothing, which its output shows
        let _ = self.input.as_ref().map(|input| input.send(piece.to_vec()));
    }

    /// Receives up to the first wrong byte or the last expected one, and returns what came otherwise.
    pub fn expect(&mut self, expected: &[u8]) -> Result<(), (&'static str, Vec<u8>)> {
        let mut received = Vec::new();
        while received.len() < expected.len() {
            let piece = match receive(&self.output, self.timeout) {
                Received::Bytes(piece) => piece,
                Received::End => return Err(("the program ends", received)),
                Received::Nothing => return Err(("no answer in time", received)),
            };
            let same = expected[received.len()..].starts_with(&piece);
            received.extend(piece);
            if !same {
                return Err(("difference", received));
            }
        }
        Ok(())
    }

    /// Ends the program's input and waits for its end.
    pub fn finish(mut self) -> Result<Ended, String> {
        self.input = None;
        let output = collect(&self.output, self.timeout)?;
        let told = collect(&self.told, self.timeout)?;
        let deadline = Instant::now() + self.timeout;
        loop {
            if let Some(status) = self.child.try_wait().map_err(|error| error.to_string())? {
                return Ok(Ended { output, told, status });
            }
            if Instant::now() > deadline {
                return Err("the program does not end".to_string());
            }
            thread::sleep(Duration::from_micros(200));
        }
    }
}

impl Drop for Program {
    fn drop(&mut self) {
        let _ = self.child.kill();
        let _ = self.child.wait();
    }
}

fn receive(pieces: &Receiver<Vec<u8>>, timeout: Duration) -> Received {
    match pieces.recv_timeout(timeout) {
        Ok(piece) => Received::Bytes(piece),
        Err(RecvTimeoutError::Disconnected) => Received::End,
        Err(RecvTimeoutError::Timeout) => Received::Nothing,
    }
}

/// All that comes until the end.
fn collect(pieces: &Receiver<Vec<u8>>, timeout: Duration) -> Result<Vec<u8>, String> {
    let mut all = Vec::new();
    loop {
        match receive(pieces, timeout) {
            Received::Bytes(piece) => all.extend(piece),
            Received::End => return Ok(all),
            Received::Nothing => return Err(format!("the program does not end with its input, after {}", bytes(&all))),
        }
    }
}

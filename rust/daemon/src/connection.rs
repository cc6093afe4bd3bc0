//! One connection: the bytes that have arrived and are not taken yet, and those that are not sent yet.

use crate::archive::{Framing, Whole, ROOM};
use crate::system::Event;
use std::io::{ErrorKind, Read, Write};
use std::os::unix::net::UnixStream;

/// The most bytes that are read at once; and with so many bytes of answers that are not sent yet, no more requests are taken.
const READ_AT_ONCE: usize = 65_536;
const MOST_UNSENT: usize = 1 << 20;

pub struct Connection {
    stream: UnixStream,
    pub user: u32,
    pub room: usize,
    pub framing: Framing,
    input: Box<[u8]>,
    arrived: usize,
    taken: usize,
    output: Vec<u8>,
    sent: usize,
    /// There may be bytes to read.
    readable: bool,
    /// The client sends no more than what is to be read.
    closing: bool,
    /// All that it has sent is read.
    ended: bool,
    /// The connection can't be used any more.
    broken: bool,
    /// A change that waits for the commit in hand.
    pub waiting: Option<Whole>,
    /// How many answers wait for a commit, and their bytes.
    held: usize,
    held_bytes: usize,
}

impl Connection {
    pub fn new(stream: UnixStream, user: u32) -> Connection {
        Connection {
            stream,
            user,
            room: ROOM,
            framing: Framing::new(),
            input: vec![0; READ_AT_ONCE].into(),
            arrived: 0,
            taken: 0,
            output: Vec::new(),
            sent: 0,
            readable: true,
            closing: false,
            ended: false,
            broken: false,
            waiting: None,
            held: 0,
            held_bytes: 0,
        }
    }

    /// Something has changed.
    pub fn hear(&mut self, event: &Event) {
        self.readable |= event.readable();
        self.closing |= event.closing();
    }

    /// Whether there may be more to read.
    pub fn has_more(&self) -> bool {
        self.readable && !self.ended
    }

    /// The next request of the bytes that have arrived.
    pub fn next_request(&mut self) -> Option<Whole> {
        if let Some(waiting) = self.waiting.take() {
            return Some(waiting);
        }
        if self.taken == self.arrived {
            return None;
        }
        let whole = self.framing.advance(&self.input[..self.arrived], self.taken);
        self.taken = whole.as_ref().map_or(self.arrived, |whole| whole.next);
        whole
    }

    /// Reads once; whether bytes have come.
    pub fn fill(&mut self) -> bool {
        if !self.has_more() || self.broken {
            return false;
        }
        let came = self.stream.read(&mut self.input);
        let count = *came.as_ref().unwrap_or(&0);
        self.taken = 0;
        self.arrived = count;
        self.readable = count == READ_AT_ONCE || (self.closing && count > 0);
        match came {
            Ok(0) => self.ended = true,
            Ok(_) => (),
            Err(error) if error.kind() == ErrorKind::WouldBlock => (),
            Err(error) if error.kind() == ErrorKind::Interrupted => self.readable = true,
            Err(_) => self.broken = true,
        }
        count > 0
    }

    /// Whether so many answers are not sent yet that there is no room for more.
    pub fn is_slow(&self) -> bool {
        self.output.len() - self.sent + self.held_bytes > MOST_UNSENT
    }

    /// Whether answers wait for a commit, so that later ones have to wait behind them.
    pub fn holds(&self) -> bool {
        self.held > 0
    }

    /// An answer waits for a commit.
    pub fn hold(&mut self, answer: &[u8]) {
        self.held += 1;
        self.held_bytes += answer.len();
    }

    /// An answer that waited for a commit, and what is answered after it.
    pub fn release(&mut self, held: &[u8], answer: &[u8]) {
        self.held -= 1;
        self.held_bytes -= held.len();
        self.answer(answer);
    }

    pub fn answer(&mut self, answer: &[u8]) {
        self.output.extend_from_slice(answer);
    }

    /// Sends what there is room for.
    pub fn flush(&mut self) {
        while self.sent < self.output.len() && !self.broken {
            match self.stream.write(&self.output[self.sent..]) {
                Ok(count) => self.sent += count,
                Err(error) if error.kind() == ErrorKind::WouldBlock => return self.forget_sent(),
                Err(error) if error.kind() == ErrorKind::Interrupted => (),
                Err(_) => self.broken = true,
            }
        }
        self.output.clear();
        self.sent = 0;
    }

    /// Lets go of what is sent, where that is the greater part: a client that reads all the time may never have taken everything.
    fn forget_sent(&mut self) {
        if self.sent > self.output.len() / 2 {
            self.output.drain(..self.sent);
            self.sent = 0;
        }
    }

    /// Whether there is nothing left to do for it.
    pub fn is_over(&self) -> bool {
        let all_sent = self.output.is_empty() && !self.holds();
        let all_taken = self.waiting.is_none() && self.taken == self.arrived;
        self.broken || (self.ended && all_sent && all_taken)
    }
}

//! One connection of the loader: it sends a piece of requests, and the next when all of it is answered.

use std::error::Error;
use std::io::{ErrorKind, Read, Write};
use std::os::unix::net::UnixStream;

/// What is sent: pieces of requests in turn, and how an answer ends.
pub enum Workload {
    Day,
    Edit,
    Get,
    Set(usize),
}

impl Workload {
    pub fn named(name: &str, length: usize) -> Result<Workload, Box<dyn Error>> {
        match name {
            "day" => Ok(Workload::Day),
            "edit" => Ok(Workload::Edit),
            "get" => Ok(Workload::Get),
            "set" => Ok(Workload::Set(length)),
            _ => Err("no such workload".into()),
        }
    }

    /// The request of a number, of one connection. Redis is asked for, and told, a thousand keys.
    fn request(&self, connection: usize, number: usize) -> Vec<u8> {
        let day = (number * 1_597 + connection * 389) % 4000 + 1;
        let key = format!("key:{:06}", day % 1000);
        match self {
            Workload::Day => format!("day\t{day}\n").into_bytes(),
            Workload::Edit if number.is_multiple_of(2) => format!("enter\t{}\t7\t{day}\t4000\tG\t2\n", 60_000 + connection).into_bytes(),
            Workload::Edit => format!("strike\t{}\n", 60_000 + connection).into_bytes(),
            Workload::Get => format!("*2\r\n$3\r\nGET\r\n$10\r\n{key}\r\n").into_bytes(),
            Workload::Set(length) => {
                format!("*3\r\n$3\r\nSET\r\n$10\r\n{key}\r\n${length}\r\n{}\r\n", "7".repeat(*length)).into_bytes()
            }
        }
    }

    /// How many lines an answer has.
    fn lines(&self) -> usize {
        if matches!(self, Workload::Get) { 2 } else { 1 }
    }
}

pub struct Talk {
    stream: UnixStream,
    pieces: Vec<Vec<u8>>,
    next: usize,
    at_once: usize,
    lines: usize,
    waiting: usize,
    pub answered: usize,
    pub bytes: usize,
    buffer: Vec<u8>,
}

impl Talk {
    pub fn new(stream: UnixStream, workload: &Workload, connection: usize, at_once: usize) -> Talk {
        let pieces = if at_once == 1 { 512 } else { 8 };
        let request = |number| workload.request(connection, number);
        let pieces = (0..pieces).map(|piece| (0..at_once).flat_map(|at| request(piece * at_once + at)).collect()).collect();
        let lines = workload.lines();
        Talk { stream, pieces, next: 0, at_once, lines, waiting: 0, answered: 0, bytes: 0, buffer: vec![0; 1 << 18] }
    }

    /// Takes the answers that have come, and sends the next piece where all have.
    pub fn go_on(&mut self) -> Result<(), Box<dyn Error>> {
        loop {
            if self.waiting == 0 {
                let piece = &self.pieces[self.next % self.pieces.len()];
                self.next += 1;
                self.stream.write_all(piece)?;
                self.waiting = self.at_once * self.lines;
            }
            match self.stream.read(&mut self.buffer) {
                Ok(0) => return Err("the server ended the connection".into()),
                Ok(count) => self.take(count),
                Err(error) if error.kind() == ErrorKind::WouldBlock => return Ok(()),
                Err(error) => return Err(error.into()),
            }
        }
    }

    fn take(&mut self, count: usize) {
        let ends = self.buffer[..count].iter().filter(|&&b| b == b'\n').count();
        self.waiting -= ends;
        self.bytes += count;
        if self.waiting == 0 {
            self.answered += self.at_once;
        }
    }
}

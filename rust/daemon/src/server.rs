//! The loop that owns the blocks. It answers questions from the live state, carries changes out on a working copy, and makes what they gave the
//! state when their commit has ended.

use crate::archive::{Allowed, Came, Lent, State, Whole, PUBLISH, READ};
use crate::committer::{Committer, Work};
use crate::connection::Connection;
use crate::journal::{Change, Head, Snapshot, ROWS_A_SNAPSHOT};
use crate::patience::Patience;
use crate::sqlite::Failure;
use crate::status::Status;
use crate::system::{self, Poll};
use crate::time;
use std::collections::HashMap;
use std::io::{self, ErrorKind, Read, Write};
use std::mem::take;
use std::os::fd::AsRawFd;
use std::os::unix::net::{UnixListener, UnixStream};

const LISTENER: u64 = 0;
const WOKEN: u64 = 1;
const ENDING: u64 = 2;
const FIRST_CONNECTION: u64 = 3;

/// The most changes of one commit.
const MOST_CHANGES: usize = 4096;

const UNAVAILABLE: &[u8] = b"unavailable\n";
const DENIED: &[u8] = b"denied\n";

/// An answer that waits for a commit. A certain one stands whether that is made or not.
struct Held {
    connection: u64,
    answer: Vec<u8>,
    certain: bool,
}

/// The changes of one commit, with the answers that wait for it and the connections to go on with after it.
#[derive(Default)]
struct Batch {
    changes: Vec<Change>,
    held: Vec<Held>,
    /// The published list may have changed.
    publishes: bool,
}

pub struct Server {
    poll: Poll,
    patience: Patience,
    listener: UnixListener,
    committer: Committer,
    woken: UnixStream,
    ending: UnixStream,
    limit: usize,
    connections: HashMap<u64, Connection>,
    next: u64,
    /// Connections to go on with in this pass, and those to write to at its end.
    ready: Vec<u64>,
    touched: Vec<u64>,
    /// Connections whose next request waits for the end of a commit.
    parked: Vec<u64>,
    /// What is committed, what the commit in hand makes of it, and what the changes since then make of that.
    live: State,
    handed: State,
    working: State,
    lent: Lent,
    head: Head,
    batch: Batch,
    committing: Option<Batch>,
    status: Status,
    over: bool,
}

/// What a server is made of.
pub struct Parts {
    pub listener: UnixListener,
    pub committer: Committer,
    pub woken: UnixStream,
    pub ending: UnixStream,
    pub limit: usize,
    pub state: State,
    pub head: Head,
}

impl Server {
    pub fn new(parts: Parts) -> io::Result<Server> {
        let poll = Poll::new()?;
        parts.listener.set_nonblocking(true)?;
        parts.woken.set_nonblocking(true)?;
        parts.ending.set_nonblocking(true)?;
        poll.add(parts.listener.as_raw_fd(), LISTENER)?;
        poll.add(parts.woken.as_raw_fd(), WOKEN)?;
        poll.add(parts.ending.as_raw_fd(), ENDING)?;
        Ok(Server {
            poll,
            patience: Patience::new(),
            listener: parts.listener,
            committer: parts.committer,
            woken: parts.woken,
            ending: parts.ending,
            limit: parts.limit,
            connections: HashMap::new(),
            next: FIRST_CONNECTION,
            ready: Vec::new(),
            touched: Vec::new(),
            parked: Vec::new(),
            handed: parts.state.clone(),
            working: parts.state.clone(),
            live: parts.state,
            lent: Lent::new(),
            head: parts.head,
            batch: Batch::default(),
            committing: None,
            status: Status::default(),
            over: false,
        })
    }

    /// Serves until it is told to end.
    pub fn serve(&mut self) -> Result<(), String> {
        while !self.over {
            self.look()?;
            for connection in take(&mut self.ready) {
                self.go_on(connection);
            }
            self.commit();
            self.send();
        }
        self.end()
    }

    /// Takes in what has changed.
    fn look(&mut self) -> Result<(), String> {
        let mut heard = [false; FIRST_CONNECTION as usize];
        let found = match self.ready.is_empty() {
            true => self.patience.wait(&mut self.poll, self.committing.is_some()),
            false => self.poll.look(),
        };
        let found = found.map_err(|error| format!("epoll: {error}"))?;
        for event in self.poll.found(found) {
            let token = event.token;
            if token < FIRST_CONNECTION {
                heard[token as usize] = true;
            } else if let Some(connection) = self.connections.get_mut(&token) {
                connection.hear(event);
                self.ready.push(token);
            }
        }
        if heard[LISTENER as usize] {
            self.accept();
        }
        if heard[WOKEN as usize] {
            drain(&mut self.woken);
            if let Some(came) = self.committer.ended()? {
                self.commit_ended(came)?;
            }
        }
        self.over = heard[ENDING as usize] && drain(&mut self.ending);
        Ok(())
    }

    // ---- Connections

    fn accept(&mut self) {
        loop {
            match self.listener.accept() {
                Ok((stream, _)) => {
                    if let Err(error) = self.admit(stream) {
                        system::tell(&format!("a connection can't be taken: {error}"));
                    }
                }
                Err(error) if error.kind() == ErrorKind::WouldBlock => return,
                Err(error) if error.kind() == ErrorKind::Interrupted => (),
                Err(error) => return system::tell(&format!("a connection can't be taken: {error}")),
            }
        }
    }

    fn admit(&mut self, mut stream: UnixStream) -> io::Result<()> {
        stream.set_nonblocking(true)?;
        let user = system::peer(&stream)?;
        if self.connections.len() >= self.limit {
            // one more than may be: it is told so, where it listens
            let _ = stream.write(UNAVAILABLE);
            return Ok(());
        }
        let token = self.next;
        self.next += 1;
        self.poll.add(stream.as_raw_fd(), token)?;
        self.connections.insert(token, Connection::new(stream, user));
        Ok(())
    }

    /// Carries out the requests that a connection has sent, in their order: those of one read, so that each has its turn.
    fn go_on(&mut self, token: u64) {
        let mut filled = false;
        while let Some(connection) = self.connections.get_mut(&token) {
            if connection.is_slow() {
                break;
            }
            if let Some(request) = connection.next_request() {
                if !self.carry_out(token, request) {
                    break;
                }
            } else if filled {
                if connection.has_more() {
                    self.ready.push(token);
                }
                break;
            } else if connection.fill() {
                filled = true;
            } else {
                break;
            }
        }
        self.touched.push(token);
    }

    /// Sends what there is to send, once for each connection, and lets go of those that are over.
    fn send(&mut self) {
        for token in take(&mut self.touched) {
            let Some(connection) = self.connections.get_mut(&token) else { continue };
            let slow = connection.is_slow();
            connection.flush();
            if connection.is_over() {
                self.connections.remove(&token);
                self.accept();
            } else if slow && !connection.is_slow() {
                self.ready.push(token);
            }
        }
    }

    // ---- Requests

    /// Carries a request out; false where it has to wait for the end of a commit.
    fn carry_out(&mut self, token: u64, request: Whole) -> bool {
        let Some(connection) = self.connections.get_mut(&token) else { return false };
        let line = connection.framing.line(&request);
        let payload = connection.framing.payload(&request);
        if line == b"status\n" {
            if connection.holds() {
                return self.park(token, request);
            }
            let text = self.status.shown(&mut self.lent, &mut self.live, &self.head, self.connections.len());
            self.give(token, text.into_bytes(), true);
            return true;
        }
        let state = if connection.holds() { &mut self.working } else { &mut self.live };
        let word = match self.lent.request(state, connection.room, Allowed::Reading, line, payload) {
            Came::Answered { word, room, answer, .. } => {
                connection.room = room;
                if connection.holds() {
                    let answer = answer.to_vec();
                    self.give(token, answer, word < READ);
                } else {
                    connection.answer(answer);
                }
                return true;
            }
            Came::HeldBack { word } => word,
        };
        if word == READ && connection.user != 0 && connection.user != system::own_user() {
            self.give(token, DENIED.to_vec(), true);
            return true;
        }
        if self.batch.changes.len() >= MOST_CHANGES {
            return self.park(token, request);
        }
        self.change(token, &request);
        true
    }

    /// Lets a request wait for the end of a commit, and those behind it.
    fn park(&mut self, token: u64, request: Whole) -> bool {
        if let Some(connection) = self.connections.get_mut(&token) {
            connection.waiting = Some(request);
            self.parked.push(token);
        }
        false
    }

    /// Carries out a request that may change the state, on the working copy.
    fn change(&mut self, token: u64, request: &Whole) {
        let Some(connection) = self.connections.get_mut(&token) else { return };
        let line = connection.framing.line(request);
        let payload = connection.framing.payload(request);
        let Came::Answered { word, changed, answer, .. } =
            self.lent.request(&mut self.working, connection.room, Allowed::Everything, line, payload)
        else {
            return;
        };
        let answer = answer.to_vec();
        if changed {
            let request = [line, payload].concat();
            self.batch.changes.push(Change {
                time: time::now(),
                user: connection.user,
                request,
                answer: answer.clone(),
            });
            self.batch.publishes |= word == PUBLISH || word == READ;
        }
        if self.batch.changes.is_empty() && self.committing.is_none() {
            connection.answer(&answer);
        } else {
            self.hold(token, answer, false);
        }
    }

    /// An answer in its turn: behind those of its connection that wait for a commit.
    fn give(&mut self, token: u64, answer: Vec<u8>, certain: bool) {
        let Some(connection) = self.connections.get_mut(&token) else { return };
        if connection.holds() {
            self.hold(token, answer, certain);
        } else {
            connection.answer(&answer);
        }
    }

    /// Lets an answer wait for the last commit that it rests on: the one to come, or where that has no change yet the one in hand.
    fn hold(&mut self, token: u64, answer: Vec<u8>, certain: bool) {
        let Some(connection) = self.connections.get_mut(&token) else { return };
        connection.hold(&answer);
        let batch = match &mut self.committing {
            Some(batch) if self.batch.changes.is_empty() => batch,
            _ => &mut self.batch,
        };
        batch.held.push(Held { connection: token, answer, certain });
    }

    // ---- Commits

    /// Hands the changes since the last commit over, where none is in hand.
    fn commit(&mut self) {
        if self.committing.is_some() || self.batch.changes.is_empty() {
            return;
        }
        let mut batch = take(&mut self.batch);
        let changes = take(&mut batch.changes);
        let after = self.head.sequence + changes.len() as i64;
        let due = after / ROWS_A_SNAPSHOT > self.head.sequence / ROWS_A_SNAPSHOT;
        let snapshot = due.then(|| Snapshot::of(&self.working));
        self.handed.follow(&self.working, batch.publishes);
        self.committer.commit(Work { changes, snapshot });
        self.committing = Some(batch);
    }

    fn commit_ended(&mut self, came: Result<Head, Failure>) -> Result<(), String> {
        let Some(mut batch) = self.committing.take() else { return Ok(()) };
        let made = match came {
            Ok(head) => {
                self.head = head;
                self.live.follow(&self.handed, batch.publishes);
                true
            }
            Err(failure) if failure.nothing_written() => {
                system::tell(&format!("nothing was written, and the changes are answered `unavailable`: {failure}"));
                self.drop_later(&mut batch);
                false
            }
            Err(failure) => {
                return Err(format!(
                    "the journal may or may not have the last changes, which nobody was answered: {failure}"
                ))
            }
        };
        for held in batch.held {
            if let Some(connection) = self.connections.get_mut(&held.connection) {
                let answer = if made || held.certain { &held.answer } else { UNAVAILABLE };
                connection.release(&held.answer, answer);
                self.ready.push(held.connection);
            }
        }
        self.ready.append(&mut self.parked);
        self.ready.sort_unstable();
        self.ready.dedup();
        Ok(())
    }

    /// Takes back to the live state what was carried out since: the changes of a commit that was not made, and those that were made on them.
    fn drop_later(&mut self, batch: &mut Batch) {
        let later = take(&mut self.batch);
        batch.held.extend(later.held);
        self.handed.follow(&self.live, batch.publishes);
        self.working.follow(&self.live, batch.publishes || later.publishes);
    }

    /// Ends the commit in hand and the one to come, answers what they were for, and keeps the words for the next start.
    fn end(&mut self) -> Result<(), String> {
        while self.committing.is_some() {
            let came = self.committer.await_end().ok_or("the committing thread has failed")?;
            self.commit_ended(came)?;
            self.commit();
        }
        for connection in self.connections.values_mut() {
            connection.flush();
        }
        if self.head.sequence > 0 {
            self.committer.commit(Work { changes: Vec::new(), snapshot: Some(Snapshot::of(&self.live)) });
            if let Some(Err(failure)) = self.committer.await_end() {
                system::tell(&format!("the words are not kept, and the next start takes longer: {failure}"));
            }
        }
        Ok(())
    }
}

/// Takes the bytes that wake; whether there was one.
fn drain(woken: &mut UnixStream) -> bool {
    woken.read(&mut [0; 64]).is_ok_and(|count| count > 0)
}

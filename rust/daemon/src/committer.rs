//! The thread that commits: it is handed the changes of a pass, writes them in one commit, and says how that went.

use crate::journal::{Change, Head, Journal, Snapshot};
use crate::sqlite::Failure;
use std::io::Write;
use std::os::unix::net::UnixStream;
use std::sync::mpsc::{channel, Receiver, Sender, TryRecvError};
use std::thread::{self, JoinHandle};

/// Changes to commit together, and the words after them where it is time to keep them.
pub struct Work {
    pub changes: Vec<Change>,
    pub snapshot: Option<Snapshot>,
}

pub struct Committer {
    work: Option<Sender<Work>>,
    done: Receiver<Result<Head, Failure>>,
    thread: Option<JoinHandle<()>>,
}

impl Committer {
    /// Begins after a head. A byte is written to `woken` with each commit's end.
    pub fn start(mut journal: Journal, mut head: Head, mut woken: UnixStream) -> Committer {
        let (work, given) = channel::<Work>();
        let (tell, done) = channel();
        let thread = thread::spawn(move || {
            for work in given {
                let came = journal.append(&head, &work.changes, work.snapshot.as_ref());
                if let Ok(after) = &came {
                    head = *after;
                }
                // where nobody listens any more the program is at its end
                let _ = tell.send(came);
                let _ = woken.write_all(&[1]);
            }
        });
        Committer { work: Some(work), done, thread: Some(thread) }
    }

    pub fn commit(&self, work: Work) {
        let given = self.work.as_ref().is_some_and(|to| to.send(work).is_ok());
        assert!(given, "the committing thread runs");
    }

    /// How the commit in hand went, where it has ended; an error where no commit will end any more.
    pub fn ended(&self) -> Result<Option<Result<Head, Failure>>, String> {
        match self.done.try_recv() {
            Ok(came) => Ok(Some(came)),
            Err(TryRecvError::Empty) => Ok(None),
            Err(TryRecvError::Disconnected) => Err("the committing thread has failed".to_string()),
        }
    }

    /// Waits for the end of the commit in hand.
    pub fn await_end(&self) -> Option<Result<Head, Failure>> {
        self.done.recv().ok()
    }
}

/// The journal is closed as a database should be.
impl Drop for Committer {
    fn drop(&mut self) {
        self.work.take();
        if let Some(thread) = self.thread.take() {
            // where it failed there is nothing left to close
            let _ = thread.join();
        }
    }
}

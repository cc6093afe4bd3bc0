//! The journal: an SQLite database that keeps every change, in order, with its time, its user and its answer, and from time to time the
//! service's words. A checksum is chained over the rows, since a byte changed inside a row passes SQLite's own test.

use crate::archive::{self, State, Words, SERVICE_WORDS};
use crate::sha256::{sum, Sum};
use crate::sqlite::{Database, Failure, Open};
use crate::system::tell;
use crate::write_ahead::{self, Log};
use std::fs::{self, File};
use std::io::{self, BufReader, ErrorKind, Read};
use std::os::unix::fs::MetadataExt;
use std::path::{Path, PathBuf};

/// What marks a database as a journal of this program.
const APPLICATION: i64 = 0x5068_796B;
/// The version of the tables.
const TABLES: i64 = 1;
/// The checksum before the first row.
const FIRST: Sum = [0; 32];

/// So many rows after one, the words are kept again.
pub const ROWS_A_SNAPSHOT: i64 = 4096;

const MAKE: &str = "
    CREATE TABLE journal (
        sequence INTEGER PRIMARY KEY, time INTEGER NOT NULL, user INTEGER NOT NULL,
        request BLOB NOT NULL, answer BLOB NOT NULL, checksum BLOB NOT NULL);
    CREATE TABLE snapshot (
        sequence INTEGER PRIMARY KEY, words BLOB NOT NULL, published BLOB NOT NULL,
        publish BLOB NOT NULL, checksum BLOB NOT NULL);
    CREATE TABLE head (
        one INTEGER PRIMARY KEY CHECK (one = 1), sequence INTEGER NOT NULL, checksum BLOB NOT NULL);";

/// A change: when it was made, by which user, what was asked and what was answered.
#[derive(Clone)]
pub struct Change {
    pub time: i64,
    pub user: u32,
    pub request: Vec<u8>,
    pub answer: Vec<u8>,
}

/// A row of the journal.
pub struct Row {
    pub sequence: i64,
    pub change: Change,
}

/// The place in the journal up to which it is known.
#[derive(Clone, Copy)]
pub struct Head {
    pub sequence: i64,
    pub time: i64,
    checksum: Sum,
}

/// Words to keep with the last row of a commit.
pub struct Snapshot {
    pub words: Box<Words>,
    pub published: Box<Words>,
    /// The request of the last publish.
    pub publish: Vec<u8>,
}

impl Snapshot {
    pub fn of(state: &State) -> Snapshot {
        Snapshot {
            words: Box::new(*state.words()),
            published: Box::new(*state.published()),
            publish: state.publish().to_vec(),
        }
    }
}

pub struct Journal {
    database: Database,
    /// The files that changes are written to.
    files: Vec<Written>,
}

/// A file by its path, and by its device and its number there.
struct Written {
    path: PathBuf,
    is: (u64, u64),
}

impl Written {
    fn at(path: PathBuf) -> io::Result<Written> {
        let found = fs::metadata(&path)?;
        Ok(Written { path, is: (found.dev(), found.ino()) })
    }

    /// SQLite goes on writing to a file that was removed, or that another was put in the place of.
    fn check(&self) -> Result<(), Failure> {
        match fs::metadata(&self.path) {
            Ok(found) if (found.dev(), found.ino()) != self.is => Err(Failure::moved(&self.path)),
            Err(error) if error.kind() == ErrorKind::NotFound => Err(Failure::moved(&self.path)),
            _ => Ok(()),
        }
    }
}

/// Why a journal can't be used, in a sentence.
pub type Refusal = String;

fn failed(what: &str) -> impl Fn(Failure) -> Refusal + '_ {
    move |failure| format!("{what}: {failure}")
}

/// The file of the journal in a folder.
pub fn file_in(folder: &Path) -> PathBuf {
    folder.join("journal.db")
}

/// SQLite's write-ahead log of a database; where its path is a link, it is beside the file itself.
fn log_of(database: &Path) -> PathBuf {
    let mut name = fs::canonicalize(database).unwrap_or_else(|_| database.to_path_buf()).into_os_string();
    name.push("-wal");
    name.into()
}

/// The bytes of a page of a database, as its header tells them: 1 stands for the most.
fn page_of(database: &Path) -> usize {
    let mut header = [0; 18];
    let told = File::open(database).and_then(|mut file| file.read_exact(&mut header));
    match u16::from_be_bytes([header[16], header[17]]) {
        1 => 65_536,
        page if told.is_ok() && page.is_power_of_two() => page.into(),
        _ => 4096,
    }
}

fn look_at_log(database: &Path, log: &Path) -> Result<Log, Refusal> {
    let failed = |error: io::Error| format!("{}: {error}", log.display());
    match File::open(log) {
        Ok(file) => write_ahead::look(BufReader::with_capacity(1 << 16, file), page_of(database)).map_err(failed),
        Err(error) if error.kind() == ErrorKind::NotFound => Ok(Log::Whole),
        Err(error) => Err(failed(error)),
    }
}

/// Sees that SQLite will pass over no commit of the write-ahead log that was acknowledged. Whether the last one, which may not have been, is not whole.
fn check_log(database: &Path) -> Result<bool, Refusal> {
    let log = log_of(database);
    let is_empty = |file: &Path| fs::metadata(file).map_or(true, |file| file.len() == 0);
    // SQLite would remove the log
    if is_empty(database) && !is_empty(&log) {
        return Err(format!("{} is damaged: it is missing or empty, beside a write-ahead log", database.display()));
    }
    let mut before = None;
    loop {
        match look_at_log(database, &log)? {
            Log::Whole => return Ok(false),
            Log::Cut => return Ok(true),
            // a service that runs may write the log anew while it is looked at: damage is found there again
            Log::Damaged(place) if before.as_ref() != Some(&place) => before = Some(place),
            Log::Damaged(_) => {
                let shown = log.display();
                return Err(format!("{shown} is damaged: commits that were acknowledged can't be read any more"));
            }
        }
    }
}

impl Journal {
    /// The journal of a folder to write to; made where there is none.
    pub fn open(folder: &Path) -> Result<Journal, Refusal> {
        let path = file_in(folder);
        if check_log(&path)? {
            let log = log_of(&path);
            tell(&format!("{} ends with a commit that is not whole, and is passed over", log.display()));
        }
        let fresh = fs::metadata(&path).map_or(true, |file| file.len() == 0);
        let how = if fresh { Open::OrCreate } else { Open::ToWrite };
        let journal = Journal::at(&path, how)?;
        if journal.is_empty()? {
            journal.make()?;
        }
        journal.check_versions()?;
        Ok(journal)
    }

    /// Makes a journal that was found whole ready for changes: each commit goes to the write-ahead log, and is synchronised before it ends.
    pub fn make_ready(&mut self, folder: &Path) -> Result<(), Refusal> {
        // a copy may be of another mode, in which a loss of power can take a commit back that has ended
        let mode = self.mode("PRAGMA journal_mode = WAL").map_err(failed("journal.db"))?;
        if mode != "wal" {
            return Err(format!("journal.db can't have a write-ahead log: its mode is {mode}"));
        }
        self.database.run("PRAGMA synchronous = FULL").map_err(failed("journal.db"))?;
        // the log begins empty: later commits rest on no frame of which it is not known that it is on the disk, and none lies behind them
        if let Err(failure) = self.database.run("PRAGMA wal_checkpoint(TRUNCATE)") {
            tell(&format!("journal.db-wal is not carried over to journal.db, and goes on: {failure}"));
        }
        let path = file_in(folder);
        let log = log_of(&path);
        let files = [path, log].map(Written::at).into_iter().collect::<io::Result<_>>();
        self.files = files.map_err(|error| format!("journal.db: {error}"))?;
        Ok(())
    }

    fn mode(&self, sql: &str) -> Result<String, Failure> {
        let mut told = self.database.prepare(sql)?;
        told.next()?;
        Ok(String::from_utf8_lossy(told.bytes(0)).into_owned())
    }

    /// The journal of a folder to read, also where nothing can be written: there SQLite needs to be told that nobody else writes either.
    pub fn open_to_read(folder: &Path) -> Result<Journal, Refusal> {
        let path = file_in(folder);
        if !path.exists() {
            return Err(format!("{} has no journal.db", folder.display()));
        }
        check_log(&path)?;
        let mut journal = Journal::at(&path, Open::ToRead)?;
        let is_closed = !log_of(&path).exists();
        let looked = journal.database.number("PRAGMA application_id");
        if is_closed && looked.is_err_and(|failure| failure.is_unopened()) {
            journal = Journal::at(&path, Open::Unwritten)?;
        }
        // rows, head and words as they are at one moment, also where a service goes on writing
        journal.database.run("BEGIN").map_err(failed("journal.db"))?;
        journal.check_versions()?;
        Ok(journal)
    }

    fn at(path: &Path, how: Open) -> Result<Journal, Refusal> {
        let shown = path.display().to_string();
        let database = Database::open(path, how).map_err(failed(&shown))?;
        database.wait_at_most(2000);
        Ok(Journal { database, files: Vec::new() })
    }

    /// Whether the database has nothing in it, as one that a program that ended at once has left.
    fn is_empty(&self) -> Result<bool, Refusal> {
        let tables = self.number("SELECT count(*) FROM sqlite_master")?;
        Ok(tables == 0 && self.number("PRAGMA application_id")? == 0)
    }

    fn number(&self, sql: &str) -> Result<i64, Refusal> {
        self.database.number(sql).map_err(|failure| match failure.is_foreign() {
            true => "journal.db is not a journal of this program: it is no database".to_string(),
            false => format!("journal.db: {failure}"),
        })
    }

    fn make(&self) -> Result<(), Refusal> {
        let version = archive::version();
        let zeros = "00".repeat(32);
        let sql = format!(
            "PRAGMA journal_mode = WAL; PRAGMA synchronous = FULL; BEGIN IMMEDIATE;
             PRAGMA application_id = {APPLICATION}; PRAGMA user_version = {}; {MAKE}
             INSERT INTO head VALUES (1, 0, x'{zeros}'); COMMIT",
            TABLES * 1000 + i64::from(version)
        );
        self.database.run(&sql).map_err(failed("journal.db can't be made"))
    }

    fn check_versions(&self) -> Result<(), Refusal> {
        if self.number("PRAGMA application_id")? != APPLICATION {
            return Err("journal.db is not a journal of this program: it is another program's database".to_string());
        }
        let stored = self.number("PRAGMA user_version")?;
        if stored != TABLES * 1000 + i64::from(archive::version()) {
            return Err(format!(
                "journal.db is of another version: tables {} with blocks {}, and this program has tables {TABLES} with blocks {}",
                stored / 1000,
                stored % 1000,
                archive::version()
            ));
        }
        Ok(())
    }

    /// The rows from the first on, each tested against the chain; what is done with each may refuse it. Gives the head.
    pub fn each(&self, mut with: impl FnMut(&Row) -> Result<(), Refusal>) -> Result<Head, Refusal> {
        let sql = "SELECT sequence, time, user, request, answer, checksum FROM journal ORDER BY sequence";
        let mut rows = self.database.prepare(sql).map_err(failed("journal.db"))?;
        let mut head = Head { sequence: 0, time: 0, checksum: FIRST };
        while rows.next().map_err(failed("journal.db"))? {
            let row = Row {
                sequence: rows.integer(0),
                change: Change {
                    time: rows.integer(1),
                    user: rows.integer(2) as u32,
                    request: rows.bytes(3).to_vec(),
                    answer: rows.bytes(4).to_vec(),
                },
            };
            if row.sequence != head.sequence + 1 {
                return Err(format!("journal.db is damaged: row {} is missing", head.sequence + 1));
            }
            let checksum = chained(&head.checksum, row.sequence, &row.change);
            if rows.bytes(5) != checksum {
                return Err(format!("journal.db is damaged: row {} is not what was written", row.sequence));
            }
            head = Head { sequence: row.sequence, time: row.change.time, checksum };
            with(&row)?;
        }
        self.check_head(&head)?;
        Ok(head)
    }

    /// The last rows can't be gone: the head is written with each commit.
    fn check_head(&self, head: &Head) -> Result<(), Refusal> {
        let mut stored = self.database.prepare("SELECT sequence, checksum FROM head").map_err(failed("journal.db"))?;
        let there = stored.next().map_err(failed("journal.db"))?;
        if !there || stored.integer(0) != head.sequence || stored.bytes(1) != head.checksum {
            return Err(format!("journal.db is damaged: its rows do not end with row {}", head.sequence));
        }
        Ok(())
    }

    /// The snapshots, each by its row's number; their checksums are those of their words.
    pub fn snapshots(&self) -> Result<Vec<(i64, Snapshot, Sum)>, Refusal> {
        let sql = "SELECT sequence, words, published, publish, checksum FROM snapshot ORDER BY sequence";
        let mut rows = self.database.prepare(sql).map_err(failed("journal.db"))?;
        let mut kept = Vec::new();
        while rows.next().map_err(failed("journal.db"))? {
            let sequence = rows.integer(0);
            let damaged =
                || format!("journal.db is damaged: the words kept at row {sequence} are not what was written");
            let words = words_of(rows.bytes(1)).ok_or_else(damaged)?;
            let published = words_of(rows.bytes(2)).ok_or_else(damaged)?;
            let publish = rows.bytes(3).to_vec();
            let checksum = Sum::try_from(rows.bytes(4)).map_err(|_| damaged())?;
            let snapshot = Snapshot { words, published, publish };
            if sum_of(sequence, &snapshot) != checksum {
                return Err(damaged());
            }
            kept.push((sequence, snapshot, checksum));
        }
        Ok(kept)
    }

    /// Writes changes in one commit, with the words after them where they are handed over. Where it fails nothing of it is kept.
    pub fn append(&mut self, head: &Head, changes: &[Change], snapshot: Option<&Snapshot>) -> Result<Head, Failure> {
        self.database.kept("BEGIN IMMEDIATE")?.carry_out()?;
        let written = self.insert(head, changes, snapshot).and_then(|head| {
            self.database.kept("COMMIT")?.carry_out()?;
            self.files.iter().try_for_each(Written::check)?;
            Ok(head)
        });
        if written.is_err() {
            // where the commit has ended the transaction already, there is nothing to take back
            let _ = self.database.run("ROLLBACK");
        }
        written
    }

    fn insert(&self, head: &Head, changes: &[Change], snapshot: Option<&Snapshot>) -> Result<Head, Failure> {
        let mut head = *head;
        let mut row = self.database.kept("INSERT INTO journal VALUES (?1, ?2, ?3, ?4, ?5, ?6)")?;
        for change in changes {
            let sequence = head.sequence + 1;
            let checksum = chained(&head.checksum, sequence, change);
            row.bind_integer(1, sequence)?;
            row.bind_integer(2, change.time)?;
            row.bind_integer(3, i64::from(change.user))?;
            row.bind_bytes(4, &change.request)?;
            row.bind_bytes(5, &change.answer)?;
            row.bind_bytes(6, &checksum)?;
            row.carry_out()?;
            head = Head { sequence, time: change.time, checksum };
        }
        let mut stored = self.database.kept("UPDATE head SET sequence = ?1, checksum = ?2")?;
        stored.bind_integer(1, head.sequence)?;
        stored.bind_bytes(2, &head.checksum)?;
        stored.carry_out()?;
        if let Some(snapshot) = snapshot {
            self.keep(head.sequence, snapshot)?;
        }
        Ok(head)
    }

    fn keep(&self, sequence: i64, snapshot: &Snapshot) -> Result<(), Failure> {
        let mut row = self.database.prepare("INSERT OR REPLACE INTO snapshot VALUES (?1, ?2, ?3, ?4, ?5)")?;
        let (words, published) = (bytes_of(&snapshot.words), bytes_of(&snapshot.published));
        let checksum = sum_of(sequence, snapshot);
        row.bind_integer(1, sequence)?;
        row.bind_bytes(2, &words)?;
        row.bind_bytes(3, &published)?;
        row.bind_bytes(4, &snapshot.publish)?;
        row.bind_bytes(5, &checksum)?;
        row.carry_out()
    }
}

/// The checksum of a row, over the one before it and all that the row has.
fn chained(before: &Sum, sequence: i64, change: &Change) -> Sum {
    let mut bytes = before.to_vec();
    for number in
        [sequence, change.time, i64::from(change.user), change.request.len() as i64, change.answer.len() as i64]
    {
        bytes.extend(number.to_le_bytes());
    }
    bytes.extend(&change.request);
    bytes.extend(&change.answer);
    sum(&bytes)
}

fn sum_of(sequence: i64, snapshot: &Snapshot) -> Sum {
    let mut bytes = sequence.to_le_bytes().to_vec();
    bytes.extend(bytes_of(&snapshot.words));
    bytes.extend(bytes_of(&snapshot.published));
    bytes.extend(&snapshot.publish);
    sum(&bytes)
}

fn bytes_of(words: &Words) -> Vec<u8> {
    words.iter().flat_map(|word| word.to_le_bytes()).collect()
}

fn words_of(bytes: &[u8]) -> Option<Box<Words>> {
    let words: Vec<u16> = bytes.chunks_exact(2).map(|pair| u16::from_le_bytes([pair[0], pair[1]])).collect();
    let whole = bytes.len() == 2 * SERVICE_WORDS;
    whole.then(|| words.into_boxed_slice().try_into().expect("so many words"))
}

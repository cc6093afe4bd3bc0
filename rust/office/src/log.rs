//! SQLite's write-ahead log as a kill leaves it. Where it is damaged nothing starts on it, since SQLite would pass over commits that were
//! acknowledged; where its last commit is cut off, as a loss of power may leave it, the service goes on with those before it.

use crate::service::{expect, Client, Place, Program};
use std::fs;
use std::os::unix::fs::symlink;
use std::process::Command;
use std::thread::{sleep, spawn};
use std::time::Duration;

/// So many changes has a log that was never carried over to the database; and so many are made while others read.
const CHANGES: u64 = 30;
const MEANWHILE: u64 = 1500;

const DAMAGED: &str = "journal.db-wal is damaged: commits that were acknowledged can't be read any more";
const CUT: &str = "journal.db-wal ends with a commit that is not whole";
const HEADER: usize = 32;
const FRAME_HEADER: usize = 24;

pub fn check(program: &Program) -> Result<String, String> {
    let [begun, carried_over, anew] = left_by(program)?;
    let mut damages = damages_of(&begun);
    damages.push(carried_over.changed(carried_over.log.len() / 2));
    damages.push(anew.changed(20));
    damages.push(anew.changed(HEADER + 100));
    for damage in &damages {
        refused(program, damage, DAMAGED)?;
    }
    refused(program, &Left { database: Vec::new(), ..begun.clone() }, "it is missing or empty")?;
    linked(program, &begun)?;
    for left in [&begun, &carried_over, &anew] {
        goes_on(program, left, left.changes, false)?;
    }
    cut_off(program, &begun)?;
    // what lies behind a log that was begun anew
    goes_on(program, &anew.changed(anew.log.len() - 100), anew.changes, false)?;
    held_up(program)?;
    let readings = read_meanwhile(program)?;
    Ok(format!(
        "{} damages are refused, a last commit that is cut off is not; {readings} readings meanwhile",
        damages.len() + 2
    ))
}

/// A database and its log.
#[derive(Clone)]
struct Left {
    database: Vec<u8>,
    log: Vec<u8>,
    changes: u64,
    told: String,
}

impl Left {
    /// The files between two changes.
    fn at(place: &Place, changes: u64) -> Result<Left, String> {
        let read = |name| fs::read(place.data().join(name)).map_err(|error| format!("{name}: {error}"));
        Ok(Left { database: read("journal.db")?, log: read("journal.db-wal")?, changes, told: String::new() })
    }

    fn write(&self, place: &Place) -> Result<(), String> {
        let failed = |error: std::io::Error| error.to_string();
        fs::create_dir_all(place.data()).map_err(failed)?;
        fs::write(place.data().join("journal.db"), &self.database).map_err(failed)?;
        fs::write(place.data().join("journal.db-wal"), &self.log).map_err(failed)
    }

    fn with_log(&self, log: Vec<u8>, told: String) -> Left {
        Left { log, told, ..self.clone() }
    }

    fn changed(&self, at: usize) -> Left {
        let mut log = self.log.clone();
        log[at] ^= 1;
        self.with_log(log, format!("byte {at} of {} is changed", self.log.len()))
    }

    fn zeroed(&self, at: usize, length: usize) -> Left {
        let mut log = self.log.clone();
        log[at..at + length].fill(0);
        self.with_log(log, format!("{length} bytes at {at} of {} are zeros", self.log.len()))
    }

    fn cut(&self, length: usize) -> Left {
        self.with_log(self.log[..length].to_vec(), format!("{length} bytes of {} are left", self.log.len()))
    }

    fn frame(&self) -> usize {
        FRAME_HEADER + usize::from(u16::from_be_bytes([self.log[10], self.log[11]]))
    }

    /// Where the frames begin that end the commits, as far as they are of one piece.
    fn ends(&self) -> Vec<usize> {
        let places = (HEADER..self.log.len()).step_by(self.frame());
        let of_this = places.take_while(|at| self.log[at + 8..at + 16] == self.log[16..24]);
        of_this.filter(|at| self.log[at + 4..at + 8] != [0; 4]).collect()
    }
}

fn change(client: &mut Client, number: u64) -> Result<(), String> {
    let request: &[u8] = if number % 2 == 1 { b"enter\t8\t7\t1\t10\tG\t2\n" } else { b"strike\t8\n" };
    expect(&format!("change {number} is refused"), client.ask(request)? == b"ok\n")
}

/// What a service leaves after some changes; when it has carried all of its log over to the database; and when it has begun the log anew.
fn left_by(program: &Program) -> Result<[Left; 3], String> {
    let place = Place::new("log");
    let service = program.start(&place)?;
    let mut client = service.connect()?;
    for number in 1..=CHANGES {
        change(&mut client, number)?;
    }
    let begun = Left::at(&place, CHANGES)?;
    expect("not every change has a commit", begun.ends().len() as u64 == CHANGES)?;
    let carried_over = until_carried_over(&place, &mut client, CHANGES)?;
    for number in 1..=5 {
        change(&mut client, carried_over.changes + number)?;
    }
    let anew = Left::at(&place, carried_over.changes + 5)?;
    let is_anew = anew.log.len() == carried_over.log.len() && anew.ends().len() == 5;
    expect("the log is not begun anew", is_anew)?;
    service.kill()?;
    Ok([begun, carried_over, anew])
}

/// Changes until the log is carried over to the database, which grows then: the files.
fn until_carried_over(place: &Place, client: &mut Client, changes: u64) -> Result<Left, String> {
    let size = || fs::metadata(place.data().join("journal.db")).map_or(0, |file| file.len());
    let before = size();
    for number in changes + 1..changes + 5000 {
        change(client, number)?;
        if size() > before {
            return Left::at(place, number);
        }
    }
    Err("the log is never carried over".to_string())
}

/// Single bytes of the header, and of the first frame, one in the midst and the last but one that ends a commit; and whole blocks.
fn damages_of(left: &Left) -> Vec<Left> {
    let (ends, frame) = (left.ends(), left.frame());
    let in_header = (0..8).map(|word| word * 4 + word % 4);
    let in_frame = [3, 7, 8, 13, 18, 23, FRAME_HEADER, frame / 2, frame - 1];
    let frames = [HEADER, ends[ends.len() / 2] - frame, ends[ends.len() - 2]];
    let bytes = in_header.chain(frames.into_iter().flat_map(|begin| in_frame.map(|at| begin + at)));
    let blocks = [0, left.log.len() / 8192 * 4096];
    bytes.map(|at| left.changed(at)).chain(blocks.map(|at| left.zeroed(at, 4096))).collect()
}

/// Neither the service nor a reader begins on it, and nothing is changed.
fn refused(program: &Program, left: &Left, told: &str) -> Result<(), String> {
    let place = Place::new("log-damaged");
    left.write(&place)?;
    refused_at(program, &place, told).map_err(|why| format!("{}: {why}", left.told))?;
    let after = Left::at(&place, 0)?;
    expect(
        &format!("{}: a file was changed", left.told),
        (after.database, after.log) == (left.database.clone(), left.log.clone()),
    )
}

fn refused_at(program: &Program, place: &Place, told: &str) -> Result<(), String> {
    let (data, socket) = (place.data().display().to_string(), place.socket().display().to_string());
    for run in
        [&["--data", &data, "--socket", &socket][..], &["verify", "--data", &data], &["history", "--data", &data]]
    {
        let (status, printed, said) = program.run(run)?;
        if status.code() != Some(1) || !said.contains(told) || !printed.is_empty() {
            return Err(format!("{run:?} ended with {status}, printed {printed:?} and told {said:?}"));
        }
    }
    Ok(())
}

/// A link to a database elsewhere: the log is beside that.
fn linked(program: &Program, left: &Left) -> Result<(), String> {
    let (place, elsewhere) = (Place::new("log-link"), Place::new("log-elsewhere"));
    left.changed(HEADER + 100).write(&elsewhere)?;
    let failed = |error: std::io::Error| error.to_string();
    fs::create_dir_all(place.data()).map_err(failed)?;
    symlink(elsewhere.data().join("journal.db"), place.data().join("journal.db")).map_err(failed)?;
    refused_at(program, &place, DAMAGED).map_err(|why| format!("by a link: {why}"))
}

/// The service begins with so many changes, and tells of a commit that is not whole or does not.
fn goes_on(program: &Program, left: &Left, changes: u64, is_told: bool) -> Result<(), String> {
    let named = |why: String| format!("{}: {why}", left.told);
    let place = Place::new("log-good");
    left.write(&place)?;
    program.verified(&place, changes).map_err(named)?;
    let service = program.start(&place).map_err(named)?;
    let mut client = service.connect()?;
    let sequence = client.status("sequence")?;
    expect(&named(format!("it begins with {sequence}, for {changes}")), sequence == changes.to_string())?;
    let log = Left::at(&place, changes)?.log;
    expect(&named("the log does not begin empty".to_string()), log.is_empty())?;
    change(&mut client, changes + 1).map_err(named)?;
    let (status, told) = service.end()?;
    expect(&named(format!("it ended with {status}: {told}")), status.success() && told.contains(CUT) == is_told)?;
    program.verified(&place, changes + 1).map_err(named)
}

/// What a loss of power may leave of the last commit, and zeros behind it.
fn cut_off(program: &Program, left: &Left) -> Result<(), String> {
    let ends = left.ends();
    let (before, last) = (ends[ends.len() - 2] + left.frame(), ends[ends.len() - 1]);
    expect("the last commit has one page", before < last)?;
    for (cut, is_told) in [
        (left.cut(left.log.len() - 1), true),
        (left.cut(last + FRAME_HEADER), true),
        (left.cut(last + 10), false),
        (left.cut(last), false),
        (left.cut(before + 10), false),
        (left.zeroed(before, last - before), true),
        (left.changed(before + 100), true),
        (left.changed(last + 100), true),
    ] {
        goes_on(program, &cut, left.changes - 1, is_told)?;
    }
    for zeros in [1, left.frame(), 100_000] {
        let log = [left.log.clone(), vec![0; zeros]].concat();
        goes_on(program, &left.with_log(log, format!("{zeros} zeros behind it")), left.changes, false)?;
    }
    Ok(())
}

/// A reader that has seen the header of a log, and is held up while that is begun anew: it looks again, and finds no damage.
fn held_up(program: &Program) -> Result<(), String> {
    let place = Place::new("log-held-up");
    let service = program.start(&place)?;
    let mut client = service.connect()?;
    let carried_over = until_carried_over(&place, &mut client, 0)?;
    let (log, trace) = (place.data().join("journal.db-wal"), place.folder().join("trace"));
    let mut command = Command::new("strace");
    command.arg("-o").arg(&trace).arg("-P").arg(&log).args(["-e", "inject=read:delay_exit=1500000:when=1"]);
    command.arg(&program.0).arg("verify").arg("--data").arg(place.data());
    let reader = spawn(move || command.output());
    let reads = || fs::read_to_string(&trace).map_or(0, |trace| trace.matches("read(").count());
    while reads() == 0 {
        expect("nothing is read", !reader.is_finished())?;
        sleep(Duration::from_millis(1));
    }
    for number in 1..=60 {
        change(&mut client, carried_over.changes + number)?;
    }
    let out =
        reader.join().map_err(|_| "the reader failed".to_string())?.map_err(|error| format!("strace: {error}"))?;
    expect("the log is not begun anew", Left::at(&place, 0)?.log[16..24] != carried_over.log[16..24])?;
    expect("the log is looked at once only", reads() > carried_over.log.len() / 65_536 * 3 / 2)?;
    expect(&format!("a reader that was held up: {}", String::from_utf8_lossy(&out.stderr)), out.status.success())
}

/// Readers while changes are made, over which the log is begun anew more than once: none takes it for damaged. How many there were.
fn read_meanwhile(program: &Program) -> Result<usize, String> {
    let place = Place::new("log-meanwhile");
    let service = program.start(&place)?;
    let mut client = service.connect()?;
    let changes = spawn(move || (1..=MEANWHILE).try_for_each(|number| change(&mut client, number)));
    let data = place.data().display().to_string();
    let mut readings = 0;
    while !changes.is_finished() {
        for command in ["verify", "history"] {
            let (status, _, told) = program.run(&[command, "--data", &data])?;
            expect(&format!("{command} beside a service that runs: {told}"), status.success())?;
            readings += 1;
        }
    }
    changes.join().map_err(|_| "the client failed".to_string())??;
    service.kill()?;
    program.verified(&place, MEANWHILE)?;
    Ok(readings)
}

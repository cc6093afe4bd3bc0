//! Journals that are damaged, forged, foreign or of another version: each is refused with a message, and nothing is changed.

use crate::rows::with_database;
use crate::service::{expect, Place, Program};
use generate::rng::Rng;
use std::fs;
use std::path::Path;

/// So many changes has the journal, and so many single bytes of it are damaged.
const CHANGES: u64 = 30;
const BYTES: usize = 12;

/// Makes all checksums anew, as the documents describe them.
const CHAIN: &str = "
import hashlib, struct
def chain(db):
    before = bytes(32)
    for n, t, u, q, a in db.execute('SELECT sequence, time, user, request, answer FROM journal ORDER BY sequence').fetchall():
        before = hashlib.sha256(before + struct.pack('<5q', n, t, u, len(q), len(a)) + q + a).digest()
        db.execute('UPDATE journal SET checksum = ? WHERE sequence = ?', (before, n))
    db.execute('UPDATE head SET sequence = ?, checksum = ?', (n, before))
";

/// What is done to the database, and what is told then.
const DAMAGES: &[(&str, &str)] = &[
    (
        "db.execute(\"UPDATE journal SET request = CAST(replace(request, 'G', 'H') AS BLOB) WHERE sequence = 7\")",
        "row 7 is not what was written",
    ),
    (
        "db.execute(\"UPDATE journal SET answer = CAST('refused' AS BLOB) WHERE sequence = 3\")",
        "row 3 is not what was written",
    ),
    ("db.execute('UPDATE journal SET user = user + 1 WHERE sequence = 5')", "row 5 is not what was written"),
    ("db.execute('UPDATE journal SET time = time + 1 WHERE sequence = 30')", "row 30 is not what was written"),
    ("db.execute('DELETE FROM journal WHERE sequence = 11')", "row 11 is missing"),
    ("db.execute('DELETE FROM journal WHERE sequence = 30')", "do not end with row 29"),
    ("db.execute('DELETE FROM journal WHERE sequence = 30'); chain(db)", "which is missing"),
    ("db.execute('UPDATE snapshot SET words = zeroblob(length(words))')", "the words kept at row 30"),
    (
        "db.execute(\"UPDATE journal SET answer = CAST('refused' AS BLOB) WHERE sequence = 9\"); chain(db)\n\
         db.execute('DELETE FROM snapshot')",
        "row 9 of the journal was answered \"refused\" and is now answered \"ok\\n\"",
    ),
    (
        "publish = b'publish\\t3\\n'\n\
         words = b''.join(db.execute('SELECT words, published FROM snapshot').fetchone()) + publish\n\
         checksum = hashlib.sha256(struct.pack('<q', 30) + words).digest()\n\
         db.execute('UPDATE snapshot SET publish = ?, checksum = ?', (publish, checksum))",
        "the words kept at row 30 are not those of the rows up to it",
    ),
    ("db.execute('PRAGMA user_version = 1999')", "another version"),
    ("db.execute('PRAGMA application_id = 77')", "another program's database"),
];

pub fn check(program: &Program) -> Result<String, String> {
    let place = Place::new("damage");
    let service = program.start(&place)?;
    let mut client = service.connect()?;
    for number in 1..=CHANGES {
        client.ask(format!("enter\t{number}\t7\t1\t10\tG\t2\n").as_bytes())?;
    }
    drop(client);
    service.end()?;
    let good = fs::read(place.data().join("journal.db")).map_err(|error| error.to_string())?;
    let copies: Vec<Place> = (0..DAMAGES.len()).map(|number| Place::new(&format!("damage-{number}"))).collect();
    let mut script = CHAIN.to_string();
    for (copy, (damage, _)) in copies.iter().zip(DAMAGES) {
        write(&copy.data(), &good)?;
        let file = copy.data().join("journal.db");
        script += &format!("db = sqlite3.connect({file:?}, isolation_level=None)\n{damage}\ndb.close()\n");
    }
    with_database(&place.data(), &script)?;
    for (copy, (_, told)) in copies.iter().zip(DAMAGES) {
        refused(program, copy, told)?;
    }
    for bytes in [b"no database at all, but some text that is long enough".repeat(40), good[..good.len() / 2].to_vec()]
    {
        write(&place.data(), &bytes)?;
        refused(program, &place, "journal.db")?;
    }
    let harmless = damaged_bytes(program, &place, &good)?;
    write(&place.data(), &good)?;
    program.verified(&place, CHANGES)?;
    clock_set_back(program, &place)?;
    let refused = DAMAGES.len() + 2 + BYTES - harmless;
    Ok(format!("{refused} damages are refused, and {harmless} bytes meant nothing"))
}

/// The database as these bytes, and nothing beside it.
fn write(data: &Path, bytes: &[u8]) -> Result<(), String> {
    let failed = |error: std::io::Error| error.to_string();
    fs::create_dir_all(data).map_err(failed)?;
    for name in ["journal.db-wal", "journal.db-shm"] {
        let _ = fs::remove_file(data.join(name));
    }
    fs::write(data.join("journal.db"), bytes).map_err(failed)
}

fn refused(program: &Program, place: &Place, told: &str) -> Result<(), String> {
    let file = place.data().join("journal.db");
    let before = fs::read(&file).map_err(|error| error.to_string())?;
    let (data, socket) = (place.data().display().to_string(), place.socket().display().to_string());
    let runs = [vec!["--data", &data, "--socket", &socket], vec!["verify", "--data", &data]];
    for run in runs {
        let (status, _, said) = program.run(&run)?;
        if status.code() != Some(1) || !said.contains(told) {
            return Err(format!("{run:?} ended with {status} and told {said:?} for {told:?}"));
        }
    }
    expect(&format!("{told}: the database was changed"), fs::read(&file).is_ok_and(|after| after == before))
}

/// Single bytes, wherever they are: refused, or they meant nothing, as where no row is. How many meant nothing.
fn damaged_bytes(program: &Program, place: &Place, good: &[u8]) -> Result<usize, String> {
    let mut rng = Rng::new(1);
    let mut harmless = 0;
    for _ in 0..BYTES {
        let (at, by) = (rng.range(0, good.len() - 1), rng.range(1, 255));
        let mut bytes = good.to_vec();
        bytes[at] ^= by as u8;
        write(&place.data(), &bytes)?;
        if program.verified(place, CHANGES).is_ok() {
            harmless += 1;
        } else {
            refused(program, place, "journal.db").map_err(|why| format!("byte {at} changed by {by}: {why}"))?;
        }
    }
    Ok(harmless)
}

/// The last row is of a later time than now: changes go on, by their numbers.
fn clock_set_back(program: &Program, place: &Place) -> Result<(), String> {
    let lines =
        format!("{CHAIN}\ndb.execute('UPDATE journal SET time = 4102444800000 WHERE sequence = 30')\nchain(db)");
    with_database(&place.data(), &lines)?;
    let service = program.start(place)?;
    let mut client = service.connect()?;
    expect("the time is not shown", client.status("time")? == "2100-01-01T00:00:00.000Z")?;
    expect("a change is refused", client.ask(b"strike\t1\n")? == b"ok\n")?;
    expect("the last change is not counted", client.status("sequence")? == "31")?;
    service.end()?;
    program.verified(place, CHANGES + 1)
}

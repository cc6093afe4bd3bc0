//! The rows of a journal, read by another program than the service, and changed by it.

use crate::service::Place;
use std::path::Path;
use std::process::Command;

/// Carries out lines of Python on the database `db` of a folder, and gives what they print.
pub fn with_database(data: &Path, lines: &str) -> Result<String, String> {
    let script =
        format!("import sqlite3, sys\ndb = sqlite3.connect(sys.argv[1], isolation_level=None)\n{lines}\ndb.close()\n");
    let out = Command::new("python3").arg("-c").arg(script).arg(data.join("journal.db")).output();
    let out = out.map_err(|error| format!("python3: {error}"))?;
    if !out.status.success() {
        return Err(String::from_utf8_lossy(&out.stderr).into_owned());
    }
    Ok(String::from_utf8_lossy(&out.stdout).into_owned())
}

/// A request and its answer.
pub type Exchange = (Vec<u8>, Vec<u8>);

/// The requests and answers of a journal, in their order.
pub fn of(place: &Place) -> Result<Vec<Exchange>, String> {
    let lines =
        "for q, a in db.execute('SELECT request, answer FROM journal ORDER BY sequence'): print(q.hex(), a.hex())";
    let printed = with_database(&place.data(), lines)?;
    let row = |line: &str| {
        let (request, answer) = line.split_once(' ')?;
        Some((from_hex(request)?, from_hex(answer)?))
    };
    printed.lines().map(|line| row(line).ok_or_else(|| format!("no row: {line}"))).collect()
}

fn from_hex(text: &str) -> Option<Vec<u8>> {
    text.as_bytes().chunks(2).map(|pair| u8::from_str_radix(std::str::from_utf8(pair).ok()?, 16).ok()).collect()
}

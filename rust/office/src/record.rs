//! What the service says of itself and of its changes: who made them, when and in words, and who may make them.

use crate::rows::with_database;
use crate::service::{expect, Client, Place, Program};
use std::fs;
use std::os::unix::fs::{MetadataExt, PermissionsExt};
use std::os::unix::process::CommandExt;
use std::process::Command;
use std::time::{SystemTime, UNIX_EPOCH};

/// A user that is neither the service's own nor root.
const NOBODY: u32 = 65_534;

pub fn check(program: &Program, own: &str) -> Result<String, String> {
    let place = Place::new("record");
    let service = program.start(&place)?;
    let mut client = service.connect()?;
    let begun = now();
    says(&mut client, "standing\t0\tpublished\t0\tpast\t0\tdiffers\tno\tsequence\t0\ttime\t-\tconnections\t")?;
    client.send(
        b"enter\t31\t502\t100\t465\tG\t1\nenter\t32\t733\t120\t140\tC\t42280000\npublish\t1\nstrike\t31\ntake-back\n",
    )?;
    client.send(b"amend\t32\t733\t120\t150\tG\t4\nstrike\t31\n")?;
    for _ in 0..7 {
        expect("a change is refused", client.answer()?.as_deref() == Some(b"ok\n"))?;
    }
    says(&mut client, "standing\t1\tpublished\t2\tpast\t4\tdiffers\tyes\tsequence\t7\ttime\t")?;
    let mut other = service.connect()?;
    expect("not two are connected", other.status("connections")? == "2")?;
    expect("there is no version", client.status("version")?.split('.').count() == 4)?;
    let times = "print(*[t for (t,) in db.execute('SELECT time FROM journal')])";
    let times = with_database(&place.data(), times)?;
    let times: Vec<u128> = times.split_whitespace().filter_map(|time| time.parse().ok()).collect();
    let all_now = times.iter().all(|time| (begun..=now()).contains(time));
    expect(&format!("{times:?} are not the times of the changes"), times.len() == 7 && all_now)?;
    history(program, &place)?;
    others(&place, own)?;
    expect("the service's own user is denied", client.ask(b"read\t0\n")? == b"ok\n")?;
    Ok("who changed what and when, and who may".to_string())
}

fn now() -> u128 {
    SystemTime::now().duration_since(UNIX_EPOCH).map_or(0, |since| since.as_millis())
}

fn says(client: &mut Client, expected: &str) -> Result<(), String> {
    let said = String::from_utf8_lossy(&client.ask(b"status\n")?).into_owned();
    expect(&format!("{said:?} is not as {expected:?}"), said.starts_with(&format!("status\t{expected}")))
}

/// The changes in words: all of them, those of a spell by whatever request, those since a time.
fn history(program: &Program, place: &Place) -> Result<(), String> {
    let data = place.data().display().to_string();
    let told = |more: &[&str]| -> Result<Vec<String>, String> {
        let (status, printed, said) = program.run(&[&["history", "--data", &data], more].concat())?;
        expect(&format!("history {more:?} ended with {status}: {said}"), status.success())?;
        Ok(printed.lines().map(|line| line.split('\t').nth(3).unwrap_or("").to_string()).collect())
    };
    let all = [
        "entered spell 31: candidate 502, days 100 to 465, grade 1",
        "entered spell 32: candidate 733, days 120 to 140, reading 42 (42280000)",
        "published the standing list",
        "struck spell 31",
        "took the last edit back",
        "amended spell 32: candidate 733, days 120 to 150, grade 4",
        "struck spell 31",
    ];
    let of_31 = [all[0], all[3], all[4], all[6]];
    expect("the history is another", told(&[])? == all)?;
    expect("the history of a spell is another", told(&["--spell", "31"])? == of_31)?;
    expect("the history since 2020 is another", told(&["--since", "2020-01-01T00:00:00Z"])? == all)?;
    expect("there is a history since 2100", told(&["--since", "2100-01-01"])?.is_empty())
}

/// Another user may ask and edit, and may not replace everything; the record has the user.
fn others(place: &Place, own: &str) -> Result<(), String> {
    if fs::metadata("/proc/self").map_or(1, |own| own.uid()) != 0 {
        return Ok(());
    }
    for (path, mode) in [(place.folder().to_path_buf(), 0o755), (place.socket(), 0o666)] {
        fs::set_permissions(path, fs::Permissions::from_mode(mode)).map_err(|error| error.to_string())?;
    }
    let mut command = Command::new(own);
    command.arg("send").arg(place.socket()).arg("strike\t32\nread\t0\nread\t3\nabcwrite\n").uid(NOBODY);
    let out = command.output().map_err(|error| error.to_string())?;
    let heard = String::from_utf8_lossy(&out.stdout).into_owned();
    expect(&format!("another user heard {heard:?}"), heard == "ok\ndenied\ndenied\ntext\t0\n")?;
    let users = with_database(&place.data(), "print(*[u for (u,) in db.execute('SELECT user FROM journal')])")?;
    expect(&format!("the users are {users}"), users.trim() == format!("0 0 0 0 0 0 0 {NOBODY}"))
}

/// Sends requests, and gives all that comes.
pub fn send(socket: &str, requests: &str) -> Result<String, String> {
    let mut client = Client::to(socket.as_ref())?;
    client.send(requests.as_bytes())?;
    client.send_no_more()?;
    let mut heard = Vec::new();
    while let Some(answer) = client.answer()? {
        heard.extend(answer);
    }
    Ok(String::from_utf8_lossy(&heard).into_owned())
}

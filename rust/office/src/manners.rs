//! How the service begins and ends.

use crate::service::{expect, Client, Place, Program, Service};
use std::fs;
use std::os::unix::fs::PermissionsExt;
use std::os::unix::net::UnixDatagram;
use std::process::Command;
use std::thread::sleep;
use std::time::Duration;

pub fn check(program: &Program) -> Result<String, String> {
    begins(program)?;
    begins_again(program)?;
    refuses(program)?;
    limit(program)?;
    systemd(program)?;
    Ok("it begins and ends as it should".to_string())
}

fn ended_with(command: &mut Command, told: &str) -> Result<(), String> {
    let out = command.output().map_err(|error| error.to_string())?;
    let said = String::from_utf8_lossy(&out.stderr);
    expect(&format!("{command:?} told {said:?}"), out.status.code() == Some(1) && said.contains(told))
}

/// A register, good and refused; a used folder; a second service; an end that is asked for.
fn begins(program: &Program) -> Result<(), String> {
    let place = Place::new("begins");
    let file = place.folder().join("register");
    let write = |text: &str| fs::write(&file, text).map_err(|error| error.to_string());
    write("11\t7\t1\t10\tG\t9\n")?;
    ended_with(program.command(&place).arg("--register").arg(&file), "the register is not taken: refused 5 1")?;
    write("11\t7\t1\t10\tG\t2\n")?;
    let mut command = program.command(&place);
    command.arg("--register").arg(&file);
    let service = Service::of(command, &place)?;
    let mode = fs::metadata(place.socket()).map_err(|error| error.to_string())?.permissions().mode();
    expect("the socket is not 0660", mode & 0o777 == 0o660)?;
    expect("the register does not stand", service.connect()?.ask(b"write\n")? == b"text\t14\n11\t7\t1\t10\tG\t2\n")?;
    ended_with(&mut program.command(&place), "another phayaklitd serves it")?;
    let (status, told) = service.end()?;
    expect(&format!("it ended with {status}: {told}"), status.success())?;
    ended_with(program.command(&place).arg("--register").arg(&file), "--register is for an empty folder")?;
    let (_, history, _) = program.run(&["history", "--data", &place.data().display().to_string(), "--spell", "11"])?;
    expect(&format!("the history is {history}"), history.contains("began anew on a register of 14 bytes"))
}

/// What can't be served is told, and what stands there is left alone.
fn refuses(program: &Program) -> Result<(), String> {
    let place = Place::new("refuses");
    let (data, socket) = (place.data().display().to_string(), place.socket().display().to_string());
    for wrong in [&[][..], &["--data", &data], &["--socket", &socket], &["--data"], &["serve"], &["verify"]] {
        let (status, printed, told) = program.run(wrong)?;
        let is_told = status.code() == Some(2) && printed.is_empty() && told.contains("usage: phayaklitd");
        expect(&format!("{wrong:?} told {told:?}"), is_told)?;
    }
    for (asked, begins) in [("--help", "usage: phayaklitd --data"), ("--version", "phayaklitd 0")] {
        let (status, printed, _) = program.run(&[asked])?;
        expect(&format!("{asked} printed {printed:?}"), status.success() && printed.starts_with(begins))?;
    }
    expect("a folder is made for nothing", !place.data().exists())?;
    for command in ["verify", "history"] {
        let (status, _, told) = program.run(&[command, "--data", &data])?;
        expect(&format!("{command} told {told:?}"), status.code() == Some(1) && told.contains("has no journal.db"))?;
    }
    fs::write(place.socket(), "kept").map_err(|error| error.to_string())?;
    ended_with(&mut program.command(&place), "is there, and is no socket")?;
    expect("a file is removed", fs::read(place.socket()).is_ok_and(|text| text == b"kept"))?;
    ended_with(program.command(&place).arg("--register").arg(place.folder().join("none")), "No such file")?;
    ended_with(Command::new(&program.0).args(["--data", &socket, "--socket", &data]), "File exists")?;
    let read_only = Place::new("read-only");
    let tried = read_only.with_disk(|place| {
        let service = program.start(place)?;
        expect("a change is refused", service.connect()?.ask(b"publish\t1\n")? == b"ok\n")?;
        service.end()?;
        let remounted = Command::new("mount").args(["-o", "remount,ro"]).arg(place.data()).status();
        remounted.map_err(|error| error.to_string())?;
        ended_with(&mut program.command(place), "Read-only file system")?;
        program.verified(place, 1)
    });
    tried.map(|_| ())
}

/// A folder that is missing, with the one above it; files for the owner alone; no address of a network; a socket that was left behind.
fn begins_again(program: &Program) -> Result<(), String> {
    let place = Place::new("again");
    let service = program.start(&place)?;
    for name in ["journal.db", "journal.db-wal", "lock"] {
        let mode = fs::metadata(place.data().join(name)).map_err(|error| error.to_string())?.permissions().mode();
        expect(&format!("{name} is {mode:o}"), mode & 0o777 == 0o600)?;
    }
    // a connection that comes or goes while they are listed is looked for again
    let local = |_| {
        all_local(service.process()).unwrap_or(false) || {
            sleep(Duration::from_millis(10));
            false
        }
    };
    expect("a socket is not of this machine alone", (0..50).any(local))?;
    expect("a change is refused", service.connect()?.ask(b"enter\t1\t7\t1\t10\tG\t2\n")? == b"ok\n")?;
    service.kill()?;
    expect("no socket is left behind", place.socket().exists())?;
    let service = program.start(&place)?;
    expect("a change is lost", service.connect()?.status("standing")? == "1")?;
    let other = Place::new("other");
    let mut command = Command::new(&program.0);
    command.arg("--data").arg(other.data()).arg("--socket").arg(place.socket());
    ended_with(&mut command, "is in use: another program listens there")?;
    service.end()?;
    expect("the socket is not removed", !place.socket().exists())
}

/// Whether every socket of a process is a Unix one.
fn all_local(process: u32) -> Result<bool, String> {
    let failed = |error: std::io::Error| error.to_string();
    let local = fs::read_to_string(format!("/proc/{process}/net/unix")).map_err(failed)?;
    let known: Vec<&str> = local.lines().filter_map(|line| line.split_whitespace().nth(6)).collect();
    let mut sockets = 0;
    for open in fs::read_dir(format!("/proc/{process}/fd")).map_err(failed)? {
        let link = fs::read_link(open.map_err(failed)?.path()).unwrap_or_default();
        let link = link.to_string_lossy();
        if let Some(node) = link.strip_prefix("socket:[").and_then(|rest| rest.strip_suffix(']')) {
            sockets += 1;
            if !known.contains(&node) {
                return Ok(false);
            }
        }
    }
    Ok(sockets > 0)
}

/// One connection more than may be.
fn limit(program: &Program) -> Result<(), String> {
    let place = Place::new("limit");
    let mut command = program.command(&place);
    command.args(["--connections", "3"]);
    let service = Service::of(command, &place)?;
    let mut held: Vec<Client> = Vec::new();
    for _ in 0..3 {
        let mut client = service.connect()?;
        expect("a connection within the limit is not served", client.ask(b"days\n")? == b"listed\t0\t-\n")?;
        held.push(client);
    }
    expect("one too many is served", service.connect()?.answer()?.as_deref() == Some(b"unavailable\n"))?;
    drop(held.pop());
    for _ in 0..200 {
        if service.connect()?.ask(b"days\n").is_ok_and(|answer| answer == b"listed\t0\t-\n") {
            return Ok(());
        }
        sleep(Duration::from_millis(5));
    }
    Err("a place that became free is not given again".to_string())
}

/// The socket comes from systemd, and it is told when the service is ready.
fn systemd(program: &Program) -> Result<(), String> {
    let place = Place::new("systemd");
    let told = UnixDatagram::bind(place.folder().join("notify")).map_err(|error| error.to_string())?;
    told.set_read_timeout(Some(Duration::from_secs(20))).map_err(|error| error.to_string())?;
    let script = "import os, socket, sys\ns = socket.socket(socket.AF_UNIX)\ns.bind(sys.argv[2])\ns.listen()\n\
        os.dup2(s.fileno(), 3)\nos.set_inheritable(3, True)\nos.environ.update(LISTEN_FDS='1', LISTEN_PID=str(os.getpid()))\n\
        os.execv(sys.argv[1], [sys.argv[1], '--data', sys.argv[3]])";
    let mut command = Command::new("python3");
    command.arg("-c").arg(script).arg(&program.0).arg(place.socket()).arg(place.data());
    command.env("NOTIFY_SOCKET", place.folder().join("notify"));
    let service = Service::of(command, &place)?;
    let mut bytes = [0; 64];
    let count = told.recv(&mut bytes).map_err(|error| format!("systemd is not told: {error}"))?;
    expect("systemd is told something else", bytes[..count].starts_with(b"READY=1"))?;
    expect("it does not serve", service.connect()?.ask(b"publish\t1\n")? == b"ok\n")
}

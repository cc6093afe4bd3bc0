//! What is asked for on the command line.

use crate::history::Wanted;
use crate::start::is_handed_over;
use crate::time;
use std::path::PathBuf;

pub const USAGE: &str = "\
usage: phayaklitd --data DIR --socket PATH [--register FILE] [--connections N]
       phayaklitd verify --data DIR
       phayaklitd history --data DIR [--spell N] [--since TIME]
       phayaklitd --help | --version
Serves the standing list of DIR to connections on the socket PATH, at most N at a time (256 where it is not said). An empty DIR begins
fresh, or on the register in FILE. Where systemd hands over a socket, --socket is not needed.
verify carries the journal out again from its first row and compares every answer. history prints who changed what and when;
TIME is a date or a time of UTC, as 2026-11-16 or 2026-11-16T12:00:00Z.
The requests and answers are described in docs/PROTOCOL.md, the rest in docs/OPERATIONS.md.
";

pub struct Serving {
    pub data: PathBuf,
    /// Where to make a socket; none where one is handed over.
    pub socket: Option<PathBuf>,
    pub register: Option<PathBuf>,
    pub connections: usize,
}

pub enum Asked {
    Serve(Serving),
    Verify(PathBuf),
    History(PathBuf, Wanted),
    Help,
    Version,
}

#[derive(Default)]
struct Given {
    data: Option<PathBuf>,
    socket: Option<PathBuf>,
    register: Option<PathBuf>,
    connections: Option<usize>,
    wanted: Wanted,
}

/// What the arguments ask, or what is wrong with them.
pub fn read(arguments: impl Iterator<Item = String>) -> Result<Asked, String> {
    let mut arguments = arguments.peekable();
    let command = arguments.next_if(|word| !word.starts_with('-'));
    let allowed: &[&str] = match command.as_deref() {
        None => &["--data", "--socket", "--register", "--connections"],
        Some("verify") => &["--data"],
        Some("history") => &["--data", "--spell", "--since"],
        Some(other) => return Err(format!("there is no command {other}")),
    };
    let mut given = Given::default();
    while let Some(name) = arguments.next() {
        match name.as_str() {
            "--help" => return Ok(Asked::Help),
            "--version" => return Ok(Asked::Version),
            name if !allowed.contains(&name) => return Err(format!("there is no option {name} here")),
            name => take(&mut given, name, &arguments.next().ok_or(format!("{name} needs a value"))?)?,
        }
    }
    let data = given.data.ok_or("--data DIR is needed")?;
    Ok(match command.as_deref() {
        Some("verify") => Asked::Verify(data),
        Some(_) => Asked::History(data, given.wanted),
        None if given.socket.is_none() && !is_handed_over() => return Err("--socket PATH is needed".to_string()),
        None => Asked::Serve(Serving {
            data,
            socket: given.socket.filter(|_| !is_handed_over()),
            register: given.register,
            connections: given.connections.unwrap_or(256),
        }),
    })
}

fn take(given: &mut Given, name: &str, value: &str) -> Result<(), String> {
    let wrong = || format!("{name} {value}: this is no value for it");
    match name {
        "--data" => given.data = Some(value.into()),
        "--socket" => given.socket = Some(value.into()),
        "--register" => given.register = Some(value.into()),
        "--connections" => given.connections = Some(value.parse().ok().filter(|&n| n > 0).ok_or_else(wrong)?),
        "--spell" => given.wanted.spell = Some(value.parse().map_err(|_| wrong())?),
        _ => given.wanted.since = Some(time::read(value).ok_or_else(wrong)?),
    }
    Ok(())
}

//! A phayaklitd that is tried: started on a folder, ended in any way, started again.

use std::fs;
use std::io::{BufRead, BufReader, Read, Write};
use std::net::Shutdown;
use std::os::unix::net::UnixStream;
use std::path::{Path, PathBuf};
use std::process::{Child, Command, ExitStatus, Stdio};
use std::thread::sleep;
use std::time::{Duration, Instant};

const PATIENCE: Duration = Duration::from_secs(20);

/// An error where something is not so.
pub fn expect(otherwise: &str, is: bool) -> Result<(), String> {
    if is {
        Ok(())
    } else {
        Err(otherwise.to_string())
    }
}

/// Where a service is: a folder of its own, removed at the end.
pub struct Place {
    folder: PathBuf,
}

impl Place {
    pub fn new(name: &str) -> Place {
        let folder = std::env::temp_dir().join(format!("phayaklitd-{name}-{}", std::process::id()));
        let _ = fs::remove_dir_all(&folder);
        fs::create_dir_all(&folder).expect("a folder for the test");
        Place { folder }
    }

    /// Does something with a small disk of its own for the data, where this user may mount one.
    pub fn with_disk<T>(&self, work: impl FnOnce(&Place) -> Result<T, String>) -> Result<Option<T>, String> {
        fs::create_dir_all(self.data()).map_err(|error| error.to_string())?;
        let mounted = Command::new("mount").args(["-t", "tmpfs", "-o", "size=1m", "tmpfs"]).arg(self.data()).output();
        if !mounted.is_ok_and(|out| out.status.success()) {
            return Ok(None);
        }
        let came = work(self);
        let _ = Command::new("umount").arg("-l").arg(self.data()).status();
        came.map(Some)
    }

    pub fn folder(&self) -> &Path {
        &self.folder
    }

    /// The folder of the data; it is missing at first, with the one above it.
    pub fn data(&self) -> PathBuf {
        self.folder.join("office").join("data")
    }

    pub fn socket(&self) -> PathBuf {
        self.folder.join("socket")
    }
}

impl Drop for Place {
    fn drop(&mut self) {
        let _ = fs::remove_dir_all(&self.folder);
    }
}

/// What a change that can't be kept is answered.
pub const UNAVAILABLE: &[u8] = b"unavailable\n";

/// The program to try.
#[derive(Clone)]
pub struct Program(pub String);

impl Program {
    pub fn command(&self, place: &Place) -> Command {
        let mut command = Command::new(&self.0);
        command.arg("--data").arg(place.data()).arg("--socket").arg(place.socket());
        command
    }

    /// Starts it and waits until it serves.
    pub fn start(&self, place: &Place) -> Result<Service, String> {
        Service::of(self.command(place), place)
    }

    /// The same with a limit on the size of its files, in blocks of 512 bytes, and with messages that can't be written.
    pub fn start_limited(&self, place: &Place, blocks: usize) -> Result<Service, String> {
        let mut command = Command::new("sh");
        command.arg("-c").arg(format!("ulimit -f {blocks}; exec \"$0\" --data \"$1\" --socket \"$2\" 2> /dev/full"));
        command.arg(&self.0).arg(place.data()).arg(place.socket());
        Service::of(command, place)
    }

    /// Runs it to its end: its status, and what it printed and told.
    pub fn run(&self, arguments: &[&str]) -> Result<(ExitStatus, String, String), String> {
        let out = Command::new(&self.0).args(arguments).output().map_err(|error| format!("{}: {error}", self.0))?;
        let text = |bytes: &[u8]| String::from_utf8_lossy(bytes).into_owned();
        Ok((out.status, text(&out.stdout), text(&out.stderr)))
    }

    /// A journal of so many changes, each of which is answered now as it was.
    pub fn verified(&self, place: &Place, changes: u64) -> Result<(), String> {
        let (status, printed, told) = self.run(&["verify", "--data", &place.data().display().to_string()])?;
        let is_well = status.success() && printed.starts_with(&format!("{changes} changes, "));
        expect(&format!("{changes} changes are not verified: {printed}{told}"), is_well)
    }
}

pub struct Service {
    child: Child,
    socket: PathBuf,
}

impl Service {
    pub fn of(mut command: Command, place: &Place) -> Result<Service, String> {
        let child = command.stdin(Stdio::null()).stderr(Stdio::piped()).spawn().map_err(|error| error.to_string())?;
        let mut service = Service { child, socket: place.socket() };
        let begun = Instant::now();
        while UnixStream::connect(&service.socket).is_err() {
            if service.child.try_wait().map_err(|error| error.to_string())?.is_some() {
                return Err(format!("it ended at once: {}", service.told()));
            }
            if begun.elapsed() > PATIENCE {
                return Err("it does not serve".to_string());
            }
            sleep(Duration::from_millis(2));
        }
        Ok(service)
    }

    pub fn process(&self) -> u32 {
        self.child.id()
    }

    pub fn connect(&self) -> Result<Client, String> {
        Client::to(&self.socket)
    }

    /// Ends it with no warning.
    pub fn kill(mut self) -> Result<(), String> {
        self.child.kill().and_then(|()| self.child.wait()).map(|_| ()).map_err(|error| error.to_string())
    }

    /// Asks it to end: its status, and what it told.
    pub fn end(self) -> Result<(ExitStatus, String), String> {
        let asked = Command::new("kill").arg(self.child.id().to_string()).status();
        asked.map_err(|error| error.to_string())?;
        self.ended()
    }

    /// Waits for its end: its status, and what it told.
    pub fn ended(mut self) -> Result<(ExitStatus, String), String> {
        let status = self.child.wait().map_err(|error| error.to_string())?;
        Ok((status, self.told()))
    }

    fn told(&mut self) -> String {
        let mut told = String::new();
        if let Some(mut from) = self.child.stderr.take() {
            let _ = from.read_to_string(&mut told);
        }
        told
    }
}

impl Drop for Service {
    fn drop(&mut self) {
        let _ = self.child.kill();
        let _ = self.child.wait();
    }
}

/// A connection that is talked on.
pub struct Client {
    stream: UnixStream,
    answers: BufReader<UnixStream>,
}

impl Client {
    pub fn to(socket: &Path) -> Result<Client, String> {
        let failed = |error: std::io::Error| format!("{}: {error}", socket.display());
        let stream = UnixStream::connect(socket).map_err(failed)?;
        stream.set_read_timeout(Some(PATIENCE)).map_err(failed)?;
        let answers = BufReader::new(stream.try_clone().map_err(failed)?);
        Ok(Client { stream, answers })
    }

    pub fn send(&mut self, request: &[u8]) -> Result<(), String> {
        self.stream.write_all(request).map_err(|error| error.to_string())
    }

    /// Closes its half of the connection.
    pub fn send_no_more(&mut self) -> Result<(), String> {
        self.stream.shutdown(Shutdown::Write).map_err(|error| error.to_string())
    }

    /// The next answer; none where the connection ended.
    pub fn answer(&mut self) -> Result<Option<Vec<u8>>, String> {
        let mut answer = Vec::new();
        let failed = |error: std::io::Error| error.to_string();
        match self.answers.read_until(b'\n', &mut answer) {
            Err(error) if error.kind() == std::io::ErrorKind::ConnectionReset => return Ok(None),
            other => other.map_err(failed)?,
        };
        if answer.last() != Some(&b'\n') {
            return Ok(None);
        }
        if let Some(length) = answer.strip_prefix(b"text\t") {
            let length: usize =
                String::from_utf8_lossy(length).trim_end().parse().map_err(|_| "no length".to_string())?;
            let begun = answer.len();
            answer.resize(begun + length, 0);
            if self.answers.read_exact(&mut answer[begun..]).is_err() {
                return Ok(None);
            }
        }
        Ok(Some(answer))
    }

    pub fn ask(&mut self, request: &[u8]) -> Result<Vec<u8>, String> {
        self.send(request)?;
        self.answer()?.ok_or_else(|| "the connection ended".to_string())
    }

    /// A value of the answer to `status`.
    pub fn status(&mut self, name: &str) -> Result<String, String> {
        let answer = String::from_utf8_lossy(&self.ask(b"status\n")?).into_owned();
        let fields: Vec<&str> = answer.trim_end().split('\t').collect();
        let at = fields.iter().position(|field| *field == name).ok_or(format!("no {name} in {answer}"))?;
        Ok(fields[at + 1].to_string())
    }
}

//! The beginning: the folder, its lock, the state that its journal leads to, and the socket.

use crate::archive::{Allowed, Came, Lent, State, ROOM};
use crate::journal::{Change, Head, Journal};
use crate::options::Serving;
use crate::{replay, system, time};
use std::fs::{self, File, OpenOptions};
use std::io::{self, ErrorKind};
use std::os::fd::FromRawFd;
use std::os::linux::net::SocketAddrExt;
use std::os::unix::fs::FileTypeExt;
use std::os::unix::net::{SocketAddr, UnixDatagram, UnixListener, UnixStream};
use std::path::Path;
use std::{env, process};

/// Makes a folder where it is missing, with those above it, so that a loss of power does not take it away with all that is in it.
fn make(folder: &Path) -> io::Result<()> {
    let missing: Vec<&Path> = folder.ancestors().take_while(|path| !path.exists()).collect();
    fs::create_dir_all(folder)?;
    for made in missing {
        let above = made.parent().filter(|above| !above.as_os_str().is_empty()).unwrap_or(Path::new("."));
        // who may make a folder there and not list it can't synchronise it
        File::open(above).map_or(Ok(()), |above| above.sync_all())?;
    }
    Ok(())
}

/// Takes the folder for this service alone, as long as the file is open.
pub fn lock(folder: &Path) -> Result<File, String> {
    let shown = folder.display();
    make(folder).map_err(|error| format!("{shown}: {error}"))?;
    let path = folder.join("lock");
    let file = OpenOptions::new().create(true).truncate(false).write(true).open(&path);
    let file = file.map_err(|error| format!("{}: {error}", path.display()))?;
    file.try_lock().map_err(|_| format!("{shown} is in use: another phayaklitd serves it"))?;
    Ok(file)
}

/// The journal of the folder, the state that it leads to, and its head.
pub fn open(serving: &Serving) -> Result<(Journal, State, Head), String> {
    let register = match &serving.register {
        Some(path) => Some(fs::read(path).map_err(|error| format!("{}: {error}", path.display()))?),
        None => None,
    };
    let read = register.map(|text| reading(&text)).transpose()?;
    let mut journal = Journal::open(&serving.data)?;
    let (state, head) = replay::restore(&journal)?;
    journal.make_ready(&serving.data)?;
    match read {
        None => Ok((journal, state, head)),
        Some(_) if head.sequence > 0 => {
            Err(format!("{} is in use already: --register is for an empty folder", serving.data.display()))
        }
        Some((state, change)) => {
            let head = journal.append(&head, &[change], None).map_err(|failure| failure.to_string())?;
            Ok((journal, state, head))
        }
    }
}

/// The state that a register makes, and its reading as a change; a register that is refused is told.
fn reading(text: &[u8]) -> Result<(State, Change), String> {
    let line = format!("read\t{}\n", text.len()).into_bytes();
    let kept = &text[..text.len().min(ROOM)];
    let mut state = State::fresh();
    let mut lent = Lent::new();
    let answer = match lent.request(&mut state, ROOM, Allowed::Everything, &line, kept) {
        Came::Answered { answer, .. } => answer.to_vec(),
        Came::HeldBack { .. } => Vec::new(),
    };
    if answer != b"ok\n" {
        let told = String::from_utf8_lossy(&answer).trim_end().replace('\t', " ");
        return Err(format!("the register is not taken: {told}"));
    }
    let change = Change { time: time::now(), user: system::own_user(), request: [&line, kept].concat(), answer };
    Ok((state, change))
}

/// Whether systemd hands over a socket.
pub fn is_handed_over() -> bool {
    let given = env::var("LISTEN_FDS").is_ok_and(|count| count == "1");
    given && env::var("LISTEN_PID").is_ok_and(|pid| pid == process::id().to_string())
}

/// A new socket at the path, or the one that is handed over where there is no path.
pub fn listen(path: Option<&Path>) -> Result<UnixListener, String> {
    let Some(path) = path else { return Ok(unsafe { UnixListener::from_raw_fd(3) }) };
    let shown = path.display();
    clear(path)?;
    system::for_owner_and_group(|| UnixListener::bind(path)).map_err(|error| format!("{shown}: {error}"))
}

/// Removes a socket that nobody listens at any more.
fn clear(path: &Path) -> Result<(), String> {
    let shown = path.display();
    match fs::symlink_metadata(path) {
        Err(error) if error.kind() == ErrorKind::NotFound => Ok(()),
        Err(error) => Err(format!("{shown}: {error}")),
        Ok(found) if !found.file_type().is_socket() => Err(format!("{shown} is there, and is no socket")),
        Ok(_) => match UnixStream::connect(path) {
            Ok(_) => Err(format!("{shown} is in use: another program listens there")),
            Err(_) => fs::remove_file(path).map_err(|error| format!("{shown}: {error}")),
        },
    }
}

/// Tells systemd, where it asks for it, that the service is ready.
pub fn tell_ready() {
    let Ok(name) = env::var("NOTIFY_SOCKET") else { return };
    let address = match name.strip_prefix('@') {
        Some(name) => SocketAddr::from_abstract_name(name),
        None => SocketAddr::from_pathname(&name),
    };
    let sent = address.and_then(|address| UnixDatagram::unbound()?.send_to_addr(b"READY=1\n", &address));
    if let Err(error) = sent {
        system::tell(&format!("{name}: {error}"));
    }
}

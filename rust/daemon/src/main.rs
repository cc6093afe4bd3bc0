//! The service of an office: one standing list, shared by many connections, durable, with every change on record. Proved code decides
//! every answer; this program moves bytes and keeps them.

mod archive;
mod committer;
mod connection;
mod history;
mod journal;
mod options;
mod patience;
#[allow(dead_code)]
#[path = "../../../include/phayaklit.rs"]
mod phayaklit;
mod replay;
mod server;
mod sha256;
mod sqlite;
mod start;
mod status;
mod system;
mod time;
mod write_ahead;

use committer::Committer;
use journal::Journal;
use options::{Asked, Serving, USAGE};
use server::{Parts, Server};
use std::io::{self, BufWriter, Write};
use std::os::unix::net::UnixStream;
use std::process::ExitCode;
use std::{env, fs};

fn main() -> ExitCode {
    match options::read(env::args().skip(1)) {
        Err(wrong) => {
            system::tell(&format!("{wrong}\n{}", USAGE.trim_end()));
            ExitCode::from(2)
        }
        Ok(asked) => match carry_out(asked) {
            Ok(()) => ExitCode::SUCCESS,
            Err(told) => {
                system::tell(&told);
                ExitCode::FAILURE
            }
        },
    }
}

fn carry_out(asked: Asked) -> Result<(), String> {
    match asked {
        Asked::Help => print(USAGE),
        Asked::Version => print(&format!("phayaklitd {}, blocks {}\n", env!("CARGO_PKG_VERSION"), archive::version())),
        Asked::Verify(data) => {
            let rows = replay::verify(&Journal::open_to_read(&data)?)?;
            print(&format!("{rows} changes, and every answer is the one that is given now\n"))
        }
        Asked::History(data, wanted) => {
            let mut out = BufWriter::new(io::stdout().lock());
            history::print(&Journal::open_to_read(&data)?, &wanted, &mut out)?;
            out.flush().map_err(|error| format!("standard output: {error}"))
        }
        Asked::Serve(serving) => serve(&serving),
    }
}

fn print(text: &str) -> Result<(), String> {
    io::stdout().write_all(text.as_bytes()).map_err(|error| format!("standard output: {error}"))
}

fn serve(serving: &Serving) -> Result<(), String> {
    let failed = |error: io::Error| error.to_string();
    let (ending, ends) = UnixStream::pair().map_err(failed)?;
    system::heed_signals(&ends);
    system::keep_files_private();
    let _held = start::lock(&serving.data)?;
    let (journal, state, head) = start::open(serving)?;
    let listener = start::listen(serving.socket.as_deref())?;
    let (woken, wakes) = UnixStream::pair().map_err(failed)?;
    let committer = Committer::start(journal, head, wakes);
    let parts = Parts { listener, committer, woken, ending, limit: serving.connections, state, head };
    let mut server = Server::new(parts).map_err(failed)?;
    start::tell_ready();
    let (folder, limit) = (serving.data.display(), serving.connections);
    let from = head.sequence;
    system::tell(&format!("serving {folder} from change {from} on, to at most {limit} connections"));
    server.serve()?;
    if let Some(path) = &serving.socket {
        // the next start removes it where this can't be done
        let _ = fs::remove_file(path);
    }
    Ok(())
}

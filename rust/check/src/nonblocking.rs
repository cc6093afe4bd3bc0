//! Runs a program whose standard input and output are pipes that do not wait, fed and read slowly. What comes in is the
//! program's input, and what it prints is printed.

use crate::system::{set_nonblocking, set_pipe_size};
use std::io::{self, Read, Write};
use std::os::unix::process::{CommandExt, ExitStatusExt};
use std::process::{Command, ExitCode, Stdio};
use std::thread;
use std::time::Duration;

const PIPE_BYTES: usize = 4096;
const PAUSE: Duration = Duration::from_millis(2);

/// The status is the program's, and 128 and its number where a signal ended it.
pub fn run(words: &[String]) -> io::Result<ExitCode> {
    let mut text = Vec::new();
    io::stdin().read_to_end(&mut text)?;
    let mut command = Command::new(&words[0]);
    command.args(&words[1..]).stdin(Stdio::piped()).stdout(Stdio::piped());
    // the ends that the program gets, and not those that are kept here
    unsafe { command.pre_exec(|| set_nonblocking(0).and_then(|()| set_nonblocking(1))) };
    let mut child = command.spawn()?;
    let mut input = child.stdin.take().expect("a pipe");
    let mut output = child.stdout.take().expect("a pipe");
    set_pipe_size(&input, PIPE_BYTES as i32)?;
    set_pipe_size(&output, PIPE_BYTES as i32)?;
    thread::spawn(move || {
        text.chunks(PIPE_BYTES).try_for_each(|piece| {
            thread::sleep(PAUSE);
            input.write_all(piece)
        })
    });
    let mut piece = [0; PIPE_BYTES];
    loop {
        thread::sleep(PAUSE);
        match output.read(&mut piece)? {
            0 => break,
            count => io::stdout().write_all(&piece[..count])?,
        }
    }
    let status = child.wait()?;
    let signal = status.signal().map_or(0, |signal| 128 + signal);
    Ok(ExitCode::from(status.code().unwrap_or(signal) as u8))
}

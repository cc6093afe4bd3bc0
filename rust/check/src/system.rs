//! The calls of the system that the standard library has not: how much of a pipe is not read yet, a pipe's size, and a
//! descriptor that does not wait. The numbers are those of Linux.

use std::ffi::{c_int, c_ulong};
use std::io;
use std::os::fd::{AsRawFd, RawFd};

const FIONREAD: c_ulong = 0x541B;
const F_SETFL: c_int = 4;
const F_SETPIPE_SZ: c_int = 1031;
const O_NONBLOCK: c_int = 0o4000;

unsafe extern "C" {
    fn ioctl(descriptor: c_int, request: c_ulong, ...) -> c_int;
    fn fcntl(descriptor: c_int, command: c_int, ...) -> c_int;
}

fn done(status: c_int) -> io::Result<()> {
    if status < 0 {
        Err(io::Error::last_os_error())
    } else {
        Ok(())
    }
}

/// How many bytes of a pipe nobody has read yet.
pub fn unread(pipe: &impl AsRawFd) -> io::Result<usize> {
    let mut count: c_int = 0;
    done(unsafe { ioctl(pipe.as_raw_fd(), FIONREAD, &mut count) })?;
    Ok(count as usize)
}

pub fn set_pipe_size(pipe: &impl AsRawFd, bytes: c_int) -> io::Result<()> {
    done(unsafe { fcntl(pipe.as_raw_fd(), F_SETPIPE_SZ, bytes) })
}

pub fn set_nonblocking(descriptor: RawFd) -> io::Result<()> {
    done(unsafe { fcntl(descriptor, F_SETFL, O_NONBLOCK) })
}

//! What the standard library does not have: epoll, the peer's user, the mask of new files, signals, whether others want the processor.

use std::ffi::{c_int, c_long, c_void};
use std::hint::spin_loop;
use std::io::{self, Write};
use std::os::fd::{AsRawFd, FromRawFd, OwnedFd, RawFd};
use std::os::unix::net::UnixStream;
use std::sync::atomic::{AtomicI32, Ordering};
use std::time::{Duration, Instant};

/// As the system has it: on this machine its fields lie without a gap.
#[repr(C, packed)]
#[derive(Clone, Copy)]
pub struct Event {
    kinds: u32,
    pub token: u64,
}

#[repr(C)]
#[derive(Default)]
struct Credentials {
    process: i32,
    user: u32,
    group: u32,
}

unsafe extern "C" {
    fn epoll_create1(flags: c_int) -> c_int;
    fn epoll_ctl(epoll: c_int, operation: c_int, fd: c_int, event: *mut Event) -> c_int;
    fn epoll_wait(epoll: c_int, events: *mut Event, room: c_int, timeout: c_int) -> c_int;
    fn getsockopt(fd: c_int, level: c_int, name: c_int, value: *mut c_void, length: *mut u32) -> c_int;
    fn getrusage(who: c_int, usage: *mut c_long) -> c_int;
    fn getuid() -> u32;
    fn umask(mask: u32) -> u32;
    fn signal(number: c_int, handler: usize) -> usize;
    fn write(fd: c_int, bytes: *const c_void, length: usize) -> isize;
}

const CLOSE_ON_EXEC: c_int = 0o2_000_000;
const ADD: c_int = 1;
const INPUT: u32 = 0x001;
const OUTPUT: u32 = 0x004;
const HANGUP: u32 = 0x010;
const PEER_CLOSED: u32 = 0x2000;
const ONCE_A_CHANGE: u32 = 1 << 31;
const SOCKET_LEVEL: c_int = 1;
const PEER_CREDENTIALS: c_int = 17;
const OWN_THREAD: c_int = 1;
const INTERRUPT: c_int = 2;
const TERMINATE: c_int = 15;
const FILE_TOO_LARGE: c_int = 25;
const IGNORE: usize = 1;

/// Tells of descriptors when something changes: bytes have arrived, or there is room to write again.
pub struct Poll {
    epoll: OwnedFd,
    events: Vec<Event>,
}

impl Poll {
    pub fn new() -> io::Result<Poll> {
        let fd = unsafe { epoll_create1(CLOSE_ON_EXEC) };
        if fd < 0 {
            return Err(io::Error::last_os_error());
        }
        Ok(Poll { epoll: unsafe { OwnedFd::from_raw_fd(fd) }, events: vec![Event { kinds: 0, token: 0 }; 256] })
    }

    pub fn add(&self, fd: RawFd, token: u64) -> io::Result<()> {
        let mut event = Event { kinds: INPUT | OUTPUT | PEER_CLOSED | ONCE_A_CHANGE, token };
        match unsafe { epoll_ctl(self.epoll.as_raw_fd(), ADD, fd, &mut event) } {
            0 => Ok(()),
            _ => Err(io::Error::last_os_error()),
        }
    }

    /// Waits until something changes: how much has.
    pub fn wait(&mut self) -> io::Result<usize> {
        self.ask(-1)
    }

    /// Looks again and again, for no longer than a time, until something has changed: how much has.
    pub fn look_for(&mut self, time: Duration) -> io::Result<usize> {
        let begun = Instant::now();
        let mut found = 0;
        while found == 0 && begun.elapsed() < time {
            spin_loop();
            found = self.look()?;
        }
        Ok(found)
    }

    /// Looks once: how much has changed.
    pub fn look(&mut self) -> io::Result<usize> {
        self.ask(0)
    }

    /// What the last look found.
    pub fn found(&self, count: usize) -> &[Event] {
        &self.events[..count]
    }

    fn ask(&mut self, timeout: c_int) -> io::Result<usize> {
        let room = self.events.len() as c_int;
        let found = unsafe { epoll_wait(self.epoll.as_raw_fd(), self.events.as_mut_ptr(), room, timeout) };
        usize::try_from(found).or_else(|_| match io::Error::last_os_error() {
            error if error.kind() == io::ErrorKind::Interrupted => Ok(0),
            error => Err(error),
        })
    }
}

impl Event {
    pub fn readable(&self) -> bool {
        let kinds = self.kinds;
        kinds & (INPUT | HANGUP | PEER_CLOSED) != 0
    }

    /// Whether the other end sends no more.
    pub fn closing(&self) -> bool {
        let kinds = self.kinds;
        kinds & (HANGUP | PEER_CLOSED) != 0
    }
}

/// The user at the other end of a connection.
pub fn peer(stream: &UnixStream) -> io::Result<u32> {
    let mut found = Credentials::default();
    let mut length = size_of::<Credentials>() as u32;
    let value = (&raw mut found).cast();
    match unsafe { getsockopt(stream.as_raw_fd(), SOCKET_LEVEL, PEER_CREDENTIALS, value, &mut length) } {
        0 => Ok(found.user),
        _ => Err(io::Error::last_os_error()),
    }
}

/// How often this thread had to leave its processor to another that wanted it.
pub fn times_displaced() -> i64 {
    // four numbers of times, then fourteen counts, of which this is the last
    let mut usage: [c_long; 18] = [0; 18];
    unsafe { getrusage(OWN_THREAD, usage.as_mut_ptr()) };
    usage[17]
}

/// The user that this program runs as.
pub fn own_user() -> u32 {
    unsafe { getuid() }
}

/// From here on new files are for their owner alone.
pub fn keep_files_private() {
    unsafe { umask(0o077) };
}

/// Makes a file that its owner and group may read and write, and nobody else.
pub fn for_owner_and_group<T>(make: impl FnOnce() -> T) -> T {
    let before = unsafe { umask(0o117) };
    let made = make();
    unsafe { umask(before) };
    made
}

/// Tells something on standard error. Where that can't be written, as to a file on a full disk, there is nobody to tell, and the service goes on.
pub fn tell(what: &str) {
    let _ = io::stderr().write_all(format!("phayaklitd: {what}\n").as_bytes());
}

static ENDING: AtomicI32 = AtomicI32::new(-1);

extern "C" fn end(_: c_int) {
    unsafe { write(ENDING.load(Ordering::Relaxed), [1u8].as_ptr().cast(), 1) };
}

/// A file that has grown to its limit is an error like others, and no end; a signal to end is told by a byte.
pub fn heed_signals(told: &UnixStream) {
    ENDING.store(told.as_raw_fd(), Ordering::Relaxed);
    unsafe {
        signal(FILE_TOO_LARGE, IGNORE);
        signal(TERMINATE, end as extern "C" fn(c_int) as usize);
        signal(INTERRUPT, end as extern "C" fn(c_int) as usize);
    }
}

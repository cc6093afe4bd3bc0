//! SQLite, by the few functions of its library that a journal needs.

use std::cell::RefCell;
use std::collections::HashMap;
use std::ffi::{c_char, c_int, c_void, CStr, CString};
use std::os::unix::ffi::OsStrExt;
use std::path::Path;
use std::ptr::{null, null_mut};

#[repr(C)]
struct Handle([u8; 0]);
#[repr(C)]
struct Prepared([u8; 0]);

type Destructor = Option<unsafe extern "C" fn(*mut c_void)>;

unsafe extern "C" {
    fn sqlite3_open_v2(name: *const c_char, db: *mut *mut Handle, flags: c_int, vfs: *const c_char) -> c_int;
    fn sqlite3_close_v2(db: *mut Handle) -> c_int;
    fn sqlite3_busy_timeout(db: *mut Handle, milliseconds: c_int) -> c_int;
    fn sqlite3_exec(
        db: *mut Handle,
        sql: *const c_char,
        row: *const c_void,
        with: *mut c_void,
        told: *mut *mut c_char,
    ) -> c_int;
    fn sqlite3_errmsg(db: *mut Handle) -> *const c_char;
    fn sqlite3_prepare_v2(
        db: *mut Handle,
        sql: *const c_char,
        length: c_int,
        made: *mut *mut Prepared,
        rest: *mut *const c_char,
    ) -> c_int;
    fn sqlite3_step(statement: *mut Prepared) -> c_int;
    fn sqlite3_reset(statement: *mut Prepared) -> c_int;
    fn sqlite3_finalize(statement: *mut Prepared) -> c_int;
    fn sqlite3_bind_int64(statement: *mut Prepared, at: c_int, value: i64) -> c_int;
    fn sqlite3_bind_blob(
        statement: *mut Prepared,
        at: c_int,
        bytes: *const c_void,
        length: c_int,
        free: Destructor,
    ) -> c_int;
    fn sqlite3_column_int64(statement: *mut Prepared, at: c_int) -> i64;
    fn sqlite3_column_blob(statement: *mut Prepared, at: c_int) -> *const c_void;
    fn sqlite3_column_bytes(statement: *mut Prepared, at: c_int) -> c_int;
}

const OK: c_int = 0;
const ROW: c_int = 100;
const DONE: c_int = 101;
const BUSY: c_int = 5;
const FULL: c_int = 13;
const UNOPENED: c_int = 14;
const NOT_A_DATABASE: c_int = 26;
const WRITE_FAILED: c_int = 778;
const MOVED: c_int = 1032;
const OPEN_READ: c_int = 0x0000_0001;
const OPEN_WRITE: c_int = 0x0000_0002;
const OPEN_CREATE: c_int = 0x0000_0004;
const OPEN_BY_URI: c_int = 0x0000_0040;
const EXTENDED_CODES: c_int = 0x0200_0000;

/// What SQLite says of a failure.
#[derive(Debug)]
pub struct Failure {
    code: c_int,
    said: String,
}

impl Failure {
    /// Whether SQLite says that nothing was written: the disk is full, the database is held by another, a write failed.
    pub fn nothing_written(&self) -> bool {
        self.code & 0xFF == BUSY || self.code == FULL || self.code == WRITE_FAILED
    }

    /// A database that is no longer where it was opened: what is written to it will not be found.
    pub fn moved(file: &Path) -> Failure {
        Failure { code: MOVED, said: format!("{} was removed or replaced", file.display()) }
    }

    pub fn is_unopened(&self) -> bool {
        self.code & 0xFF == UNOPENED
    }

    pub fn is_foreign(&self) -> bool {
        self.code & 0xFF == NOT_A_DATABASE
    }
}

impl std::fmt::Display for Failure {
    fn fmt(&self, out: &mut std::fmt::Formatter<'_>) -> std::fmt::Result {
        write!(out, "{} (SQLite {})", self.said, self.code)
    }
}

#[derive(Clone, Copy)]
pub enum Open {
    ToRead,
    /// Where nobody writes, on a medium that can't be written.
    Unwritten,
    ToWrite,
    OrCreate,
}

/// The name of a file that nobody writes, as SQLite takes it.
fn unwritten(path: &Path) -> Vec<u8> {
    let escaped = path.as_os_str().as_bytes().iter().map(|byte| match byte {
        b'/' | b'.' | b'-' | b'_' | b'0'..=b'9' | b'A'..=b'Z' | b'a'..=b'z' => char::from(*byte).to_string(),
        other => format!("%{other:02X}"),
    });
    format!("file:{}?immutable=1", escaped.collect::<String>()).into_bytes()
}

/// An open database, and statements that are kept prepared.
pub struct Database {
    handle: *mut Handle,
    kept: RefCell<HashMap<&'static str, *mut Prepared>>,
}

/// A handle may be used by any thread, by one at a time.
unsafe impl Send for Database {}

impl Database {
    pub fn open(path: &Path, how: Open) -> Result<Database, Failure> {
        let plain = path.as_os_str().as_bytes().to_vec();
        let (name, flags) = match how {
            Open::ToRead => (plain, OPEN_READ),
            Open::Unwritten => (unwritten(path), OPEN_READ | OPEN_BY_URI),
            Open::ToWrite => (plain, OPEN_WRITE),
            Open::OrCreate => (plain, OPEN_WRITE | OPEN_CREATE),
        };
        let name = CString::new(name).expect("a path has no NUL");
        let mut handle = null_mut();
        let code = unsafe { sqlite3_open_v2(name.as_ptr(), &mut handle, flags | EXTENDED_CODES, null()) };
        let database = Database { handle, kept: RefCell::default() };
        database.checked(code)?;
        Ok(database)
    }

    /// How long a statement waits for another program that holds the database.
    pub fn wait_at_most(&self, milliseconds: i32) {
        unsafe { sqlite3_busy_timeout(self.handle, milliseconds) };
    }

    fn checked(&self, code: c_int) -> Result<(), Failure> {
        if code == OK {
            return Ok(());
        }
        let said = unsafe { CStr::from_ptr(sqlite3_errmsg(self.handle)) };
        Err(Failure { code, said: said.to_string_lossy().into_owned() })
    }

    /// Carries out statements that give no rows.
    pub fn run(&self, sql: &str) -> Result<(), Failure> {
        let sql = CString::new(sql).expect("a statement has no NUL");
        self.checked(unsafe { sqlite3_exec(self.handle, sql.as_ptr(), null(), null_mut(), null_mut()) })
    }

    pub fn prepare(&self, sql: &str) -> Result<Statement<'_>, Failure> {
        Ok(Statement { database: self, made: self.prepared(sql)?, kept: false })
    }

    /// A statement that is carried out often: it is prepared once.
    pub fn kept(&self, sql: &'static str) -> Result<Statement<'_>, Failure> {
        let known = self.kept.borrow().get(sql).copied();
        let made = match known {
            Some(made) => made,
            None => self.prepared(sql)?,
        };
        self.kept.borrow_mut().insert(sql, made);
        Ok(Statement { database: self, made, kept: true })
    }

    fn prepared(&self, sql: &str) -> Result<*mut Prepared, Failure> {
        let mut made = null_mut();
        let length = c_int::try_from(sql.len()).expect("a statement is short");
        let code = unsafe { sqlite3_prepare_v2(self.handle, sql.as_ptr().cast(), length, &mut made, null_mut()) };
        self.checked(code)?;
        Ok(made)
    }

    /// The number that a statement gives in its first row.
    pub fn number(&self, sql: &str) -> Result<i64, Failure> {
        let mut statement = self.prepare(sql)?;
        Ok(if statement.next()? { statement.integer(0) } else { 0 })
    }
}

impl Drop for Database {
    fn drop(&mut self) {
        for made in self.kept.get_mut().values() {
            unsafe { sqlite3_finalize(*made) };
        }
        unsafe { sqlite3_close_v2(self.handle) };
    }
}

/// A statement with its values.
pub struct Statement<'a> {
    database: &'a Database,
    made: *mut Prepared,
    kept: bool,
}

impl Statement<'_> {
    pub fn bind_integer(&mut self, at: c_int, value: i64) -> Result<(), Failure> {
        self.database.checked(unsafe { sqlite3_bind_int64(self.made, at, value) })
    }

    /// The bytes are lent until the statement is carried out.
    pub fn bind_bytes(&mut self, at: c_int, bytes: &[u8]) -> Result<(), Failure> {
        let length = c_int::try_from(bytes.len()).expect("a value is short");
        let code = unsafe { sqlite3_bind_blob(self.made, at, bytes.as_ptr().cast(), length, None) };
        self.database.checked(code)
    }

    /// Whether there is one more row.
    pub fn next(&mut self) -> Result<bool, Failure> {
        match unsafe { sqlite3_step(self.made) } {
            ROW => Ok(true),
            DONE => Ok(false),
            code => Err(self.database.checked(code).expect_err("a failure")),
        }
    }

    /// Carries out a statement that gives no rows, and makes it ready for other values.
    pub fn carry_out(&mut self) -> Result<(), Failure> {
        let came = self.next().map(|_| ());
        unsafe { sqlite3_reset(self.made) };
        came
    }

    pub fn integer(&self, at: c_int) -> i64 {
        unsafe { sqlite3_column_int64(self.made, at) }
    }

    pub fn bytes(&self, at: c_int) -> &[u8] {
        unsafe {
            let bytes = sqlite3_column_blob(self.made, at);
            let length = sqlite3_column_bytes(self.made, at);
            match bytes.is_null() {
                true => &[],
                false => std::slice::from_raw_parts(bytes.cast(), length as usize),
            }
        }
    }
}

impl Drop for Statement<'_> {
    fn drop(&mut self) {
        unsafe {
            match self.kept {
                true => sqlite3_reset(self.made),
                false => sqlite3_finalize(self.made),
            }
        };
    }
}

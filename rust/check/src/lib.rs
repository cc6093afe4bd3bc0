//! Comparisons with the plain account: of lists of calls, of a `serve`, of a `stand`, of repairs; and the stored input and
//! output of programs, made by it. A comparison's error is its first difference, told so that a reader can take it in.

pub mod cases;
mod damaged;
pub mod documents;
pub mod limits;
mod lines;
pub mod lists;
pub mod nonblocking;
pub mod options;
pub mod program;
pub mod repair;
pub mod rows;
mod scratch;
pub mod serve;
pub mod session;
pub mod shown;
pub mod stand;
mod system;

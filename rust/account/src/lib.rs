//! The plain account of the standing list, written from its document and nothing else: three lists of spells, each call
//! by scanning them, and around it the register text and its repair, the wire of `serve` and what `stand` prints.
//! Nothing here is meant to be fast.
//!
//! To add a call: its case in `call`, what it does in `account` or `published`, its request and its answer's bytes in
//! `wire`.

pub mod account;
pub mod call;
pub mod entry;
pub mod limits;
pub mod programs;
pub mod published;
pub mod register;
pub mod repair;
pub mod tree;
pub mod wire;

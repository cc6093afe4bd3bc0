//! A stand-in for what is compared with the account: the account once more, with a fault that can be switched on.

// an expression with its faults stands in braces
#![allow(unused_braces, clippy::all)]

pub mod list;

/// Which fault is on.
pub mod switch {
    use std::sync::atomic::{AtomicUsize, Ordering};

    static ON: AtomicUsize = AtomicUsize::new(usize::MAX);

    pub fn set(fault: usize) {
        ON.store(fault, Ordering::Relaxed);
    }

    pub fn on(fault: usize) -> bool {
        ON.load(Ordering::Relaxed) == fault
    }
}

include!(concat!(env!("OUT_DIR"), "/standin.rs"));

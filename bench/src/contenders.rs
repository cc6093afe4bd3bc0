//! The implementations that are timed. Each lists the numbers of the rows that stand on some of the days a to b, in
//! the order of first day, last day and number; a day question has a and b equal.

use crate::links::Links;
use crate::rows::{Row, LAST_DAY, ROWS};
use intervaltree::IntervalTree;
use std::ffi::c_void;

pub trait Lists {
    fn day(&mut self, d: u16, out: &mut [u16]) -> usize;
    fn span(&mut self, a: u16, b: u16, out: &mut [u16]) -> usize;
    /// Brings what it goes by into the near cache, without asking.
    fn warm(&self) {}
}

/// Goes through all pairs of days.
pub struct Scan {
    days: Vec<(u16, u16)>,
    numbers: Vec<u16>,
}

impl Scan {
    pub fn new(rows: &[Row]) -> Scan {
        Scan {
            days: rows.iter().map(|row| (row.first, row.last)).collect(),
            numbers: rows.iter().map(|row| row.number).collect(),
        }
    }
}

impl Lists for Scan {
    fn day(&mut self, d: u16, out: &mut [u16]) -> usize {
        self.span(d, d, out)
    }

    fn span(&mut self, a: u16, b: u16, out: &mut [u16]) -> usize {
        let mut count = 0;
        for (&(first, last), &number) in self.days.iter().zip(&self.numbers) {
            if first <= b && last >= a {
                out[count] = number;
                count += 1;
            }
        }
        count
    }
}

/// Goes through the sorted pairs up to the first that begins too late.
pub struct SortedScan(pub Scan);

impl Lists for SortedScan {
    fn day(&mut self, d: u16, out: &mut [u16]) -> usize {
        self.span(d, d, out)
    }

    fn span(&mut self, a: u16, b: u16, out: &mut [u16]) -> usize {
        let mut count = 0;
        for (&(first, last), &number) in self.0.days.iter().zip(&self.0.numbers) {
            if first > b {
                break;
            }
            if last >= a {
                out[count] = number;
                count += 1;
            }
        }
        count
    }
}

/// The same up to the same pair, with every number written and the place moved on where the pair fits. It writes into
/// a list of its own and copies the answer, since places behind the answer must keep what they hold.
pub struct BranchFreeScan {
    scan: Scan,
    found: [u16; ROWS + 1],
}

impl BranchFreeScan {
    pub fn new(rows: &[Row]) -> BranchFreeScan {
        BranchFreeScan { scan: Scan::new(rows), found: [0; ROWS + 1] }
    }
}

impl Lists for BranchFreeScan {
    fn day(&mut self, d: u16, out: &mut [u16]) -> usize {
        self.span(d, d, out)
    }

    fn span(&mut self, a: u16, b: u16, out: &mut [u16]) -> usize {
        let begun = self.scan.days.partition_point(|&(first, _)| first <= b);
        let mut count = 0;
        for (&(_, last), &number) in self.scan.days[..begun].iter().zip(&self.scan.numbers) {
            self.found[count] = number;
            count += (last >= a) as usize;
        }
        out[..count].copy_from_slice(&self.found[..count]);
        count
    }
}

/// The packaged crate `intervaltree`. It lists in an order of its own, so its finds are put into the order; that is
/// part of its time.
pub struct PackagedCrate {
    tree: IntervalTree<u16, u16>,
    numbers: Vec<u16>,
    found: Vec<u16>,
}

impl PackagedCrate {
    pub fn new(rows: &[Row]) -> PackagedCrate {
        let ranked = rows.iter().enumerate().map(|(rank, row)| (row.first..row.last + 1, rank as u16));
        PackagedCrate {
            tree: ranked.collect(),
            numbers: rows.iter().map(|row| row.number).collect(),
            found: Vec::with_capacity(ROWS),
        }
    }

    /// Writes the numbers of the found ranks, by rising rank.
    fn give(&mut self, out: &mut [u16]) -> usize {
        rise(&mut self.found);
        for (place, &rank) in out.iter_mut().zip(&self.found) {
            *place = self.numbers[rank as usize];
        }
        self.found.len()
    }
}

impl Lists for PackagedCrate {
    fn day(&mut self, d: u16, out: &mut [u16]) -> usize {
        self.found.clear();
        self.found.extend(self.tree.query_point(d).map(|element| element.value));
        self.give(out)
    }

    fn span(&mut self, a: u16, b: u16, out: &mut [u16]) -> usize {
        self.found.clear();
        self.found.extend(self.tree.query(a..b + 1).map(|element| element.value));
        self.give(out)
    }
}

/// Sorts distinct ranks below ROWS in the way that is quicker for their count: few by comparison, many by a bit each.
fn rise(ranks: &mut Vec<u16>) {
    if ranks.len() <= 20 {
        ranks.sort_unstable();
        return;
    }
    let mut bits = [0u64; ROWS / 64];
    for &rank in ranks.iter() {
        bits[rank as usize / 64] |= 1 << (rank % 64);
    }
    let mut count = 0;
    for (word, mut left) in bits.into_iter().enumerate() {
        while left != 0 {
            ranks[count] = (word * 64) as u16 + left.trailing_zeros() as u16;
            count += 1;
            left &= left - 1;
        }
    }
}

type New = unsafe extern "C" fn(*const u16, *const u16, *const u16, usize) -> *mut c_void;
type List = unsafe extern "C" fn(*mut c_void, u16, u16, *mut u16) -> usize;
type Free = unsafe extern "C" fn(*mut c_void);

extern "C" {
    fn iit_new(first: *const u16, last: *const u16, number: *const u16, count: usize) -> *mut c_void;
    fn iit_list(tree: *mut c_void, a: u16, b: u16, out: *mut u16) -> usize;
    fn iit_free(tree: *mut c_void);
    fn iitii_new(first: *const u16, last: *const u16, number: *const u16, count: usize) -> *mut c_void;
    fn iitii_list(tree: *mut c_void, a: u16, b: u16, out: *mut u16) -> usize;
    fn iitii_free(tree: *mut c_void);
    fn pairs_new(first: *const u16, last: *const u16, number: *const u16, count: usize) -> *mut c_void;
    fn pairs_list(pairs: *mut c_void, a: u16, b: u16, out: *mut u16) -> usize;
    fn pairs_free(pairs: *mut c_void);
}

/// One of the packaged C++ trees, behind the adapter that keeps its answers in the order, or the scan of pairs in C++.
pub struct Linked {
    tree: *mut c_void,
    list: List,
    free: Free,
}

impl Linked {
    pub fn plain(rows: &[Row]) -> Linked {
        Linked { tree: build(iit_new, rows), list: iit_list, free: iit_free }
    }

    pub fn interpolated(rows: &[Row]) -> Linked {
        Linked { tree: build(iitii_new, rows), list: iitii_list, free: iitii_free }
    }

    pub fn pairs(rows: &[Row]) -> Linked {
        Linked { tree: build(pairs_new, rows), list: pairs_list, free: pairs_free }
    }
}

fn build(new: New, rows: &[Row]) -> *mut c_void {
    let column = |field: fn(&Row) -> u16| rows.iter().map(field).collect::<Vec<u16>>();
    let (first, last, number) = (column(|row| row.first), column(|row| row.last), column(|row| row.number));
    unsafe { new(first.as_ptr(), last.as_ptr(), number.as_ptr(), rows.len()) }
}

impl Lists for Linked {
    fn day(&mut self, d: u16, out: &mut [u16]) -> usize {
        self.span(d, d, out)
    }

    /// The adapter writes up to ROWS numbers.
    fn span(&mut self, a: u16, b: u16, out: &mut [u16]) -> usize {
        assert!(out.len() >= ROWS);
        unsafe { (self.list)(self.tree, a, b, out.as_mut_ptr()) }
    }
}

impl Drop for Linked {
    fn drop(&mut self) {
        unsafe { (self.free)(self.tree) }
    }
}

/// The walk over links in its plainest form, without a proof and without any care for speed.
pub struct PlainWalk {
    links: Links,
    numbers: Vec<u16>,
    found: Vec<u16>,
}

impl PlainWalk {
    pub fn new(rows: &[Row]) -> PlainWalk {
        let days: Vec<(u16, u16)> = rows.iter().map(|row| (row.first, row.last)).collect();
        PlainWalk {
            links: Links::new(&days, LAST_DAY),
            numbers: rows.iter().map(|row| row.number).collect(),
            found: Vec::with_capacity(ROWS),
        }
    }

    fn list(&mut self, start: u16, least_last: u16, out: &mut [u16]) -> usize {
        self.found.clear();
        self.links.walk(start, least_last, &mut self.found);
        for (place, &at) in out.iter_mut().zip(self.found.iter().rev()) {
            *place = self.numbers[at as usize];
        }
        self.found.len()
    }
}

impl Lists for PlainWalk {
    fn day(&mut self, d: u16, out: &mut [u16]) -> usize {
        self.list(self.links.start_of_day(d), d, out)
    }

    fn span(&mut self, a: u16, b: u16, out: &mut [u16]) -> usize {
        self.list(self.links.start_of_span(a, b), a, out)
    }
}

//! Whether SQLite's write-ahead log is whole. SQLite takes its commits up to the first frame that does not add up, and passes over the rest
//! without a word. That is right for the last commit alone, which a loss of power may have cut off: each is synchronised before the next is begun.

use std::io::{self, ErrorKind, Read};

const HEADER: usize = 32;
const FRAME_HEADER: usize = 24;
/// The number that a log begins with: its sums are over words with the lowest byte first, or with the highest.
const LOWEST_FIRST: u32 = 0x377F_0682;
const HIGHEST_FIRST: u32 = 0x377F_0683;

#[derive(Debug, PartialEq, Eq)]
pub enum Log {
    Whole,
    /// The last commit is not whole: a loss of power may leave this.
    Cut,
    /// A commit is not whole that was synchronised.
    Damaged(Place),
}

/// The first frame that does not add up, by its number and its bytes, and the log's header.
#[derive(Debug, PartialEq, Eq)]
pub struct Place {
    header: [u8; HEADER],
    number: usize,
    frame: Vec<u8>,
}

/// Looks through a log once. Where its header does not tell how many bytes a page has, the database does.
pub fn look(mut log: impl Read, page: usize) -> io::Result<Log> {
    let mut header = [0; HEADER];
    if fill(&mut log, &mut header)? < HEADER {
        return Ok(Log::Whole);
    }
    let highest_first = number(&header, 0) == HIGHEST_FIRST;
    let mut sums = added([0, 0], &header[..24], highest_first);
    let is_known = highest_first || number(&header, 0) == LOWEST_FIRST;
    // the header is synchronised before the first frame is written
    let begins = is_known && sums == stored(&header, 24);
    let page = if begins { number(&header, 8) as usize } else { page };

    let mut frame = vec![0; FRAME_HEADER + page];
    let mut first_bad = None;
    let mut commits = 0;
    let mut is_followed = false;
    let mut commit_before = None;
    for number_of_frame in 0.. {
        let length = fill(&mut log, &mut frame)?;
        if length < FRAME_HEADER {
            break;
        }
        let add = |sums| added(added(sums, &frame[..8], highest_first), &frame[FRAME_HEADER..], highest_first);
        sums = add(sums);
        let is_whole = length == frame.len();
        let adds_up = is_whole && sums == stored(&frame, 16);
        // frames behind a log that was begun anew have other numbers here
        let is_of_this = frame[8..16] == header[16..24];
        if first_bad.is_none() && begins && is_of_this && adds_up {
            continue;
        }
        first_bad.get_or_insert_with(|| (number_of_frame, frame.clone()));
        is_followed |= is_whole && is_of_this && commit_before.is_some_and(|before| add(before) == stored(&frame, 16));
        let is_commit = number(&frame, 4) > 0 && (is_of_this || adds_up || !begins);
        commits += usize::from(is_commit);
        commit_before = is_commit.then(|| stored(&frame, 16));
    }
    Ok(match first_bad {
        Some((number, frame)) if is_followed || commits > usize::from(begins) => {
            Log::Damaged(Place { header, number, frame })
        }
        Some(_) if commits > 0 => Log::Cut,
        _ => Log::Whole,
    })
}

/// Reads until the bytes are full or there are no more: how many have come.
fn fill(from: &mut impl Read, bytes: &mut [u8]) -> io::Result<usize> {
    let mut length = 0;
    while length < bytes.len() {
        match from.read(&mut bytes[length..]) {
            Ok(0) => break,
            Ok(count) => length += count,
            Err(error) if error.kind() == ErrorKind::Interrupted => (),
            Err(error) => return Err(error),
        }
    }
    Ok(length)
}

fn number(bytes: &[u8], at: usize) -> u32 {
    u32::from_be_bytes([bytes[at], bytes[at + 1], bytes[at + 2], bytes[at + 3]])
}

fn stored(bytes: &[u8], at: usize) -> [u32; 2] {
    [number(bytes, at), number(bytes, at + 4)]
}

/// The sums of SQLite's file format, carried on over further bytes.
fn added(sums: [u32; 2], bytes: &[u8], highest_first: bool) -> [u32; 2] {
    let word = |bytes, at| if highest_first { number(bytes, at) } else { number(bytes, at).swap_bytes() };
    bytes.chunks_exact(8).fold(sums, |[one, two], pair| {
        let one = one.wrapping_add(word(pair, 0)).wrapping_add(two);
        [one, two.wrapping_add(word(pair, 4)).wrapping_add(one)]
    })
}

#[cfg(test)]
mod tests {
    use super::{added, look, stored, Log, FRAME_HEADER, HEADER, HIGHEST_FIRST, LOWEST_FIRST};

    const PAGE: usize = 512;
    const FRAME: usize = FRAME_HEADER + PAGE;

    fn begun(magic: u32, salts: u64) -> Vec<u8> {
        let mut log: Vec<u8> = [magic, 3_007_000, PAGE as u32, 0].iter().flat_map(|word| word.to_be_bytes()).collect();
        log.extend(salts.to_be_bytes());
        let sums = added([0, 0], &log, magic == HIGHEST_FIRST);
        log.extend(sums.iter().flat_map(|sum| sum.to_be_bytes()));
        log
    }

    /// Adds a commit of some pages, behind the last frame.
    fn commit(log: &mut Vec<u8>, pages: u32) {
        for page in 1..=pages {
            let before = if log.len() == HEADER { stored(log, 24) } else { stored(log, log.len() - FRAME + 16) };
            let highest_first = log[3] == 0x83;
            let start = [page, if page == pages { 9 } else { 0 }].map(u32::to_be_bytes).concat();
            let data: Vec<u8> = (0..PAGE).map(|at| (at + log.len() / 7) as u8).collect();
            let sums = added(added(before, &start, highest_first), &data, highest_first);
            let salts = log[16..24].to_vec();
            log.extend([start, salts, sums.map(u32::to_be_bytes).concat(), data].concat());
        }
    }

    fn with_commits(magic: u32, commits: usize) -> Vec<u8> {
        let mut log = begun(magic, 0x0102_0304_0506_0708);
        (0..commits).for_each(|_| commit(&mut log, 3));
        log
    }

    fn looked(log: &[u8]) -> &'static str {
        match look(log, PAGE).expect("bytes can be read") {
            Log::Whole => "whole",
            Log::Cut => "cut",
            Log::Damaged(_) => "damaged",
        }
    }

    fn changed(log: &[u8], at: usize) -> Vec<u8> {
        let mut log = log.to_vec();
        log[at] ^= 1;
        log
    }

    /// The header of a log that SQLite wrote.
    const WRITTEN: [u8; HEADER] = [
        0x37, 0x7f, 0x06, 0x82, 0x00, 0x2d, 0xe2, 0x18, 0x00, 0x00, 0x10, 0x00, 0x00, 0x00, 0x00, 0x00, 0x2d, 0xb3,
        0xfd, 0x54, 0xd6, 0x03, 0x39, 0xa3, 0x29, 0xe4, 0xb6, 0x40, 0x85, 0x05, 0x91, 0xbb,
    ];

    #[test]
    fn sums_are_those_of_sqlite() {
        assert_eq!(added([0, 0], &WRITTEN[..24], false), stored(&WRITTEN, 24));
    }

    #[test]
    fn any_byte_before_the_last_commit() {
        for magic in [LOWEST_FIRST, HIGHEST_FIRST] {
            let log = with_commits(magic, 4);
            assert_eq!(looked(&log), "whole");
            let last = log.len() - 3 * FRAME;
            for at in 0..last {
                assert_eq!(looked(&changed(&log, at)), "damaged", "byte {at}");
            }
            for at in last..log.len() {
                // a page in its midst that ends a commit, by its number of pages, is what no loss of power leaves
                let ends_commit = (4..8).contains(&((at - last) % FRAME)) && at < last + 2 * FRAME;
                let expected = if ends_commit { "damaged" } else { "cut" };
                assert_eq!(looked(&changed(&log, at)), expected, "byte {at}");
            }
        }
    }

    #[test]
    fn a_lost_block() {
        let log = with_commits(LOWEST_FIRST, 6);
        for at in (0..log.len() - 7 * FRAME).step_by(PAGE) {
            let mut log = log.clone();
            log[at..at + PAGE].fill(0);
            assert_eq!(looked(&log), "damaged", "block at {at}");
        }
    }

    #[test]
    fn an_end_that_a_loss_of_power_leaves() {
        let log = with_commits(LOWEST_FIRST, 3);
        let last = log.len() - 3 * FRAME;
        for length in 0..log.len() {
            // the last frame's header says that it ends a commit
            let is_cut = [1, 2, 3].iter().any(|&commit| {
                let end = HEADER + 3 * commit * FRAME;
                (end - PAGE..end).contains(&length)
            });
            assert_eq!(looked(&log[..length]), if is_cut { "cut" } else { "whole" }, "length {length}");
        }
        for missing in [1, 2] {
            let mut log = log.clone();
            log[last..last + missing * FRAME].fill(0);
            assert_eq!(looked(&log), "cut");
        }
        assert_eq!(looked(&[log, vec![0; 5 * FRAME + 1]].concat()), "whole");
    }

    /// A commit that can't be read was synchronised where the next one is begun.
    #[test]
    fn a_commit_that_is_followed() {
        let log = with_commits(LOWEST_FIRST, 2);
        let damaged = changed(&log, HEADER + FRAME + 100);
        assert_eq!(looked(&damaged[..HEADER + 4 * FRAME]), "damaged");
        assert_eq!(looked(&damaged[..HEADER + 3 * FRAME]), "cut");
    }

    /// Behind a log that was begun anew lie frames of the one before it, whose commits are in the database.
    #[test]
    fn begun_anew() {
        let old = with_commits(HIGHEST_FIRST, 9);
        for commits in 0..4 {
            let mut log = begun(LOWEST_FIRST, 0x0102_0305_1111_1111);
            (0..commits).for_each(|_| commit(&mut log, 2));
            let length = log.len();
            log.extend(&old[length..]);
            assert_eq!(looked(&log), "whole");
            assert_eq!(looked(&changed(&log, length + 100)), "whole");
            assert_eq!(looked(&changed(&log, 20)), "damaged");
            if commits > 0 {
                let expected = if commits > 1 { "damaged" } else { "cut" };
                assert_eq!(looked(&changed(&log, HEADER + 100)), expected);
                // a page of the last commit that never came
                let first = length - 2 * FRAME;
                log[first..first + FRAME].copy_from_slice(&old[first..first + FRAME]);
                assert_eq!(looked(&log), "cut");
            }
        }
    }
}

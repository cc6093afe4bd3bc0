//! The standing list of spells for hosts in Rust, over the proved archive libphayaklit.a.
//!
//! A host takes this file as a module, in edition 2021 or 2024 of Rust 1.82 or newer, and links the archive by `-L` with
//! its folder. The memory is the host's: two blocks of 16-bit words, lent for as long as the service lives. Nothing is
//! allocated and nothing is global.
//!
//! What phayaklit.h asks of a host is kept here by types: a block of the wrong length is refused, a `Service` or `Index`
//! is there only after `fresh`, `read` or `fresh_index`, nobody else can write its block, and while threads ask a
//! `Published` nobody can publish into it. Left to the host are the stack, `STACK_BYTES` for a call, and what
//! `Published::shared` asks. What can go wrong comes as an `Error` with the refusal's trade word.

use core::error::Error;
use core::fmt::{self, Display, Formatter};

/// The version of the functions and of what the blocks hold, as this module knows them; `version` is the archive's.
pub const VERSION: u32 = 4;

/// The sizes of the two blocks, in words. In an index each link, its absence included, is a word: those to parent, left sibling,
/// last child and next in chain take 8,192 bytes in all.
pub const SERVICE_WORDS: usize = 7746;
pub const INDEX_WORDS: usize = 21_306;

/// More stack than any call takes, but for `repair`.
pub const STACK_BYTES: usize = 262_144;

/// More stack than `repair` takes.
pub const REPAIR_STACK_BYTES: usize = 524_288;

/// The most spells that stand: a list of so many places is never too short.
pub const SPELLS: usize = 1024;

/// The bytes that the largest register takes when it is written.
pub const WRITE_BYTES: usize = 33_792;

/// The places that the remarks of any text take: a list of so many is never too short.
pub const REMARKS: usize = 131_072;

/// Why a call is refused, by its number in the refusal table. A refused call changes nothing.
#[derive(Clone, Copy, PartialEq, Eq, Debug)]
pub struct Refusal(u16);

impl Refusal {
    /// No spell: spell number 0.
    pub const NO_NUMBER: Refusal = Refusal(1);
    /// No candidate: candidate 0.
    pub const NO_CANDIDATE: Refusal = Refusal(2);
    /// Off calendar: a day outside 1 to 4,000.
    pub const OFF_CALENDAR: Refusal = Refusal(3);
    /// Backwards: last day before first day, of a spell or a span.
    pub const REVERSED: Refusal = Refusal(4);
    /// Bad urgency: grade or reading outside its range.
    pub const BAD_URGENCY: Refusal = Refusal(5);
    /// Taken: the spell number already stands, or stood on an earlier line.
    pub const DUPLICATE_NUMBER: Refusal = Refusal(6);
    /// Unknown: the spell number doesn't stand; for cover, it isn't published.
    pub const UNKNOWN_NUMBER: Refusal = Refusal(7);
    /// Full: 1,024 already stand, or stood on earlier lines.
    pub const FULL: Refusal = Refusal(8);
    /// No past: take back with an empty past.
    pub const NO_HISTORY: Refusal = Refusal(9);
    /// Days unsorted: a day not above the one before.
    pub const UNSORTED_DAYS: Refusal = Refusal(10);
    /// Short list: the answer or the text exceeds the lent list.
    pub const SHORT_BUFFER: Refusal = Refusal(11);
    /// Malformed: a text above 65,536 bytes (line 0), or a line not of the form.
    pub const MALFORMED: Refusal = Refusal(12);
    /// Misplaced: a line not after the one before in the order.
    pub const OUT_OF_ORDER: Refusal = Refusal(13);
    /// No such rule: publishing by a rule other than 1 or 2.
    pub const NO_SUCH_RULE: Refusal = Refusal(14);

    pub fn number(self) -> u16 {
        self.0
    }

    /// The trade word.
    pub fn word(self) -> &'static str {
        match self {
            Refusal::NO_NUMBER => "no spell",
            Refusal::NO_CANDIDATE => "no candidate",
            Refusal::OFF_CALENDAR => "off calendar",
            Refusal::REVERSED => "backwards",
            Refusal::BAD_URGENCY => "bad urgency",
            Refusal::DUPLICATE_NUMBER => "taken",
            Refusal::UNKNOWN_NUMBER => "unknown",
            Refusal::FULL => "full",
            Refusal::NO_HISTORY => "no past",
            Refusal::UNSORTED_DAYS => "days unsorted",
            Refusal::SHORT_BUFFER => "short list",
            Refusal::MALFORMED => "malformed",
            Refusal::OUT_OF_ORDER => "misplaced",
            Refusal::NO_SUCH_RULE => "no such rule",
            Refusal(_) => "unknown refusal",
        }
    }
}

impl Display for Refusal {
    fn fmt(&self, out: &mut Formatter<'_>) -> fmt::Result {
        write!(out, "{} (refusal {})", self.word(), self.0)
    }
}

impl Error for Refusal {}

/// The refusal of a number, where it is not 0.
fn accepted(number: u16) -> Result<(), Refusal> {
    match number {
        0 => Ok(()),
        _ => Err(Refusal(number)),
    }
}

/// A listed grade, or the IEEE 754 bits of a measured reading.
#[derive(Clone, Copy, PartialEq, Eq, Debug)]
pub enum Urgency {
    Grade(u16),
    Reading(u32),
}

/// Both days are counted in.
#[derive(Clone, Copy, PartialEq, Eq, Debug)]
pub struct Spell {
    pub number: u16,
    pub candidate: u16,
    pub first: u16,
    pub last: u16,
    pub urgency: Urgency,
}

/// The answer of a question beside its list: how many spells it lists, the looks (0 for several days and for a mask), and how many days
/// a mask ticks.
#[derive(Clone, Copy, PartialEq, Eq, Debug, Default)]
pub struct Listed {
    pub count: usize,
    pub looks: usize,
    pub ticked: usize,
}

/// A refused register text: why, and on which line, counted from 1.
#[derive(Clone, Copy, PartialEq, Eq, Debug)]
pub struct Misread {
    pub refusal: Refusal,
    pub line: u16,
}

impl Display for Misread {
    fn fmt(&self, out: &mut Formatter<'_>) -> fmt::Result {
        write!(out, "line {}: {}", self.line, self.refusal)
    }
}

impl Error for Misread {}

/// A block that has not the number of words that it must have.
#[derive(Clone, Copy, PartialEq, Eq, Debug)]
pub struct WrongLength {
    pub needed: usize,
    pub lent: usize,
}

impl Display for WrongLength {
    fn fmt(&self, out: &mut Formatter<'_>) -> fmt::Result {
        write!(out, "a block of {} words is lent where {} are needed", self.lent, self.needed)
    }
}

impl Error for WrongLength {}

fn wrong_length(needed: usize, lent: usize) -> WrongLength {
    WrongLength { needed, lent }
}

/// The standing list and its past, in the block that the host lent.
#[derive(Debug)]
pub struct Service<'a>(&'a mut [u16; SERVICE_WORDS]);

/// The published list with its tree, in the block that the host lent.
#[derive(Debug)]
pub struct Index<'a>(&'a mut [u16; INDEX_WORDS]);

/// The published list to ask: any number of threads may have a copy, and ask at a time.
#[derive(Clone, Copy, Debug)]
pub struct Published<'a>(&'a [u16; INDEX_WORDS]);

/// The version of the archive, to compare with `VERSION`.
pub fn version() -> u32 {
    unsafe { ffi::phayaklit_version() }
}

/// A block as an array, with the words that it happens to hold.
fn block<const N: usize>(words: &mut [u16]) -> Result<&mut [u16; N], WrongLength> {
    let lent = words.len();
    words.try_into().map_err(|_| wrong_length(N, lent))
}

fn blocks<'a>(service: &'a mut [u16], index: &'a mut [u16]) -> Result<(Service<'a>, Index<'a>), WrongLength> {
    Ok((Service(block(service)?), Index(block(index)?)))
}

/// A fresh service: nothing stands, nothing is published, and there is no past.
pub fn fresh<'a>(service: &'a mut [u16], index: &'a mut [u16]) -> Result<(Service<'a>, Index<'a>), WrongLength> {
    let (service, index) = blocks(service, index)?;
    unsafe { ffi::phayaklit_fresh(service.0.as_mut_ptr(), index.0.as_mut_ptr()) };
    Ok((service, index))
}

/// The index of nobody by itself: a second index, to publish into while the first one is asked.
pub fn fresh_index(index: &mut [u16]) -> Result<Index<'_>, WrongLength> {
    let index = block(index)?;
    unsafe { ffi::phayaklit_fresh_index(index.as_mut_ptr()) };
    Ok(Index(index))
}

/// What reading a register gives: a service with those spells standing, or why the text was refused and a fresh service.
pub type Begun<'a> = (Service<'a>, Index<'a>, Result<(), Misread>);

/// The service of a register text. A refused text makes a fresh one.
pub fn read<'a>(text: &[u8], service: &'a mut [u16], index: &'a mut [u16]) -> Result<Begun<'a>, WrongLength> {
    let (service, index) = blocks(service, index)?;
    let opened =
        unsafe { ffi::phayaklit_read(text.as_ptr(), text.len(), service.0.as_mut_ptr(), index.0.as_mut_ptr()) };
    let read = accepted(opened.refusal).map_err(|refusal| Misread { refusal, line: opened.line });
    Ok((service, index, read))
}

/// What a repair gives beside the text and the remarks: the length of the text, how many lines were dropped, and how many kept lines now
/// stand after a line that followed them.
#[derive(Clone, Copy, PartialEq, Eq, Debug, Default)]
pub struct Repaired {
    pub length: usize,
    pub dropped: usize,
    pub displaced: usize,
}

/// A good register of a damaged text, into the first places of `text`, and for each dropped line its line and the number that it met into the
/// first places of `remarks`. A refusal has line 0 and leaves both lists as they were.
///
/// The function is in an archive of its own, which a host that calls it links too: libhost_repair.a, by `-l static=host_repair` or a line
/// `cargo:rustc-link-lib=static=host_repair` of its build script.
pub fn repair(damaged: &[u8], text: &mut [u8], remarks: &mut [u32]) -> Result<Repaired, Misread> {
    let (into, room) = (text.as_mut_ptr(), text.len());
    let (said, places) = (remarks.as_mut_ptr(), remarks.len());
    let repaired = unsafe { ffi::phayaklit_repair(damaged.as_ptr(), damaged.len(), into, room, said, places) };
    let ffi::Repaired { refusal, line, length, dropped, displaced } = repaired;
    accepted(refusal).map(|()| Repaired { length, dropped, displaced }).map_err(|refusal| Misread { refusal, line })
}

impl<'a> Service<'a> {
    /// Puts a spell in.
    pub fn enter(&mut self, spell: Spell) -> Result<(), Refusal> {
        accepted(unsafe { ffi::phayaklit_enter(self.0.as_mut_ptr(), spell.into()) }.refusal)
    }

    /// Replaces the spell of that number by the given one.
    pub fn amend(&mut self, spell: Spell) -> Result<(), Refusal> {
        accepted(unsafe { ffi::phayaklit_amend(self.0.as_mut_ptr(), spell.into()) }.refusal)
    }

    /// Removes the spell of that number.
    pub fn strike(&mut self, number: u16) -> Result<(), Refusal> {
        accepted(unsafe { ffi::phayaklit_strike(self.0.as_mut_ptr(), number) }.refusal)
    }

    /// The standing list becomes the front of the past, which loses it.
    pub fn take_back(&mut self) -> Result<(), Refusal> {
        accepted(unsafe { ffi::phayaklit_take_back(self.0.as_mut_ptr()) }.refusal)
    }

    /// The published list becomes the standing list, by rule 1 as entered, by rule 2 with readings that lapse after seven days.
    pub fn publish(&self, rule: u16, index: &mut Index) -> Result<(), Refusal> {
        accepted(unsafe { ffi::phayaklit_publish(self.0.as_ptr(), rule, index.0.as_mut_ptr()) }.refusal)
    }

    /// Writes the register text into the first places of the list and returns its length.
    pub fn write(&self, text: &mut [u8]) -> Result<usize, Refusal> {
        let reply = unsafe { ffi::phayaklit_write(self.0.as_ptr(), text.as_mut_ptr(), text.len()) };
        accepted(reply.refusal).map(|()| reply.length)
    }

    /// The words of the block, as the calls left them.
    pub fn words(&self) -> &[u16] {
        self.0
    }

    /// The block, given back to the host.
    pub fn into_words(self) -> &'a mut [u16] {
        self.0
    }
}

impl<'a> Index<'a> {
    /// The published list, to ask.
    pub fn published(&self) -> Published<'_> {
        Published(self.0)
    }

    /// The words of the block, as the calls left them.
    pub fn words(&self) -> &[u16] {
        self.0
    }

    /// The block, given back to the host.
    pub fn into_words(self) -> &'a mut [u16] {
        self.0
    }
}

/// A question puts the numbers of the spells that fit into the first places of the list, each once and in the order.
impl<'a> Published<'a> {
    /// An index that another process made, in memory that both see.
    ///
    /// # Safety
    ///
    /// The words are as `fresh`, `fresh_index`, `read` or `publish` left them, and nobody writes them during `'a`.
    pub unsafe fn shared(index: &'a [u16]) -> Result<Published<'a>, WrongLength> {
        index.try_into().map(Published).map_err(|_| wrong_length(INDEX_WORDS, index.len()))
    }

    /// The spells with first ≤ day ≤ last.
    pub fn day(self, day: u16, numbers: &mut [u16]) -> Result<Listed, Refusal> {
        listed(unsafe { ffi::phayaklit_day(self.0.as_ptr(), day, numbers.as_mut_ptr(), numbers.len()) })
    }

    /// The spells with first ≤ b and last ≥ a.
    pub fn span(self, a: u16, b: u16, numbers: &mut [u16]) -> Result<Listed, Refusal> {
        listed(unsafe { ffi::phayaklit_span(self.0.as_ptr(), a, b, numbers.as_mut_ptr(), numbers.len()) })
    }

    /// The spells with first ≤ the first and last ≥ the last day of the published spell of that number.
    pub fn cover(self, number: u16, numbers: &mut [u16]) -> Result<Listed, Refusal> {
        listed(unsafe { ffi::phayaklit_cover(self.0.as_ptr(), number, numbers.as_mut_ptr(), numbers.len()) })
    }

    /// The spells that contain at least one of the days, which rise strictly.
    pub fn days(self, days: &[u16], numbers: &mut [u16]) -> Result<Listed, Refusal> {
        let (asked, length) = (days.as_ptr(), days.len());
        listed(unsafe { ffi::phayaklit_days(self.0.as_ptr(), asked, length, numbers.as_mut_ptr(), numbers.len()) })
    }

    /// The spells that contain at least one of the ticked days: bit i of the mask, bit 0 the lowest, ticks the day base + i.
    pub fn mask(self, base: u16, mask: u64, numbers: &mut [u16]) -> Result<Listed, Refusal> {
        listed(unsafe { ffi::phayaklit_mask(self.0.as_ptr(), base, mask, numbers.as_mut_ptr(), numbers.len()) })
    }
}

fn listed(reply: ffi::Reply) -> Result<Listed, Refusal> {
    accepted(reply.refusal).map(|()| Listed { count: reply.count, looks: reply.looks, ticked: reply.ticked })
}

impl From<Spell> for ffi::Entry {
    fn from(spell: Spell) -> ffi::Entry {
        let (kind, value) = match spell.urgency {
            Urgency::Grade(grade) => (0, grade as u32),
            Urgency::Reading(bits) => (1, bits),
        };
        let Spell { number, candidate, first, last, .. } = spell;
        ffi::Entry { number, candidate, first, last, kind, value }
    }
}

/// The functions of the archive, as phayaklit.h declares them, and the layout of what they take and return.
mod ffi {
    use core::mem::{offset_of, size_of};

    #[repr(C)]
    pub struct Entry {
        pub number: u16,
        pub candidate: u16,
        pub first: u16,
        pub last: u16,
        pub kind: u16,
        pub value: u32,
    }

    #[repr(C)]
    pub struct Reply {
        pub refusal: u16,
        pub count: usize,
        pub looks: usize,
        pub length: usize,
        pub ticked: usize,
    }

    #[repr(C)]
    pub struct Opened {
        pub refusal: u16,
        pub line: u16,
    }

    #[repr(C)]
    pub struct Repaired {
        pub refusal: u16,
        pub line: u16,
        pub length: usize,
        pub dropped: usize,
        pub displaced: usize,
    }

    const _: () = {
        assert!(offset_of!(Entry, number) == 0 && offset_of!(Entry, candidate) == 2 && offset_of!(Entry, first) == 4);
        assert!(offset_of!(Entry, last) == 6 && offset_of!(Entry, kind) == 8 && offset_of!(Entry, value) == 12);
        assert!(offset_of!(Reply, refusal) == 0 && offset_of!(Reply, count) == 8);
        assert!(offset_of!(Reply, looks) == 16 && offset_of!(Reply, length) == 24 && offset_of!(Reply, ticked) == 32);
        assert!(offset_of!(Opened, refusal) == 0 && offset_of!(Opened, line) == 2);
        assert!(
            offset_of!(Repaired, refusal) == 0 && offset_of!(Repaired, line) == 2 && offset_of!(Repaired, length) == 8
        );
        assert!(
            offset_of!(Repaired, dropped) == 16 && offset_of!(Repaired, displaced) == 24 && size_of::<Repaired>() == 32
        );
        assert!(size_of::<Entry>() == 16 && size_of::<Reply>() == 40 && size_of::<Opened>() == 4);
    };

    #[link(name = "phayaklit", kind = "static")]
    unsafe extern "C" {
        pub fn phayaklit_version() -> u32;
        pub fn phayaklit_fresh(service: *mut u16, index: *mut u16);
        pub fn phayaklit_fresh_index(index: *mut u16);
        pub fn phayaklit_read(text: *const u8, length: usize, service: *mut u16, index: *mut u16) -> Opened;
        pub fn phayaklit_enter(service: *mut u16, entry: Entry) -> Reply;
        pub fn phayaklit_amend(service: *mut u16, entry: Entry) -> Reply;
        pub fn phayaklit_strike(service: *mut u16, number: u16) -> Reply;
        pub fn phayaklit_take_back(service: *mut u16) -> Reply;
        pub fn phayaklit_publish(service: *const u16, rule: u16, index: *mut u16) -> Reply;
        pub fn phayaklit_write(service: *const u16, text: *mut u8, length: usize) -> Reply;
        pub fn phayaklit_day(index: *const u16, day: u16, numbers: *mut u16, length: usize) -> Reply;
        pub fn phayaklit_span(index: *const u16, a: u16, b: u16, numbers: *mut u16, length: usize) -> Reply;
        pub fn phayaklit_cover(index: *const u16, number: u16, numbers: *mut u16, length: usize) -> Reply;
        pub fn phayaklit_days(
            index: *const u16,
            days: *const u16,
            days_length: usize,
            numbers: *mut u16,
            length: usize,
        ) -> Reply;
        pub fn phayaklit_mask(index: *const u16, base: u16, mask: u64, numbers: *mut u16, length: usize) -> Reply;
    }

    unsafe extern "C" {
        pub fn phayaklit_repair(
            damaged: *const u8,
            damaged_length: usize,
            text: *mut u8,
            text_length: usize,
            remarks: *mut u32,
            remarks_length: usize,
        ) -> Repaired;
    }
}

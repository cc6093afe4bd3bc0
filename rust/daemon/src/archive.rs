//! The proved archives: blocks of words, requests from bytes to bytes, and where a request ends. All that is answered is decided there.

use crate::phayaklit::INDEX_WORDS;
pub use crate::phayaklit::SERVICE_WORDS;

/// The sizes of the lists that the archives are lent.
const DAYS: usize = 32_768;
pub const ROOM: usize = 65_536;
const OUT: usize = 131_072;
const LINE: usize = 65_537;
const TEXT: usize = 65_536;

/// The numbers of the words that the service itself looks at.
pub const READ: u32 = 2;
pub const PUBLISH: u32 = 20;

/// What a request may do.
#[derive(Clone, Copy, PartialEq, Eq)]
pub enum Allowed {
    Reading = 0,
    Everything = 2,
}

#[repr(C)]
struct Carried {
    word: u32,
    changed: u32,
    room: usize,
    place: usize,
}

/// A request that has come in part.
#[repr(C)]
#[derive(Clone, Copy, Default)]
struct Frame {
    line: usize,
    payload: usize,
    wanted: u64,
}

#[repr(C)]
struct Advanced {
    outcome: u32,
    line: usize,
    payload: usize,
    wanted: u64,
    next: usize,
}

mod exported {
    use super::{Advanced, Carried, Frame};

    unsafe extern "C" {
        pub fn phayaklit_version() -> u32;
        pub fn phayaklit_fresh(service: *mut u16, index: *mut u16);
        pub fn phayaklit_advance(
            frame: Frame,
            arrived: *const u8,
            size: usize,
            from: usize,
            line: *mut u8,
            payload: *mut u8,
        ) -> Advanced;
        pub fn phayaklit_request(
            service: *mut u16,
            index: *mut u16,
            room: usize,
            allowed: u32,
            line: *const u8,
            line_length: usize,
            payload: *const u8,
            payload_length: usize,
            days: *mut u16,
            numbers: *mut u16,
            text: *mut u8,
            out: *mut u8,
        ) -> Carried;
    }
}

/// The version of the functions and of the blocks.
pub fn version() -> u32 {
    let version = unsafe { exported::phayaklit_version() };
    assert_eq!(version, crate::phayaklit::VERSION, "the archive is of another version than the sizes of its blocks");
    version
}

/// The words of a service.
pub type Words = [u16; SERVICE_WORDS];

/// A service: its words, the index of what is published, and its words as they were at the last publish, with the request of that.
#[derive(Clone)]
pub struct State {
    words: Box<Words>,
    index: Box<[u16; INDEX_WORDS]>,
    published: Box<Words>,
    publish: Vec<u8>,
}

impl State {
    pub fn fresh() -> State {
        let mut words = Box::new([0; SERVICE_WORDS]);
        let mut index = Box::new([0; INDEX_WORDS]);
        unsafe { exported::phayaklit_fresh(words.as_mut_ptr(), index.as_mut_ptr()) };
        let published = words.clone();
        State { words, index, published, publish: Vec::new() }
    }

    /// The state of words that a service had, now and at its last publish, which is made again: the index is never kept. None where that
    /// is no publish.
    pub fn restored(words: Box<Words>, published: Box<Words>, publish: &[u8]) -> Option<State> {
        let mut state = State { words: published, ..State::fresh() };
        if !publish.is_empty() {
            let mut lent = Lent::new();
            let came = lent.request(&mut state, ROOM, Allowed::Everything, publish, &[]);
            matches!(came, Came::Answered { word: PUBLISH, changed: true, .. }).then_some(())?;
        }
        state.words = words;
        Some(state)
    }

    pub fn words(&self) -> &Words {
        &self.words
    }

    pub fn published(&self) -> &Words {
        &self.published
    }

    /// The request of the last publish; none where there was none since the beginning.
    pub fn publish(&self) -> &[u8] {
        &self.publish
    }

    /// Becomes the other state; what is published is taken only where it may differ.
    pub fn follow(&mut self, other: &State, published: bool) {
        self.words.copy_from_slice(&*other.words);
        if published {
            self.index.copy_from_slice(&*other.index);
            self.published.copy_from_slice(&*other.published);
            self.publish.clone_from(&other.publish);
        }
    }
}

/// The lists that are lent to requests, and where their answers stand.
pub struct Lent {
    days: Box<[u16]>,
    numbers: Box<[u16]>,
    text: Box<[u8]>,
    out: Box<[u8]>,
}

/// What came of a request.
pub enum Came<'a> {
    /// It is answered: whether it changed the state, the room of later requests, the answer's bytes.
    Answered { word: u32, changed: bool, room: usize, answer: &'a [u8] },
    /// It asks for more than is allowed, and nothing was done.
    HeldBack { word: u32 },
}

impl Lent {
    pub fn new() -> Lent {
        Lent {
            days: vec![0; DAYS].into(),
            numbers: vec![0; ROOM].into(),
            text: vec![0; ROOM].into(),
            out: vec![0; OUT].into(),
        }
    }

    /// Carries a request out on a state, where it does no more than is allowed.
    pub fn request(
        &mut self,
        state: &mut State,
        room: usize,
        allowed: Allowed,
        line: &[u8],
        payload: &[u8],
    ) -> Came<'_> {
        let carried = unsafe {
            exported::phayaklit_request(
                state.words.as_mut_ptr(),
                state.index.as_mut_ptr(),
                room,
                allowed as u32,
                line.as_ptr(),
                line.len(),
                payload.as_ptr(),
                payload.len(),
                self.days.as_mut_ptr(),
                self.numbers.as_mut_ptr(),
                self.text.as_mut_ptr(),
                self.out.as_mut_ptr(),
            )
        };
        if carried.place >= OUT {
            return Came::HeldBack { word: carried.word };
        }
        let changed = carried.changed != 0;
        match carried.word {
            PUBLISH if changed => {
                state.published.copy_from_slice(&*state.words);
                state.publish = line.to_vec();
            }
            READ if changed => {
                state.published = State::fresh().words;
                state.publish.clear();
            }
            _ => (),
        }
        Came::Answered { word: carried.word, changed, room: carried.room, answer: &self.out[carried.place..] }
    }

    /// The register text of what stands.
    pub fn text(&mut self, state: &mut State) -> Vec<u8> {
        match self.request(state, ROOM, Allowed::Reading, b"write\n", &[]) {
            Came::Answered { answer, .. } => {
                answer.split_inclusive(|&b| b == b'\n').skip(1).flatten().copied().collect()
            }
            Came::HeldBack { .. } => Vec::new(),
        }
    }

    /// The register text of what stood at the last publish.
    pub fn published_text(&mut self, state: &State) -> Vec<u8> {
        let mut then = state.clone();
        then.words.copy_from_slice(&*state.published);
        self.text(&mut then)
    }

    /// How many edits can be taken back.
    pub fn past(&mut self, state: &State) -> usize {
        let mut before = state.clone();
        let mut taken = 0;
        while let Came::Answered { changed: true, .. } =
            self.request(&mut before, ROOM, Allowed::Everything, b"take-back\n", &[])
        {
            taken += 1;
        }
        taken
    }
}

/// The bytes of a connection, cut into requests as they arrive.
pub struct Framing {
    frame: Frame,
    line: Box<[u8]>,
    payload: Box<[u8]>,
}

/// A whole request: its line and the text after it, and the place behind it.
pub struct Whole {
    pub line: usize,
    pub payload: usize,
    pub next: usize,
}

impl Framing {
    pub fn new() -> Framing {
        Framing { frame: Frame::default(), line: vec![0; LINE].into(), payload: vec![0; TEXT].into() }
    }

    /// Goes on by the bytes from a place on: the next whole request, or none, where all of them are taken.
    pub fn advance(&mut self, arrived: &[u8], from: usize) -> Option<Whole> {
        let told = unsafe {
            exported::phayaklit_advance(
                self.frame,
                arrived.as_ptr(),
                arrived.len(),
                from,
                self.line.as_mut_ptr(),
                self.payload.as_mut_ptr(),
            )
        };
        if told.outcome == 1 {
            self.frame = Frame::default();
            return Some(Whole { line: told.line, payload: told.payload, next: told.next });
        }
        self.frame = Frame { line: told.line, payload: told.payload, wanted: told.wanted };
        None
    }

    pub fn line(&self, whole: &Whole) -> &[u8] {
        &self.line[..whole.line]
    }

    pub fn payload(&self, whole: &Whole) -> &[u8] {
        &self.payload[..whole.payload]
    }
}

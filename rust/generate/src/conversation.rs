//! A conversation with `serve`: what is sent, and what the account answers.

use account::account::Account;
use account::call::{Answer, Start};
use account::wire::{bytes_of, Wire};

/// A whole request and its answer. Begun on a file, the first exchange has no request.
#[derive(Clone)]
pub struct Exchange {
    pub request: Vec<u8>,
    pub answer: Vec<u8>,
}

pub struct Conversation {
    /// The register that is served first, if any.
    pub file: Option<Vec<u8>>,
    /// Where that register is refused nothing is served.
    pub refused: bool,
    pub exchanges: Vec<Exchange>,
    /// A request that the end of the input cuts short.
    pub ending: Vec<u8>,
    /// Requests of more bytes are left out.
    pub longest: usize,
    wire: Wire,
}

impl Conversation {
    pub fn begin(file: Option<Vec<u8>>) -> Conversation {
        let mut talk = Conversation {
            file,
            refused: false,
            exchanges: Vec::new(),
            ending: Vec::new(),
            longest: usize::MAX,
            wire: Wire::default(),
        };
        if let Some(text) = &talk.file {
            let answer = talk.wire.begin(&Start::Text(text.clone()));
            talk.refused = answer != Answer::Done;
            talk.exchanges.push(Exchange { request: Vec::new(), answer: bytes_of(&answer) });
        }
        talk
    }

    /// A conversation of these requests.
    pub fn of(requests: impl IntoIterator<Item = Vec<u8>>) -> Conversation {
        let mut talk = Conversation::begin(None);
        talk.send_all(requests);
        talk
    }

    pub fn send_all(&mut self, requests: impl IntoIterator<Item = Vec<u8>>) {
        requests.into_iter().for_each(|request| self.send(request));
    }

    /// Sends one whole request. Where the register is refused nothing is heard.
    pub fn send(&mut self, request: Vec<u8>) {
        if self.refused || request.len() > self.longest {
            return;
        }
        let answers = self.wire.answers(&request);
        let [answer] = &answers[..] else {
            panic!("{} answers to one request: {:?}", answers.len(), String::from_utf8_lossy(&request));
        };
        self.exchanges.push(Exchange { request, answer: answer.clone() });
    }

    /// All that is sent.
    pub fn requests(&self) -> Vec<u8> {
        self.exchanges.iter().flat_map(|exchange| &exchange.request).copied().collect()
    }

    /// All that is answered.
    pub fn answers(&self) -> Vec<u8> {
        self.exchanges.iter().flat_map(|exchange| &exchange.answer).copied().collect()
    }

    pub fn account(&self) -> &Account {
        &self.wire.account
    }
}

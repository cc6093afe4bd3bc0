//! The proved library, through the wrapper for hosts, asked over the index that its own publish fills.

use crate::contenders::Lists;
use crate::phayaklit::{self, Index, Listed, Service};
use crate::rows::{text_of, Row};
use std::hint::black_box;

/// A service in blocks that live as long as the program.
pub struct Proved {
    pub service: Service<'static>,
    pub index: Index<'static>,
}

fn words(count: usize) -> &'static mut [u16] {
    Box::leak(vec![0; count].into_boxed_slice())
}

impl Proved {
    pub fn new(rows: &[Row]) -> Proved {
        let blocks = (words(phayaklit::SERVICE_WORDS), words(phayaklit::INDEX_WORDS));
        let begun = phayaklit::read(text_of(rows).as_bytes(), blocks.0, blocks.1);
        let (service, mut index, read) = begun.expect("blocks of the right lengths");
        read.expect("a register in the order");
        service.publish(1, &mut index).expect("there is such a rule");
        Proved { service, index }
    }

    pub fn ask(&self, a: u16, b: u16, out: &mut [u16]) -> Listed {
        let published = self.index.published();
        let answer = if a == b { published.day(a, out) } else { published.span(a, b, out) };
        answer.expect("days on the calendar and a list long enough")
    }
}

impl Lists for Proved {
    fn day(&mut self, d: u16, out: &mut [u16]) -> usize {
        self.index.published().day(d, out).map_or(0, |listed| listed.count)
    }

    fn span(&mut self, a: u16, b: u16, out: &mut [u16]) -> usize {
        self.index.published().span(a, b, out).map_or(0, |listed| listed.count)
    }

    /// A day question reads the columns and the starts of the days, which stand first in the block.
    fn warm(&self) {
        black_box(self.index.words()[..14_241].iter().fold(0, |sum: u16, &word| sum.wrapping_add(word)));
    }
}

//! The exported repair, by its declaration in the header: a refusal shows with all that is answered beside it.

use account::call::Repaired;
use std::mem::{offset_of, size_of};

#[repr(C)]
struct Reply {
    refusal: u16,
    line: u16,
    length: usize,
    dropped: usize,
    displaced: usize,
}

const _: () = {
    assert!(offset_of!(Reply, refusal) == 0 && offset_of!(Reply, line) == 2 && offset_of!(Reply, length) == 8);
    assert!(offset_of!(Reply, dropped) == 16 && offset_of!(Reply, displaced) == 24 && size_of::<Reply>() == 32);
};

#[link(name = "host_repair", kind = "static")]
unsafe extern "C" {
    fn phayaklit_repair(
        damaged: *const u8,
        damaged_length: usize,
        text: *mut u8,
        text_length: usize,
        remarks: *mut u32,
        remarks_length: usize,
    ) -> Reply;
}

pub fn repair(damaged: &[u8], text: &mut [u8], remarks: &mut [u32]) -> Repaired {
    let (lent, remarked) = (text.as_mut_ptr(), remarks.as_mut_ptr());
    let reply = unsafe { phayaklit_repair(damaged.as_ptr(), damaged.len(), lent, text.len(), remarked, remarks.len()) };
    let Reply { refusal, line, length, dropped, displaced } = reply;
    Repaired { refusal, line: line.into(), length, dropped, displaced }
}

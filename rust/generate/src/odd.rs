//! Values at the edges of what is accepted and beyond them, bytes of no form, and the fields of a line to put them in.

use account::register::fields_of;

pub const NUMBERS: [u16; 8] = [0, 1, 2, 1024, 4000, 32_768, 65_534, 65_535];
pub const DAYS: [u16; 7] = [0, 1, 2, 3999, 4000, 4001, 65_535];
pub const GRADES: [u16; 9] = [0, 1, 4, 5, 256, 257, 260, 32_769, 65_535];
/// Accepted ones, the largest among them, then those that are refused: too large, infinite, no number, minus zero,
/// negative. The nearest to what is accepted come more often.
pub const READINGS: [u32; 21] = [
    0x00000000, 0x00000001, 0x3F800000, 0x44798000, 0x4479FFFF, 0x447A0000, 0x447A0001, 0x447A0001, 0x447A0001,
    0x7F7FFFFF, 0x7F800000, 0x7F800001, 0x7FC00000, 0x80000000, 0x80000000, 0x80000001, 0xBF800000, 0xC47A0000,
    0xFF800000, 0xFFC00000, 0xFFFFFFFF,
];
pub const BYTES: &[u8] = b"\n\t\r 09Ga\0\xff";

/// The lists below are parted by this byte.
pub fn parted(list: &[u8]) -> Vec<&[u8]> {
    list.split(|&byte| byte == b'|').collect()
}

/// Fields that are no decimals of 16 bits, the Arabic digit one among them.
pub const DECIMALS: &[u8] =
    b"|00|01|007|65536|65537|70000|99999|100000|131072|4294967296|4294967301|18446744073709551617\
    |-1|+1|1.0|1e3|0x1| 1|1 |A|\xd9\xa1|1_0|5\0";
pub const LETTERS: &[u8] = b"g|c|D|H||GG|GC|G |\xc7";
/// Fields that are no eight hex digits.
pub const HEX: &[u8] = b"3f800000|3F80000|3F8000000||0x3F8000|3F80000G|+3F80000|3F80 000|4";
/// Lines that are no request.
pub const LINES: &[u8] =
    b"|\t| |\r|\0|\xff\xfe|help|quit|Day\t5|DAY\t5|da\t5|dayz\t5|day|day\t|day\t\t5|day 5| day\t5|\tday\t5\
    |day\t5\t|day\t5\t6|span\t5|span\t5\t6\t7|span\t5\t|cover|cover\t|strike|strike\t1\t2|takeback|take back|take_back\
    |Take-back|take-back\t|take-back\t1|publish|publish\t|publish\t1\t1|publish\t01|publish\t65536|publish |PUBLISH|write\t|write\t1|Write|days\t|days\t1\t\
    |days\t\t1|days\t1\t\t2|days 1 2|Days|mask|mask\t1|mask\t1\t|mask\t1\t81|mask\t1\t0000000000000081\t\
    |mask\t1\t00000000000000081|mask\t1\t000000000000008a|mask\t65536\t0000000000000001|Mask\t1\t0000000000000001|room|room\t|room\t65537|room\t065536|room\t-1|room\t1\t2|room\t99999|Room\t1\
    |read|read\t|read\t00|read\t01|read\t-1|read\t+0|read\t0\t|read\t0\t0|read\t12345678901|read\t00000000000|read\tx\
    |Read\t0|read 0|read\t0\r|enter|amend|enter\t|ok|malformed|1\t1\t1\t1\tG\t1";
/// Requests that the end of the input cuts short.
const ENDINGS: &[u8] = b"|d|publish|day\t5|\r|read\t10|read\t10\n|read\t10\n123456789|read\t65536\n\n\
    |read\t9999999999\nday\t5\nday\t6\n";

/// Every kind of end of an input: after a whole request, inside a line, inside a text; long ones too.
pub fn endings() -> Vec<Vec<u8>> {
    let long_text = [b"read\t70000\n".to_vec(), b"day\t5\n".repeat(11_666)].concat();
    parted(ENDINGS).into_iter().map(<[u8]>::to_vec).chain([long_text, b"x".repeat(70_000)]).collect()
}

/// The fields of a line, to be changed.
pub struct Fields(pub Vec<Vec<u8>>);

impl Fields {
    pub fn of(line: &[u8]) -> Fields {
        Fields(fields_of(line).into_iter().map(<[u8]>::to_vec).collect())
    }

    /// The line of these fields, with its LF.
    pub fn line(&self) -> Vec<u8> {
        [self.0.join(&b'\t'), b"\n".to_vec()].concat()
    }
}

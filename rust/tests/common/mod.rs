//! What the tests share: the keys, addresses and frames of the independent sealer (`tests/frames.py` of
//! the repository, whose output `tests/frames.txt` is).
#![allow(dead_code)]

use std::collections::HashMap;
use std::fs;
use std::path::Path;

use krbrelay::{Address, Expect, Key, Mode, Moment, Session, State};

pub const KEY_128: [u8; 16] = [0, 1, 2, 3, 4, 5, 6, 7, 8, 9, 10, 11, 12, 13, 14, 15];
pub const KEY_256: [u8; 32] = [0x11; 32];
pub const AES128: Key<'_> = Key::Aes128(&KEY_128);
pub const AES256: Key<'_> = Key::Aes256(&KEY_256);
pub const SENDER: Address = Address::ipv4([10, 0, 0, 1]);
pub const RECEIVER: Address = Address::ipv4([10, 0, 0, 255]);
/// The time of all frames.
pub const AT: Moment = Moment { seconds: 1_700_000_000, microseconds: 5 };
pub const FIRST: u32 = 7;
pub const LAST: u32 = u32::MAX;
/// What RFC 8439 appendix A.1 gives first for a key of zeros.
pub const DRAWN: [[u8; 16]; 3] = [
    *b"\x76\xb8\xe0\xad\xa0\xf1\x3d\x90\x40\x5d\x6a\xe5\x53\x86\xbd\x28",
    *b"\xbd\xd2\x19\xb8\xa0\x8d\xed\x1a\xa8\x36\xef\xcc\x8b\x77\x0d\xc7",
    *b"\xda\x41\x59\x7c\x51\x57\x48\x8d\x77\x24\xe0\x3f\xb8\xd8\x4a\x37",
];

/// The frames by their names.
pub fn frames() -> HashMap<String, Vec<u8>> {
    let path = Path::new(env!("CARGO_MANIFEST_DIR")).join("tests/frames.txt");
    let text = fs::read_to_string(&path).expect("tests/frames.txt, which tests/frames.py prints");
    let lines: Vec<&str> = text.lines().collect();
    let found: HashMap<String, Vec<u8>> =
        lines.chunks(2).map(|pair| (name_of(pair[0]), bytes_of(pair[1].trim()))).collect();
    assert!(found.len() > 25);
    found
}

fn name_of(line: &str) -> String {
    line.rsplit_once(" (").expect("a name and a size").0.to_string()
}

pub fn bytes_of(digits: &str) -> Vec<u8> {
    (0..digits.len())
        .step_by(2)
        .map(|at| u8::from_str_radix(&digits[at..at + 2], 16).expect("hexadecimal digits"))
        .collect()
}

pub fn session(mode: Mode, first: u32) -> Session {
    Session { first, ..Session::new(mode, SENDER) }
}

pub fn expect(mode: Mode) -> Expect {
    Expect::new(mode, SENDER, RECEIVER)
}

pub fn from(number: u32) -> State {
    State { expected: u64::from(number), closed: false }
}

//! What is made and dropped leaves nothing: a test of its own program, since it measures the process.

mod common;

use std::fs;

use common::{expect, from, session, AES256, SENDER};
use krbrelay::{Demand, Mode, Opener, Peer, Receiver, Sealer};

const TIMES: usize = 10_000;
const PAGE: usize = 4_096;
/// Each of the handles has hundreds of bytes, so leaking one kind of them would take more.
const MOST: usize = 3 << 20;

/// The bytes of this process that lie in memory.
fn resident() -> usize {
    let text = fs::read_to_string("/proc/self/statm").unwrap();
    text.split(' ').nth(1).unwrap().parse::<usize>().unwrap() * PAGE
}

fn make_and_drop(times: usize) {
    for _ in 0..times {
        drop(Sealer::new(AES256, &session(Mode::Priv, 0)).unwrap());
        drop(Opener::new(AES256, &expect(Mode::Priv)).unwrap());
        drop(Receiver::new(AES256, &expect(Mode::Priv), from(0)).unwrap());
        drop(Peer::new(AES256, &session(Mode::Priv, 0), &Demand::of_sender(SENDER)).unwrap());
    }
}

#[test]
fn handles_are_freed() {
    make_and_drop(TIMES / 10);
    let before = resident();
    make_and_drop(TIMES);
    let more = resident().saturating_sub(before);
    assert!(more < MOST, "{more} bytes more");
}

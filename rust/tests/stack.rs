//! What is left on the stack below a call: each runs in a thread whose stack is the test's, which is searched then.
#![allow(unsafe_code)]

mod common;

use std::ffi::c_void;
use std::ptr::{null_mut, read_volatile, write_volatile};

use common::{expect, from, session, AES256, AT, DRAWN, KEY_256, SENDER};
use krbrelay::{Demand, Error, Mode, Opener, Peer, Receiver, Sealer};

const SIZE: usize = 1 << 18;
/// Half of a key, and so much of a text.
const PIECE: usize = 16;
const TEXT: [u8; 200] = [0x5a; 200];

/// `pthread_attr_t`, which has at most so many bytes on Linux.
type Attributes = [u64; 16];

extern "C" {
    fn pthread_attr_init(attributes: *mut Attributes) -> i32;
    fn pthread_attr_setstack(attributes: *mut Attributes, stack: *mut c_void, size: usize) -> i32;
    fn pthread_create(
        thread: *mut usize,
        attributes: *const Attributes,
        run: extern "C" fn(*mut c_void) -> *mut c_void,
        given: *mut c_void,
    ) -> i32;
    fn pthread_join(thread: usize, told: *mut *mut c_void) -> i32;
}

#[repr(align(4096))]
struct Stack([u8; SIZE]);

/// What is done, and what that made, which is kept until the stack was searched.
struct Work<T> {
    done: fn() -> T,
    made: Option<T>,
}

extern "C" fn work<T>(given: *mut c_void) -> *mut c_void {
    let it = unsafe { &mut *given.cast::<Work<T>>() };
    it.made = Some((it.done)());
    null_mut()
}

/// How many halves of the key and pieces of the text are on the stack after this is done.
fn left_by<T>(done: fn() -> T) -> usize {
    let mut stack = Box::new(Stack([0; SIZE]));
    let mut it = Work { done, made: None };
    let (mut attributes, mut thread) = ([0; 16], 0);
    unsafe {
        assert_eq!(pthread_attr_init(&mut attributes), 0);
        assert_eq!(pthread_attr_setstack(&mut attributes, stack.0.as_mut_ptr().cast(), SIZE), 0);
        let given = (&mut it as *mut Work<T>).cast();
        assert_eq!(pthread_create(&mut thread, &attributes, work::<T>, given), 0);
        assert_eq!(pthread_join(thread, null_mut()), 0);
    }
    assert!(it.made.is_some());
    stack.0.chunks(PIECE).filter(|it| **it == KEY_256[..PIECE] || **it == TEXT[..PIECE]).count()
}

/// Leaves the key below its caller.
#[inline(never)]
fn leave() -> u8 {
    let mut keys = [[0; 32]; 8];
    for key in &mut keys {
        unsafe { write_volatile(key, KEY_256) };
    }
    unsafe { read_volatile(&keys[7][31]) }
}

#[test]
fn a_key_that_is_left_is_found() {
    assert!(left_by(leave) > 0);
}

#[test]
fn a_handle_that_is_made_leaves_no_key() {
    assert_eq!(left_by(|| Sealer::new(AES256, &session(Mode::Priv, 0))), 0, "a sealer");
    assert_eq!(left_by(|| Opener::new(AES256, &expect(Mode::Priv))), 0, "an opener");
    assert_eq!(left_by(|| Receiver::new(AES256, &expect(Mode::Priv), from(0))), 0, "a receiver");
    let peer = || Peer::new(AES256, &session(Mode::Priv, 0), &Demand::of_sender(SENDER));
    assert_eq!(left_by(peer), 0, "a peer");
}

/// A frame of the text, by a sealer that is used no more.
fn sealed(mode: Mode) -> Result<Vec<u8>, Error> {
    Sealer::new(AES256, &session(mode, 0))?.seal_at(&TEXT, AT, &DRAWN[0])
}

#[test]
fn a_handle_that_is_used_and_dropped_leaves_no_text() {
    assert_eq!(left_by(|| sealed(Mode::Priv)), 0, "a sealer");
    assert_eq!(left_by(|| sealed(Mode::Safe)), 0, "a sealer of KRB-SAFE");
    let opened = || Opener::new(AES256, &expect(Mode::Priv))?.unseal_at(&sealed(Mode::Priv)?, 0, AT);
    assert_eq!(left_by(opened), 0, "an opener");
}

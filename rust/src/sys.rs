//! `krbrelay.h`, and all that is unsafe in this crate: each call of the library behind a safe function.
//!
//! What `krbrelay.h` asks of a caller is kept here once: each pointer comes from a slice or a reference,
//! so it is valid for its length; what a call writes is borrowed mutably or new, so it overlaps nothing
//! else; a handle belongs to one call at a time, since [`Handle`] isn't [`Sync`]; no struct has a byte
//! unwritten, since none has padding.
#![allow(unsafe_code)]

use alloc::vec::Vec;
use core::cell::UnsafeCell;
use core::ffi::c_void;
use core::ptr;

use crate::error::Error;
use crate::sealer::{ManyError, Message};
use crate::values::{Confounder, Key};
use crate::{
    frame_size, FRAME_LIMIT, HISTORY_SIZE, MOST_FRAMES, MOST_MESSAGES, PEER_STATE_SIZE, USER_DATA_LIMIT,
};

// ---- the structs of krbrelay.h

#[repr(C)]
#[derive(Clone, Copy, Default)]
pub(crate) struct Moment {
    pub seconds: u64,
    pub microseconds: u32,
    pub reserved: u32,
}

#[repr(C)]
#[derive(Clone, Copy, Debug, PartialEq, Eq, Hash)]
pub(crate) struct Address {
    pub kind: i32,
    pub len: u32,
    pub bytes: [u8; 40],
}

/// Zeros: no address.
pub(crate) const NOWHERE: Address = Address { kind: 0, len: 0, bytes: [0; 40] };

#[repr(C)]
pub(crate) struct Session {
    pub mode: u32,
    pub first: u32,
    pub sender: Address,
    pub has_receiver: u32,
    pub receiver: Address,
    pub reserved: [u32; 5],
}

#[repr(C)]
pub(crate) struct Expect {
    pub mode: u32,
    pub sender: Address,
    pub receiver: Address,
    pub require_receiver: u32,
    pub require_time: u32,
    pub skew: u32,
    pub reserved: [u32; 4],
}

#[repr(C)]
pub(crate) struct Demand {
    pub how_sender: u32,
    pub how_receiver: u32,
    pub how_time: u32,
    pub how_number: u32,
    pub number: u64,
    pub skew: u32,
    pub sender: Address,
    pub receiver: Address,
    pub needs_time_or_number: u32,
    pub reserved: [u32; 4],
}

#[repr(C)]
pub(crate) struct Carried {
    pub seconds: u64,
    pub microseconds: u32,
    pub has_seconds: u32,
    pub has_microseconds: u32,
    pub has_number: u32,
    pub number: u32,
    pub has_receiver: u32,
    pub sender: Address,
    pub receiver: Address,
    pub reserved: [u32; 6],
}

impl Carried {
    const fn new() -> Carried {
        Carried {
            seconds: 0,
            microseconds: 0,
            has_seconds: 0,
            has_microseconds: 0,
            has_number: 0,
            number: 0,
            has_receiver: 0,
            sender: NOWHERE,
            receiver: NOWHERE,
            reserved: [0; 6],
        }
    }
}

#[repr(C)]
#[derive(Default)]
pub(crate) struct Header {
    pub kind: u32,
    pub etype: i32,
    pub checksum_type: i32,
    pub has_number: u32,
    pub number: u32,
    pub has_key_version: u32,
    pub key_version: u32,
    pub reserved: u32,
}

#[repr(C)]
struct Unsealed {
    user_data: *const u8,
    user_data_len: usize,
    at: Moment,
    confounder: Confounder,
}

#[repr(C)]
struct Frame {
    bytes: *const u8,
    bytes_len: usize,
}

#[repr(C)]
#[derive(Clone, Copy)]
struct Taken {
    answer: u32,
    kind: u32,
    size: usize,
    number: u64,
}

#[repr(C)]
#[derive(Clone, Copy, Debug, Default, PartialEq, Eq)]
pub(crate) struct Window {
    pub highest: u64,
    pub taken: u64,
}

/// `struct krbrelay_sealer`, `_opener`, `_receiver` and `_peer`, which are alike.
#[repr(C)]
struct Raw {
    at: *mut c_void,
    count: usize,
}

// ---- the calls of krbrelay.h

extern "C" {
    fn krbrelay_version() -> u32;
    fn krbrelay_is_supported() -> i32;
    fn krbrelay_clear_stack();
    fn krbrelay_sealer_new(
        handle: *mut Raw,
        etype: i32,
        key: *const u8,
        key_len: usize,
        session: *const Session,
    ) -> u32;
    fn krbrelay_sealer_seal(
        handle: *mut Raw,
        user_data: *const u8,
        len: usize,
        at: *const Moment,
        confounder: *const u8,
        frame: *mut u8,
        room: usize,
        size: *mut usize,
    ) -> u32;
    fn krbrelay_sealer_seal_record(
        handle: *mut Raw,
        kind: u32,
        bytes: *const u8,
        len: usize,
        at: *const Moment,
        confounder: *const u8,
        frame: *mut u8,
        room: usize,
        size: *mut usize,
    ) -> u32;
    fn krbrelay_sealer_seal_many(
        handle: *mut Raw,
        messages: *const Unsealed,
        count: usize,
        frames: *mut u8,
        room: usize,
        sizes: *mut usize,
        failed: *mut usize,
    ) -> u32;
    #[cfg(feature = "std")]
    fn krbrelay_sealer_seal_many_now(
        handle: *mut Raw,
        messages: *const Unsealed,
        count: usize,
        frames: *mut u8,
        room: usize,
        sizes: *mut usize,
        failed: *mut usize,
    ) -> u32;
    fn krbrelay_sealer_next(handle: *mut Raw, next: *mut u64) -> u32;
    fn krbrelay_sealer_frame_size(
        handle: *mut Raw,
        len: usize,
        at: *const Moment,
        size: *mut usize,
    ) -> u32;
    fn krbrelay_sealer_set_mode(handle: *mut Raw, mode: u32) -> u32;
    fn krbrelay_sealer_wipe(handle: *mut Raw);
    fn krbrelay_sealer_free(handle: *mut Raw);
    fn krbrelay_opener_new(
        handle: *mut Raw,
        etype: i32,
        key: *const u8,
        key_len: usize,
        expect: *const Expect,
    ) -> u32;
    fn krbrelay_opener_unseal(
        handle: *mut Raw,
        frame: *const u8,
        len: usize,
        number: u64,
        at: *const Moment,
        user_data: *mut u8,
        room: usize,
        size: *mut usize,
    ) -> u32;
    fn krbrelay_opener_open(
        handle: *mut Raw,
        frame: *const u8,
        len: usize,
        demand: *const Demand,
        at: *const Moment,
        user_data: *mut u8,
        room: usize,
        size: *mut usize,
        carried: *mut Carried,
    ) -> u32;
    fn krbrelay_opener_wipe(handle: *mut Raw);
    fn krbrelay_opener_free(handle: *mut Raw);
    fn krbrelay_receiver_new(
        handle: *mut Raw,
        etype: i32,
        key: *const u8,
        key_len: usize,
        expect: *const Expect,
        expected: u64,
        closed: u32,
    ) -> u32;
    fn krbrelay_receiver_take_numbered(
        handle: *mut Raw,
        frame: *const u8,
        len: usize,
        at: *const Moment,
        kind: *mut u32,
        bytes: *mut u8,
        room: usize,
        size: *mut usize,
        number: *mut u64,
    ) -> u32;
    fn krbrelay_receiver_take_many(
        handle: *mut Raw,
        frames: *const Frame,
        count: usize,
        at: *const Moment,
        bytes: *mut u8,
        room: usize,
        taken: *mut Taken,
    ) -> u32;
    fn krbrelay_receiver_state(handle: *mut Raw, expected: *mut u64, closed: *mut u32) -> u32;
    fn krbrelay_receiver_free(handle: *mut Raw);
    fn krbrelay_peer_new(
        handle: *mut Raw,
        etype: i32,
        key: *const u8,
        key_len: usize,
        session: *const Session,
        demand: *const Demand,
    ) -> u32;
    fn krbrelay_peer_resume(
        handle: *mut Raw,
        etype: i32,
        key: *const u8,
        key_len: usize,
        session: *const Session,
        demand: *const Demand,
        state: *const u8,
    ) -> u32;
    fn krbrelay_peer_seal(
        handle: *mut Raw,
        user_data: *const u8,
        len: usize,
        at: *const Moment,
        confounder: *const u8,
        frame: *mut u8,
        room: usize,
        size: *mut usize,
    ) -> u32;
    fn krbrelay_peer_seal_many(
        handle: *mut Raw,
        messages: *const Unsealed,
        count: usize,
        frames: *mut u8,
        room: usize,
        sizes: *mut usize,
        failed: *mut usize,
    ) -> u32;
    #[cfg(feature = "std")]
    fn krbrelay_peer_seal_many_now(
        handle: *mut Raw,
        messages: *const Unsealed,
        count: usize,
        frames: *mut u8,
        room: usize,
        sizes: *mut usize,
        failed: *mut usize,
    ) -> u32;
    fn krbrelay_peer_open(
        handle: *mut Raw,
        frame: *const u8,
        len: usize,
        at: *const Moment,
        user_data: *mut u8,
        room: usize,
        size: *mut usize,
        carried: *mut Carried,
    ) -> u32;
    fn krbrelay_peer_state(handle: *mut Raw, next: *mut u64, expected: *mut u64) -> u32;
    fn krbrelay_peer_export(handle: *mut Raw, state: *mut u8) -> u32;
    fn krbrelay_peer_free(handle: *mut Raw);
    fn krbrelay_window_new(window: *mut Window, first: u64);
    fn krbrelay_window_take(window: *mut Window, number: u64) -> u32;
    fn krbrelay_history_add(history: *mut u8, frame: *const u8, len: usize) -> u32;
    fn krbrelay_message_header(frame: *const u8, len: usize, header: *mut Header) -> u32;
}

#[cfg(feature = "std")]
extern "C" {
    fn krbrelay_now(now: *mut Moment) -> u32;
    fn krbrelay_sealer_seal_now(
        handle: *mut Raw,
        user_data: *const u8,
        len: usize,
        frame: *mut u8,
        room: usize,
        size: *mut usize,
    ) -> u32;
    fn krbrelay_sealer_seal_record_now(
        handle: *mut Raw,
        kind: u32,
        bytes: *const u8,
        len: usize,
        frame: *mut u8,
        room: usize,
        size: *mut usize,
    ) -> u32;
    fn krbrelay_peer_seal_now(
        handle: *mut Raw,
        user_data: *const u8,
        len: usize,
        frame: *mut u8,
        room: usize,
        size: *mut usize,
    ) -> u32;
}

fn checked(answer: u32) -> Result<(), Error> {
    match answer {
        0 => Ok(()),
        other => Err(Error::of(other)),
    }
}

/// What a call writes into a buffer of `room` bytes, whose place, size and place of the written size it
/// is given.
fn written(room: usize, call: impl FnOnce(*mut u8, usize, *mut usize) -> u32) -> Result<Vec<u8>, Error> {
    let (mut buffer, mut size) = (Vec::new(), 0);
    buffer.try_reserve_exact(room).map_err(|_| Error::Memory)?;
    buffer.resize(room, 0);
    checked(call(buffer.as_mut_ptr(), room, &mut size))?;
    buffer.truncate(size);
    Ok(buffer)
}

/// The room for the frame of so many bytes: what is longer is refused before the room is looked at.
fn room_of_frame(len: usize) -> usize {
    frame_size(len.min(USER_DATA_LIMIT))
}

/// The room for the user data of a frame: a longer frame is refused before the room is looked at.
fn room_of_data(frame: &[u8]) -> usize {
    frame.len().min(FRAME_LIMIT)
}

// ---- handles

/// What the library holds of a sealer, opener, receiver or peer. It is never empty, but where `new` fails.
pub(crate) struct Handle {
    raw: UnsafeCell<Raw>,
    free: unsafe extern "C" fn(*mut Raw),
}

// SAFETY: krbrelay.h: a handle may pass from thread to thread, where something orders the calls, as each
// move to another thread does. It has no thread-local state. It isn't Sync, since it has an UnsafeCell.
unsafe impl Send for Handle {}

impl Drop for Handle {
    fn drop(&mut self) {
        // SAFETY: the handle was made by the `_new` of the same kind, or is empty, and is used no more.
        unsafe {
            (self.free)(self.raw.get());
            krbrelay_clear_stack();
        }
    }
}

impl Handle {
    /// What `make` makes of an empty handle, after which the stack that had the key is overwritten.
    fn new(
        free: unsafe extern "C" fn(*mut Raw),
        make: impl FnOnce(*mut Raw) -> u32,
    ) -> Result<Handle, Error> {
        let empty = Raw { at: ptr::null_mut(), count: 0 };
        let handle = Handle { raw: UnsafeCell::new(empty), free };
        let answer = make(handle.raw.get());
        // SAFETY: it takes nothing, and writes below this function's frame alone.
        unsafe { krbrelay_clear_stack() };
        checked(answer).map(|()| handle)
    }

    pub(crate) fn sealer(key: Key<'_>, session: &Session) -> Result<Handle, Error> {
        let (etype, bytes) = key.parts();
        Handle::new(krbrelay_sealer_free, |raw| {
            // SAFETY: the module's rule; the handle is empty.
            unsafe { krbrelay_sealer_new(raw, etype, bytes.as_ptr(), bytes.len(), session) }
        })
    }

    pub(crate) fn opener(key: Key<'_>, expect: &Expect) -> Result<Handle, Error> {
        let (etype, bytes) = key.parts();
        Handle::new(krbrelay_opener_free, |raw| {
            // SAFETY: the module's rule; the handle is empty.
            unsafe { krbrelay_opener_new(raw, etype, bytes.as_ptr(), bytes.len(), expect) }
        })
    }

    pub(crate) fn receiver(
        key: Key<'_>,
        expect: &Expect,
        expected: u64,
        closed: bool,
    ) -> Result<Handle, Error> {
        let ((etype, bytes), closed) = (key.parts(), u32::from(closed));
        Handle::new(krbrelay_receiver_free, |raw| {
            let len = bytes.len();
            // SAFETY: the module's rule; the handle is empty.
            unsafe { krbrelay_receiver_new(raw, etype, bytes.as_ptr(), len, expect, expected, closed) }
        })
    }

    pub(crate) fn peer(
        key: Key<'_>,
        session: &Session,
        demand: &Demand,
        state: Option<&[u8; PEER_STATE_SIZE]>,
    ) -> Result<Handle, Error> {
        let (etype, bytes) = key.parts();
        Handle::new(krbrelay_peer_free, |raw| {
            let (at, len) = (bytes.as_ptr(), bytes.len());
            // SAFETY: the module's rule; the handle is empty, and the state has its size.
            unsafe {
                match state {
                    None => krbrelay_peer_new(raw, etype, at, len, session, demand),
                    Some(state) => {
                        krbrelay_peer_resume(raw, etype, at, len, session, demand, state.as_ptr())
                    }
                }
            }
        })
    }
}

// ---- sealers

pub(crate) fn seal(
    sealer: &mut Handle,
    user_data: &[u8],
    at: &Moment,
    confounder: &Confounder,
) -> Result<Vec<u8>, Error> {
    let (handle, from, len) = (sealer.raw.get(), user_data.as_ptr(), user_data.len());
    written(room_of_frame(len), |to, room, size| {
        // SAFETY: the module's rule; the handle is a sealer's.
        unsafe { krbrelay_sealer_seal(handle, from, len, at, confounder.as_ptr(), to, room, size) }
    })
}

pub(crate) fn seal_record(
    sealer: &mut Handle,
    kind: u32,
    bytes: &[u8],
    at: &Moment,
    confounder: &Confounder,
) -> Result<Vec<u8>, Error> {
    let (handle, from, len) = (sealer.raw.get(), bytes.as_ptr(), bytes.len());
    let drawn = confounder.as_ptr();
    written(room_of_frame(len.saturating_add(1)), |to, room, size| {
        // SAFETY: the module's rule; the handle is a sealer's.
        unsafe { krbrelay_sealer_seal_record(handle, kind, from, len, at, drawn, to, room, size) }
    })
}

/// Of messages the user data alone are read.
#[cfg(feature = "std")]
pub(crate) fn seal_many_now(
    sealer: &mut Handle,
    messages: &[Message<'_>],
) -> Result<Vec<Vec<u8>>, ManyError> {
    let handle = sealer.raw.get();
    sealed_many(messages, |from, to, room, sizes, failed| {
        // SAFETY: the module's rule; the handle is a sealer's.
        unsafe {
            krbrelay_sealer_seal_many_now(handle, from.as_ptr(), from.len(), to, room, sizes, failed)
        }
    })
}

pub(crate) fn seal_many(
    sealer: &mut Handle,
    messages: &[Message<'_>],
) -> Result<Vec<Vec<u8>>, ManyError> {
    let handle = sealer.raw.get();
    sealed_many(messages, |from, to, room, sizes, failed| {
        // SAFETY: the module's rule; the handle is a sealer's.
        unsafe { krbrelay_sealer_seal_many(handle, from.as_ptr(), from.len(), to, room, sizes, failed) }
    })
}

/// The frames of messages, by a call that is given these, the room for the frames, the places of their sizes,
/// and that of the index of the first that fails.
fn sealed_many(
    messages: &[Message<'_>],
    call: impl FnOnce(&[Unsealed], *mut u8, usize, *mut usize, *mut usize) -> u32,
) -> Result<Vec<Vec<u8>>, ManyError> {
    let unsealed: Vec<Unsealed> = messages.iter().map(Unsealed::of).collect();
    let room =
        messages.iter().fold(0usize, |sum, it| sum.saturating_add(room_of_frame(it.user_data.len())));
    let (mut frames, mut sizes, mut failed) = (Vec::new(), [0; MOST_MESSAGES], usize::MAX);
    let why = |index, error| ManyError { index, error };
    frames.try_reserve_exact(room).map_err(|_| why(None, Error::Memory))?;
    let answer = call(&unsealed, frames.as_mut_ptr(), room, sizes.as_mut_ptr(), &mut failed);
    let index = Some(failed).filter(|it| *it < messages.len());
    checked(answer).map_err(|error| why(index, error))?;
    let written = sizes.iter().take(messages.len()).sum();
    // SAFETY: it wrote so many bytes.
    unsafe { frames.set_len(written) };
    let mut rest = frames.as_slice();
    Ok(sizes
        .iter()
        .take(messages.len())
        .filter_map(|size| {
            let (frame, after) = (rest.get(..*size)?, rest.get(*size..)?);
            rest = after;
            Some(frame.to_vec())
        })
        .collect())
}

impl Unsealed {
    fn of(message: &Message<'_>) -> Unsealed {
        Unsealed {
            user_data: message.user_data.as_ptr(),
            user_data_len: message.user_data.len(),
            at: message.at.raw(),
            confounder: message.confounder,
        }
    }
}

#[cfg(feature = "std")]
pub(crate) fn seal_now(sealer: &mut Handle, user_data: &[u8]) -> Result<Vec<u8>, Error> {
    let (handle, from, len) = (sealer.raw.get(), user_data.as_ptr(), user_data.len());
    written(room_of_frame(len), |to, room, size| {
        // SAFETY: the module's rule; the handle is a sealer's.
        unsafe { krbrelay_sealer_seal_now(handle, from, len, to, room, size) }
    })
}

#[cfg(feature = "std")]
pub(crate) fn seal_record_now(sealer: &mut Handle, kind: u32, bytes: &[u8]) -> Result<Vec<u8>, Error> {
    let (handle, from, len) = (sealer.raw.get(), bytes.as_ptr(), bytes.len());
    written(room_of_frame(len.saturating_add(1)), |to, room, size| {
        // SAFETY: the module's rule; the handle is a sealer's.
        unsafe { krbrelay_sealer_seal_record_now(handle, kind, from, len, to, room, size) }
    })
}

/// The next number. Only an empty handle has none, which a sealer isn't.
pub(crate) fn next(sealer: &Handle) -> u64 {
    let mut next = 0;
    // SAFETY: the module's rule; the handle is a sealer's, and lies in an UnsafeCell.
    let answer = unsafe { krbrelay_sealer_next(sealer.raw.get(), &mut next) };
    debug_assert_eq!(answer, 0);
    next
}

pub(crate) fn sealed_size(sealer: &Handle, len: usize, at: &Moment) -> Result<usize, Error> {
    let mut size = 0;
    // SAFETY: the module's rule; the handle is a sealer's, and lies in an UnsafeCell.
    checked(unsafe { krbrelay_sealer_frame_size(sealer.raw.get(), len, at, &mut size) })?;
    Ok(size)
}

pub(crate) fn set_mode(sealer: &mut Handle, mode: u32) -> Result<(), Error> {
    // SAFETY: the module's rule; the handle is a sealer's.
    checked(unsafe { krbrelay_sealer_set_mode(sealer.raw.get(), mode) })
}

pub(crate) fn wipe_sealer(sealer: &mut Handle) {
    // SAFETY: the module's rule; the handle is a sealer's.
    unsafe { krbrelay_sealer_wipe(sealer.raw.get()) }
}

// ---- openers

pub(crate) fn unseal(
    opener: &mut Handle,
    frame: &[u8],
    number: u64,
    at: &Moment,
) -> Result<Vec<u8>, Error> {
    let (handle, from, len) = (opener.raw.get(), frame.as_ptr(), frame.len());
    written(room_of_data(frame), |to, room, size| {
        // SAFETY: the module's rule; the handle is an opener's.
        unsafe { krbrelay_opener_unseal(handle, from, len, number, at, to, room, size) }
    })
}

pub(crate) fn open(
    opener: &mut Handle,
    frame: &[u8],
    demand: &Demand,
    at: &Moment,
) -> Result<(Vec<u8>, Carried), Error> {
    let (handle, from, len) = (opener.raw.get(), frame.as_ptr(), frame.len());
    let mut carried = Carried::new();
    let user_data = written(room_of_data(frame), |to, room, size| {
        // SAFETY: the module's rule; the handle is an opener's.
        unsafe { krbrelay_opener_open(handle, from, len, demand, at, to, room, size, &mut carried) }
    })?;
    Ok((user_data, carried))
}

pub(crate) fn wipe_opener(opener: &mut Handle) {
    // SAFETY: the module's rule; the handle is an opener's.
    unsafe { krbrelay_opener_wipe(opener.raw.get()) }
}

// ---- receivers

/// The kind of a record and its bytes, or an error with the number that the message carries.
pub(crate) type Taking = Result<(u32, Vec<u8>), (Error, u64)>;

pub(crate) fn take(receiver: &mut Handle, frame: &[u8], at: &Moment) -> Taking {
    let (handle, from, len) = (receiver.raw.get(), frame.as_ptr(), frame.len());
    let (mut kind, mut number) = (0, u64::MAX);
    let (told, found) = (&mut kind, &mut number);
    let bytes = written(room_of_data(frame), |to, room, size| {
        // SAFETY: the module's rule; the handle is a receiver's.
        unsafe { krbrelay_receiver_take_numbered(handle, from, len, at, told, to, room, size, found) }
    });
    match bytes {
        Ok(bytes) => Ok((kind, bytes)),
        Err(error) => Err((error, number)),
    }
}

/// The same of each of several messages.
pub(crate) fn take_many(
    receiver: &mut Handle,
    frames: &[&[u8]],
    at: &Moment,
) -> Result<Vec<Taking>, Error> {
    let given: Vec<Frame> =
        frames.iter().map(|it| Frame { bytes: it.as_ptr(), bytes_len: it.len() }).collect();
    let room = frames.iter().fold(0usize, |sum, it| sum.saturating_add(room_of_data(it)));
    let none = Taken { answer: 0, kind: 0, size: 0, number: u64::MAX };
    let (mut bytes, mut taken) = (Vec::<u8>::new(), [none; MOST_FRAMES]);
    bytes.try_reserve_exact(room).map_err(|_| Error::Memory)?;
    let (handle, from, to, told) =
        (receiver.raw.get(), given.as_ptr(), bytes.as_mut_ptr(), taken.as_mut_ptr());
    // SAFETY: the module's rule; the handle is a receiver's, and the messages are borrowed until the call ends.
    checked(unsafe { krbrelay_receiver_take_many(handle, from, given.len(), at, to, room, told) })?;
    let taken = taken.iter().take(frames.len());
    let written = taken.clone().filter(|it| it.answer == 0).map(|it| it.size).sum();
    // SAFETY: it wrote so many bytes.
    unsafe { bytes.set_len(written) };
    let mut rest = bytes.as_slice();
    Ok(taken.map(|it| it.of(&mut rest)).collect())
}

impl Taken {
    /// What was told of a message, whose record the bytes begin with if it was accepted.
    fn of(&self, rest: &mut &[u8]) -> Taking {
        checked(self.answer).map_err(|error| (error, self.number))?;
        let (record, after) = rest.split_at(self.size.min(rest.len()));
        *rest = after;
        Ok((self.kind, record.to_vec()))
    }
}

/// The demanded number, and whether a close came. Only an empty handle has none, which a receiver isn't.
pub(crate) fn receiver_state(receiver: &Handle) -> (u64, bool) {
    let (mut expected, mut closed) = (0, 0);
    let handle = receiver.raw.get();
    // SAFETY: the module's rule; the handle is a receiver's, and lies in an UnsafeCell.
    let answer = unsafe { krbrelay_receiver_state(handle, &mut expected, &mut closed) };
    debug_assert_eq!(answer, 0);
    (expected, closed != 0)
}

// ---- peers

pub(crate) fn peer_seal(
    peer: &mut Handle,
    user_data: &[u8],
    at: &Moment,
    confounder: &Confounder,
) -> Result<Vec<u8>, Error> {
    let (handle, from, len) = (peer.raw.get(), user_data.as_ptr(), user_data.len());
    written(room_of_frame(len), |to, room, size| {
        // SAFETY: the module's rule; the handle is a peer's.
        unsafe { krbrelay_peer_seal(handle, from, len, at, confounder.as_ptr(), to, room, size) }
    })
}

#[cfg(feature = "std")]
pub(crate) fn peer_seal_now(peer: &mut Handle, user_data: &[u8]) -> Result<Vec<u8>, Error> {
    let (handle, from, len) = (peer.raw.get(), user_data.as_ptr(), user_data.len());
    written(room_of_frame(len), |to, room, size| {
        // SAFETY: the module's rule; the handle is a peer's.
        unsafe { krbrelay_peer_seal_now(handle, from, len, to, room, size) }
    })
}

/// Of messages the user data alone are read.
#[cfg(feature = "std")]
pub(crate) fn peer_seal_many_now(
    peer: &mut Handle,
    messages: &[Message<'_>],
) -> Result<Vec<Vec<u8>>, ManyError> {
    let handle = peer.raw.get();
    sealed_many(messages, |from, to, room, sizes, failed| {
        // SAFETY: the module's rule; the handle is a peer's.
        unsafe {
            krbrelay_peer_seal_many_now(handle, from.as_ptr(), from.len(), to, room, sizes, failed)
        }
    })
}

pub(crate) fn peer_seal_many(
    peer: &mut Handle,
    messages: &[Message<'_>],
) -> Result<Vec<Vec<u8>>, ManyError> {
    let handle = peer.raw.get();
    sealed_many(messages, |from, to, room, sizes, failed| {
        // SAFETY: the module's rule; the handle is a peer's.
        unsafe { krbrelay_peer_seal_many(handle, from.as_ptr(), from.len(), to, room, sizes, failed) }
    })
}

/// The user data, and what else the message carried, which stands beside an error too.
pub(crate) fn peer_open(
    peer: &mut Handle,
    frame: &[u8],
    at: &Moment,
) -> (Result<Vec<u8>, Error>, Carried) {
    let (handle, from, len) = (peer.raw.get(), frame.as_ptr(), frame.len());
    let mut carried = Carried::new();
    let user_data = written(room_of_data(frame), |to, room, size| {
        // SAFETY: the module's rule; the handle is a peer's.
        unsafe { krbrelay_peer_open(handle, from, len, at, to, room, size, &mut carried) }
    });
    (user_data, carried)
}

/// Both numbers. Only an empty handle has none, which a peer isn't.
pub(crate) fn peer_state(peer: &Handle) -> (u64, u64) {
    let (mut next, mut expected) = (0, 0);
    let handle = peer.raw.get();
    // SAFETY: the module's rule; the handle is a peer's, and lies in an UnsafeCell.
    let answer = unsafe { krbrelay_peer_state(handle, &mut next, &mut expected) };
    debug_assert_eq!(answer, 0);
    (next, expected)
}

/// Both numbers as bytes. Only an empty handle has none, which a peer isn't.
pub(crate) fn peer_export(peer: &Handle) -> [u8; PEER_STATE_SIZE] {
    let mut state = [0; PEER_STATE_SIZE];
    // SAFETY: the module's rule; the handle is a peer's, and lies in an UnsafeCell.
    let answer = unsafe { krbrelay_peer_export(peer.raw.get(), state.as_mut_ptr()) };
    debug_assert_eq!(answer, 0);
    state
}

// ---- without a handle

pub(crate) fn new_window(first: u64) -> Window {
    let mut window = Window::default();
    // SAFETY: the module's rule.
    unsafe { krbrelay_window_new(&mut window, first) };
    window
}

pub(crate) fn take_number(window: &mut Window, number: u64) -> Result<(), Error> {
    // SAFETY: the module's rule.
    checked(unsafe { krbrelay_window_take(window, number) })
}

pub(crate) fn add_to_history(history: &mut [u8; HISTORY_SIZE], frame: &[u8]) -> Result<(), Error> {
    // SAFETY: the module's rule; the history has its size.
    checked(unsafe { krbrelay_history_add(history.as_mut_ptr(), frame.as_ptr(), frame.len()) })
}

pub(crate) fn header(frame: &[u8]) -> Result<Header, Error> {
    let mut header = Header::default();
    // SAFETY: the module's rule.
    checked(unsafe { krbrelay_message_header(frame.as_ptr(), frame.len(), &mut header) })?;
    Ok(header)
}

#[cfg(feature = "std")]
pub(crate) fn now() -> Result<Moment, Error> {
    let mut now = Moment::default();
    // SAFETY: the module's rule.
    checked(unsafe { krbrelay_now(&mut now) })?;
    Ok(now)
}

/// Whether the processor has the instructions that the library was compiled for. Where it hasn't, what
/// makes a handle returns [`Error::Processor`].
#[must_use]
pub fn is_supported() -> bool {
    // SAFETY: it takes nothing.
    unsafe { krbrelay_is_supported() != 0 }
}

/// The version of the library that is linked: major number, minor number and patch.
#[must_use]
pub fn library_version() -> (u32, u32, u32) {
    // SAFETY: it takes nothing.
    let version = unsafe { krbrelay_version() };
    (version >> 16, version >> 8 & 0xff, version & 0xff)
}

#[cfg(all(test, feature = "std"))]
mod tests {
    use core::mem::size_of;
    use std::ffi::CStr;
    use std::os::raw::c_char;

    use super::*;
    use crate::error::Class;

    extern "C" {
        fn krbrelay_strerror(answer: u32) -> *const c_char;
        fn krbrelay_class_of(answer: u32) -> u32;
        fn krbrelay_frame_size(len: usize) -> usize;
    }

    /// All numbers below some above the last answer: their words and classes are the library's.
    #[test]
    fn each_answer_says_what_the_library_says() {
        let classes =
            [Class::Refusal, Class::Caller, Class::State, Class::Memory, Class::System, Class::Unknown];
        let mut known = 0;
        for answer in 1..2_000 {
            // SAFETY: it takes a number, and returns a constant of the library's.
            let text = unsafe { CStr::from_ptr(krbrelay_strerror(answer)) };
            let error = Error::of(answer);
            // SAFETY: it takes a number.
            let class = unsafe { krbrelay_class_of(answer) };
            assert_eq!(error.answer(), answer);
            assert_eq!(error.to_string(), text.to_str().unwrap());
            assert_eq!(error.class(), classes[class as usize - 1]);
            assert_eq!(error.is_refusal(), class == 1);
            known += u32::from(error != Error::Other(answer));
        }
        assert_eq!(known, 31);
    }

    #[test]
    fn rooms_are_the_librarys() {
        for len in (0..2_000).chain(USER_DATA_LIMIT - 3..=USER_DATA_LIMIT) {
            // SAFETY: it takes a number.
            assert_eq!(frame_size(len), unsafe { krbrelay_frame_size(len) });
        }
        assert_eq!(frame_size(usize::MAX), usize::MAX);
    }

    /// No struct has padding: each has the size of its fields.
    #[test]
    fn structs_have_no_padding() {
        assert_eq!(size_of::<Moment>(), 8 + 2 * 4);
        assert_eq!(size_of::<Address>(), 2 * 4 + 40);
        assert_eq!(size_of::<Session>(), 3 * 4 + 2 * 48 + 5 * 4);
        assert_eq!(size_of::<Expect>(), 4 * 4 + 2 * 48 + 4 * 4);
        assert_eq!(size_of::<Demand>(), 4 * 4 + 8 + 4 + 2 * 48 + 4 + 4 * 4);
        assert_eq!(size_of::<Carried>(), 8 + 6 * 4 + 2 * 48 + 6 * 4);
        assert_eq!(size_of::<Header>(), 8 * 4);
        assert_eq!(size_of::<Window>(), 2 * 8);
    }

    #[test]
    fn a_handle_goes_to_another_thread() {
        fn sent<T: Send>() {}
        sent::<Handle>();
    }
}

//! Each refusal by its name, and the errors of a caller.

mod common;

use std::collections::BTreeSet;

use common::{expect, frames, from, session, AES128, AES256, AT, FIRST, LAST, RECEIVER, SENDER};
use krbrelay::{
    Address, Batch, Class, Demand, Error, Expect, How, Key, Mode, Moment, Numbers, Opener, Peer,
    Receiver, Record, Sealer, Session, State, Window,
};

const PRIV: &str = "priv 17, first drawn confounder";
const OUT_OF_ORDER: Error = Error::BadOrder { number: None };

fn changed(frame: &[u8], at: usize, byte: u8) -> Vec<u8> {
    let mut changed = frame.to_vec();
    changed[at] = byte;
    changed
}

/// What an opener of KRB-SAFE under key 17 says of a frame.
fn unsealed(mode: Mode, frame: &[u8], number: u64, at: Moment) -> Result<Vec<u8>, Error> {
    Opener::new(AES128, &expect(mode)).unwrap().unseal_at(frame, number, at)
}

fn of_openers() -> Vec<(Result<Vec<u8>, Error>, Error)> {
    let known = frames();
    let (safe, sealed) = (&known["safe 17"], &known[PRIV]);
    let late = Moment { seconds: AT.seconds + 301, ..AT };
    let elsewhere = Expect::new(Mode::Safe, RECEIVER, RECEIVER);
    let mut other_end = Opener::new(AES128, &elsewhere).unwrap();
    vec![
        (unsealed(Mode::Safe, &vec![0; 1_005_001], 7, AT), Error::FieldTooLong),
        (unsealed(Mode::Safe, b"", 7, AT), Error::Malformed),
        (unsealed(Mode::Safe, &changed(safe, 8, 6), 7, AT), Error::BadVersion),
        (unsealed(Mode::Safe, sealed, 7, AT), Error::MsgType),
        (unsealed(Mode::Priv, &known["priv 18, first drawn confounder"], 7, AT), Error::EtypeNoSupp),
        (unsealed(Mode::Priv, &changed(sealed, sealed.len() - 1, 0), 7, AT), Error::BadIntegrity),
        (unsealed(Mode::Safe, &known["safe 18"], 7, AT), Error::InappCksum),
        (other_end.unseal_at(safe, 7, AT), Error::BadAddr),
        (unsealed(Mode::Safe, safe, 7, late), Error::Skew),
        (unsealed(Mode::Safe, safe, 8, AT), OUT_OF_ORDER),
        (unsealed(Mode::Safe, &changed(safe, safe.len() - 1, 0), 7, AT), Error::Modified),
    ]
}

fn of_receivers() -> Vec<(Result<Record, Error>, Error)> {
    let known = frames();
    let begins =
        |closed| Receiver::new(AES128, &expect(Mode::Safe), State { closed, ..from(FIRST) }).unwrap();
    vec![
        (begins(false).take_at(&known["safe 17, no record"], AT), Error::BadRecord),
        (begins(true).take_at(&known["safe 17"], AT), Error::AfterClose),
    ]
}

#[test]
fn each_refusal_has_its_name() {
    let mut names = BTreeSet::new();
    let mut refused = |found: Option<Error>, wanted: Error| {
        assert_eq!(found, Some(wanted));
        assert!(wanted.is_refusal() && wanted.class() == Class::Refusal);
        names.insert(wanted.name());
    };
    of_openers().into_iter().for_each(|(found, wanted)| refused(found.err(), wanted));
    of_receivers().into_iter().for_each(|(found, wanted)| refused(found.err(), wanted));
    let mut window = Window::new(0);
    window.take(100).unwrap();
    refused(window.take(100).err(), Error::Repeated);
    refused(window.take(36).err(), Error::TooOld);
    // All of the class that the library has (sys.rs asks it for each).
    assert_eq!(names.len(), 15);
}

#[test]
fn a_message_out_of_order_tells_its_number() {
    let known = frames();
    let taken = |number, name: &str| {
        Receiver::new(AES128, &expect(Mode::Safe), from(number)).unwrap().take_at(&known[name], AT)
    };
    assert_eq!(taken(8, "safe 17"), Err(Error::BadOrder { number: Some(7) }));
    assert_eq!(taken(7, "safe 17, last number"), Err(Error::BadOrder { number: Some(LAST) }));
    assert_eq!(taken(7, "safe 17, no number"), Err(OUT_OF_ORDER));
    let forged = changed(&known["safe 17"], known["safe 17"].len() - 1, 0);
    let mut receiver = Receiver::new(AES128, &expect(Mode::Safe), from(8)).unwrap();
    // The number of what isn't authentic is never told.
    assert!(matches!(receiver.take_at(&forged, AT), Err(OUT_OF_ORDER | Error::Modified)));
    let demand = Demand { number: Some(9), ..Demand::of_sender(SENDER) };
    let mut peer = Peer::new(AES128, &session(Mode::Safe, 0), &demand).unwrap();
    assert_eq!(peer.open_at(&known["safe 17"], AT), Err(Error::BadOrder { number: Some(7) }));
    assert_eq!(peer.open_at(&known["safe 17, no number"], AT), Err(OUT_OF_ORDER));
    assert_eq!(peer.numbers(), Numbers { next: 0, expected: 9 });
}

/// All bits of a number count, and of a time: 2^32 more is another one.
#[test]
fn numbers_and_times_are_whole() {
    const MORE: u64 = 1 << 32;
    let safe = &frames()["safe 17"];
    let opened = |number| {
        let demand = Demand { number: Some(number), ..Demand::of_sender(SENDER) };
        Opener::of_mode(AES128, Mode::Safe).unwrap().open_at(safe, &demand, AT)
    };
    let later = Moment { seconds: AT.seconds + MORE, ..AT };
    assert!(unsealed(Mode::Safe, safe, 7, AT).is_ok() && opened(7).is_ok());
    assert_eq!(unsealed(Mode::Safe, safe, 7 + MORE, AT), Err(OUT_OF_ORDER));
    assert!(matches!(opened(7 + MORE), Err(Error::BadOrder { .. })));
    assert_eq!(unsealed(Mode::Safe, safe, 7, later), Err(Error::Skew));
    assert_eq!(Window::new(MORE).take(5), Err(Error::TooOld));
    let mut window = Window::new(0);
    window.take(5 + MORE).unwrap();
    assert_eq!(window.take(5), Err(Error::TooOld));
    let mut receiver = Receiver::new(AES128, &expect(Mode::Safe), from(LAST)).unwrap();
    receiver.take_at(&frames()["safe 17, last number"], AT).unwrap();
    assert_eq!(receiver.state().expected, MORE);
}

/// No change of one bit is taken, and none does anything else than refuse.
#[test]
fn each_bit_counts() {
    let known = frames();
    for (mode, name) in [(Mode::Safe, "safe 17"), (Mode::Priv, PRIV)] {
        let mut receiver = Receiver::new(AES128, &expect(mode), from(FIRST)).unwrap();
        for bit in 0..8 * known[name].len() {
            let frame = changed(&known[name], bit / 8, known[name][bit / 8] ^ 1 << (bit % 8));
            let error = receiver.take_at(&frame, AT).expect_err("one bit is another");
            assert!(error.is_refusal(), "{error} at {bit}");
        }
        for len in 0..known[name].len() {
            assert!(receiver.take_at(&known[name][..len], AT).unwrap_err().is_refusal());
        }
        assert_eq!(receiver.state(), from(FIRST));
        assert!(receiver.take_at(&known[name], AT).is_ok());
    }
}

#[test]
fn errors_of_a_caller() {
    let mut sealer = Sealer::new(AES128, &session(Mode::Safe, LAST)).unwrap();
    let never = Moment { seconds: u64::MAX, microseconds: 0 };
    let long = vec![0; krbrelay::USER_DATA_LIMIT + 1];
    assert_eq!(sealer.seal_at(b"", never, &[0; 16]), Err(Error::Moment));
    assert_eq!(
        sealer.seal_at(b"", Moment { microseconds: 1_000_000, ..AT }, &[0; 16]),
        Err(Error::Moment)
    );
    assert_eq!(sealer.seal_at(&long, AT, &[0; 16]), Err(Error::TooLong));
    assert_eq!(sealer.frame_size(long.len(), AT), Err(Error::TooLong));
    let mut one = Batch::new();
    one.push(b"alone").unwrap();
    for record in [Record::Text(long), Record::Batch(one), Record::Batch(Batch::new())] {
        assert_eq!(sealer.seal_record_at(&record, AT, &[0; 16]), Err(Error::Record));
    }
    assert_eq!(sealer.next(), u64::from(LAST));
    assert!(sealer.seal_at(&[0; krbrelay::USER_DATA_LIMIT], AT, &[0; 16]).is_ok());
    assert_eq!(sealer.next(), 1 << 32);
    assert_eq!(sealer.seal_at(b"", AT, &[0; 16]), Err(Error::Exhausted));
    assert_eq!(Key::new(17, &[0; 32]).map(|key| key.etype()), Err(Error::KeySize));
    assert_eq!(Key::new(16, &[0; 16]).map(|key| key.etype()), Err(Error::Etype));
    assert_eq!(Key::new(18, &[0; 32]).map(|key| key.etype()), Ok(18));
    let past = State { expected: (1 << 32) + 1, closed: false };
    assert_eq!(Receiver::new(AES128, &expect(Mode::Safe), past).err(), Some(Error::Argument));
}

#[test]
fn wiped_keys_seal_and_open_nothing() {
    let known = frames();
    let mut sealer = Sealer::new(AES256, &session(Mode::Priv, 0)).unwrap();
    sealer.wipe();
    assert_eq!(sealer.seal_at(b"", AT, &[0; 16]), Err(Error::Wiped));
    let mut opener = Opener::new(AES128, &expect(Mode::Safe)).unwrap();
    assert!(opener.unseal_at(&known["safe 17"], 7, AT).is_ok());
    opener.wipe();
    assert_eq!(opener.unseal_at(&known["safe 17"], 7, AT), Err(Error::Wiped));
    assert_eq!(opener.open_at(&known["safe 17"], &Demand::default(), AT), Err(Error::Wiped));
    assert_eq!(Error::Wiped.class(), Class::State);
}

#[test]
fn each_demand_is_made() {
    let known = frames();
    let mut opener = Opener::of_mode(AES128, Mode::Safe).unwrap();
    let nothing = Demand::default();
    let mut said = |name: &str, demand: Demand| opener.open_at(&known[name], &demand, AT).err();
    let receiver = Demand { receiver: Some(RECEIVER), ..nothing };
    assert_eq!(said("safe 17", nothing), None);
    assert_eq!(said("safe 17", Demand { sender: Some(RECEIVER), ..nothing }), Some(Error::BadAddr));
    assert_eq!(said("safe 17", receiver), Some(Error::BadAddr));
    assert_eq!(said("safe 17", Demand { how_receiver: How::IfPresent, ..receiver }), None);
    assert_eq!(said("safe 17, to the receiver", receiver), None);
    assert_eq!(said("safe 17, no time", Demand { skew: Some(5), ..nothing }), Some(Error::Skew));
    assert_eq!(
        said("safe 17, no usec", Demand { skew: Some(5), how_time: How::AbsentIs0, ..nothing }),
        None
    );
    assert_eq!(said("safe 17, no number", Demand { number: Some(0), ..nothing }), Some(OUT_OF_ORDER));
    let absent = Demand { number: Some(0), how_number: How::AbsentIs0, ..nothing };
    assert_eq!(said("safe 17, no number", absent), None);
    let either = Demand { needs_time_or_number: true, ..nothing };
    assert_eq!(said("safe 17, neither time nor number", either), Some(Error::Modified));
    assert_eq!(said("safe 17, no number", either), None);
    let counted = Demand { needs_time_or_number: true, ..absent };
    assert_eq!(said("safe 17, neither time nor number", counted), Some(Error::Modified));
    assert_eq!(said("safe 17, no number", counted), None);
    assert_eq!(
        said("safe 17", Demand { how_receiver: How::AbsentIs0, ..receiver }),
        Some(Error::Argument)
    );
    assert_eq!(opener.unseal_at(&known["safe 17"], 7, AT), Err(Error::Argument));
}

#[test]
fn a_peer_goes_on_from_its_export() {
    let ends = |own| (session_of(own), Demand { number: None, ..Demand::of_sender(own) });
    let ((client, of_client), (server, of_server)) = (ends(Address::CLIENT), ends(Address::SERVER));
    let mut one = Peer::new(AES256, &client, &of_server).unwrap();
    let mut other = Peer::new(AES256, &server, &of_client).unwrap();
    let first = one.seal_at(b"a", AT, &[1; 16]).unwrap();
    assert_eq!(other.open_at(&first, AT).unwrap().user_data, b"a");
    let state = one.export();
    drop(one);
    let mut one = Peer::resume(AES256, &client, &of_server, &state).unwrap();
    assert_eq!(one.numbers(), Numbers { next: 1, expected: 0 });
    let second = one.seal_at(b"b", AT, &[2; 16]).unwrap();
    assert_eq!(other.open_at(&second, AT).unwrap().carried.number, Some(1));
    assert_eq!(other.open_at(&second, AT), Err(Error::BadOrder { number: Some(1) }));
    assert_eq!(one.open_at(&second, AT), Err(Error::BadAddr));
    let later = Session { first: 1, ..client };
    assert_eq!(Peer::resume(AES256, &later, &of_server, &state).err(), Some(Error::Argument));
    assert_eq!(Peer::resume(AES256, &client, &of_server, &[0; 20]).err(), Some(Error::Argument));
    let mut spent = state;
    spent[4..12].copy_from_slice(&(1u64 << 32).to_be_bytes());
    assert_eq!(Peer::resume(AES256, &client, &of_server, &spent).err(), Some(Error::Exhausted));
}

fn session_of(sender: Address) -> Session {
    Session::new(Mode::Priv, sender)
}

#[test]
fn addresses_have_at_most_40_bytes() {
    assert_eq!(Address::new(2, &[7; 41]), Err(Error::Address));
    let longest = Address::new(-5, &[7; 40]).unwrap();
    assert_eq!((longest.kind(), longest.bytes()), (-5, &[7; 40][..]));
    assert_eq!(Address::new(2, &[10, 0, 0, 1]), Ok(SENDER));
    assert_eq!(Address::SERVER.bytes(), [0, 0, 0, 1]);
    assert_eq!(Address::ipv6([9; 16]).bytes(), [9; 16]);
    assert_ne!(Address::new(2, &[1, 0]), Address::new(2, &[1]));
}

/// What is printed for a program's developer has no key in it.
#[test]
fn no_key_is_printed() {
    let secret = [0xa7; 32];
    let sealer = Sealer::new(Key::Aes256(&secret), &session(Mode::Priv, 3)).unwrap();
    assert_eq!(format!("{sealer:?}"), "Sealer { next: 3, .. }");
    assert_eq!(format!("{:?}", Key::Aes256(&secret)), "Key(encryption type 18)");
}

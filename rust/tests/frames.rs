//! What is sealed is what the independent sealer makes, byte for byte, and is opened.

mod common;

use common::{expect, frames, from, session, AES128, AES256, AT, DRAWN, FIRST, LAST, RECEIVER};
use krbrelay::{
    message_header, Batch, Demand, Error, Key, ManyError, Message, Mode, Numbers, Opener, Peer,
    Receiver, Record, Sealer, Session, MOST_FRAMES, MOST_MESSAGES,
};

type Row = (&'static str, Mode, Key<'static>, u32, Vec<Record>);

fn text(bytes: &[u8]) -> Record {
    Record::Text(bytes.to_vec())
}

fn batch(texts: &[&[u8]]) -> Record {
    let mut batch = Batch::new();
    texts.iter().for_each(|text| batch.push(text).unwrap());
    Record::Batch(batch)
}

/// The first frame of each row, what follows it being named `, .. behind it`.
fn rows() -> Vec<Row> {
    vec![
        ("safe 17", Mode::Safe, AES128, FIRST, vec![text(b"hi"), Record::Closed]),
        ("safe 18", Mode::Safe, AES256, FIRST, vec![text(b"hi"), Record::Closed]),
        (
            "priv 17, first drawn confounder",
            Mode::Priv,
            AES128,
            FIRST,
            vec![text(b"hi"), Record::Closed],
        ),
        (
            "priv 18, first drawn confounder",
            Mode::Priv,
            AES256,
            FIRST,
            vec![text(b"hi"), Record::Closed],
        ),
        (
            "safe 17, the batch of 61 and 62",
            Mode::Safe,
            AES128,
            FIRST,
            vec![batch(&[b"a", b"b"]), text(b"c"), Record::Closed],
        ),
        (
            "priv 17, the batch, first drawn confounder",
            Mode::Priv,
            AES128,
            FIRST,
            vec![batch(&[b"a", b"b"]), text(b"c"), Record::Closed],
        ),
        ("safe 17, the text 61 before the last number", Mode::Safe, AES128, LAST - 1, vec![text(b"a")]),
        (
            "safe 17, the batch before the last number",
            Mode::Safe,
            AES128,
            LAST - 1,
            vec![batch(&[b"a", b"b"])],
        ),
        ("safe 17, last number", Mode::Safe, AES128, LAST, vec![Record::Closed]),
    ]
}

/// The names of a row's frames, in their order.
fn names(first: &'static str, count: usize) -> Vec<String> {
    let start = &first[..7];
    let behind = match (first.contains("batch"), count) {
        (_, 1) => vec![],
        (false, _) => vec!["the close behind it"],
        (true, _) => vec!["the text 63 behind it", "the close behind both"],
    };
    let rest = behind.into_iter().map(|it| format!("{start}, {it}"));
    std::iter::once(first.to_string()).chain(rest).collect()
}

#[test]
fn sealing_makes_these_frames() {
    let known = frames();
    for (first, mode, key, number, records) in rows() {
        let mut sealer = Sealer::new(key, &session(mode, number)).unwrap();
        for ((record, name), drawn) in records.iter().zip(names(first, records.len())).zip(DRAWN) {
            let next = sealer.next();
            let size = sealer.frame_size(record_size(record), AT).unwrap();
            let frame = sealer.seal_record_at(record, AT, &drawn).unwrap();
            assert_eq!(frame, known[&name], "{name}");
            assert_eq!((frame.len(), sealer.next()), (size, next + 1), "{name}");
        }
    }
}

const KINDS: [(Mode, Key<'static>); 4] =
    [(Mode::Safe, AES128), (Mode::Priv, AES128), (Mode::Safe, AES256), (Mode::Priv, AES256)];
/// How many messages are sealed in one call.
const COUNTS: [usize; 7] = [0, 1, 3, 4, 8, 13, MOST_MESSAGES];

fn user_data() -> Vec<Vec<u8>> {
    (0..MOST_MESSAGES).map(|it| vec![it as u8; 41 * it]).collect()
}

fn messages_of(data: &[Vec<u8>]) -> Vec<Message<'_>> {
    data.iter()
        .enumerate()
        .map(|(it, user_data)| Message { user_data, at: AT, confounder: [it as u8; 16] })
        .collect()
}

/// Messages of one call are those of as many calls, which the rows above compare with another sealer's.
#[test]
fn messages_of_one_call_are_those_of_single_calls() {
    let data = user_data();
    let messages = messages_of(&data);
    for (mode, key) in KINDS {
        for count in COUNTS {
            let (mut single, mut many) = (sealer(key, mode, FIRST), sealer(key, mode, FIRST));
            let wanted: Vec<Vec<u8>> = messages[..count]
                .iter()
                .map(|it| single.seal_at(it.user_data, it.at, &it.confounder).unwrap())
                .collect();
            assert_eq!(many.seal_many(&messages[..count]).unwrap(), wanted);
            assert_eq!(many.next(), single.next());
        }
    }
}

fn sealer(key: Key<'_>, mode: Mode, first: u32) -> Sealer {
    Sealer::new(key, &session(mode, first)).unwrap()
}

#[test]
fn the_first_message_that_fails_is_named() {
    let hi = Message { user_data: b"hi", at: AT, confounder: [1; 16] };
    let mut last = sealer(AES128, Mode::Priv, LAST - 1);
    let exhausted = last.seal_many(&[hi; 3]).unwrap_err();
    assert_eq!(exhausted, ManyError { index: Some(2), error: Error::Exhausted });
    assert_eq!(exhausted.to_string(), "message 2: no sequence number is left");
    let too_many = last.seal_many(&[hi; MOST_MESSAGES + 1]).unwrap_err();
    assert_eq!(too_many, ManyError { index: None, error: Error::Argument });
    assert_eq!(last.next(), u64::from(LAST - 1));
    assert_eq!(last.seal_many(&[hi; 2]).unwrap().len(), 2);
}

/// Each opens at its number, and no two KRB-PRIV of the same user data are alike.
#[test]
#[cfg(feature = "std")]
fn messages_of_one_call_are_sealed_now() {
    for (mode, key) in KINDS {
        let (mut one, mut end) = (sealer(key, mode, FIRST), peer(key, mode, FIRST));
        for made in [one.seal_many_now(&[b"hi"; 9]), end.seal_many_now(&[b"hi"; 9])] {
            let (made, mut opener) = (made.unwrap(), Opener::new(key, &expect(mode)).unwrap());
            for (number, frame) in (u64::from(FIRST)..).zip(&made) {
                assert_eq!(opener.unseal(frame, number).unwrap(), b"hi");
            }
            let others: std::collections::HashSet<_> =
                made.iter().map(|it| &it[it.len() - 40..]).collect();
            assert_eq!(others.len(), if mode == Mode::Priv { 9 } else { others.len() });
        }
        let too_many = one.seal_many_now(&[b"hi"; MOST_MESSAGES + 1]).unwrap_err();
        assert_eq!(too_many, ManyError { index: None, error: Error::Argument });
    }
}

fn peer(key: Key<'_>, mode: Mode, first: u32) -> Peer {
    Peer::new(key, &session(mode, first), &Demand { number: Some(9), ..Demand::of_sender(RECEIVER) })
        .unwrap()
}

/// The same of a peer, whose other end opens them; the number that it expects stays.
#[test]
fn a_peers_messages_of_one_call_are_those_of_single_calls() {
    let data = user_data();
    let messages = messages_of(&data);
    for (mode, key) in KINDS {
        for count in COUNTS {
            let (mut single, mut many) = (peer(key, mode, FIRST), peer(key, mode, FIRST));
            let demand = Demand { number: Some(FIRST.into()), ..Demand::of_sender(common::SENDER) };
            let mut other = Peer::new(key, &Session::new(mode, RECEIVER), &demand).unwrap();
            let made = many.seal_many(&messages[..count]).unwrap();
            assert_eq!(made.len(), count);
            for (it, frame) in messages.iter().zip(&made) {
                assert_eq!(*frame, single.seal_at(it.user_data, it.at, &it.confounder).unwrap());
                assert_eq!(other.open_at(frame, AT).unwrap().user_data, it.user_data);
            }
            let next = u64::from(FIRST) + count as u64;
            assert_eq!(many.numbers(), Numbers { next, expected: 9 });
            assert_eq!(single.numbers(), many.numbers());
        }
    }
}

#[test]
fn the_first_message_of_a_peer_that_fails_is_named() {
    let hi = Message { user_data: b"hi", at: AT, confounder: [1; 16] };
    let mut last = peer(AES256, Mode::Priv, LAST - 1);
    let exhausted = last.seal_many(&[hi; 3]).unwrap_err();
    assert_eq!(exhausted, ManyError { index: Some(2), error: Error::Exhausted });
    let too_many = last.seal_many(&[hi; MOST_MESSAGES + 1]).unwrap_err();
    assert_eq!(too_many, ManyError { index: None, error: Error::Argument });
    assert_eq!(last.numbers(), Numbers { next: u64::from(LAST - 1), expected: 9 });
    assert_eq!(last.seal_many(&[hi; 2]).unwrap().len(), 2);
    assert_eq!(last.numbers(), Numbers { next: u64::from(LAST) + 1, expected: 9 });
}

/// The user data of a record are a letter and its bytes.
fn record_size(record: &Record) -> usize {
    1 + match record {
        Record::Text(text) => text.len(),
        Record::Batch(batch) => batch.as_bytes().len(),
        Record::Closed => 0,
    }
}

#[test]
fn receivers_take_them() {
    let known = frames();
    for (first, mode, key, number, records) in rows() {
        let mut receiver = Receiver::new(key, &expect(mode), from(number)).unwrap();
        for (record, name) in records.iter().zip(names(first, records.len())) {
            assert_eq!(receiver.take_at(&known[&name], AT).as_ref(), Ok(record), "{name}");
        }
        let state = receiver.state();
        assert_eq!(state.expected, u64::from(number) + records.len() as u64);
        assert_eq!(state.closed, records.last() == Some(&Record::Closed));
    }
}

#[test]
fn receivers_take_them_in_one_call() {
    let known = frames();
    for (first, mode, key, number, records) in rows() {
        let mut receiver = Receiver::new(key, &expect(mode), from(number)).unwrap();
        let names = names(first, records.len());
        let given: Vec<&[u8]> = names.iter().map(|name| known[name].as_slice()).collect();
        let taken: Vec<Record> =
            receiver.take_many_at(&given, AT).unwrap().into_iter().map(Result::unwrap).collect();
        assert_eq!(taken, records, "{first}");
        assert_eq!(receiver.state().expected, u64::from(number) + records.len() as u64);
    }
}

/// Frames of one session, of which some come again or too early, are cut off or changed.
fn frames_on_the_way(key: Key<'_>, mode: Mode) -> Vec<Vec<u8>> {
    let mut by = sealer(key, mode, FIRST);
    let mut sent: Vec<Vec<u8>> = (0..MOST_FRAMES)
        .map(|it| by.seal_record_at(&Record::Text(vec![it as u8; 41 * it]), AT, &[1; 16]).unwrap())
        .collect();
    let again = sent[2].clone();
    sent.insert(4, again);
    let mut cut = sent[6].clone();
    cut.truncate(20);
    sent.insert(6, cut);
    let mut changed = sent[11].clone();
    let last = changed.len() - 1;
    changed[last] ^= 1;
    sent.insert(11, changed);
    sent.swap(20, 21);
    sent.insert(0, Vec::new());
    sent.truncate(MOST_FRAMES);
    sent
}

/// What a call takes is what as many calls take, of which the rows above compare with another sealer's frames.
#[test]
fn frames_of_one_call_are_taken_as_by_single_calls() {
    for (mode, key) in KINDS {
        let sent = frames_on_the_way(key, mode);
        let given: Vec<&[u8]> = sent.iter().map(Vec::as_slice).collect();
        for count in COUNTS {
            let mut single = Receiver::new(key, &expect(mode), from(FIRST)).unwrap();
            let mut many = Receiver::new(key, &expect(mode), from(FIRST)).unwrap();
            let wanted: Vec<Result<Record, Error>> =
                given[..count].iter().map(|it| single.take_at(it, AT)).collect();
            assert_eq!(many.take_many_at(&given[..count], AT).unwrap(), wanted);
            assert_eq!(many.state(), single.state());
        }
    }
}

#[test]
fn what_a_call_of_several_refuses_as_a_whole() {
    let mut receiver = Receiver::new(AES128, &expect(Mode::Safe), from(FIRST)).unwrap();
    let known = frames();
    let given = vec![known["safe 17"].as_slice(); MOST_FRAMES + 1];
    assert_eq!(receiver.take_many_at(&given, AT), Err(Error::Argument));
    assert_eq!(receiver.state(), from(FIRST));
    let taken = receiver.take_many_at(&given[1..], AT).unwrap();
    assert!(taken[0].is_ok());
    assert!(taken[1..].iter().all(|it| *it == Err(Error::BadOrder { number: Some(FIRST) })));
}

#[test]
fn openers_open_them() {
    let known = frames();
    for (name, mode, key, number, _) in rows() {
        let mut opener = Opener::new(key, &expect(mode)).unwrap();
        let data = opener.unseal_at(&known[name], u64::from(number), AT).unwrap();
        let body = opener.open_at(&known[name], &Default::default(), AT).unwrap();
        assert_eq!((&body.user_data, body.carried.number), (&data, Some(number)), "{name}");
        assert_eq!((body.carried.moment(), body.carried.receiver), (Some(AT), None), "{name}");
        assert_eq!(body.carried.sender, common::SENDER, "{name}");
    }
}

#[test]
fn addresses_and_data_are_those_that_are_given() {
    let known = frames();
    let to = Session { receiver: Some(RECEIVER), ..session(Mode::Safe, FIRST) };
    let mut sealer = Sealer::new(AES128, &to).unwrap();
    let frame = sealer.seal_record_at(&text(b"hi"), AT, &[0; 16]).unwrap();
    assert_eq!(frame, known["safe 17, to the receiver"]);
    let body = Opener::of_mode(AES128, Mode::Safe).unwrap().open_at(&frame, &Default::default(), AT);
    assert_eq!(body.unwrap().carried.receiver, Some(RECEIVER));
    let mut sealer = Sealer::new(AES256, &session(Mode::Priv, FIRST)).unwrap();
    let frame = sealer.seal_at(b"hi", AT, &[7; 16]).unwrap();
    assert_eq!(frame, known["priv 18, the data hi of example_seal"]);
}

#[test]
fn what_a_message_leaves_out_is_none() {
    let known = frames();
    let mut opener = Opener::of_mode(AES128, Mode::Safe).unwrap();
    let mut carried =
        |name: &str| opener.open_at(&known[name], &Default::default(), AT).unwrap().carried;
    let neither = carried("safe 17, neither time nor number");
    assert_eq!((neither.seconds, neither.microseconds, neither.number), (None, None, None));
    assert_eq!(neither.moment(), None);
    let seconds = carried("safe 17, seconds and no number");
    assert_eq!((seconds.seconds, seconds.microseconds), (Some(AT.seconds), None));
    assert_eq!(carried("safe 17, no number").moment(), Some(AT));
}

#[test]
fn a_header_says_what_stands_in_clear() {
    let known = frames();
    let safe = message_header(&known["safe 18"]).unwrap();
    assert_eq!((safe.kind, safe.etype, safe.checksum_type), (Mode::Safe, None, Some(16)));
    assert_eq!((safe.number, safe.key_version), (Some(FIRST), None));
    let sealed = message_header(&known["priv 17, first drawn confounder"]).unwrap();
    assert_eq!((sealed.kind, sealed.etype, sealed.checksum_type), (Mode::Priv, Some(17), None));
    assert_eq!((sealed.number, sealed.key_version), (None, None));
    assert_eq!(message_header(b""), Err(Error::Malformed));
    assert_eq!(message_header(&vec![0; krbrelay::FRAME_LIMIT + 1]), Err(Error::FieldTooLong));
}

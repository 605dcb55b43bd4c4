//! The runner of the Rust crate krbrelay (README.md has its lines): `Opener::open` of single messages,
//! `Peer::open` of several with a number, `Receiver::take` of records.

use std::io::{self, BufRead, Write};

use krbrelay::{
    Address, Demand, Error, Expect, How, Key, Mode, Moment, Opener, Peer, Receiver, Record, Session, State,
};

type Done<T> = Result<T, Box<dyn std::error::Error>>;

/// A line: what a reader demands, and the messages that it is given in turn.
struct Asked<'a> {
    fields: Vec<&'a str>,
    mode: Mode,
    key: Vec<u8>,
    at: Moment,
    messages: Vec<Vec<u8>>,
}

fn bytes_of(digits: &str) -> Done<Vec<u8>> {
    let digits = digits.trim_matches('.');
    let pairs = (0..digits.len()).step_by(2);
    Ok(pairs.map(|at| u8::from_str_radix(&digits[at..at + 2], 16)).collect::<Result<_, _>>()?)
}

/// No address where none is demanded; [`Error::Address`] of one that is too long.
fn address_of(text: &str) -> Done<Option<Address>> {
    match text.split_once(':') {
        None => Ok(None),
        Some((kind, digits)) => Ok(Some(Address::new(kind.parse()?, &bytes_of(digits)?)?)),
    }
}

impl<'a> Asked<'a> {
    fn of(line: &'a str) -> Done<Asked<'a>> {
        let fields: Vec<&str> = line.split('\t').collect();
        Ok(Asked {
            mode: if fields[1] == "safe" { Mode::Safe } else { Mode::Priv },
            key: bytes_of(fields[3])?,
            at: Moment { seconds: fields[8].parse()?, microseconds: fields[9].parse()? },
            messages: fields[14].split(',').map(bytes_of).collect::<Done<_>>()?,
            fields,
        })
    }

    fn has(&self, field: usize) -> bool {
        self.fields[field] == "1"
    }

    fn number(&self) -> Done<Option<u64>> {
        Ok(if self.fields[11] == "-" { None } else { Some(self.fields[11].parse()?) })
    }

    fn demand(&self) -> Done<Demand> {
        let (is_demanded, how_time) = match self.fields[7] {
            "0" => (false, How::Required),
            "1" => (true, How::IfPresent),
            "2" => (true, How::Required),
            _ => (true, How::AbsentIs0),
        };
        Ok(Demand {
            sender: address_of(self.fields[4])?,
            receiver: address_of(self.fields[5])?,
            skew: if is_demanded { Some(self.fields[10].parse()?) } else { None },
            number: self.number()?,
            how_receiver: if self.has(6) { How::Required } else { How::IfPresent },
            how_time,
            needs_time_or_number: self.has(12),
            ..Demand::default()
        })
    }

    fn expect(&self) -> Done<Expect> {
        let demand = self.demand()?;
        Ok(Expect {
            mode: self.mode,
            sender: demand.sender.ok_or("no sender")?,
            receiver: demand.receiver.ok_or("no receiver")?,
            require_receiver: self.has(6),
            require_time: self.fields[7] == "2",
            skew: self.fields[10].parse()?,
        })
    }

    /// What each message gives: its user data, or why it is refused.
    fn read(&self) -> Done<Vec<Result<Vec<u8>, Error>>> {
        let key = Key::new(self.fields[2].parse()?, &self.key)?;
        let messages = self.messages.iter();
        if self.has(13) {
            let from = State { expected: self.number()?.ok_or("no number")?, closed: false };
            let mut receiver = Receiver::new(key, &self.expect()?, from)?;
            return Ok(messages.map(|it| receiver.take_at(it, self.at).map(user_data)).collect());
        }
        let demand = self.demand()?;
        if self.messages.len() > 1 && demand.number.is_some() {
            let mut peer = Peer::new(key, &Session::new(self.mode, Address::CLIENT), &demand)?;
            return Ok(messages.map(|it| peer.open_at(it, self.at).map(|body| body.user_data)).collect());
        }
        let mut opener = Opener::of_mode(key, self.mode)?;
        Ok(messages.map(|it| opener.open_at(it, &demand, self.at).map(|body| body.user_data)).collect())
    }
}

/// The user data of a record, which begin with its letter.
fn user_data(record: Record) -> Vec<u8> {
    match record {
        Record::Text(text) => [b"D", &text[..]].concat(),
        Record::Batch(batch) => [b"B", batch.as_bytes()].concat(),
        Record::Closed => b"C".to_vec(),
    }
}

fn verdict(found: &Result<Vec<u8>, Error>) -> String {
    match found {
        Ok(data) => data.iter().fold("ok:".to_string(), |text, byte| text + &format!("{byte:02x}")),
        Err(refusal) => format!("no:{}", refusal.answer()),
    }
}

fn main() -> Done<()> {
    for line in io::stdin().lock().lines() {
        let line = line?;
        let asked = Asked::of(&line)?;
        let verdicts: Vec<String> = match asked.read() {
            Ok(found) => found.iter().map(verdict).collect(),
            // An address that is too long, which no demand has.
            Err(_) => vec!["na".to_string(); asked.messages.len()],
        };
        writeln!(io::stdout(), "{}\t{}", asked.fields[0], verdicts.join(","))?;
    }
    Ok(())
}

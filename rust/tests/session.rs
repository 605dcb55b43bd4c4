//! A session of 1,000 texts each way whose other end is in C (`examples/echo.c` of the library).
#![cfg(feature = "std")]

use std::env;
use std::io::{BufRead, BufReader, Read, Write};
use std::net::{IpAddr, TcpListener, TcpStream};
use std::path::{Path, PathBuf};
use std::process::{Child, Command, Stdio};
use std::thread;

use krbrelay::{Address, Demand, Error, Key, Mode, Moment, Numbers, Peer, Session, FRAME_LIMIT};

const TEXTS: u64 = 1_000;
/// The client's number, whose key has 32 times this byte.
const NUMBER: u8 = 7;
const KEY: [u8; 32] = [NUMBER; 32];

/// The program of the library's tarball, compiled here.
fn echo(name: &str) -> PathBuf {
    let vendor = Path::new(env!("CARGO_MANIFEST_DIR")).join("vendor");
    let sources = env::var_os("KRBRELAY_TARBALL").map_or(vendor, PathBuf::from);
    let made = Path::new(env!("CARGO_TARGET_TMPDIR")).join(name);
    let mut compiler = Command::new("cc");
    compiler.arg(sources.join("examples/echo.c")).arg("-o").arg(&made);
    let done = if cfg!(feature = "system") {
        let told = Command::new("pkg-config").args(["--cflags", "--libs", "krbrelay"]).output().unwrap();
        compiler.args(String::from_utf8(told.stdout).unwrap().split_whitespace()).status()
    } else {
        let library = Path::new(env!("OUT_DIR")).join("libkrbrelay.a");
        compiler.arg("-I").arg(&sources).arg(library).status()
    };
    assert!(done.unwrap().success(), "{} isn't compiled", made.display());
    made
}

fn peer(own: Address, other: Address) -> Peer {
    Peer::new(Key::Aes256(&KEY), &Session::new(Mode::Priv, own), &Demand::of_sender(other)).unwrap()
}

/// A frame after four bytes of its length, in one write.
fn put(to: &mut TcpStream, frame: &[u8]) {
    to.write_all(&[&(frame.len() as u32).to_be_bytes(), frame].concat()).unwrap();
}

fn get(from: &mut TcpStream) -> Vec<u8> {
    let mut head = [0; 4];
    from.read_exact(&mut head).unwrap();
    let mut frame = vec![0; (u32::from_be_bytes(head) as usize).min(FRAME_LIMIT)];
    from.read_exact(&mut frame).unwrap();
    frame
}

fn ended_well(mut child: Child, said: &str) {
    let mut text = String::new();
    child.stdout.take().unwrap().read_to_string(&mut text).unwrap();
    assert!(child.wait().unwrap().success());
    assert_eq!(text, said);
}

#[test]
fn the_server_is_in_c() {
    let mut server =
        Command::new(echo("server")).args(["server", "1"]).stdout(Stdio::piped()).spawn().unwrap();
    let mut line = String::new();
    let mut told = BufReader::new(server.stdout.take().unwrap());
    told.read_line(&mut line).unwrap();
    let port: u16 = line.trim().strip_prefix("port ").unwrap().parse().unwrap();
    let mut stream = TcpStream::connect(("127.0.0.1", port)).unwrap();
    let mut client = peer(Address::CLIENT, Address::SERVER);
    stream.write_all(&[NUMBER]).unwrap();
    for number in 0..TEXTS {
        let text = format!("text {number}").into_bytes();
        put(&mut stream, &client.seal(&text).unwrap());
        let body = client.open(&get(&mut stream)).unwrap();
        assert_eq!((&body.user_data, body.carried.number), (&text, Some(number as u32)));
    }
    put(&mut stream, &client.seal(b"").unwrap());
    let last = get(&mut stream);
    assert_eq!(client.open(&last).unwrap().user_data, b"");
    assert_eq!(client.open(&last), Err(Error::BadOrder { number: Some(TEXTS as u32) }));
    assert_eq!(client.numbers(), Numbers { next: TEXTS + 1, expected: TEXTS + 1 });
    line.clear();
    told.read_line(&mut line).unwrap();
    assert_eq!(line, format!("client {NUMBER}: {TEXTS} texts, closed\n"));
    assert!(server.wait().unwrap().success());
}

#[test]
fn the_client_is_in_c() {
    let listener = TcpListener::bind("127.0.0.1:0").unwrap();
    let port = listener.local_addr().unwrap().port().to_string();
    let words = ["client", &port, &NUMBER.to_string(), &TEXTS.to_string()];
    let client = Command::new(echo("client")).args(words).stdout(Stdio::piped()).spawn().unwrap();
    let (mut stream, _) = listener.accept().unwrap();
    let mut number = [0];
    stream.read_exact(&mut number).unwrap();
    assert_eq!(number, [NUMBER]);
    // The peer was made by one thread and is used by another.
    let mut server = peer(Address::SERVER, Address::CLIENT);
    let numbers = thread::spawn(move || {
        for number in 0..=TEXTS {
            let text = server.open(&get(&mut stream)).unwrap().user_data;
            let wanted = if number < TEXTS { format!("line {number}") } else { String::new() };
            assert_eq!(text, wanted.as_bytes());
            put(&mut stream, &server.seal(&text).unwrap());
        }
        server.numbers()
    });
    assert_eq!(numbers.join().unwrap(), Numbers { next: TEXTS + 1, expected: TEXTS + 1 });
    ended_well(client, &format!("client {NUMBER}: {TEXTS} texts, closed\n"));
}

#[test]
fn what_std_has() {
    let ip = |text: &str| Address::from(text.parse::<IpAddr>().unwrap());
    assert_eq!(ip("10.0.0.1"), Address::ipv4([10, 0, 0, 1]));
    assert_eq!(ip("::ffff:10.0.0.1"), Address::ipv4([10, 0, 0, 1]));
    for text in ["10.0.0.255", "2001:db8::1"] {
        assert_eq!(ip(text).to_string(), text);
    }
    assert_eq!(Address::SERVER.to_string(), "3:00000001");
    let (before, now) = (std::time::SystemTime::now(), Moment::now().unwrap());
    assert!(now >= Moment::try_from(before).unwrap());
    assert_eq!(Moment::try_from(now.system_time().unwrap()), Ok(now));
    let error: Box<dyn std::error::Error> = Error::Clock.into();
    assert_eq!(error.to_string(), "the clock can't be read, or isn't in the years 1970 to 9999");
}

//! Seals a text as KRB-PRIV at one end of a session, and opens it at the other.

use krbrelay::{Address, Error, Expect, Key, Mode, Opener, Sealer, Session};

/// The key of the session, of encryption type 17, comes from the exchange before it.
const KEY: Key<'_> = Key::Aes128(b"chicken teriyaki");
const ALICE: Address = Address::ipv4([10, 0, 0, 1]);
const BOB: Address = Address::ipv4([10, 0, 0, 255]);

/// The message of the text at this sequence number and now.
fn sealed(text: &str, number: u32) -> Result<Vec<u8>, Error> {
    let session = Session { first: number, ..Session::new(Mode::Priv, ALICE) };
    Sealer::new(KEY, &session)?.seal(text.as_bytes())
}

fn main() -> Result<(), Error> {
    let frame = sealed("hello", 7)?;
    let mut opener = Opener::new(KEY, &Expect::new(Mode::Priv, ALICE, BOB))?;
    println!("message 7: {}", String::from_utf8_lossy(&opener.unseal(&frame, 7)?));
    // The same frame isn't message 8.
    match opener.unseal(&frame, 8) {
        Ok(_) => println!("message 8 was opened"),
        Err(refusal) => println!("open: {}: {refusal}", refusal.answer()),
    }
    Ok(())
}

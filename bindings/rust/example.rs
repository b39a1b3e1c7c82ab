//! A program with the client as a module: example COMMAND.., the words of the server and its
//! directory.
//!
//! ```sh
//! rustc --edition 2021 -O -o example bindings/rust/example.rs && ./example ./bookie serve store
//! ```
//!
//! A writer makes entries durable and crashes. Another one fences its ledger, so that the first
//! cannot add any more, and adds what is missing. Then the directory is opened again, and the
//! ledger read.

mod bookie;
mod sha256;

use bookie::{Bookie, Error, Receipt, Status};
use std::process::ExitCode;

const LEDGER: u64 = 1;
const WRITTEN: [&str; 3] = ["first", "second", "third"];
const MISSING: &str = "last";

type Add = fn(&Bookie, u64, u64, &[u8]) -> Result<Option<Receipt>, Error>;

/// Returns the SHA-256 of an entry: its ids, eight bytes each, and its content.
fn digest_of(ledger: u64, entry: u64, content: &str) -> [u8; 32] {
    sha256::sha256(&[&ledger.to_be_bytes(), &entry.to_be_bytes(), content.as_bytes()].concat())
}

/// Adds an entry, which is in memory until a flush is answered. Returns its receipt, whose digest
/// is that of the entry.
fn add(bookie: &Bookie, how: Add, entry: u64, content: &str) -> Result<Receipt, Error> {
    let receipt = match how(bookie, LEDGER, entry, content.as_bytes()) {
        Err(Error::Refused { status: Status::Full | Status::Memory, .. }) => {
            bookie.flush()?;
            how(bookie, LEDGER, entry, content.as_bytes())
        }
        // `Fenced`, `Deleted`: never to be added; `Disk`: after the device is mended.
        answer => answer,
    };
    let receipt = receipt?.unwrap_or_else(|| panic!("entry {entry} is there already"));
    assert_eq!(receipt.digest, digest_of(LEDGER, entry, content), "accepted with other bytes");
    Ok(receipt)
}

/// Makes entries durable, and ends as a crash does: what was flushed stays.
fn write(server: &str, words: &[&str]) -> Result<(), Error> {
    let bookie = Bookie::open(server, words)?;
    let add = |(entry, content): (u64, &&str)| add(&bookie, Bookie::add, entry, content);
    let receipts = (0..).zip(&WRITTEN).map(add).collect::<Result<Vec<Receipt>, Error>>()?;
    println!("durable {}", bookie.flush()?); // one flush for all of them: it waits for the device
    for (receipt, content) in receipts.iter().zip(WRITTEN) {
        let is_same = bookie.read_back(receipt)?.as_deref() == Some(content.as_bytes());
        let digest: String = receipt.digest[..4].iter().map(|byte| format!("{byte:02x}")).collect();
        println!("receipt {} {digest} {is_same}", receipt.entry);
    }
    bookie.kill().map(drop)
}

/// Takes the ledger over: fences it, and adds what is missing.
fn recover(server: &str, words: &[&str]) -> Result<(), Error> {
    let bookie = Bookie::open(server, words)?;
    println!("fenced {}", bookie.fence(LEDGER)?);
    let entry = bookie.last_entry(LEDGER)?.map_or(0, |last| last + 1);
    match bookie.add(LEDGER, entry, b"of the first writer") {
        Err(Error::Refused { status, .. }) => println!("refused {}", status.text()),
        answer => drop(answer?),
    }
    add(&bookie, Bookie::add_recovery, entry, MISSING)?;
    println!("recovered {entry} {}", bookie.flush()?);
    bookie.close().map(drop) // dropping the session alone would not report what was lost
}

/// Reads the ledger after opening the directory again.
fn read(server: &str, words: &[&str]) -> Result<(), Error> {
    let bookie = Bookie::open(server, words)?;
    for entry in bookie.entries(LEDGER)? {
        let content = bookie.read(LEDGER, entry)?.unwrap_or_default();
        println!("entry {entry} {}", String::from_utf8_lossy(&content));
    }
    println!("fenced {}", bookie.is_fenced(LEDGER)?);
    bookie.close().map(drop)
}

fn main() -> ExitCode {
    let arguments: Vec<String> = std::env::args().skip(1).collect();
    let words: Vec<&str> = arguments.iter().map(String::as_str).collect();
    let [server, words @ ..] = words.as_slice() else {
        eprintln!("usage: example COMMAND..");
        return ExitCode::from(2);
    };
    let done = write(server, words).and_then(|()| recover(server, words)).and_then(|()| read(server, words));
    match done {
        Ok(()) => return ExitCode::SUCCESS,
        // Nothing changed, unless the status is `Disk`; the session goes on.
        Err(Error::Refused { status, .. }) => eprintln!("refused: {}", status.text()),
        // Requests without a reply took effect or not: open again, and read.
        Err(Error::Ended(why)) => eprintln!("ended: {why}"),
        Err(error) => eprintln!("no server: {error}"),
    }
    ExitCode::FAILURE
}

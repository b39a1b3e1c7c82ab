//! Tests the client: usage: test_bookie SERVER DIR. Prints the summary that the tests of all clients print, line for line.
//! DIR and DIR-ends do not exist or are empty.

#[path = "bookie.rs"]
mod bookie;
mod sha256;
mod test_ends;

use bookie::{Bookie, Call, Error, Pending, Receipt, Status, receipt};
use sha256::sha256;
use std::fmt::Write;
use test_ends::Program;

/// Entries of each of two ledgers.
const COUNT: u64 = 2000;
/// Large entries that are added, and as many again while they are read.
const LARGE: u64 = 5;
/// Of ten entries of a log so many are of a ledger that is not deleted.
const LIVE: [u64; 6] = [0, 1, 1, 5, 6, 9];

fn content(ledger: u64, entry: u64) -> Vec<u8> {
    (0..20 + entry % 100).map(|i| (ledger * 31 + entry * 7 + i) as u8).collect()
}

fn whole(ledger: u64, entry: u64, content: &[u8]) -> Vec<u8> {
    [&ledger.to_be_bytes(), &entry.to_be_bytes(), content].concat()
}

/// Large adds and large reads at once, all sent ahead: neither side may wait for the other.
fn large_entries(bookie: &Bookie) -> Result<(), Error> {
    let large = |e: u64| -> Vec<u8> { (0..300_000).map(|i| (4 * 31 + e * 7 + i) as u8).collect() };
    let add = |e: u64| bookie.send(Call::Add, &[4, e], &large(e));
    let first: Vec<Pending> = (0..LARGE).map(add).collect();
    let mut count = 0;
    for pending in first {
        count += usize::from(pending.wait()?.status == Status::Accepted);
    }
    let sent: Vec<_> = (0..LARGE).map(|e| (bookie.send(Call::Read, &[4, e], &[]), add(LARGE + e))).collect();
    let mut all = Vec::new();
    for (read, added) in sent {
        all.extend(read.wait()?.bytes);
        count += usize::from(added.wait()?.status == Status::Accepted);
    }
    println!("large {count} {}", hex(&sha256(&all)));
    bookie.delete(4).map(drop)
}

fn yes(is: bool) -> &'static str {
    if is { "yes" } else { "no" }
}

fn hex(bytes: &[u8]) -> String {
    bytes.iter().fold(String::new(), |mut text, byte| {
        let _ = write!(text, "{byte:02x}");
        text
    })
}

fn words(ids: &[u64]) -> String {
    ids.iter().map(u64::to_string).collect::<Vec<_>>().join(" ")
}

/// Returns the name of a refusal, or `accepted`.
fn refusal<T>(outcome: Result<T, Error>) -> Result<&'static str, Error> {
    match outcome {
        Ok(_) => Ok("accepted"),
        Err(Error::Refused { status, .. }) => Ok(status.text()),
        Err(error) => Err(error),
    }
}

/// Returns the receipt of an add that was sent; adds again after a flush as long as the cache is full.
fn accepted(bookie: &Bookie, sent: Pending, ledger: u64, entry: u64) -> Result<Receipt, Error> {
    let mut outcome = sent.wait();
    while let Err(Error::Refused { status: Status::Full, .. }) = outcome {
        bookie.flush()?;
        outcome = bookie.call(Call::Add, &[ledger, entry], &content(ledger, entry));
    }
    Ok(receipt(ledger, entry, &outcome?).expect("a new entry is accepted"))
}

fn add_ledger(bookie: &Bookie, ledger: u64) -> Result<Vec<Receipt>, Error> {
    let sent: Vec<Pending> =
        (0..COUNT).map(|e| bookie.send(Call::Add, &[ledger, e], &content(ledger, e))).collect();
    sent.into_iter().zip(0..).map(|(pending, e)| accepted(bookie, pending, ledger, e)).collect()
}

fn add_all(bookie: &Bookie) -> Result<Receipt, Error> {
    let (one, two) = std::thread::scope(|scope| {
        let one = scope.spawn(|| add_ledger(bookie, 1));
        let two = scope.spawn(|| add_ledger(bookie, 2));
        (one.join().expect("a thread"), two.join().expect("a thread"))
    });
    let (one, two) = (one?, two?);
    let is_right = |r: &&Receipt| sha256(&whole(r.ledger, r.entry, &content(r.ledger, r.entry))) == r.digest;
    let right = one.iter().chain(&two).filter(is_right).count();
    let rises = |receipts: &[Receipt]| receipts.windows(2).all(|pair| pair[0].number < pair[1].number);
    let rising = if rises(&one) && rises(&two) { "rising" } else { "not rising" };
    println!("added {} digests {right} {rising}", one.len() + two.len());
    Ok(two[77])
}

fn opened(bookie: &Bookie) {
    println!("opened {}", bookie.version());
}

/// Returns how many entries the ledgers have, and the SHA-256 of all of them in order.
fn read_all(bookie: &Bookie, ledgers: &[u64]) -> Result<String, Error> {
    let (mut count, mut all) = (0, Vec::new());
    for ledger in ledgers {
        let ids = bookie.entries(*ledger)?;
        let sent: Vec<Pending> = ids.iter().map(|e| bookie.send(Call::Read, &[*ledger, *e], &[])).collect();
        for pending in sent {
            let reply = pending.wait()?;
            all.extend(whole(reply.numbers[0], reply.numbers[1], &reply.bytes));
            count += 1;
        }
    }
    Ok(format!("{count} {}", hex(&sha256(&all))))
}

fn lists(bookie: &Bookie) -> Result<(), Error> {
    let last = |ledger| bookie.last_entry(ledger).map(|id| id.map_or("none".to_string(), |id| id.to_string()));
    println!("last {} {} {}", last(1)?, last(2)?, last(9)?);
    println!("ledgers {}", words(&bookie.ledgers()?));
    println!("read last {}", yes(bookie.read_last(1)? == Some((COUNT - 1, content(1, COUNT - 1)))));
    Ok(())
}

fn attributes(bookie: &Bookie) -> Result<(), Error> {
    bookie.set_master_key(1, &(0..20).collect::<Vec<u8>>())?;
    bookie.set_explicit_lac(1, &4999u64.to_be_bytes())?;
    let text = |value: Option<Vec<u8>>| value.map_or("none".to_string(), |bytes| hex(&bytes));
    let found = [bookie.master_key(1)?, bookie.explicit_lac(1)?, bookie.master_key(2)?].map(text);
    println!("attributes {}", found.join(" "));
    let fenced = [bookie.is_fenced(1)?, bookie.is_fenced(3)?].map(yes);
    println!("is fenced {}", fenced.join(" "));
    Ok(())
}

fn figures(bookie: &Bookie) -> Result<(), Error> {
    let found = bookie.stats()?;
    let within = yes(found.live <= found.bytes && found.durable <= found.front);
    print!("figures {} {} {} {within} ", found.front, found.cached, found.indexed);
    println!("{} {}", found.leases, found.failures);
    Ok(())
}

/// Seals logs of ten entries of 20 bytes, some of ledger 5 and the others of ledger 6.
fn fill_logs(bookie: &Bookie) -> Result<(), Error> {
    for (log, live) in (0..).zip(LIVE) {
        for e in 0..10 {
            let ledger = if e < live { 5 } else { 6 };
            bookie.add(ledger, 100 * log + e, &content(5, 100 * log))?;
        }
        bookie.seal()?;
    }
    Ok(())
}

/// Each threshold takes the logs below it, 0 takes none, and entries are read from the copies.
fn compactions(bookie: &Bookie) -> Result<(), Error> {
    let compacted = |minor, major| {
        bookie.compact(minor, major).map(|done| format!("{} {}", done.logs, done.entries))
    };
    bookie.seal()?;
    println!("compact {}", compacted(200, 800)?);
    fill_logs(bookie)?;
    bookie.delete(6)?;
    let before = bookie.stats()?;
    println!("omitted {}", compacted(0, 0)?);
    println!("minor {} again {}", compacted(200, 0)?, compacted(200, 0)?);
    println!("major {} again {}", compacted(0, 800)?, compacted(0, 800)?);
    let after = bookie.stats()?;
    let freed = [before.logs.wrapping_sub(after.logs), before.bytes.wrapping_sub(after.bytes)];
    println!("freed {} live {} {}", words(&freed), before.live, after.live);
    let refused = [(800, 200), (2000, 0), (0, 200)].map(|(minor, major)| refusal(bookie.compact(minor, major)));
    let refused: Vec<&str> = refused.into_iter().collect::<Result<_, _>>()?;
    println!("thresholds {}", refused.join(" "));
    let mut right = 0;
    for e in bookie.entries(5)? {
        right += u64::from(bookie.read(5, e)? == Some(content(5, e - e % 10)));
    }
    println!("copied {right}");
    Ok(())
}

fn entries_and_reads(bookie: &Bookie) -> Result<(), Error> {
    opened(bookie);
    let receipt = add_all(bookie)?;
    bookie.flush()?;
    println!("read {}", read_all(bookie, &[1, 2])?);
    lists(bookie)?;
    let holds = [bookie.holds(1, COUNT - 1)?, bookie.holds(1, COUNT)?, bookie.holds(9, 0)?].map(yes);
    println!("holds {}", holds.join(" "));
    println!("read back {}", yes(bookie.read_back(&receipt)? == Some(content(2, 77))));
    println!("forged {}", refusal(bookie.read_back(&Receipt { entry: 78, ..receipt }))?);
    let again = bookie.add(1, 0, b"other")?.map_or("none", |_| "accepted");
    let unchanged = bookie.read(1, 0)? == Some(content(1, 0));
    println!("again {again} {} {}", yes(unchanged), bookie.read(9, 0)?.map_or("none", |_| "some"));
    Ok(())
}

fn ledgers(bookie: &Bookie) -> Result<(), Error> {
    let fenced = [bookie.fence(1)?, bookie.fence(1)?].map(yes);
    println!("fenced {}", fenced.join(" "));
    print!("add {} ", refusal(bookie.add(1, COUNT, b"x"))?);
    println!("recovery {}", refusal(bookie.add_recovery(1, COUNT, b"x"))?);
    println!("negative {}", refusal(bookie.add(1 << 63, 0, b"x"))?);
    attributes(bookie)?;
    figures(bookie)?;
    print!("deleted {} {} ", bookie.delete(2)?, refusal(bookie.delete(2))?);
    println!("{} {}", refusal(bookie.read(2, 0))?, refusal(bookie.add(2, 0, b"x"))?);
    println!("holds {}", yes(bookie.holds(2, 0)?));
    compactions(bookie)?;
    large_entries(bookie)?;
    println!("durable {}", yes(bookie.checkpoint()? > 2 * COUNT));
    bookie.seal().map(drop)
}

/// Adds to ledger 3, flushes after a thousand, and kills the server amid a thousand more.
fn killed_session(bookie: &Bookie) -> Result<(), Error> {
    for e in 0..1000 {
        bookie.add(3, e, &content(3, e))?;
    }
    bookie.flush()?;
    let mut sent: Vec<Pending> =
        (1000..2000).map(|e| bookie.send(Call::Add, &[3, e], &content(3, e))).collect();
    sent.remove(300).wait()?;
    bookie.kill()?;
    for pending in sent {
        match pending.wait() {
            Ok(_) | Err(Error::Ended(_)) => {}
            Err(error) => return Err(error),
        }
    }
    if let Err(Error::Ended(_)) = bookie.flush() {
        println!("killed: later calls are refused");
    }
    Ok(())
}

fn last_session(bookie: &Bookie) -> Result<(), Error> {
    opened(bookie);
    println!("read {}", read_all(bookie, &[1, 5])?);
    let attributes = [bookie.master_key(1)?, bookie.explicit_lac(1)?].map(|it| hex(&it.unwrap_or_default()));
    print!("fenced {} {} ", yes(bookie.is_fenced(1)?), refusal(bookie.read(2, 0))?);
    println!("{}", attributes.join(" "));
    let found = bookie.entries(3)?;
    let published = found.iter().take(1000).copied().eq(0..1000);
    let mut right = true;
    for e in found {
        right &= bookie.read(3, e)? == Some(content(3, e));
    }
    println!("published {} right {}", yes(published), yes(right));
    let status = || bookie.close().map(|status| status.code().unwrap_or(-1));
    println!("closed {} {}", status()?, status()?);
    Ok(())
}

fn main() -> Result<(), Error> {
    let arguments: Vec<String> = std::env::args().collect();
    let arguments: Vec<&str> = arguments.iter().map(String::as_str).collect();
    match arguments[1..] {
        [server, directory] => {
            let open = || Bookie::open(server, &[directory]);
            let first = open()?;
            entries_and_reads(&first)?;
            ledgers(&first)?;
            first.close()?;
            killed_session(&open()?)?;
            last_session(&open()?)?;
            Program { server, directory: &format!("{directory}-ends") }.ends()
        }
        [server, directory, role, ledger] => {
            let (program, ledger) = (Program { server, directory }, ledger.parse().expect("a ledger"));
            if role == "closed" { program.play_closed(ledger) } else { program.play_signalled(ledger) }
        }
        _ => {
            eprintln!("usage: test_bookie SERVER DIR");
            std::process::exit(2);
        }
    }
}

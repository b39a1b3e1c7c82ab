//! Measures a daemon against a server at a pipe: usage: rate COUNT SIZE AHEAD ROUNDS SOCKET SERVER DIR
//!
//! In each round one client adds COUNT entries of SIZE bytes to a new ledger, with AHEAD requests sent ahead,
//! flushes, and reads them in the same way: first at SERVER, which it starts on DIR, then at the daemon of SOCKET.
//! Prints a line for each round and the best of all: adds and reads a second of both, and the daemon's share of the
//! server's.

#[path = "../../bindings/rust/bookie.rs"]
mod bookie;

use bookie::{Bookie, Call, Error, Pending, Status};
use std::collections::VecDeque;
use std::process::exit;
use std::time::Instant;

/// How many entries, of how many bytes, and how many requests are sent ahead.
#[derive(Clone, Copy)]
struct Work {
    count: u64,
    size: usize,
    ahead: usize,
}

/// Adds and reads a second.
type Rates = [f64; 2];

impl Work {
    /// Sends a call for each entry of a ledger. Returns how many a second were answered by a status.
    fn rate(
        self,
        bookie: &Bookie,
        call: Call,
        ledger: u64,
        bytes: &[u8],
        wanted: Status,
    ) -> Result<f64, Error> {
        let begun = Instant::now();
        let mut sent: VecDeque<Pending> = VecDeque::with_capacity(self.ahead);
        let check = |pending: Pending| match pending.wait()?.status {
            status if status == wanted => Ok(()),
            status => Err(Error::Ended(format!("answered by {}", status.text()))),
        };
        for entry in 0..self.count {
            if sent.len() == self.ahead {
                sent.pop_front().map_or(Ok(()), check)?;
            }
            sent.push_back(bookie.send(call, &[ledger, entry], bytes));
        }
        sent.into_iter().try_for_each(check)?;
        Ok(self.count as f64 / begun.elapsed().as_secs_f64())
    }

    fn round(self, bookie: &Bookie, ledger: u64) -> Result<Rates, Error> {
        let adds = self.rate(bookie, Call::Add, ledger, &vec![b'x'; self.size], Status::Accepted)?;
        bookie.flush()?;
        Ok([adds, self.rate(bookie, Call::Read, ledger, &[], Status::Entry)?])
    }
}

fn print(title: &str, pipe: Rates, daemon: Rates) {
    let [adds, reads] =
        [0, 1].map(|i| format!("{:9.0} {:9.0} share {:4.2}", pipe[i], daemon[i], daemon[i] / pipe[i]));
    println!("{title}: adds {adds}, reads {reads}");
}

fn measure(work: Work, rounds: u64, socket: &str, command: &[&str]) -> Result<(), Error> {
    let (pipe, daemon) = (Bookie::open(command[0], &command[1..])?, Bookie::connect(socket)?);
    let mut best: [Rates; 2] = [[0.0; 2]; 2];
    for ledger in 1..=rounds {
        let found = [work.round(&pipe, ledger)?, work.round(&daemon, ledger)?];
        print(&format!("round {ledger}"), found[0], found[1]);
        for (best, found) in best.iter_mut().zip(found) {
            *best = [best[0].max(found[0]), best[1].max(found[1])];
        }
    }
    print("best", best[0], best[1]);
    daemon.close()?;
    pipe.close().map(drop)
}

fn main() {
    let words: Vec<String> = std::env::args().skip(1).collect();
    let numbers: Vec<u64> = words.iter().take(4).filter_map(|it| it.parse().ok()).collect();
    let ([count, size, ahead, rounds], [_, _, _, _, socket, server, directory]) = (&numbers[..], &words[..])
    else {
        eprintln!("usage: rate COUNT SIZE AHEAD ROUNDS SOCKET SERVER DIR");
        exit(2);
    };
    let work = Work { count: *count, size: *size as usize, ahead: (*ahead).max(1) as usize };
    let command: Vec<&str> = server.split_whitespace().chain([directory.as_str()]).collect();
    if let Err(error) = measure(work, *rounds, socket, &command) {
        eprintln!("rate: {error}");
        exit(1);
    }
}

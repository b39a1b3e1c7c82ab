//! The work of the program bk_bench_threads in plain Rust: maps behind one `Mutex`, and nothing
//! proved.
//!
//! `calls C N`: so many threads, each of which adds N entries of 100 bytes to a ledger of its own;
//! when all have, each takes its own. A payload is copied, and its digest made, before the lock is
//! taken, as a bookie does it. `grouped C N`: the adds alone, in other ways: the lock is tried for
//! a while before it is waited for, as a bookie does it; then with 4 and with 16 entries that are
//! added while it is held once; then with a store for each thread and no lock. `reads C N`: so many
//! threads, each of which reads entries of a log N times by what it was given before; then N times
//! by what it asks the lock for each time.

mod digest;

use digest::sha256;
use std::collections::{BTreeMap, BTreeSet};
use std::hint::{black_box, spin_loop};
use std::sync::{Arc, Mutex, MutexGuard};
use std::time::Instant;

/// How many entries are read.
const ENTRIES: u64 = 1000;

/// Ledger and entry.
type Key = (u64, u64);

/// A log that is shared with who reads it, the position of a payload in it, and the payload's key.
struct Held {
    log: Arc<Vec<u8>>,
    at: u32,
    key: Key,
}

impl Held {
    fn read(&self) -> Option<Vec<u8>> {
        let at = self.at as usize;
        let length = u32::from_be_bytes(self.log.get(at - 4..at)?.try_into().unwrap()) as usize;
        let payload = self.log.get(at..at + length)?;
        (key_of(payload)? == self.key).then(|| payload.to_vec())
    }
}

/// An entry that is ready to be added: all is done that needs no lock.
struct Prepared {
    key: Key,
    payload: Arc<[u8]>,
    digest: [u8; 32],
}

impl Prepared {
    fn new(payload: &[u8]) -> Option<Prepared> {
        Some(Prepared {
            key: key_of(payload)?,
            payload: payload.into(),
            digest: sha256(payload),
        })
    }
}

#[derive(Default)]
struct Store {
    active: BTreeMap<Key, Arc<[u8]>>,
    flushing: BTreeMap<Key, Arc<[u8]>>,
    index: BTreeMap<Key, (u32, u32)>,
    logs: BTreeMap<u32, Arc<Vec<u8>>>,
    dead: BTreeSet<u64>,
    fenced: BTreeSet<u64>,
    trail: Vec<(Key, [u8; 32])>,
}

impl Store {
    fn add(&mut self, entry: Prepared) -> bool {
        let key = entry.key;
        if self.dead.contains(&key.0)
            || self.fenced.contains(&key.0)
            || self.index.contains_key(&key)
            || self.flushing.contains_key(&key)
        {
            return false;
        }
        let std::collections::btree_map::Entry::Vacant(free) = self.active.entry(key) else {
            return false;
        };
        free.insert(entry.payload);
        self.trail.push((key, entry.digest));
        true
    }

    fn cached(&self, key: &Key) -> Option<Arc<[u8]>> {
        if self.dead.contains(&key.0) {
            return None;
        }
        self.active
            .get(key)
            .or_else(|| self.flushing.get(key))
            .cloned()
    }

    fn leased(&self, key: &Key) -> Option<Held> {
        if self.dead.contains(&key.0)
            || self.active.contains_key(key)
            || self.flushing.contains_key(key)
        {
            return None;
        }
        let (number, at) = *self.index.get(key)?;
        let log = self.logs.get(&number)?.clone();
        Some(Held { log, at, key: *key })
    }

    /// All that is cached goes to a log.
    fn flush(&mut self) {
        let mut log = vec![0; 1024];
        for (key, payload) in std::mem::take(&mut self.active) {
            log.extend_from_slice(&(payload.len() as u32).to_be_bytes());
            self.index.insert(key, (0, log.len() as u32));
            log.extend_from_slice(&payload);
        }
        self.logs.insert(0, Arc::new(log));
    }
}

fn key_of(payload: &[u8]) -> Option<Key> {
    let ledger = u64::from_be_bytes(payload.get(..8)?.try_into().unwrap());
    let entry = u64::from_be_bytes(payload.get(8..16)?.try_into().unwrap());
    (ledger >> 63 == 0 && entry >> 63 == 0).then_some((ledger, entry))
}

fn payload(ledger: u64, entry: u64) -> [u8; 100] {
    let mut payload = [0; 100];
    payload[..8].copy_from_slice(&ledger.to_be_bytes());
    payload[8..16].copy_from_slice(&entry.to_be_bytes());
    payload
}

/// Lets a thread do each of these jobs, and tells how often the jobs did their work, and how long
/// they took together.
fn at_once<J: Send>(name: &str, jobs: Vec<J>, work: impl Fn(J) -> u64 + Sync) {
    let start = Instant::now();
    let work = &work;
    let count: u64 = std::thread::scope(|scope| {
        let running: Vec<_> = jobs
            .into_iter()
            .map(|job| scope.spawn(move || work(job)))
            .collect();
        running.into_iter().map(|it| it.join().unwrap()).sum()
    });
    let took = start.elapsed().as_nanos();
    println!("{name} {count}");
    eprintln!("{name} nanoseconds {took}");
}

fn calls(callers: u64, count: u64) {
    let store = Mutex::new(Store::default());
    let ledgers: Vec<u64> = (1000..1000 + callers).collect();
    let add = |ledger, entry| {
        Prepared::new(&payload(ledger, entry)).is_some_and(|it| store.lock().unwrap().add(it))
    };
    let all = |done: &dyn Fn(u64) -> bool| (0..count).map(|entry| u64::from(done(entry))).sum();
    at_once("adds", ledgers.clone(), |ledger| {
        all(&|entry| add(ledger, entry))
    });
    at_once("takes", ledgers, |ledger| {
        let take = |entry| store.lock().unwrap().cached(&(ledger, entry));
        all(&|entry| black_box(take(entry)).is_some())
    });
}

/// Takes the lock as a bookie does: it is tried for some microseconds before it is waited for.
fn hold<T>(lock: &Mutex<T>) -> MutexGuard<'_, T> {
    for number in 0..14u32 {
        if let Ok(guard) = lock.try_lock() {
            return guard;
        }
        for _ in 0..1u32 << number.min(8) {
            spin_loop();
        }
    }
    lock.lock().unwrap()
}

/// Adds the entries of a ledger, so many while the lock is held once.
fn add_grouped(store: &Mutex<Store>, ledger: u64, count: u64, group: u64) -> u64 {
    let (mut ready, mut added) = (Vec::with_capacity(group as usize), 0);
    for first in (0..count).step_by(group as usize) {
        let entries = first..count.min(first + group);
        ready.extend(entries.filter_map(|entry| Prepared::new(&payload(ledger, entry))));
        let mut store = hold(store);
        added += ready
            .drain(..)
            .map(|it| u64::from(store.add(it)))
            .sum::<u64>();
    }
    added
}

fn grouped(callers: u64, count: u64) {
    let ledgers: Vec<u64> = (1000..1000 + callers).collect();
    for (name, group) in [("tried", 1), ("fours", 4), ("sixteens", 16)] {
        let store = Mutex::new(Store::default());
        at_once(name, ledgers.clone(), |ledger| {
            add_grouped(&store, ledger, count, group)
        });
    }
    let stores = ledgers.iter().map(|_| Store::default()).collect();
    at_once("apart", stores, |mut store: Store| {
        let mut add = |entry| Prepared::new(&payload(1, entry)).is_some_and(|it| store.add(it));
        let added = (0..count).map(|entry| u64::from(add(entry))).sum();
        // Its memory is not given back while the time is taken.
        std::mem::forget(store);
        added
    });
}

fn reads(callers: u64, count: u64) {
    let mut store = Store::default();
    let keys: Vec<Key> = (0..ENTRIES).map(|entry| (2000, entry)).collect();
    for key in &keys {
        store.add(Prepared::new(&payload(key.0, key.1)).unwrap());
    }
    store.flush();
    let leases = |_| keys.iter().map(|key| store.leased(key).unwrap()).collect();
    let readers: Vec<Vec<Held>> = (0..callers).map(leases).collect();
    let is_read = |held: &Held| u64::from(black_box(held.read()).is_some());
    at_once("held", readers, |held| {
        (0..count)
            .map(|number| is_read(&held[(number % ENTRIES) as usize]))
            .sum()
    });
    let store = Mutex::new(store);
    at_once("leased", (0..callers).collect(), |_| {
        let lease = |number| {
            let key = &keys[(number % ENTRIES) as usize];
            store.lock().unwrap().leased(key).unwrap()
        };
        (0..count).map(|number| is_read(&lease(number))).sum()
    });
}

fn main() {
    let words: Vec<String> = std::env::args().skip(1).collect();
    let number = |word: &str| word.parse::<u64>().unwrap();
    match words.iter().map(String::as_str).collect::<Vec<_>>()[..] {
        ["calls", callers, count] => calls(number(callers), number(count)),
        ["grouped", callers, count] => grouped(number(callers), number(count)),
        ["reads", callers, count] => reads(number(callers), number(count)),
        _ => std::process::exit(1),
    }
}

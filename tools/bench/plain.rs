//! The work of the program bk_bench in plain Rust, with maps and lists of the standard library and
//! nothing proved.
//!
//! Words and lines are those of bk_bench: `entries N ORDER`, `trail N..`, `memory WHAT N ORDER`.

mod digest;

use digest::sha256;
use std::collections::{BTreeMap, BTreeSet};
use std::hint::black_box;
use std::rc::Rc;

const LEDGERS: u64 = 100;
const HEADER: usize = 1024;
const LOG_LIMIT: usize = 1_073_741_824;
const CACHE_LIMIT: usize = 1_073_741_824;

/// Ledger and entry.
type Key = (u64, u64);
/// Log and position of the payload.
type Place = (u32, u32);

#[allow(dead_code)]
enum Mark {
    Add { key: Key, digest: [u8; 32] },
    Delete { ledger: u64 },
    Fence { ledger: u64 },
}

#[derive(Default)]
struct Log {
    /// Shared with those who read it; it is copied only where it grows while somebody does.
    bytes: Rc<Vec<u8>>,
    /// The bytes of the records of each ledger.
    sizes: BTreeMap<u64, u64>,
    /// How many keys the index sends here.
    named: u64,
}

#[derive(Default)]
struct Store {
    active: BTreeMap<Key, Rc<[u8]>>,
    flushing: BTreeMap<Key, Rc<[u8]>>,
    used: usize,
    places: Vec<(Key, Place)>,
    index: BTreeMap<Key, Place>,
    logs: BTreeMap<u32, Log>,
    writing: Option<u32>,
    dead: BTreeSet<u64>,
    fenced: BTreeSet<u64>,
    trail: Vec<Mark>,
}

fn key_of(payload: &[u8]) -> Option<Key> {
    let ledger = u64::from_be_bytes(payload.get(..8)?.try_into().unwrap());
    let entry = u64::from_be_bytes(payload.get(8..16)?.try_into().unwrap());
    (ledger >> 63 == 0 && entry >> 63 == 0).then_some((ledger, entry))
}

impl Store {
    fn add(&mut self, payload: &[u8]) -> bool {
        let Some(key) = key_of(payload) else {
            return false;
        };
        if self.dead.contains(&key.0) || self.fenced.contains(&key.0) {
            return false;
        }
        if self.index.contains_key(&key) || self.flushing.contains_key(&key) {
            return false;
        }
        let std::collections::btree_map::Entry::Vacant(free) = self.active.entry(key) else {
            return false;
        };
        if self.used + payload.len() > CACHE_LIMIT {
            return false;
        }
        free.insert(payload.into());
        self.used += payload.len();
        let digest = sha256(payload);
        self.trail.push(Mark::Add { key, digest });
        true
    }

    fn cached(&self, key: &Key) -> Option<Rc<[u8]>> {
        if self.dead.contains(&key.0) {
            return None;
        }
        self.active
            .get(key)
            .or_else(|| self.flushing.get(key))
            .cloned()
    }

    fn leased(&self, key: &Key) -> Option<(Rc<Vec<u8>>, u32)> {
        if self.dead.contains(&key.0)
            || self.active.contains_key(key)
            || self.flushing.contains_key(key)
        {
            return None;
        }
        let (log, at) = self.index.get(key)?;
        Some((self.logs.get(log)?.bytes.clone(), *at))
    }

    fn fetch(&self, key: &Key) -> Option<Vec<u8>> {
        let (bytes, at) = self.leased(key)?;
        let at = at as usize;
        let length = u32::from_be_bytes(bytes.get(at - 4..at)?.try_into().unwrap()) as usize;
        let payload = bytes.get(at..at + length)?;
        (key_of(payload)? == *key).then(|| payload.to_vec())
    }

    fn write_flush(&mut self) -> u64 {
        self.flushing = std::mem::take(&mut self.active);
        self.used = 0;
        let mut number = match self.writing {
            Some(number) => number,
            None => self.make_log(),
        };
        for (key, payload) in &self.flushing {
            let mut log = self.logs.get_mut(&number).unwrap();
            if log.bytes.len() + 4 + payload.len() > LOG_LIMIT {
                number += 1;
                log = self.logs.entry(number).or_insert_with(Log::new);
            }
            let bytes = Rc::make_mut(&mut log.bytes);
            bytes.extend_from_slice(&(payload.len() as u32).to_be_bytes());
            self.places.push((*key, (number, bytes.len() as u32)));
            bytes.extend_from_slice(payload);
            *log.sizes.entry(key.0).or_default() += 4 + payload.len() as u64;
        }
        self.writing = Some(number);
        self.places.len() as u64
    }

    fn publish(&mut self) -> u64 {
        let places = std::mem::take(&mut self.places);
        for (key, place) in &places {
            self.index.insert(*key, *place);
            self.logs.get_mut(&place.0).unwrap().named += 1;
        }
        self.flushing.clear();
        places.len() as u64
    }

    fn make_log(&mut self) -> u32 {
        let number = self.logs.last_key_value().map_or(0, |(last, _)| last + 1);
        self.logs.insert(number, Log::new());
        number
    }

    fn open(files: BTreeMap<u32, Rc<Vec<u8>>>) -> Store {
        let mut store = Store::default();
        for (number, bytes) in files {
            let mut sizes: BTreeMap<u64, u64> = BTreeMap::new();
            for (key, at, payload) in records(&bytes) {
                *sizes.entry(key.0).or_default() += 4 + payload.len() as u64;
                if !store.dead.contains(&key.0) {
                    store.index.insert(key, (number, at as u32));
                }
            }
            let log = Log {
                bytes,
                sizes,
                named: 0,
            };
            store.logs.insert(number, log);
        }
        for (log, _) in store.index.values() {
            store.logs.get_mut(log).unwrap().named += 1;
        }
        store
    }

    fn delete(&mut self, ledger: u64) -> u64 {
        if !self.dead.insert(ledger) {
            return 0;
        }
        self.fenced.remove(&ledger);
        let of_ledger = (ledger, 0)..(ledger + 1, 0);
        let mut count = 0;
        for cache in [&mut self.active, &mut self.flushing] {
            let keys: Vec<Key> = cache
                .range(of_ledger.clone())
                .map(|(key, _)| *key)
                .collect();
            for key in keys {
                cache.remove(&key);
                count += 1;
            }
        }
        self.places.retain(|(key, _)| key.0 != ledger);
        let keys: Vec<Key> = self.index.range(of_ledger).map(|(key, _)| *key).collect();
        for key in keys {
            let (log, _) = self.index.remove(&key).unwrap();
            self.logs.get_mut(&log).unwrap().named -= 1;
            count += 1;
        }
        for log in self.logs.values_mut() {
            log.sizes.remove(&ledger);
        }
        self.trail.push(Mark::Delete { ledger });
        count
    }

    fn compact(&mut self) -> u64 {
        let Some((&source, _)) = self
            .logs
            .iter()
            .filter(|(_, log)| log.named > 0)
            .min_by_key(|(_, log)| log.sizes.values().sum::<u64>() * 1000 / log.bytes.len() as u64)
        else {
            return 0;
        };
        let target = self.make_log();
        let from = self.logs[&source].bytes.clone();
        let mut copy = Log::new();
        let bytes = Rc::make_mut(&mut copy.bytes);
        let mut moves = Vec::new();
        for (key, at, payload) in records(&from) {
            if self.dead.contains(&key.0) || self.index.get(&key) != Some(&(source, at as u32)) {
                continue;
            }
            bytes.extend_from_slice(&(payload.len() as u32).to_be_bytes());
            moves.push((key, (source, at as u32), (target, bytes.len() as u32)));
            bytes.extend_from_slice(payload);
            *copy.sizes.entry(key.0).or_default() += 4 + payload.len() as u64;
        }
        let mut moved = 0;
        for (key, old, new) in moves {
            match self.index.get_mut(&key) {
                Some(place) if *place == old => *place = new,
                _ => continue,
            }
            moved += 1;
        }
        copy.named = moved;
        self.logs.insert(target, copy);
        self.logs.get_mut(&source).unwrap().named -= moved;
        moved
    }
}

impl Log {
    fn new() -> Log {
        Log {
            bytes: Rc::new(vec![0; HEADER]),
            ..Log::default()
        }
    }
}

/// The records of a log: key, position of the payload, payload.
fn records(bytes: &[u8]) -> impl Iterator<Item = (Key, usize, &[u8])> {
    let mut at = HEADER;
    std::iter::from_fn(move || {
        let length = u32::from_be_bytes(bytes.get(at..at + 4)?.try_into().unwrap()) as usize;
        let begin = at + 4;
        let payload = bytes.get(begin..begin + length)?;
        at = begin + length;
        Some((key_of(payload)?, begin, payload))
    })
}

/// Reads the records of a log piece by piece, as whoever has it in a file and not in memory does.
struct Window<'a> {
    file: &'a [u8],
    piece: Vec<u8>,
    /// Where the piece begins in the file, and how far it is read.
    begin: usize,
    at: usize,
}

impl Window<'_> {
    const LENGTH: usize = 65_536;

    fn new(file: &[u8]) -> Window<'_> {
        Window {
            file,
            piece: Vec::with_capacity(Window::LENGTH),
            begin: HEADER,
            at: 0,
        }
    }

    /// So many bytes that come next; a new piece is read where this one ends before.
    fn next_bytes(&mut self, count: usize) -> Option<&[u8]> {
        if self.piece.len() < self.at + count {
            self.begin += self.at;
            self.at = 0;
            let end = self.file.len().min(self.begin + Window::LENGTH.max(count));
            self.piece.clear();
            self.piece.extend_from_slice(&self.file[self.begin..end]);
        }
        let bytes = self.piece.get(self.at..self.at + count)?;
        self.at += count;
        Some(bytes)
    }

    fn next_record(&mut self) -> Option<Key> {
        let length = u32::from_be_bytes(self.next_bytes(4)?.try_into().unwrap());
        key_of(self.next_bytes(length as usize)?)
    }
}

/// The C library puts in order what was given back when somebody asks for much at once. This has it
/// do so, before what is counted next.
fn tidy() {
    for _ in 0..32 {
        black_box(vec![0u8; 65_536]);
    }
}

/// A stage has ended.
#[inline(never)]
fn stage_tell(stage: &str, count: u64) {
    println!("{stage} {count}");
}

#[inline(never)]
fn stage_digest(payloads: &[Vec<u8>]) -> u64 {
    payloads
        .iter()
        .map(|payload| u64::from(sha256(payload)[0]))
        .sum()
}

#[inline(never)]
fn stage_add(store: &mut Store, payloads: &[Vec<u8>]) -> u64 {
    payloads.iter().filter(|payload| store.add(payload)).count() as u64
}

#[inline(never)]
fn stage_cached(store: &Store, keys: &[Key]) -> u64 {
    keys.iter()
        .filter(|key| black_box(store.cached(key)).is_some())
        .count() as u64
}

#[inline(never)]
fn stage_write(store: &mut Store) -> u64 {
    store.write_flush()
}

#[inline(never)]
fn stage_publish(store: &mut Store) -> u64 {
    store.publish()
}

#[inline(never)]
fn stage_fetch(store: &Store, keys: &[Key]) -> u64 {
    keys.iter()
        .filter(|key| black_box(store.fetch(key)).is_some())
        .count() as u64
}

#[inline(never)]
fn stage_scan(store: &Store) -> u64 {
    let mut count = 0;
    for log in store.logs.values() {
        let mut window = Window::new(&log.bytes);
        while let Some(key) = window.next_record() {
            black_box(key);
            count += 1;
        }
    }
    count
}

#[inline(never)]
fn stage_reopen(store: Store) -> (Store, u64) {
    let files = store
        .logs
        .into_iter()
        .map(|(number, log)| (number, log.bytes));
    let opened = Store::open(files.collect());
    let keys = opened.index.len() as u64;
    (opened, keys)
}

#[inline(never)]
fn stage_delete(store: &mut Store) -> u64 {
    (0..LEDGERS / 10)
        .map(|tenth| store.delete(10 * tenth))
        .sum()
}

#[inline(never)]
fn stage_compact(store: &mut Store) -> u64 {
    store.compact()
}

#[inline(never)]
fn stage_one_add(store: &mut Store, payload: &[u8]) -> bool {
    black_box(store.add(payload))
}

fn ids(rising: bool, count: u64, number: u64) -> Key {
    if rising {
        let each = (count / LEDGERS).max(1);
        (number / each, number % each)
    } else {
        (number % LEDGERS, number / LEDGERS)
    }
}

fn payload_of((ledger, entry): Key, length: usize) -> Vec<u8> {
    let mut payload = vec![0; length];
    payload[..8].copy_from_slice(&ledger.to_be_bytes());
    payload[8..16].copy_from_slice(&entry.to_be_bytes());
    payload
}

fn run_entries(count: u64, rising: bool) {
    let keys: Vec<Key> = (0..count)
        .map(|number| ids(rising, count, number))
        .collect();
    let payloads: Vec<Vec<u8>> = keys.iter().map(|key| payload_of(*key, 100)).collect();
    let mut store = Store::default();
    stage_tell("payloads", payloads.len() as u64);
    stage_tell("digest", stage_digest(&payloads));
    stage_tell("add", stage_add(&mut store, &payloads));
    stage_tell("cached", stage_cached(&store, &keys));
    stage_tell("write", stage_write(&mut store));
    stage_tell("publish", stage_publish(&mut store));
    stage_tell("fetch", stage_fetch(&store, &keys));
    tidy();
    stage_tell("scan", stage_scan(&store));
    let (mut store, opened) = stage_reopen(store);
    stage_tell("reopen", opened);
    stage_tell("delete", stage_delete(&mut store));
    stage_tell("compact", stage_compact(&mut store));
}

fn run_trail(lengths: &[u64]) {
    let mut store = Store::default();
    for length in lengths {
        for number in store.trail.len() as u64..length.saturating_sub(2) {
            store.fenced.insert(u64::MAX - number);
            store.trail.push(Mark::Fence {
                ledger: u64::MAX - number,
            });
        }
        for _ in 0..4 {
            let number = store.trail.len() as u64;
            assert!(stage_one_add(&mut store, &payload_of((1, number), 100)));
            stage_tell("add", number);
        }
    }
}

fn log_of(count: u64, rising: bool) -> Rc<Vec<u8>> {
    let mut bytes = vec![0; HEADER];
    for number in 0..count {
        bytes.extend_from_slice(&16u32.to_be_bytes());
        bytes.extend_from_slice(&payload_of(ids(rising, count, number), 16));
    }
    Rc::new(bytes)
}

fn run_memory(what: &str, count: u64, rising: bool) {
    let held = match what {
        "nothing" => 0,
        "log" => black_box(log_of(count, rising)).len() as u64,
        "store" => {
            let store = Store::open(BTreeMap::from([(0, log_of(count, rising))]));
            black_box(&store).index.len() as u64
        }
        "cached" => {
            let mut store = Store::default();
            for number in 0..count {
                assert!(store.add(&payload_of(ids(rising, count, number), 100)));
            }
            black_box(&store).trail.len() as u64
        }
        "marks" => {
            let mut store = Store::default();
            for number in 0..count {
                assert!(store.add(&payload_of((number / 1000, number % 1000), 16)));
                if number % 1000 == 999 {
                    store.delete(number / 1000);
                }
            }
            black_box(&store).trail.len() as u64
        }
        _ => panic!("what is to be held?"),
    };
    println!("held {held}");
}

fn main() {
    let words: Vec<String> = std::env::args().skip(1).collect();
    let words: Vec<&str> = words.iter().map(String::as_str).collect();
    let number = |word: &str| word.parse().expect("a number");
    match words[..] {
        ["entries", count, order] => run_entries(number(count), order == "rising"),
        ["memory", what, count, order] => run_memory(what, number(count), order == "rising"),
        ["trail", ref lengths @ ..] => {
            run_trail(
                &lengths
                    .iter()
                    .map(|length| number(length))
                    .collect::<Vec<u64>>(),
            );
        }
        _ => panic!("entries N ORDER, trail N.., or memory WHAT N ORDER"),
    }
}

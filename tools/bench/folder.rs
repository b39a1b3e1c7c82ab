//! The work of `bk_bench folder` in plain Rust, with maps, lists and files of the standard library
//! and nothing proved.
//!
//! Words and lines are those of bk_bench behind `folder`: `fill DIR LENGTH BATCH PUBLISHES LIMIT`,
//! `open DIR`, `compact DIR`; and those of bk_bench_openings: `seal` with the words of `fill`,
//! `scanned DIR`, `hinted DIR`. It asks of the system what the store asks: a write for each record,
//! a sync for each publish and for each log of an opening, reads of the same windows. The logs that
//! it writes are the store's, byte for byte. `sorted DIR` is `hinted`, but the map of all keys is
//! made at once, of a sorted list.

mod digest;
mod hints;

use digest::sha256;
use hints::Hint;
use std::collections::{BTreeMap, BTreeSet};
use std::fs::{self, File, OpenOptions};
use std::hint::black_box;
use std::io::{self, Write};
use std::os::unix::fs::FileExt;
use std::path::{Path, PathBuf};
use std::rc::Rc;
use std::time::Instant;

const LEDGERS: u64 = 100;
const HEADER: u64 = 1024;
const CACHE_LIMIT: usize = 1_073_741_824;
/// How many bytes a scan reads at once, at most and at first.
const WINDOW: u64 = 65_536;
const FIRST: u64 = 512;
/// The length field and the two ids.
const HEAD: u64 = 20;
/// How many bytes of a record are read at once, where its length is not known.
const FRAME: u64 = 256;

/// How a log is read at an opening.
#[derive(Clone, Copy, PartialEq)]
enum By {
    Scan,
    /// By its hint; each key is inserted into the map.
    Hint,
    /// By its hint; the map is made of all keys at once.
    SortedHints,
}

/// Ledger and entry.
type Key = (u64, u64);
/// Log and position of the payload.
type Place = (u32, u32);

#[allow(dead_code)]
struct Mark {
    key: Key,
    digest: [u8; 32],
}

#[derive(Default)]
struct Log {
    /// Shared with those who read it.
    view: Option<Rc<File>>,
    length: u64,
    /// The bytes of the records of each ledger.
    sizes: BTreeMap<u64, u64>,
    /// How many keys the index sends here.
    named: u64,
}

/// A log that is written.
struct Writing {
    number: u32,
    file: File,
    log: Log,
}

struct Store {
    folder: PathBuf,
    limit: u64,
    active: BTreeMap<Key, Rc<[u8]>>,
    flushing: BTreeMap<Key, Rc<[u8]>>,
    used: usize,
    places: Vec<(Key, Place)>,
    index: BTreeMap<Key, Place>,
    logs: BTreeMap<u32, Log>,
    writing: Option<Writing>,
    dead: BTreeSet<u64>,
    trail: Vec<Mark>,
}

fn ids_in(bytes: &[u8]) -> (u64, u64) {
    let ledger = u64::from_be_bytes(bytes[..8].try_into().unwrap());
    let entry = u64::from_be_bytes(bytes[8..16].try_into().unwrap());
    (ledger, entry)
}

fn key_of(bytes: &[u8]) -> Option<Key> {
    let (ledger, entry) = ids_in(bytes);
    (ledger >> 63 == 0 && entry >> 63 == 0).then_some((ledger, entry))
}

fn path_of(folder: &Path, number: u32) -> PathBuf {
    folder.join(format!("{number:x}.log"))
}

fn header() -> [u8; HEADER as usize] {
    let mut header = [0; HEADER as usize];
    header[..4].copy_from_slice(b"BKLO");
    header[7] = 1;
    header
}

impl Writing {
    fn make(folder: &Path, number: u32) -> io::Result<Writing> {
        let path = path_of(folder, number);
        let mut file = OpenOptions::new()
            .append(true)
            .create_new(true)
            .open(path)?;
        File::open(folder)?.sync_all()?;
        file.write_all(&header())?;
        let log = Log {
            length: HEADER,
            ..Log::default()
        };
        Ok(Writing { number, file, log })
    }

    /// Writes a record. Returns where its payload stands.
    fn put(&mut self, key: Key, payload: &[u8], record: &mut Vec<u8>) -> io::Result<Place> {
        record.clear();
        record.extend_from_slice(&(payload.len() as u32).to_be_bytes());
        record.extend_from_slice(payload);
        self.file.write_all(record)?;
        let at = self.log.length as u32 + 4;
        self.log.length += record.len() as u64;
        *self.log.sizes.entry(key.0).or_default() += record.len() as u64;
        Ok((self.number, at))
    }

    /// Writes the ledgers map behind the records, and where it stands into the header.
    fn seal(mut self, folder: &Path) -> io::Result<(u32, Log)> {
        let count = self.log.sizes.len() as u32;
        let mut batch = Vec::new();
        batch.extend_from_slice(&(20 + 16 * count).to_be_bytes());
        batch.extend_from_slice(&u64::MAX.to_be_bytes());
        batch.extend_from_slice(&(u64::MAX - 1).to_be_bytes());
        batch.extend_from_slice(&count.to_be_bytes());
        for (ledger, size) in &self.log.sizes {
            batch.extend_from_slice(&ledger.to_be_bytes());
            batch.extend_from_slice(&size.to_be_bytes());
        }
        self.file.write_all(&batch)?;
        let mut place = [0; 12];
        place[..8].copy_from_slice(&self.log.length.to_be_bytes());
        place[8..].copy_from_slice(&count.to_be_bytes());
        let path = path_of(folder, self.number);
        let patched = OpenOptions::new().write(true).open(path)?;
        patched.write_all_at(&place, 8)?;
        self.file.sync_all()?;
        self.log.length += batch.len() as u64;
        Ok((self.number, self.log))
    }
}

/// A log's file to be read, and its length.
fn view_of(folder: &Path, number: u32) -> io::Result<(Rc<File>, u64)> {
    let path = path_of(folder, number);
    let length = fs::metadata(&path)?.len();
    Ok((Rc::new(File::open(&path)?), length))
}

impl Store {
    fn open(folder: &Path, limit: u64, dead: BTreeSet<u64>, by: By) -> io::Result<Store> {
        let mut store = Store {
            folder: folder.to_path_buf(),
            limit,
            active: BTreeMap::new(),
            flushing: BTreeMap::new(),
            used: 0,
            places: Vec::new(),
            index: BTreeMap::new(),
            logs: BTreeMap::new(),
            writing: None,
            dead,
            trail: Vec::new(),
        };
        let mut numbers = Vec::new();
        for entry in fs::read_dir(folder)? {
            let name = entry?.file_name();
            if let Some(digits) = name.to_str().and_then(|name| name.strip_suffix(".log")) {
                numbers.extend(u32::from_str_radix(digits, 16));
            }
        }
        numbers.sort();
        let mut listed = Vec::new();
        for number in numbers {
            let log = match by {
                By::Scan => store.take_in(number)?,
                _ => store.take_in_hint(number, by, &mut listed)?,
            };
            store.logs.insert(number, log);
        }
        if by == By::SortedHints {
            store.index = listed.into_iter().collect();
        }
        for (log, _) in store.index.values() {
            store.logs.get_mut(log).unwrap().named += 1;
        }
        Ok(store)
    }

    /// Reads a log: its header, and its records once.
    fn take_in(&mut self, number: u32) -> io::Result<Log> {
        let (view, length) = view_of(&self.folder, number)?;
        view.sync_all()?;
        let mut first = header();
        view.read_exact_at(&mut first, 0)?;
        assert!(first.starts_with(b"BKLO"));
        let mut sizes = BTreeMap::new();
        let mut scan = Scan::new(&view, length);
        while let Some(found) = scan.next()? {
            *sizes.entry(found.key.0).or_default() += found.size;
            if !self.dead.contains(&found.key.0) {
                self.index.insert(found.key, (number, found.at as u32));
            }
        }
        Ok(Log {
            view: Some(view),
            length,
            sizes,
            named: 0,
        })
    }

    /// Reads the hint of a log, its header and its ledgers map. Inserts the keys into the index, or
    /// adds them to a list.
    fn take_in_hint(
        &mut self,
        number: u32,
        by: By,
        listed: &mut Vec<(Key, Place)>,
    ) -> io::Result<Log> {
        let (view, length) = view_of(&self.folder, number)?;
        view.sync_all()?;
        let bytes = fs::read(path_of(&self.folder, number).with_extension("hint"))?;
        let mut first = header();
        view.read_exact_at(&mut first, 0)?;
        let place = u64::from_be_bytes(first[8..16].try_into().unwrap());
        let mut map = vec![0; (length - place) as usize];
        view.read_exact_at(&mut map, place)?;
        let hint = Hint::new(&bytes).expect("a hint");
        let sizes = hint.sizes(number, length, &first, &map);
        for run in hint.runs().flatten() {
            if self.dead.contains(&run.key.0) {
                continue;
            }
            let keys = (0..run.count).map(|nth| {
                let at = run.at + nth * run.size;
                ((run.key.0, run.key.1 + nth), (number, at as u32))
            });
            match by {
                By::SortedHints => listed.extend(keys),
                _ => self.index.extend(keys),
            }
        }
        Ok(Log {
            view: Some(view),
            length,
            sizes: sizes.expect("the hint of this log"),
            named: 0,
        })
    }

    fn add(&mut self, payload: &[u8]) -> bool {
        let Some(key) = key_of(payload) else {
            return false;
        };
        if self.dead.contains(&key.0)
            || self.index.contains_key(&key)
            || self.flushing.contains_key(&key)
        {
            return false;
        }
        let std::collections::btree_map::Entry::Vacant(free) = self.active.entry(key) else {
            return false;
        };
        if self.used + payload.len() > CACHE_LIMIT {
            return false;
        }
        free.insert(payload.into());
        self.used += payload.len();
        let digest = sha256(payload);
        self.trail.push(Mark { key, digest });
        true
    }

    fn write_flush(&mut self) -> io::Result<u64> {
        self.flushing = std::mem::take(&mut self.active);
        self.used = 0;
        let mut record = Vec::new();
        let mut writing = match self.writing.take() {
            Some(writing) => writing,
            None => Writing::make(&self.folder, self.next())?,
        };
        for (key, payload) in &self.flushing {
            if writing.log.length + 4 + payload.len() as u64 > self.limit {
                let next = writing.number + 1;
                let (number, log) = writing.seal(&self.folder)?;
                self.logs.insert(number, log);
                writing = Writing::make(&self.folder, next)?;
            }
            let place = writing.put(*key, payload, &mut record)?;
            self.places.push((*key, place));
        }
        self.writing = Some(writing);
        Ok(self.places.len() as u64)
    }

    fn next(&self) -> u32 {
        self.logs.last_key_value().map_or(0, |(last, _)| last + 1)
    }

    /// Syncs each log that the flush wrote, and sends the index there.
    fn publish(&mut self) -> io::Result<u64> {
        let places = std::mem::take(&mut self.places);
        let written: BTreeSet<u32> = places.iter().map(|(_, place)| place.0).collect();
        for number in written {
            match &mut self.writing {
                Some(writing) if writing.number == number => {
                    writing.file.sync_all()?;
                    writing.log.view = Some(view_of(&self.folder, number)?.0);
                }
                _ => {
                    let (view, _) = view_of(&self.folder, number)?;
                    view.sync_all()?;
                    self.logs.get_mut(&number).unwrap().view = Some(view);
                }
            }
        }
        for (key, place) in &places {
            self.index.insert(*key, *place);
            match &mut self.writing {
                Some(writing) if writing.number == place.0 => writing.log.named += 1,
                _ => self.logs.get_mut(&place.0).unwrap().named += 1,
            }
        }
        self.flushing.clear();
        Ok(places.len() as u64)
    }

    fn log(&self, number: u32) -> &Log {
        match &self.writing {
            Some(writing) if writing.number == number => &writing.log,
            _ => &self.logs[&number],
        }
    }

    /// Reads the heads of the records of the first log. Returns how many.
    fn scan(&self) -> io::Result<u64> {
        let log = self.log(0);
        let mut scan = Scan::new(log.view.as_ref().unwrap(), log.length);
        let mut count = 0;
        while let Some(found) = scan.next()? {
            black_box(found.key);
            count += 1;
        }
        Ok(count)
    }

    /// Takes a ledger out of all but the files. Returns how many keys it had.
    fn delete(&mut self, ledger: u64) -> u64 {
        if !self.dead.insert(ledger) {
            return 0;
        }
        let of_ledger = (ledger, 0)..(ledger + 1, 0);
        let keys: Vec<Key> = self.index.range(of_ledger).map(|(key, _)| *key).collect();
        for key in &keys {
            let (log, _) = self.index.remove(key).unwrap();
            self.logs.get_mut(&log).unwrap().named -= 1;
        }
        for log in self.logs.values_mut() {
            log.sizes.remove(&ledger);
        }
        keys.len() as u64
    }

    fn fetch(&self, key: &Key) -> io::Result<Vec<u8>> {
        if self.active.contains_key(key) || self.flushing.contains_key(key) {
            return Err(io::ErrorKind::NotFound.into());
        }
        let (number, at) = self.index[key];
        let log = self.log(number);
        let view = log.view.clone().unwrap();
        let from = u64::from(at) - 4;
        let mut frame = [0; FRAME as usize];
        let front = &mut frame[..(log.length - from).min(FRAME) as usize];
        view.read_exact_at(front, from)?;
        let length = u32::from_be_bytes(front[..4].try_into().unwrap()) as usize;
        assert!(key_of(&front[4..]) == Some(*key));
        if 4 + length <= front.len() {
            return Ok(front[4..4 + length].to_vec());
        }
        let mut payload = vec![0; length];
        view.read_exact_at(&mut payload, u64::from(at))?;
        Ok(payload)
    }

    /// The log of which the least lives.
    fn least_used(&self) -> u32 {
        let live = |log: &Log| -> u64 {
            let living = log
                .sizes
                .iter()
                .filter(|(ledger, _)| !self.dead.contains(ledger));
            living.map(|(_, size)| size).sum()
        };
        let logs = self.logs.iter().filter(|(_, log)| log.named > 0);
        let least = logs.min_by_key(|(_, log)| live(log) * 1000 / log.length);
        *least.unwrap().0
    }

    /// Copies the entries of a log that live, and sends the index to the copy. Returns how many.
    fn compact(&mut self) -> io::Result<u64> {
        let source = self.least_used();
        let mut copy = Writing::make(&self.folder, self.next())?;
        let moves = self.copy_to(&mut copy, source)?;
        let (number, mut log) = copy.seal(&self.folder)?;
        log.view = Some(view_of(&self.folder, number)?.0);
        let mut moved = 0;
        for (key, old, new) in moves {
            match self.index.get_mut(&key) {
                Some(place) if *place == old => *place = new,
                _ => continue,
            }
            moved += 1;
        }
        log.named = moved;
        self.logs.insert(number, log);
        self.logs.get_mut(&source).unwrap().named -= moved;
        Ok(moved)
    }

    fn copy_to(&self, copy: &mut Writing, source: u32) -> io::Result<Vec<(Key, Place, Place)>> {
        let from = &self.logs[&source];
        let view = from.view.as_ref().unwrap();
        let mut scan = Scan::new(view, from.length);
        let (mut moves, mut record, mut read) = (Vec::new(), Vec::new(), Vec::new());
        while let Some(found) = scan.next()? {
            let old = (source, found.at as u32);
            if self.index.get(&found.key) != Some(&old) {
                continue;
            }
            let payload = match scan.payload(&found) {
                Some(payload) => payload,
                None => {
                    read.resize(found.size as usize - 4, 0);
                    view.read_exact_at(&mut read, found.at)?;
                    &read
                }
            };
            let new = copy.put(found.key, payload, &mut record)?;
            moves.push((found.key, old, new));
        }
        Ok(moves)
    }
}

/// A record that was found: its key, where its payload stands, and its bytes with the length field.
struct Found {
    key: Key,
    at: u64,
    size: u64,
}

/// A walk over the records of a log, by windows. A record's head that is not in the window is read
/// alone, and then a window of twice the bytes of the one before.
struct Scan<'a> {
    file: &'a File,
    end: u64,
    at: u64,
    window: Vec<u8>,
    since: u64,
}

impl<'a> Scan<'a> {
    fn new(file: &'a File, end: u64) -> Scan<'a> {
        Scan {
            file,
            end,
            at: HEADER,
            window: Vec::new(),
            since: HEADER,
        }
    }

    /// The next entry; records of negative ids are passed over.
    fn next(&mut self) -> io::Result<Option<Found>> {
        while self.at + HEAD <= self.end {
            let head = self.head()?;
            let size = 4 + u64::from(u32::from_be_bytes(head[..4].try_into().unwrap()));
            if size < HEAD || self.at + size > self.end {
                break;
            }
            if self.lent(self.at, HEAD).is_none() && size < WINDOW {
                self.fill(size)?;
            }
            let at = self.at + 4;
            self.at += size;
            if let Some(key) = key_of(&head[4..]) {
                return Ok(Some(Found { key, at, size }));
            }
        }
        Ok(None)
    }

    fn head(&self) -> io::Result<[u8; HEAD as usize]> {
        let mut head = [0; HEAD as usize];
        match self.lent(self.at, HEAD) {
            Some(bytes) => head.copy_from_slice(bytes),
            None => self.file.read_exact_at(&mut head, self.at)?,
        }
        Ok(head)
    }

    fn fill(&mut self, size: u64) -> io::Result<()> {
        let wanted = (2 * self.window.len() as u64).max(FIRST.max(size));
        let wanted = wanted.min(WINDOW).min(self.end - self.at);
        self.window.resize(wanted as usize, 0);
        self.since = self.at;
        self.file.read_exact_at(&mut self.window, self.at)
    }

    fn lent(&self, from: u64, count: u64) -> Option<&[u8]> {
        let begin = (from - self.since) as usize;
        self.window.get(begin..begin + count as usize)
    }

    fn payload(&self, found: &Found) -> Option<&[u8]> {
        if found.at < self.since {
            return None;
        }
        self.lent(found.at, found.size - 4)
    }
}

fn tell(stage: &str, count: u64, begun: Instant) {
    tell_time(stage, count, begun.elapsed().as_nanos() as u64);
}

fn tell_time(stage: &str, count: u64, time: u64) {
    println!("{stage} {count} {time}");
}

fn key_at(number: u64) -> Key {
    (number % LEDGERS, number / LEDGERS)
}

fn payload_of((ledger, entry): Key, length: usize) -> Vec<u8> {
    let mut payload = vec![0; length];
    payload[..8].copy_from_slice(&ledger.to_be_bytes());
    payload[8..16].copy_from_slice(&entry.to_be_bytes());
    payload
}

fn digest(payloads: &[Vec<u8>]) -> u64 {
    payloads
        .iter()
        .map(|payload| u64::from(sha256(payload)[0]))
        .sum()
}

fn fill(folder: &Path, length: usize, batch: u64, publishes: u64, limit: u64) -> io::Result<()> {
    let mut store = Store::open(folder, limit, BTreeSet::new(), By::Scan)?;
    let mut times = [0; 4];
    let (mut sum, mut added) = (0, 0);
    for number in 0..publishes {
        let numbers = number * batch..(number + 1) * batch;
        let payloads: Vec<Vec<u8>> = numbers.map(|it| payload_of(key_at(it), length)).collect();
        let mut begun = Instant::now();
        let mut next = |times: &mut [u64; 4], stage: usize| {
            times[stage] += begun.elapsed().as_nanos() as u64;
            begun = Instant::now();
        };
        sum += digest(&payloads);
        next(&mut times, 0);
        added += payloads.iter().filter(|payload| store.add(payload)).count() as u64;
        next(&mut times, 1);
        store.write_flush()?;
        next(&mut times, 2);
        store.publish()?;
        next(&mut times, 3);
    }
    tell_time("digest", sum, times[0]);
    tell_time("add", added, times[1]);
    tell_time("write", added, times[2]);
    tell_time("publish", added, times[3]);
    let keys: Vec<Key> = (0..batch * publishes).map(key_at).collect();
    let begun = Instant::now();
    let mut fetched = 0;
    for key in &keys {
        black_box(store.fetch(key)?);
        fetched += 1;
    }
    tell("fetch", fetched, begun);
    let begun = Instant::now();
    let scanned = store.scan()?;
    tell("scan", scanned, begun);
    Ok(())
}

/// Flushes entries to logs that are all sealed.
fn seal(folder: &Path, length: usize, batch: u64, publishes: u64, limit: u64) -> io::Result<()> {
    let mut store = Store::open(folder, limit, BTreeSet::new(), By::Scan)?;
    let begun = Instant::now();
    for number in 0..publishes {
        for it in number * batch..(number + 1) * batch {
            store.add(&payload_of(key_at(it), length));
        }
        store.write_flush()?;
        store.publish()?;
    }
    if let Some(writing) = store.writing.take() {
        writing.seal(folder)?;
    }
    tell("seal", batch * publishes, begun);
    Ok(())
}

fn open(folder: &Path) -> io::Result<()> {
    let begun = Instant::now();
    let mut store = Store::open(folder, 0, BTreeSet::new(), By::Scan)?;
    tell("open", store.index.len() as u64, begun);
    let begun = Instant::now();
    let deleted = tenths().map(|ledger| store.delete(ledger)).sum();
    tell("delete", deleted, begun);
    Ok(())
}

/// Opens and does nothing more, not even free what it holds.
fn open_alone(folder: &Path, by: By) -> io::Result<()> {
    let begun = Instant::now();
    let store = Store::open(folder, 0, BTreeSet::new(), by)?;
    tell("open", store.index.len() as u64, begun);
    std::mem::forget(store);
    Ok(())
}

/// Every tenth ledger.
fn tenths() -> impl Iterator<Item = u64> {
    (0..LEDGERS / 10).map(|tenth| 10 * tenth)
}

fn compact(folder: &Path) -> io::Result<()> {
    let mut store = Store::open(folder, 0, tenths().collect(), By::Scan)?;
    let begun = Instant::now();
    let moved = store.compact()?;
    tell("compact", moved, begun);
    Ok(())
}

fn main() -> io::Result<()> {
    let words: Vec<String> = std::env::args().skip(1).collect();
    let words: Vec<&str> = words.iter().map(String::as_str).collect();
    let number = |word: &str| word.parse::<u64>().expect("a number");
    match words[..] {
        ["fill", folder, length, batch, publishes, limit] => fill(
            Path::new(folder),
            number(length) as usize,
            number(batch),
            number(publishes),
            number(limit),
        ),
        ["seal", folder, length, batch, publishes, limit] => seal(
            Path::new(folder),
            number(length) as usize,
            number(batch),
            number(publishes),
            number(limit),
        ),
        ["open", folder] => open(Path::new(folder)),
        ["scanned", folder] => open_alone(Path::new(folder), By::Scan),
        ["hinted", folder] => open_alone(Path::new(folder), By::Hint),
        ["sorted", folder] => open_alone(Path::new(folder), By::SortedHints),
        ["compact", folder] => compact(Path::new(folder)),
        _ => panic!(
            "fill DIR LENGTH BATCH PUBLISHES LIMIT, open, scanned, hinted, sorted or compact DIR"
        ),
    }
}

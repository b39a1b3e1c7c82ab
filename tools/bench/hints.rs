//! Hints of logs in plain Rust (crates/bk_hint has their format): which entries one lists, and
//! whether it is that of a log.

use std::collections::BTreeMap;

const FRONT: usize = 32;
const HEAD: usize = 24;
const STEP: usize = 4;
/// Steps from here on repeat the last entry's size.
const AGAIN: u32 = 1 << 31;
const HEADER: u64 = 1024;
const END: u64 = (1 << 32) - 1;

/// A hint whose checksum fits.
pub struct Hint<'a> {
    log: u32,
    length: u64,
    checksum: u32,
    heads: &'a [u8],
    steps: &'a [u8],
}

/// Entries of one ledger and one size, each directly behind the last: the first one's ids and
/// payload, the bytes of a record.
#[derive(Clone, Copy)]
pub struct Run {
    pub key: (u64, u64),
    pub at: u64,
    pub size: u64,
    pub count: u64,
}

impl Run {
    fn past(&self) -> u64 {
        self.at - 4 + self.size * self.count
    }

    fn is_legal(&self) -> bool {
        let ids = [self.key.0, self.key.1, self.key.1 + self.count - 1];
        ids.iter().all(|id| id >> 63 == 0)
            && (20..AGAIN as u64 + 4).contains(&self.size)
            && self.past() <= END
    }

    fn next(&self, size: u64, count: u64) -> Run {
        Run {
            key: (self.key.0, self.key.1 + self.count),
            at: self.past() + 4,
            size,
            count,
        }
    }
}

fn small(bytes: &[u8], at: usize) -> u32 {
    u32::from_be_bytes(bytes[at..at + 4].try_into().unwrap())
}

fn large(bytes: &[u8], at: usize) -> u64 {
    u64::from_be_bytes(bytes[at..at + 8].try_into().unwrap())
}

const TABLE: [u32; 256] = {
    let mut table = [0; 256];
    let mut byte = 0;
    while byte < 256 {
        let (mut rest, mut bit) = (byte as u32, 0);
        while bit < 8 {
            rest = (rest >> 1) ^ if rest & 1 == 1 { 0x82f6_3b78 } else { 0 };
            bit += 1;
        }
        table[byte] = rest;
        byte += 1;
    }
    table
};

/// The CRC-32C of some pieces.
fn checksum(pieces: &[&[u8]]) -> u32 {
    let bytes = pieces.iter().copied().flatten();
    !bytes.fold(!0, |rest, byte| {
        TABLE[(rest as u8 ^ byte) as usize] ^ (rest >> 8)
    })
}

impl<'a> Hint<'a> {
    pub fn new(bytes: &'a [u8]) -> Option<Hint<'a>> {
        if bytes.len() < FRONT + 4 || !bytes.starts_with(b"BKHI\0\0\0\x01") {
            return None;
        }
        let (body, sum) = bytes.split_at(bytes.len() - 4);
        let (heads, steps) = (small(body, 24) as usize, small(body, 28) as usize);
        if checksum(&[body]) != small(sum, 0) || body.len() != FRONT + HEAD * heads + STEP * steps {
            return None;
        }
        let (heads, steps) = body[FRONT..].split_at(HEAD * heads);
        Some(Hint {
            log: small(body, 8),
            length: large(body, 12),
            checksum: small(body, 20),
            heads,
            steps,
        })
    }

    /// The entries in the order of the file; `None` stands for one that is not legal, and ends
    /// them.
    pub fn runs(&self) -> impl Iterator<Item = Option<Run>> + '_ {
        let mut heads = self.heads.chunks_exact(HEAD);
        let mut steps = self.steps.chunks_exact(STEP);
        let mut last: Option<Run> = None;
        let mut next = move || -> Option<Option<Run>> {
            let Some(step) = steps.next() else {
                return heads.next().map(|_| None);
            };
            let (step, before) = (small(step, 0), last);
            let run = match (step, before) {
                (0, _) => heads.next().map(|head| Run {
                    key: (large(head, 0), large(head, 8)),
                    at: small(head, 16).into(),
                    size: small(head, 20).into(),
                    count: 1,
                }),
                (1..AGAIN, Some(last)) => Some(last.next(u64::from(step) + 4, 1)),
                (AGAIN.., Some(last)) => Some(last.next(last.size, u64::from(step - AGAIN) + 1)),
                (_, None) => None,
            };
            last = run.filter(|run| {
                let from = before.map_or(HEADER, |it| it.past());
                run.at >= from + 4 && run.is_legal()
            });
            Some(last)
        };
        std::iter::from_fn(move || next())
    }

    /// Whether this is the hint of the log of this number and length, with this header, and with
    /// these bytes from the place on that the header has for the ledgers map. Gives the bytes of
    /// each ledger's records.
    pub fn sizes(
        &self,
        log: u32,
        length: u64,
        header: &[u8],
        map: &[u8],
    ) -> Option<BTreeMap<u64, u64>> {
        let is_of_log = self.log == log && self.length == length;
        if !is_of_log || self.checksum != checksum(&[header, map]) {
            return None;
        }
        let (mut sizes, mut past) = (BTreeMap::new(), HEADER);
        for run in self.runs() {
            let run = run?;
            *sizes.entry(run.key.0).or_default() += run.size * run.count;
            past = run.past();
        }
        (past <= large(header, 8) && map_of(header, map)? == sizes).then_some(sizes)
    }
}

/// The sizes by ledger of a ledgers map of batches.
fn map_of(header: &[u8], map: &[u8]) -> Option<BTreeMap<u64, u64>> {
    let (mut sizes, mut rest) = (BTreeMap::new(), map);
    while !rest.is_empty() {
        let count = small(rest.get(20..24)?, 0) as usize;
        let is_batch = small(rest, 0) as usize == 20 + 16 * count
            && large(rest, 4) == u64::MAX
            && large(rest, 12) == u64::MAX - 1;
        let pairs = rest.get(24..24 + 16 * count).filter(|_| is_batch)?;
        sizes.extend(
            pairs
                .chunks_exact(16)
                .map(|pair| (large(pair, 0), large(pair, 8))),
        );
        rest = &rest[24 + 16 * count..];
    }
    (sizes.len() == small(header, 16) as usize).then_some(sizes)
}

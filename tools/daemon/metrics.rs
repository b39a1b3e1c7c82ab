//! What the daemon counts and times.

use crate::frames::{Call, Status};
use crate::requests::Request;
use std::array::from_fn;
use std::sync::atomic::{AtomicU64, Ordering::Relaxed};
use std::time::Duration;

/// Upper bounds of the times of a histogram, in microseconds.
pub const BOUNDS: [u64; 17] = [
    50, 100, 250, 500, 1_000, 2_500, 5_000, 10_000, 25_000, 50_000, 100_000, 250_000, 500_000, 1_000_000,
    2_500_000, 5_000_000, 10_000_000,
];
const CALLS: usize = Call::Close as usize + 1;
const STATUSES: usize = Status::NoMemory as usize + 1;

/// Why a client's session ended.
#[derive(Clone, Copy, Debug, PartialEq, Eq)]
pub enum Ended {
    Closed,
    Over,
    Unwelcome,
    Fault,
    Lost,
    Stalled,
    Stopped,
}

impl Ended {
    pub const ALL: [Ended; 7] = [
        Ended::Closed,
        Ended::Over,
        Ended::Unwelcome,
        Ended::Fault,
        Ended::Lost,
        Ended::Stalled,
        Ended::Stopped,
    ];

    pub fn text(self) -> &'static str {
        match self {
            Ended::Closed => "closed",
            Ended::Over => "end_of_input",
            Ended::Unwelcome => "unwelcome",
            Ended::Fault => "fault",
            Ended::Lost => "lost",
            Ended::Stalled => "stalled",
            Ended::Stopped => "stopped",
        }
    }
}

/// How many times are at most each bound and above the one before, and their sum.
#[derive(Default)]
pub struct Histogram {
    counts: [AtomicU64; BOUNDS.len() + 1],
    nanoseconds: AtomicU64,
}

impl Histogram {
    fn add(&self, time: Duration) {
        let bucket = BOUNDS.partition_point(|bound| u128::from(*bound) < time.as_micros());
        self.counts[bucket].fetch_add(1, Relaxed);
        self.nanoseconds.fetch_add(time.as_nanos() as u64, Relaxed);
    }

    pub fn counts(&self) -> [u64; BOUNDS.len() + 1] {
        from_fn(|i| self.counts[i].load(Relaxed))
    }

    pub fn seconds(&self) -> f64 {
        self.nanoseconds.load(Relaxed) as f64 / 1e9
    }
}

pub struct Metrics {
    taken: [AtomicU64; CALLS],
    times: [Histogram; CALLS],
    statuses: [AtomicU64; STATUSES],
    ended: [AtomicU64; Ended::ALL.len()],
    received: AtomicU64,
    sent: AtomicU64,
}

impl Default for Metrics {
    fn default() -> Metrics {
        Metrics {
            taken: from_fn(|_| AtomicU64::default()),
            times: from_fn(|_| Histogram::default()),
            statuses: from_fn(|_| AtomicU64::default()),
            ended: from_fn(|_| AtomicU64::default()),
            received: AtomicU64::default(),
            sent: AtomicU64::default(),
        }
    }
}

impl Metrics {
    /// Requests of a client were handed to the server; their frames have these bytes.
    pub fn took(&self, requests: &[Request], bytes: usize) {
        requests.iter().for_each(|it| self.took_call(it.call));
        self.received.fetch_add(bytes as u64, Relaxed);
    }

    pub fn took_call(&self, call: Call) {
        self.taken[call as usize].fetch_add(1, Relaxed);
    }

    /// The server answered a client's request by a status, after this time.
    pub fn answered(&self, call: Call, status: u8, time: Duration) {
        self.times[call as usize].add(time);
        if let Some(count) = self.statuses.get(usize::from(status)) {
            count.fetch_add(1, Relaxed);
        }
    }

    pub fn sent(&self, bytes: usize) {
        self.sent.fetch_add(bytes as u64, Relaxed);
    }

    pub fn ended(&self, how: Ended) {
        self.ended[how as usize].fetch_add(1, Relaxed);
    }

    pub fn calls(&self) -> impl Iterator<Item = (Call, u64, &Histogram)> {
        let of = |call: Call| (call, self.taken[call as usize].load(Relaxed), &self.times[call as usize]);
        (0..CALLS as u8).filter_map(Call::of).filter(|call| *call != Call::Hello).map(of)
    }

    pub fn refusals(&self) -> impl Iterator<Item = (Status, u64)> + '_ {
        let of = |status: Status| (status, self.statuses[status as usize].load(Relaxed));
        (0..STATUSES as u8).filter_map(Status::of).filter(|status| status.is_refusal()).map(of)
    }

    pub fn ends(&self) -> impl Iterator<Item = (Ended, u64)> + '_ {
        Ended::ALL.into_iter().map(|how| (how, self.ended[how as usize].load(Relaxed)))
    }

    /// Bytes of requests that were taken, and of replies that were sent.
    pub fn bytes(&self) -> [u64; 2] {
        [self.received.load(Relaxed), self.sent.load(Relaxed)]
    }
}

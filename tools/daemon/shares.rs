//! How the limits of the server are divided among the clients.

use std::sync::atomic::{AtomicUsize, Ordering};

/// The requests without a reply that the server takes are divided equally among the clients that have some. Each
/// client has the same memory.
pub struct Shares {
    in_flight: usize,
    /// Bytes of requests and replies that a client may have in the daemon.
    memory: usize,
    /// Clients that have requests.
    active: AtomicUsize,
}

/// What a client has in the daemon: requests whose replies it was not sent yet, and their bytes.
#[derive(Default)]
pub struct Load {
    requests: usize,
    bytes: usize,
}

impl Shares {
    pub fn new(in_flight: usize, memory: usize) -> Shares {
        Shares { in_flight, memory, active: AtomicUsize::new(0) }
    }

    fn requests(&self) -> usize {
        (self.in_flight / self.active.load(Ordering::Relaxed).max(1)).max(1)
    }
}

impl Load {
    /// Adds a request that may hold `cost` bytes, if there is room. There is room for the first one.
    pub fn add(&mut self, cost: usize, shares: &Shares) -> bool {
        let is_first = self.requests == 0;
        if !is_first && (self.requests >= shares.requests() || self.bytes + cost > shares.memory) {
            return false;
        }
        if is_first {
            shares.active.fetch_add(1, Ordering::Relaxed);
        }
        self.requests += 1;
        self.bytes += cost;
        true
    }

    /// A reply came: from now on its request holds its bytes alone.
    pub fn answer(&mut self, cost: usize, bytes: usize) {
        self.bytes = (self.bytes + bytes).saturating_sub(cost);
    }

    /// Removes requests whose replies were sent or dropped.
    pub fn remove(&mut self, requests: usize, bytes: usize, shares: &Shares) {
        self.requests -= requests;
        self.bytes = self.bytes.saturating_sub(bytes);
        if requests > 0 && self.requests == 0 {
            shares.active.fetch_sub(1, Ordering::Relaxed);
        }
    }
}

//! The clients that are connected.

use crate::client::Client;
use crate::lock;
use crate::stream::Stream;
use std::collections::HashMap;
use std::sync::{Arc, Condvar, Mutex, PoisonError};

#[derive(Default)]
struct List {
    clients: HashMap<u64, Arc<Client>>,
    /// How many there were.
    count: u64,
    is_stopped: bool,
}

pub struct Clients {
    list: Mutex<List>,
    removed: Condvar,
    most: usize,
}

impl Clients {
    pub fn new(most: usize) -> Clients {
        Clients { list: Mutex::default(), removed: Condvar::new(), most }
    }

    /// Adds a client, unless no more are taken.
    pub fn add(&self, stream: Stream) -> Option<Arc<Client>> {
        let mut list = lock(&self.list);
        if list.is_stopped {
            return None;
        }
        list.count += 1;
        let client = Arc::new(Client::new(list.count, stream));
        list.clients.insert(client.number, Arc::clone(&client));
        Some(client)
    }

    pub fn remove(&self, client: &Client) {
        lock(&self.list).clients.remove(&client.number);
        self.removed.notify_all();
    }

    /// Whether there are more clients than there may be.
    pub fn are_too_many(&self) -> bool {
        self.len() > self.most
    }

    pub fn len(&self) -> usize {
        lock(&self.list).clients.len()
    }

    /// How many clients there were, with those that are connected.
    pub fn count(&self) -> u64 {
        lock(&self.list).count
    }

    /// Takes no more clients, and ends each one by a call.
    pub fn end(&self, how: impl Fn(&Client)) {
        let mut list = lock(&self.list);
        list.is_stopped = true;
        list.clients.values().for_each(|client| how(client));
    }

    /// Waits until all have ended.
    pub fn wait(&self) {
        let mut list = lock(&self.list);
        while !list.clients.is_empty() {
            list = self.removed.wait(list).unwrap_or_else(PoisonError::into_inner);
        }
    }
}

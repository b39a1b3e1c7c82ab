//! Requests that the server has and has not answered.

use crate::client::Client;
use crate::frames::{Call, Reply};
use std::collections::VecDeque;
use std::sync::Arc;
use std::sync::mpsc::Sender;
use std::time::Instant;

pub struct Pending {
    /// The call that is counted and timed, unless the daemon asks for itself.
    pub call: Option<Call>,
    pub sent: Instant,
    pub to: Receiver,
}

/// Who gets a reply.
pub enum Receiver {
    /// A client, for its request of this id; it may hold so many bytes until the reply comes.
    Client { client: Arc<Client>, id: u64, cost: usize },
    /// A client whose session ends by a flush.
    End(Arc<Client>),
    /// The daemon.
    Own(Sender<Reply>),
}

/// The pending requests by the daemon's ids, which rise by one.
pub struct Pendings {
    first: u64,
    list: VecDeque<Option<Pending>>,
}

impl Pendings {
    /// None are pending, and the next one gets this id.
    pub fn from(first: u64) -> Pendings {
        Pendings { first, list: VecDeque::new() }
    }

    /// Adds a request. Returns its id.
    pub fn push(&mut self, pending: Pending) -> u64 {
        self.list.push_back(Some(pending));
        self.first + self.list.len() as u64 - 1
    }

    /// Removes the request with this id, and returns it.
    pub fn take(&mut self, id: u64) -> Option<Pending> {
        let place = usize::try_from(id.checked_sub(self.first)?).ok()?;
        let taken = self.list.get_mut(place)?.take();
        while let Some(None) = self.list.front() {
            self.list.pop_front();
            self.first += 1;
        }
        taken
    }

    /// Removes all requests: no reply will come.
    pub fn clear(&mut self) {
        self.first += self.list.len() as u64;
        self.list.clear();
    }
}

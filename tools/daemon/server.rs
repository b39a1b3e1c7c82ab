//! The one session of the server, which all clients share.

use crate::client::Client;
use crate::frames::{Call, Reply, Status, number};
use crate::input::Input;
use crate::metrics::Metrics;
use crate::pending::{Pending, Pendings, Receiver};
use crate::requests::{Fault, Request};
use crate::shares::Shares;
use crate::{lock, recycle};
use std::io::{Read, Write};
use std::mem::swap;
use std::ops::Range;
use std::sync::mpsc::{Receiver as Answers, channel};
use std::sync::{Arc, Condvar, Mutex, PoisonError};
use std::time::Instant;

/// Bytes of the greatest reply that has neither an entry nor a page: the longest is an attribute.
const SMALL_REPLY: usize = 13 + 256;

/// What the server answered to the hello.
#[derive(Clone, Copy)]
pub struct Limits {
    pub version: u64,
    pub largest: u64,
    pub in_flight: u64,
    pub page: u64,
}

impl Limits {
    pub fn of(welcome: &Reply) -> Option<Limits> {
        let [version, largest, in_flight, page] = welcome.numbers[..] else {
            return None;
        };
        Some(Limits { version, largest, in_flight, page })
    }

    /// The frame by which a client's hello is answered.
    pub fn welcome(&self, id: u64) -> Option<Vec<u8>> {
        Status::Welcome.frame(id, &[self.version, self.largest, self.in_flight, self.page], &[])
    }

    /// Bytes of the greatest reply to a call.
    pub fn largest_reply(&self, call: Call) -> usize {
        match call {
            Call::Read | Call::ReadLast | Call::ReadBack => 4 + self.largest as usize,
            Call::Entries | Call::Ledgers => 13 + 8 * self.page as usize,
            _ => SMALL_REPLY,
        }
    }
}

#[derive(PartialEq, Eq)]
enum State {
    Open,
    /// The last request is queued: the input ends after it.
    Closing,
    Ended,
}

struct Core {
    state: State,
    /// Frames that are not written to the server yet, in the order in which they were taken.
    queue: Vec<u8>,
    pendings: Pendings,
}

pub struct Server {
    pub limits: Limits,
    pub shares: Shares,
    pub metrics: Metrics,
    core: Mutex<Core>,
    queued: Condvar,
}

/// Replies that were read together: whose each is, and where its frame is.
#[derive(Default)]
struct Round {
    found: Vec<(Pending, Range<usize>)>,
    clients: Vec<Arc<Client>>,
}

impl Server {
    pub fn new(limits: Limits, memory: usize) -> Server {
        let core = Core { state: State::Open, queue: Vec::new(), pendings: Pendings::from(1) };
        let shares = Shares::new(limits.in_flight as usize, memory);
        Server { limits, shares, metrics: Metrics::default(), core: Mutex::new(core), queued: Condvar::new() }
    }

    /// Queues requests of a client, whose frames are these. Returns false if the session has ended.
    pub fn submit(&self, client: &Arc<Client>, requests: &[Request], frames: &[u8]) -> bool {
        let sent = Instant::now();
        let mut core = lock(&self.core);
        if core.state != State::Open {
            return false;
        }
        let mut at = core.queue.len();
        core.queue.extend_from_slice(frames);
        for &Request { id, call, size, cost } in requests {
            let to = Receiver::Client { client: Arc::clone(client), id, cost };
            let ours = core.pendings.push(Pending { call: Some(call), sent, to });
            core.queue[at + 4..at + 12].copy_from_slice(&ours.to_be_bytes());
            at += size;
        }
        drop(core);
        self.queued.notify_one();
        self.metrics.took(requests, frames.len());
        true
    }

    /// Queues a request of the daemon, and changes the state. Returns false if the session has ended.
    fn send(&self, call: Call, pending: Pending, next: State) -> bool {
        let mut core = lock(&self.core);
        if core.state != State::Open {
            return false;
        }
        let id = core.pendings.push(pending);
        core.queue.extend_from_slice(&call.frame(id, &[], &[]).unwrap_or_default());
        core.state = next;
        drop(core);
        self.queued.notify_one();
        true
    }

    /// Queues the flush by which the session of a client ends. It is a checkpoint, which answers the durable front.
    pub fn flush_for(&self, client: &Arc<Client>, call: Option<Call>) -> bool {
        let to = Receiver::End(Arc::clone(client));
        call.into_iter().for_each(|it| self.metrics.took_call(it));
        self.send(Call::Checkpoint, Pending { call, sent: Instant::now(), to }, State::Open)
    }

    fn ask(&self, call: Call, next: State) -> Answers<Reply> {
        let (sender, answers) = channel();
        // If the session has ended, the sender is dropped, and so the receiver gets nothing.
        self.send(call, Pending { call: None, sent: Instant::now(), to: Receiver::Own(sender) }, next);
        answers
    }

    /// Asks for the figures of the store.
    pub fn stats(&self) -> Answers<Reply> {
        self.ask(Call::Stats, State::Open)
    }

    /// Closes the session. Returns the reply, or `None` if the session ended without it.
    pub fn close(&self) -> Option<Reply> {
        self.ask(Call::Close, State::Closing).recv().ok()
    }

    /// Writes what is queued until the session ends.
    pub fn write_requests(&self, mut input: impl Write) {
        let mut taken = Vec::new();
        while self.take_queue(&mut taken) {
            // If this fails, the server has ended, which the reader of the replies finds.
            if input.write_all(&taken).is_err() {
                return;
            }
            recycle(&mut taken);
        }
    }

    /// Waits for frames. Returns false if none will come.
    fn take_queue(&self, taken: &mut Vec<u8>) -> bool {
        let mut core = lock(&self.core);
        while core.queue.is_empty() && core.state == State::Open {
            core = self.queued.wait(core).unwrap_or_else(PoisonError::into_inner);
        }
        swap(&mut core.queue, taken);
        !taken.is_empty()
    }

    /// Reads replies and hands them out until the session ends. Returns why it did.
    pub fn read_replies(&self, mut output: Input<impl Read>) -> String {
        let mut round = Round::default();
        let why = loop {
            match self.deliver(output.bytes(), &mut round) {
                Ok(count) => output.consume(count),
                Err(why) => break why,
            }
            match output.fill() {
                Ok(true) => {}
                Ok(false) => break "its output ended".into(),
                Err(error) => break error.to_string(),
            }
        };
        let mut core = lock(&self.core);
        core.state = State::Ended;
        core.pendings.clear();
        drop(core);
        self.queued.notify_one();
        why
    }

    /// Hands out the replies at the head of these bytes. Returns how many bytes they were.
    fn deliver(&self, bytes: &[u8], round: &mut Round) -> Result<usize, String> {
        let outcome = self.find(bytes, &mut round.found);
        for (pending, place) in round.found.drain(..) {
            self.answer(pending, &bytes[place], &mut round.clients)?;
        }
        round.clients.drain(..).for_each(|client| client.wake());
        outcome
    }

    /// Finds whose the replies at the head of these bytes are.
    fn find(&self, bytes: &[u8], found: &mut Vec<(Pending, Range<usize>)>) -> Result<usize, String> {
        let mut core = lock(&self.core);
        let mut at = 0;
        let fault = |fault: Fault| format!("a frame is {}", fault.status.text());
        while let Some(size) = Fault::or_size(&bytes[at..], self.limits.largest).map_err(fault)? {
            let (id, code) = (number(&bytes[at + 4..at + 12]), bytes[at + 12]);
            let status = Status::of(code).ok_or_else(|| format!("unknown status {code}"))?;
            if status.is_end() {
                return Err(format!("it ended the session: {}", status.text()));
            }
            let pending = core.pendings.take(id).ok_or_else(|| format!("reply to no request: {id}"))?;
            found.push((pending, at..at + size));
            at += size;
        }
        Ok(at)
    }

    fn answer(&self, pending: Pending, frame: &[u8], clients: &mut Vec<Arc<Client>>) -> Result<(), String> {
        if let Some(call) = pending.call {
            self.metrics.answered(call, frame[12], pending.sent.elapsed());
        }
        match pending.to {
            Receiver::Client { client, id, cost } => {
                client.put_reply(id, cost, frame, &self.shares);
                if !clients.last().is_some_and(|last| Arc::ptr_eq(last, &client)) {
                    clients.push(client);
                }
            }
            Receiver::End(client) => client.put_flushed(Reply::decode(&frame[12..])?),
            // Who asked may have given up.
            Receiver::Own(sender) => drop(sender.send(Reply::decode(&frame[12..])?)),
        }
        Ok(())
    }
}

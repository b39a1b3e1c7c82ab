//! One client: what it may send, and the replies that wait for it.

use crate::frames::Reply;
use crate::requests::Request;
use crate::shares::{Load, Shares};
use crate::stream::Stream;
use crate::{lock, recycle};
use std::io::{self, ErrorKind, Write};
use std::mem::{swap, take};
use std::net::Shutdown;
use std::sync::{Condvar, Mutex, MutexGuard, PoisonError};
use std::time::{Duration, Instant};

/// Bytes that are written to a client at once.
const PIECE: usize = 64 << 10;

/// Whether requests are read.
#[derive(Clone, Copy, PartialEq, Eq)]
enum Intake {
    Open,
    /// The daemon ends: none are read any more, and those that were taken are answered.
    Stopped,
    /// The server has ended: no further reply comes.
    Cut,
}

/// Whether replies are written.
#[derive(Clone, Copy, PartialEq, Eq)]
enum Output {
    Open,
    /// No further one comes after those that wait.
    Finished,
    /// The client does not read any more: they are dropped.
    Gone,
}

struct State {
    intake: Intake,
    output: Output,
    load: Load,
    /// Requests that the server has not answered, with the last flush.
    unanswered: usize,
    flushed: Option<Reply>,
    waiting: Waiting,
}

/// Frames that wait to be written; how many of them are replies to requests, and the bytes of these.
#[derive(Default)]
struct Waiting {
    frames: Vec<u8>,
    requests: usize,
    bytes: usize,
}

pub struct Client {
    pub number: u64,
    pub stream: Stream,
    state: Mutex<State>,
    /// Who reads requests waits for this.
    changed: Condvar,
    /// Who writes replies waits for this.
    replied: Condvar,
}

impl Client {
    pub fn new(number: u64, stream: Stream) -> Client {
        let state = State {
            intake: Intake::Open,
            output: Output::Open,
            load: Load::default(),
            unanswered: 0,
            flushed: None,
            waiting: Waiting::default(),
        };
        Client { number, stream, state: Mutex::new(state), changed: Condvar::new(), replied: Condvar::new() }
    }

    fn wait<'a>(&self, on: &Condvar, state: MutexGuard<'a, State>) -> MutexGuard<'a, State> {
        on.wait(state).unwrap_or_else(PoisonError::into_inner)
    }

    // ---- requests

    /// Waits until there is room for the first of these requests. Returns how many are taken now, or 0 if none will be.
    pub fn admit(&self, requests: &[Request], shares: &Shares) -> usize {
        let mut state = lock(&self.state);
        while state.intake == Intake::Open && state.output == Output::Open {
            let count = requests.iter().take_while(|it| state.load.add(it.cost, shares)).count();
            if count > 0 {
                state.unanswered += count;
                return count;
            }
            state = self.wait(&self.changed, state);
        }
        0
    }

    /// Waits for the replies to all requests and to the last flush, which was queued. Returns what the flush got, or
    /// `None` if the server ended.
    pub fn wait_flushed(&self) -> Option<Reply> {
        let mut state = lock(&self.state);
        while state.intake != Intake::Cut && (state.unanswered > 0 || state.flushed.is_none()) {
            state = self.wait(&self.changed, state);
        }
        state.flushed.take()
    }

    /// Reads no more requests: the daemon ends.
    pub fn stop(&self) {
        self.end_intake(Intake::Stopped);
    }

    /// Ends the session: the server has ended.
    pub fn cut(&self) {
        self.end_intake(Intake::Cut);
    }

    fn end_intake(&self, how: Intake) {
        lock(&self.state).intake = how;
        self.stream.shut(Shutdown::Read);
        self.changed.notify_all();
    }

    /// Whether its requests are still read.
    pub fn is_open(&self) -> bool {
        lock(&self.state).intake == Intake::Open
    }

    // ---- replies

    /// Puts a reply of the server to the request with this id. `wake` has it written.
    pub fn put_reply(&self, id: u64, cost: usize, frame: &[u8], shares: &Shares) {
        let mut state = lock(&self.state);
        let State { load, waiting, output, unanswered, .. } = &mut *state;
        *unanswered -= 1;
        load.answer(cost, frame.len());
        if *output == Output::Gone {
            load.remove(1, frame.len(), shares);
            return;
        }
        waiting.requests += 1;
        waiting.bytes += frame.len();
        waiting.frames.extend_from_slice(&frame[..4]);
        waiting.frames.extend_from_slice(&id.to_be_bytes());
        waiting.frames.extend_from_slice(&frame[12..]);
    }

    /// Puts a reply of the daemon.
    pub fn put_own(&self, frame: &[u8]) {
        lock(&self.state).waiting.frames.extend_from_slice(frame);
        self.wake();
    }

    /// Puts what the last flush got.
    pub fn put_flushed(&self, reply: Reply) {
        lock(&self.state).flushed = Some(reply);
        self.changed.notify_all();
    }

    /// Has the replies written that were put, and the end of the session looked at.
    pub fn wake(&self) {
        self.replied.notify_one();
        self.changed.notify_one();
    }

    /// Has the rest written, and then the output closed.
    pub fn finish(&self) {
        let mut state = lock(&self.state);
        if state.output == Output::Open {
            state.output = Output::Finished;
        }
        drop(state);
        self.replied.notify_one();
    }

    /// Writes replies until the session ends. Returns how many bytes were written.
    ///
    /// # Errors
    ///
    /// `TimedOut` if the client takes nothing for the time `stall`; others if it cannot be reached. Then its replies
    /// are dropped from now on.
    pub fn write_replies(&self, stall: Duration, shares: &Shares, count: impl Fn(usize)) -> io::Result<()> {
        let mut taken = Waiting::default();
        while self.take_waiting(&mut taken) {
            if let Err(error) = write_within(&self.stream, &taken.frames, stall) {
                self.lose(&mut taken, shares);
                return Err(error);
            }
            count(taken.frames.len());
            lock(&self.state).load.remove(take(&mut taken.requests), take(&mut taken.bytes), shares);
            self.changed.notify_one();
            recycle(&mut taken.frames);
        }
        self.stream.shut(Shutdown::Write);
        Ok(())
    }

    /// Waits for replies. Returns false if none will come.
    fn take_waiting(&self, taken: &mut Waiting) -> bool {
        let mut state = lock(&self.state);
        while state.waiting.frames.is_empty() && state.output == Output::Open {
            state = self.wait(&self.replied, state);
        }
        swap(&mut state.waiting, taken);
        !taken.frames.is_empty()
    }

    /// Drops replies from now on, and wakes who reads requests.
    fn lose(&self, taken: &mut Waiting, shares: &Shares) {
        let mut state = lock(&self.state);
        state.output = Output::Gone;
        for waiting in [take(taken), take(&mut state.waiting)] {
            state.load.remove(waiting.requests, waiting.bytes, shares);
        }
        drop(state);
        self.stream.shut(Shutdown::Both);
        self.changed.notify_all();
    }
}

/// Writes bytes to a connection whose writes have this limit.
fn write_within(mut stream: &Stream, mut bytes: &[u8], stall: Duration) -> io::Result<()> {
    while !bytes.is_empty() {
        let piece = &bytes[..bytes.len().min(PIECE)];
        let begun = Instant::now();
        match stream.write(piece) {
            Ok(0) => return Err(ErrorKind::WriteZero.into()),
            // A part was taken before the limit, and nothing since.
            Ok(count) if count < piece.len() && begun.elapsed() >= stall => {
                return Err(ErrorKind::TimedOut.into());
            }
            Ok(count) => bytes = &bytes[count..],
            Err(error) if error.kind() == ErrorKind::Interrupted => {}
            Err(error) if error.kind() == ErrorKind::WouldBlock => return Err(ErrorKind::TimedOut.into()),
            Err(error) => return Err(error),
        }
    }
    Ok(())
}

//! Client of `bk_serve` (../protocol.md): one directory, served by a child process, or by a daemon
//! (`Bookie::connect`). Needs std alone.
//!
//! ```ignore
//! let bookie = Bookie::open("bk_serve", &["/var/bookie"])?;
//! let sent: Vec<Pending> = (0..1000).map(|e| bookie.send(Call::Add, &[1, e], b"x")).collect();
//! for pending in sent {
//!     pending.wait()?; // a refusal is `Err(Error::Refused { .. })`
//! }
//! bookie.flush()?; // everything accepted so far is durable
//! bookie.close()?;
//! ```
//!
//! Requests may be sent ahead, from any thread. `send` returns what a later `wait` gets the reply of;
//! every other method waits.
//!
//! `accepted` is worth memory: what is not flushed is lost if the server is killed. README.md, Signals,
//! says what ends it.

// A program that has this file as a module need not use all of it.
#![allow(dead_code)]

#[path = "frames.rs"]
mod frames;

pub use frames::{Call, Reply, Status};
use frames::{LARGEST, MAGIC, SHORTEST, VERSION, number};
use std::collections::HashMap;
use std::fmt;
use std::io::{self, BufReader, Read, Write};
#[cfg(unix)]
use std::net::Shutdown;
#[cfg(unix)]
use std::os::unix::net::UnixStream;
#[cfg(unix)]
use std::os::unix::process::{CommandExt, ExitStatusExt};
#[cfg(unix)]
use std::path::Path;
use std::process::{Child, Command, ExitStatus, Stdio};
use std::sync::mpsc::{Receiver, Sender, channel};
use std::sync::{Arc, Condvar, Mutex, MutexGuard, PoisonError};
use std::thread::{self, JoinHandle};
use std::time::{Duration, Instant};

/// How long `open` tries to open a directory that is in use.
pub const WAIT: Duration = Duration::from_secs(10);

/// The first pause between two tries, each twice the one before, and the longest.
const PAUSES: (Duration, Duration) = (Duration::from_millis(50), Duration::from_secs(1));

/// Evidence that an entry was accepted: the number of its mark in the trail, its key, and the SHA-256 of the entry.
#[derive(Clone, Copy, Debug, PartialEq, Eq)]
pub struct Receipt {
    pub number: u64,
    pub ledger: u64,
    pub entry: u64,
    pub digest: [u8; 32],
}

/// The store in numbers, as `stats` answers; protocol.md has what each counts.
#[derive(Clone, Copy, Debug, PartialEq, Eq)]
pub struct Figures {
    pub logs: u64,
    pub bytes: u64,
    pub live: u64,
    pub cached: u64,
    pub indexed: u64,
    pub durable: u64,
    pub next_log: u64,
    pub front: u64,
    pub leases: u64,
    pub failures: u64,
}

/// What a call of `compact` did.
#[derive(Clone, Copy, Debug, PartialEq, Eq)]
pub struct Compacted {
    /// Logs that were removed.
    pub logs: u64,
    /// Entries that were copied.
    pub entries: u64,
}

/// Why a call failed.
#[derive(Debug)]
pub enum Error {
    /// The server refused the request. Nothing changed, unless the status is `Disk`.
    Refused { status: Status, numbers: Vec<u64> },
    /// The session ended before the reply. Whether the request took effect is open.
    Ended(String),
    /// The request has the wrong number of numbers, or too many bytes. It was not sent.
    Invalid,
    /// The server could not be started, or not be waited for.
    Io(io::Error),
}

impl fmt::Display for Error {
    fn fmt(&self, f: &mut fmt::Formatter<'_>) -> fmt::Result {
        match self {
            Error::Refused { status, numbers } if numbers.is_empty() => f.write_str(status.text()),
            Error::Refused { status, numbers } => write!(f, "{} {numbers:?}", status.text()),
            Error::Ended(why) => write!(f, "session ended: {why}"),
            Error::Invalid => f.write_str("invalid request"),
            Error::Io(error) => error.fmt(f),
        }
    }
}

impl std::error::Error for Error {}

impl From<io::Error> for Error {
    fn from(error: io::Error) -> Error {
        Error::Io(error)
    }
}

type Outcome = Result<Reply, Error>;

/// A request that was sent. It is carried out even if this is dropped.
pub struct Pending(Receiver<Outcome>);

impl Pending {
    /// Waits for the reply.
    pub fn wait(self) -> Outcome {
        self.0.recv().unwrap_or_else(|_| Err(Error::Ended("the client was dropped".into())))
    }
}

/// Counts the entries that were accepted and that no answered flush covers, by the ids of requests.
#[derive(Default)]
struct Unflushed {
    /// Entries that were accepted: all, and those sent after the flush that was sent last.
    all: u64,
    after: u64,
    /// The greatest ids of an accepted add, of an answered flush, and of a flush that was sent.
    accepted: u64,
    covered: u64,
    flush: u64,
}

impl Unflushed {
    fn sent(&mut self, id: u64, call: Call) {
        if call.is_flush() {
            (self.flush, self.after) = (id, 0);
        }
    }

    fn answered(&mut self, id: u64, status: Status) {
        if status == Status::Accepted {
            self.accepted = self.accepted.max(id);
            self.all += u64::from(id > self.covered);
            self.after += u64::from(id > self.flush);
        } else if status.is_flushed() {
            self.covered = self.covered.max(id);
            if id == self.flush {
                self.all = self.after;
            }
        }
    }

    /// Returns how many, or more while a later flush has no answer.
    fn count(&self) -> u64 {
        if self.accepted > self.covered { self.all } else { 0 }
    }
}

/// What the senders and the reader share.
struct Session {
    waiting: HashMap<u64, Sender<Outcome>>,
    last_id: u64,
    unanswered: usize,
    in_flight: usize,
    unflushed: Unflushed,
    /// Why the session ended, if it did.
    end: Option<String>,
    /// Whether `close` or `kill` was called.
    is_closed: bool,
}

struct Shared {
    /// Nobody holds it while a write blocks: so replies are always read.
    session: Mutex<Session>,
    answered: Condvar,
    /// Held while a request gets its id and is written.
    input: Mutex<Option<Box<dyn Write + Send>>>,
}

impl Shared {
    fn lock(&self) -> MutexGuard<'_, Session> {
        self.session.lock().unwrap_or_else(PoisonError::into_inner)
    }
}

/// Who carries out the requests.
enum Server {
    Child(Child),
    #[cfg(unix)]
    Daemon(UnixStream),
}

impl Server {
    /// Ends the session at once.
    fn kill(&mut self) -> io::Result<()> {
        match self {
            Server::Child(child) => child.kill(),
            #[cfg(unix)]
            Server::Daemon(connection) => connection.shutdown(Shutdown::Both).or_else(is_gone),
        }
    }

    /// Waits for the server, which gets no more requests. A daemon lives on: its status is 0.
    fn wait(&mut self) -> io::Result<ExitStatus> {
        match self {
            Server::Child(child) => child.wait(),
            #[cfg(unix)]
            Server::Daemon(connection) => {
                connection.shutdown(Shutdown::Write).or_else(is_gone)?;
                Ok(ExitStatus::from_raw(0))
            }
        }
    }
}

/// Nothing has to be shut of a connection that has ended.
fn is_gone(error: io::Error) -> io::Result<()> {
    if error.kind() == io::ErrorKind::NotConnected { Ok(()) } else { Err(error) }
}

/// A session. If it is dropped without `close`, the server still ends in order, and nobody learns if it failed.
pub struct Bookie {
    shared: Arc<Shared>,
    server: Mutex<Server>,
    reader: Mutex<Option<JoinHandle<()>>>,
    version: u64,
    page: u64,
}

impl Bookie {
    /// Starts the server and opens its directory. While another process has the directory, as a predecessor
    /// that still flushes, it is opened again for `WAIT`; then the refusal is `Status::InUse`.
    ///
    /// The server gets a process group of its own, so that a signal to the group of this process, as ^C
    /// sends, does not end it before this client closes.
    pub fn open(program: &str, arguments: &[&str]) -> Result<Bookie, Error> {
        Bookie::open_within(program, arguments, WAIT)
    }

    /// The same with another time, which may be zero.
    pub fn open_within(program: &str, arguments: &[&str], wait: Duration) -> Result<Bookie, Error> {
        again_within(wait, || Bookie::open_once(program, arguments))
    }

    /// Opens a session with a daemon (../../tools/daemon) by the path of its socket. While the daemon has as many clients
    /// as it takes, it is tried again for `WAIT`; then the refusal is `Status::InUse`.
    ///
    /// The calls are the same. `close` flushes and ends this session, not the server, and so does `kill`, which does not
    /// wait. Both return the status 0.
    #[cfg(unix)]
    pub fn connect(path: impl AsRef<Path>) -> Result<Bookie, Error> {
        again_within(WAIT, || {
            let connection = UnixStream::connect(&path)?;
            let (input, output) = (connection.try_clone()?, connection.try_clone()?);
            Bookie::greet(Box::new(input), output, Server::Daemon(connection))
        })
    }

    fn open_once(program: &str, arguments: &[&str]) -> Result<Bookie, Error> {
        let mut command = Command::new(program);
        command.args(arguments).stdin(Stdio::piped()).stdout(Stdio::piped());
        #[cfg(unix)]
        command.process_group(0);
        let mut child = command.spawn()?;
        let input = child.stdin.take().ok_or(Error::Invalid)?;
        let output = child.stdout.take().ok_or(Error::Invalid)?;
        Bookie::greet(Box::new(input), output, Server::Child(child))
    }

    /// Begins the session with what was started.
    fn greet(
        input: Box<dyn Write + Send>,
        output: impl Read + Send + 'static,
        server: Server,
    ) -> Result<Bookie, Error> {
        let session = Session {
            waiting: HashMap::new(),
            last_id: 0,
            unanswered: 0,
            in_flight: 1,
            unflushed: Unflushed::default(),
            end: None,
            is_closed: false,
        };
        let input = Mutex::new(Some(input));
        let shared = Arc::new(Shared { session: Mutex::new(session), answered: Condvar::new(), input });
        let theirs = Arc::clone(&shared);
        let reader = thread::spawn(move || read_all(&theirs, BufReader::with_capacity(1 << 16, output)));
        let (server, reader) = (Mutex::new(server), Mutex::new(Some(reader)));
        let mut bookie = Bookie { shared, server, reader, version: 0, page: 0 };
        let welcome = bookie.call(Call::Hello, &[MAGIC, VERSION, VERSION], &[])?;
        bookie.shared.lock().in_flight = welcome.numbers[2].min(1 << 20) as usize;
        bookie.version = welcome.numbers[0];
        bookie.page = welcome.numbers[3];
        Ok(bookie)
    }

    /// The process id of the server, or `None` if it is a daemon's.
    pub fn id(&self) -> Option<u32> {
        match &*self.server() {
            Server::Child(child) => Some(child.id()),
            #[cfg(unix)]
            Server::Daemon(_) => None,
        }
    }

    fn server(&self) -> MutexGuard<'_, Server> {
        self.server.lock().unwrap_or_else(PoisonError::into_inner)
    }

    pub fn version(&self) -> u64 {
        self.version
    }

    /// Sends a request with these numbers and bytes. Blocks while the server has as many unanswered as it takes.
    pub fn send(&self, call: Call, numbers: &[u64], bytes: &[u8]) -> Pending {
        let (sender, receiver) = channel();
        if let Err(error) = self.enqueue(call, numbers, bytes, &sender) {
            let _ = sender.send(Err(error));
        }
        Pending(receiver)
    }

    fn enqueue(
        &self,
        call: Call,
        numbers: &[u64],
        bytes: &[u8],
        sender: &Sender<Outcome>,
    ) -> Result<(), Error> {
        self.wait_for_room();
        let mut input = self.shared.input.lock().unwrap_or_else(PoisonError::into_inner);
        let frame = self.register(call, numbers, bytes, sender)?;
        if let Some(input) = &mut *input {
            // If this fails, the reader meets the end of the replies and fails what is waiting.
            let _ = input.write_all(&frame);
        }
        Ok(())
    }

    fn wait_for_room(&self) {
        let mut session = self.shared.lock();
        while session.end.is_none() && session.unanswered >= session.in_flight {
            session = self.shared.answered.wait(session).unwrap_or_else(PoisonError::into_inner);
        }
        session.unanswered += 1;
    }

    /// Returns the frame of a request that is waited for from now on.
    fn register(
        &self,
        call: Call,
        numbers: &[u64],
        bytes: &[u8],
        sender: &Sender<Outcome>,
    ) -> Result<Vec<u8>, Error> {
        let mut session = self.shared.lock();
        let id = session.last_id + 1;
        let frame = match &session.end {
            Some(why) => Err(Error::Ended(why.clone())),
            None => call.frame(id, numbers, bytes).ok_or(Error::Invalid),
        };
        if frame.is_ok() {
            session.last_id = id;
            session.unflushed.sent(id, call);
            session.waiting.insert(id, sender.clone());
        } else {
            session.unanswered -= 1;
            self.shared.answered.notify_one();
        }
        frame
    }

    /// Sends a request and waits for its reply.
    pub fn call(&self, call: Call, numbers: &[u64], bytes: &[u8]) -> Outcome {
        self.send(call, numbers, bytes).wait()
    }

    // ---- entries

    /// Adds an entry. Returns its receipt, or `None` if the store already has an entry of this key.
    pub fn add(&self, ledger: u64, entry: u64, content: &[u8]) -> Result<Option<Receipt>, Error> {
        Ok(receipt(ledger, entry, &self.call(Call::Add, &[ledger, entry], content)?))
    }

    /// Adds an entry as part of a recovery: a fence does not refuse it.
    pub fn add_recovery(&self, ledger: u64, entry: u64, content: &[u8]) -> Result<Option<Receipt>, Error> {
        Ok(receipt(ledger, entry, &self.call(Call::AddRecovery, &[ledger, entry], content)?))
    }

    /// Returns the content of an entry.
    pub fn read(&self, ledger: u64, entry: u64) -> Result<Option<Vec<u8>>, Error> {
        Ok(bytes_if(self.call(Call::Read, &[ledger, entry], &[])?, Status::Entry))
    }

    /// Returns the greatest entry id of a ledger and the content of that entry.
    pub fn read_last(&self, ledger: u64) -> Result<Option<(u64, Vec<u8>)>, Error> {
        let reply = self.call(Call::ReadLast, &[ledger], &[])?;
        Ok((reply.status == Status::Entry).then(|| (reply.numbers[1], reply.bytes)))
    }

    /// Returns the content of the entry of a receipt.
    pub fn read_back(&self, receipt: &Receipt) -> Result<Option<Vec<u8>>, Error> {
        let numbers = [receipt.number, receipt.ledger, receipt.entry];
        Ok(bytes_if(self.call(Call::ReadBack, &numbers, &receipt.digest)?, Status::Entry))
    }

    /// Returns the greatest entry id of a ledger.
    pub fn last_entry(&self, ledger: u64) -> Result<Option<u64>, Error> {
        let reply = self.call(Call::LastEntry, &[ledger], &[])?;
        Ok((reply.status == Status::Last).then(|| reply.numbers[0]))
    }

    pub fn holds(&self, ledger: u64, entry: u64) -> Result<bool, Error> {
        Ok(self.call(Call::Holds, &[ledger, entry], &[])?.status == Status::Yes)
    }

    /// Returns the entry ids of a ledger, rising.
    pub fn entries(&self, ledger: u64) -> Result<Vec<u64>, Error> {
        self.pages(|from| self.call(Call::Entries, &[ledger, from, self.page], &[]))
    }

    /// Returns the ids of the ledgers that have entries, rising.
    pub fn ledgers(&self) -> Result<Vec<u64>, Error> {
        self.pages(|from| self.call(Call::Ledgers, &[from, self.page], &[]))
    }

    fn pages(&self, page: impl Fn(u64) -> Outcome) -> Result<Vec<u64>, Error> {
        let mut ids = Vec::new();
        loop {
            let bytes = page(ids.last().map_or(0, |last| last + 1))?.bytes;
            if bytes.is_empty() {
                return Ok(ids);
            }
            ids.extend(bytes.chunks_exact(8).map(number));
        }
    }

    // ---- ledgers

    /// Fences a ledger. Returns whether it was not fenced before.
    pub fn fence(&self, ledger: u64) -> Result<bool, Error> {
        Ok(self.call(Call::Fence, &[ledger], &[])?.status == Status::FencedNow)
    }

    pub fn is_fenced(&self, ledger: u64) -> Result<bool, Error> {
        Ok(self.call(Call::IsFenced, &[ledger], &[])?.status == Status::Yes)
    }

    /// Deletes a ledger. Returns how many entries it had.
    pub fn delete(&self, ledger: u64) -> Result<u64, Error> {
        Ok(self.call(Call::Delete, &[ledger], &[])?.numbers[0])
    }

    pub fn set_master_key(&self, ledger: u64, key: &[u8]) -> Result<(), Error> {
        self.call(Call::SetMasterKey, &[ledger], key).map(drop)
    }

    pub fn master_key(&self, ledger: u64) -> Result<Option<Vec<u8>>, Error> {
        Ok(bytes_if(self.call(Call::MasterKey, &[ledger], &[])?, Status::Attribute))
    }

    pub fn set_explicit_lac(&self, ledger: u64, lac: &[u8]) -> Result<(), Error> {
        self.call(Call::SetExplicitLac, &[ledger], lac).map(drop)
    }

    pub fn explicit_lac(&self, ledger: u64) -> Result<Option<Vec<u8>>, Error> {
        Ok(bytes_if(self.call(Call::ExplicitLac, &[ledger], &[])?, Status::Attribute))
    }

    // ---- store

    /// Makes everything that was accepted durable. Returns how many entries this published.
    pub fn flush(&self) -> Result<u64, Error> {
        Ok(self.call(Call::Flush, &[], &[])?.numbers[0])
    }

    /// Flushes. Returns the number of marks of the trail that are durable.
    pub fn checkpoint(&self) -> Result<u64, Error> {
        Ok(self.call(Call::Checkpoint, &[], &[])?.numbers[0])
    }

    /// Compacts the logs whose live share is below the server's thresholds. `minor` and `major` are these in
    /// thousandths, 200 and 800 unless the server has others. 0 omits a kind, and any other number is refused by
    /// `OutOfRange`.
    pub fn compact(&self, minor: u64, major: u64) -> Result<Compacted, Error> {
        let numbers = self.call(Call::Compact, &[minor, major], &[])?.numbers;
        Ok(Compacted { logs: numbers[0], entries: numbers[1] })
    }

    /// Returns the store in numbers.
    pub fn stats(&self) -> Result<Figures, Error> {
        let numbers = self.call(Call::Stats, &[], &[])?.numbers;
        let [logs, bytes, live, cached, indexed, durable, next_log, front, leases, failures] = numbers[..]
        else {
            return Err(Error::Invalid); // does not occur: the reply has ten numbers
        };
        Ok(Figures { logs, bytes, live, cached, indexed, durable, next_log, front, leases, failures })
    }

    /// Flushes and seals the open log. Returns its id, or `None` if no log is open.
    pub fn seal(&self) -> Result<Option<u64>, Error> {
        let reply = self.call(Call::Seal, &[], &[])?;
        Ok((reply.status == Status::Sealed).then(|| reply.numbers[0]))
    }

    // ---- end

    /// How many entries were accepted that may be in memory alone: no flush that was sent later is answered.
    pub fn unflushed(&self) -> u64 {
        self.shared.lock().unflushed.count()
    }

    /// Flushes and ends the session. If it is `Ok`, everything that was accepted is durable.
    ///
    /// Returns the server's exit status. If the flush fails, the session ends too, and the error is why. If the
    /// session had ended before, or ends meanwhile, it is `Ended`, which says how many entries may be lost. After
    /// `close` or `kill` a call does nothing but return the status.
    pub fn close(&self) -> Result<ExitStatus, Error> {
        if std::mem::replace(&mut self.shared.lock().is_closed, true) {
            return self.end();
        }
        let outcome = self.call(Call::Close, &[], &[]);
        let status = self.end()?;
        match outcome {
            Ok(_) => Ok(status),
            Err(Error::Ended(why)) => {
                Err(Error::Ended(format!("{why}; accepted and not flushed: {}", self.unflushed())))
            }
            Err(error) => Err(error),
        }
    }

    /// Ends the server at once, as a crash does. What was accepted and not flushed is lost.
    pub fn kill(&self) -> Result<ExitStatus, Error> {
        self.shared.lock().is_closed = true;
        self.server().kill()?;
        self.end()
    }

    fn end(&self) -> Result<ExitStatus, Error> {
        *self.shared.input.lock().unwrap_or_else(PoisonError::into_inner) = None;
        let status = self.server().wait()?;
        if let Some(reader) = self.reader.lock().unwrap_or_else(PoisonError::into_inner).take() {
            let _ = reader.join();
        }
        Ok(status)
    }
}

impl Drop for Bookie {
    fn drop(&mut self) {
        let _ = self.end();
    }
}

/// Opens a session again while it is refused by `InUse`, for a time. The pauses grow.
fn again_within(wait: Duration, open: impl Fn() -> Result<Bookie, Error>) -> Result<Bookie, Error> {
    let (start, mut pause) = (Instant::now(), PAUSES.0);
    loop {
        match open() {
            Err(Error::Refused { status: Status::InUse, .. }) if start.elapsed() + pause <= wait => {}
            outcome => return outcome,
        }
        thread::sleep(pause);
        pause = PAUSES.1.min(2 * pause);
    }
}

/// Returns the receipt of a reply to an add, or `None` if the entry was held.
pub fn receipt(ledger: u64, entry: u64, reply: &Reply) -> Option<Receipt> {
    let digest = reply.bytes.as_slice().try_into().ok()?;
    Some(Receipt { number: *reply.numbers.first()?, ledger, entry, digest })
}

fn bytes_if(reply: Reply, status: Status) -> Option<Vec<u8>> {
    (reply.status == status).then_some(reply.bytes)
}

/// Returns the id and the other bytes of the next frame, or `None` at the end.
fn read_frame(input: &mut impl Read) -> io::Result<Option<(u64, Vec<u8>)>> {
    let mut head = [0; 4];
    if input.read(&mut head[..1])? == 0 {
        return Ok(None);
    }
    input.read_exact(&mut head[1..])?;
    let length = u32::from_be_bytes(head) as usize;
    if !(SHORTEST..=LARGEST).contains(&length) {
        return Err(io::Error::other(format!("frame of {length} bytes")));
    }
    let mut body = vec![0; length];
    input.read_exact(&mut body)?;
    let rest = body.split_off(8);
    Ok(Some((number(&body), rest)))
}

/// Reads replies to the end of the session, then fails what is waiting.
fn read_all(shared: &Shared, mut input: impl Read) {
    let why = loop {
        let (id, body) = match read_frame(&mut input) {
            Ok(Some(frame)) => frame,
            Ok(None) => break "the server ended".to_string(),
            Err(error) => break error.to_string(),
        };
        let reply = match Reply::decode(&body) {
            Ok(reply) => reply,
            Err(why) => break why,
        };
        if reply.status.is_end() {
            break format!("{} {:?}", reply.status.text(), reply.numbers);
        }
        let mut session = shared.lock();
        let Some(sender) = session.waiting.remove(&id) else {
            break format!("reply to no request: {id}");
        };
        session.unanswered -= 1;
        session.unflushed.answered(id, reply.status);
        drop(session);
        shared.answered.notify_one();
        let outcome = if reply.status.is_refusal() {
            Err(Error::Refused { status: reply.status, numbers: reply.numbers })
        } else {
            Ok(reply)
        };
        let _ = sender.send(outcome); // who does not wait for it has dropped the receiver
    };
    let left: Vec<Sender<Outcome>> = {
        let mut session = shared.lock();
        session.end = Some(why.clone());
        session.waiting.drain().map(|(_, sender)| sender).collect()
    };
    shared.answered.notify_all();
    for sender in left {
        let _ = sender.send(Err(Error::Ended(why.clone())));
    }
}

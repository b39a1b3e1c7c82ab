//! The session of one client, from its hello to its end.

use crate::Daemon;
use crate::client::Client;
use crate::error::note;
use crate::frames::{Call, Reply, Status};
use crate::input::Input;
use crate::metrics::Ended;
use crate::requests::{Fault, Next, Request, greet, split};
use crate::stream::Stream;
use std::io::{self, ErrorKind, Read};
use std::sync::Arc;
use std::thread;
use std::time::{Duration, Instant};

/// How long the input of a client is read and dropped after its end: a connection that is closed before may lose the
/// last replies.
const LINGER: Duration = Duration::from_secs(1);

/// Why no more requests of a client are read.
enum End {
    /// It said no hello that is answered by `welcome`. This frame is the answer, if there is one.
    Unwelcome(Option<Vec<u8>>),
    Close {
        id: u64,
    },
    /// Its input ended after a whole frame.
    Over,
    Fault(Fault),
    /// Its input could not be read.
    Lost,
    /// The daemon or the server ends, or the client does not read.
    Stopped,
}

impl From<io::Error> for End {
    fn from(_: io::Error) -> End {
        End::Lost
    }
}

impl End {
    fn name(&self) -> Ended {
        match self {
            End::Unwelcome(_) => Ended::Unwelcome,
            End::Close { .. } => Ended::Closed,
            End::Over => Ended::Over,
            End::Fault(_) => Ended::Fault,
            End::Lost => Ended::Lost,
            End::Stopped => Ended::Stopped,
        }
    }
}

/// Serves a client until its session ends. Returns after its last reply was written.
pub fn run(daemon: &Arc<Daemon>, client: &Arc<Client>) -> io::Result<()> {
    let (theirs, his) = (Arc::clone(daemon), Arc::clone(client));
    let writer = thread::Builder::new().spawn(move || {
        let Daemon { server, stall, .. } = &*theirs;
        his.write_replies(*stall, &server.shares, |bytes| server.metrics.sent(bytes))
    })?;
    let end = read_requests(daemon, client).unwrap_or_else(|end| end);
    if let Some(frame) = last_frame(daemon, client, &end) {
        client.put_own(&frame);
    }
    client.finish();
    let how = match writer.join() {
        Ok(Err(error)) if error.kind() == ErrorKind::TimedOut => Ended::Stalled,
        Ok(Err(_)) => Ended::Lost,
        _ => end.name(),
    };
    daemon.server.metrics.ended(how);
    tell(client, &end, how);
    linger(&client.stream);
    Ok(())
}

/// Reads requests and hands them to the server. Returns or fails with why the session ends.
fn read_requests(daemon: &Daemon, client: &Arc<Client>) -> Result<End, End> {
    let limits = &daemon.server.limits;
    let mut input = Input::new(&client.stream);
    let mut last = greeted(daemon, client, &mut input)?;
    let mut batch = Vec::new();
    loop {
        let next = split(input.bytes(), &mut last, limits, &mut batch);
        take(daemon, client, &mut input, &batch)?;
        batch.clear();
        match next {
            Next::Close { id } => return Ok(End::Close { id }),
            Next::Fault(fault) => return Ok(End::Fault(fault)),
            Next::More => {}
        }
        if !input.fill()? {
            return Ok(match Fault::of_end(input.bytes()) {
                _ if !client.is_open() => End::Stopped,
                Some(fault) => End::Fault(fault),
                None => End::Over,
            });
        }
    }
}

/// Answers the hello. Returns its id.
fn greeted(daemon: &Daemon, client: &Client, input: &mut Input<&Stream>) -> Result<u64, End> {
    let limits = &daemon.server.limits;
    let unwelcome = |fault: Fault| End::Unwelcome(Some(fault.frame()));
    client.stream.limit_reads(Some(daemon.stall))?;
    let size = input.fill_frame(limits.largest)?.map_err(unwelcome)?;
    let Some(size) = size else {
        return Err(End::Unwelcome(Fault::of_end(input.bytes()).map(|fault| fault.frame())));
    };
    let id = greet(&input.bytes()[..size], limits.version).map_err(unwelcome)?;
    input.consume(size);
    if daemon.clients.are_too_many() {
        return Err(End::Unwelcome(Status::InUse.frame(id, &[], &[])));
    }
    client.stream.limit_reads(None)?;
    client.put_own(&limits.welcome(id).unwrap_or_default());
    Ok(id)
}

/// Hands requests to the server, whose frames are at the head of the input, as there is room for them.
fn take(
    daemon: &Daemon,
    client: &Arc<Client>,
    input: &mut Input<&Stream>,
    batch: &[Request],
) -> Result<(), End> {
    let mut left = batch;
    while !left.is_empty() {
        let (now, later) = left.split_at(client.admit(left, &daemon.server.shares));
        let size = now.iter().map(|it| it.size).sum();
        if now.is_empty() || !daemon.server.submit(client, now, &input.bytes()[..size]) {
            return Err(End::Stopped);
        }
        input.consume(size);
        left = later;
    }
    Ok(())
}

/// Flushes, and waits for all replies. Returns the frame that ends the session, if it has one.
fn last_frame(daemon: &Daemon, client: &Arc<Client>, end: &End) -> Option<Vec<u8>> {
    if let End::Unwelcome(frame) = end {
        return frame.clone();
    }
    let call = matches!(end, End::Close { .. }).then_some(Call::Close);
    if !daemon.server.flush_for(client, call) {
        return None;
    }
    let flushed = client.wait_flushed()?;
    if call.is_none() && !flushed.status.is_flushed() {
        note(format_args!("client {}: the last flush failed: {}", client.number, flushed.status.text()));
    }
    match end {
        End::Close { id } => closed(*id, &flushed),
        End::Fault(fault) => Some(fault.frame()),
        _ => None,
    }
}

/// Returns the answer to a close whose flush was answered so.
fn closed(id: u64, flushed: &Reply) -> Option<Vec<u8>> {
    let status = if flushed.status == Status::Durable { Status::Closed } else { flushed.status };
    status.frame(id, &flushed.numbers, &flushed.bytes)
}

fn tell(client: &Client, end: &End, how: Ended) {
    match (how, end) {
        (Ended::Stalled, _) => {
            note(format_args!("client {} was ended: it did not read its replies", client.number))
        }
        (_, End::Fault(fault)) => {
            note(format_args!("client {} was ended: {}", client.number, fault.status.text()))
        }
        _ => {}
    }
}

/// Reads and drops what a client still sends, until it closes its side.
fn linger(mut stream: &Stream) {
    let (begun, mut piece) = (Instant::now(), [0; 4096]);
    if stream.limit_reads(Some(LINGER)).is_ok() {
        while begun.elapsed() < LINGER && matches!(stream.read(&mut piece), Ok(1..)) {}
    }
}

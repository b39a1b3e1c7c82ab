//! `bookie daemon`: one server of a directory for several clients at once (README.md). Not proved.
//!
//! Each client has a thread that reads its requests and one that writes its replies. The requests of all go to one
//! queue, which a thread writes to the server; another reads the server's replies and hands them out. No thread
//! waits for a client but that client's own. The main thread waits for the end.

mod child;
mod client;
mod clients;
mod error;
mod exporter;
#[path = "../../bindings/rust/frames.rs"]
mod frames;
mod input;
mod metrics;
mod options;
mod pending;
mod requests;
mod server;
mod session;
mod shares;
mod signals;
mod stream;

use child::{Welcomed, start};
use client::Client;
use clients::Clients;
use error::{Error, Place, note};
use exporter::Exporter;
use frames::Status;
use options::{Asked, HELP, Options, Target};
use server::{Limits, Server};
use signals::Ending;
use std::process::ExitCode;
use std::sync::mpsc::{Receiver, Sender, channel};
use std::sync::{Arc, Mutex, MutexGuard, PoisonError};
use std::thread;
use std::time::Duration;
use stream::{Listener, SocketFile, Stream};

/// Greatest capacity of a buffer that is kept.
const KEPT: usize = 1 << 20;
/// Time after which a failed accept is tried again.
const PAUSE: Duration = Duration::from_secs(1);

/// What all threads share.
pub struct Daemon {
    server: Server,
    clients: Clients,
    stall: Duration,
}

/// What ends the daemon.
enum Event {
    Signal(&'static str),
    /// The session of the server has ended: why.
    ServerEnded(String),
}

/// Locks. A panic ends the process, so that no lock is ever poisoned.
pub fn lock<T>(mutex: &Mutex<T>) -> MutexGuard<'_, T> {
    mutex.lock().unwrap_or_else(PoisonError::into_inner)
}

/// Empties a buffer, which keeps its memory if it is small.
pub fn recycle(buffer: &mut Vec<u8>) {
    buffer.clear();
    buffer.shrink_to(KEPT);
}

fn main() -> ExitCode {
    let outcome = match Options::parse(std::env::args().skip(1)) {
        Ok(Asked::Help) => {
            print!("{HELP}");
            return ExitCode::SUCCESS;
        }
        Ok(Asked::Serve(options)) => serve(&options),
        Err(error) => Err(error),
    };
    match outcome {
        Ok(true) => ExitCode::SUCCESS,
        Ok(false) => ExitCode::FAILURE,
        Err(error) => {
            note(&error);
            ExitCode::from(error.status())
        }
    }
}

/// Runs the daemon. Returns whether everything was durable at its end.
fn serve(options: &Options) -> Result<bool, Error> {
    let ending = Ending::block().at("signals")?;
    if let Some(path) = &options.socket {
        SocketFile::clear(path)?;
    }
    let exporter = match &options.metrics {
        Some(Target::Port(port)) => Some(Exporter::at_port(*port)?),
        Some(Target::File(path)) => Some(Exporter::File(path.clone())),
        None => None,
    };
    let tcp = options.listen.map(Listener::tcp).transpose()?;
    let Welcomed { mut child, input, output, welcome } = start(&options.command(), options.wait)?;
    let limits = Limits::of(&welcome).ok_or_else(|| Error::NoWelcome("no limits".into()))?;
    let server = Server::new(limits, options.memory);
    let daemon = Arc::new(Daemon { server, clients: Clients::new(options.clients), stall: options.stall });
    let (unix, file) = match &options.socket {
        Some(path) => Some(SocketFile::bind(path, options.mode)?).unzip(),
        None => (None, None),
    };
    let (events, ended) = channel();
    spawn(&daemon, move |daemon| daemon.server.write_requests(input))?;
    watch(&daemon, events, ending, move |daemon| daemon.server.read_replies(output))?;
    for listener in unix.into_iter().chain(tcp) {
        spawn(&daemon, move |daemon| accept_all(daemon, &listener))?;
    }
    if let Some(exporter) = exporter {
        spawn(&daemon, move |daemon| exporter.run(daemon))?;
    }
    note(format_args!("serving {}", options.directory));
    let is_closed = run_to_end(&daemon, &ended, file);
    Ok(child.wait().at("the server")?.success() && is_closed)
}

fn spawn(daemon: &Arc<Daemon>, run: impl FnOnce(&Arc<Daemon>) + Send + 'static) -> Result<(), Error> {
    let daemon = Arc::clone(daemon);
    thread::Builder::new().spawn(move || run(&daemon)).at("a thread").map(drop)
}

/// Starts the threads that send events: that which reads replies, until the server ends, and that of the signals.
fn watch(
    daemon: &Arc<Daemon>,
    events: Sender<Event>,
    ending: Ending,
    read: impl FnOnce(&Daemon) -> String + Send + 'static,
) -> Result<(), Error> {
    let signalled = events.clone();
    spawn(daemon, move |daemon| {
        let why = read(daemon);
        daemon.clients.end(Client::cut);
        // The main thread receives as long as the process lives.
        let _ = events.send(Event::ServerEnded(why));
    })?;
    spawn(daemon, move |_| while signalled.send(Event::Signal(ending.wait())).is_ok() {})
}

/// Waits for the first event, and ends the session. The file of the socket is removed first. Returns whether the
/// server has closed the session in order.
fn run_to_end(daemon: &Daemon, events: &Receiver<Event>, file: Option<SocketFile>) -> bool {
    let event = events.recv();
    drop(file);
    let closed = match event {
        Ok(Event::Signal(name)) => {
            note(format_args!("{name}: ends"));
            daemon.clients.end(Client::stop);
            daemon.clients.wait();
            daemon.server.close()
        }
        _ => None,
    };
    // After `closed` the server ends as it should; otherwise why it ended is worth a line.
    match closed {
        Some(reply) if reply.status == Status::Closed => return true,
        Some(reply) => note(format_args!("the last flush failed: {}", reply.status.text())),
        None => tell_end(event.ok(), events),
    }
    daemon.clients.wait();
    false
}

/// Reports why the server ended.
fn tell_end(first: Option<Event>, later: &Receiver<Event>) {
    let why = first.into_iter().chain(later.iter()).find_map(|event| match event {
        Event::ServerEnded(why) => Some(why),
        Event::Signal(_) => None,
    });
    note(format_args!("the server ended: {}", why.unwrap_or_default()));
}

fn accept_all(daemon: &Arc<Daemon>, listener: &Listener) {
    loop {
        match listener.accept() {
            Ok(stream) => add_client(daemon, stream).unwrap_or_else(note),
            Err(error) => {
                note(format_args!("no client can be taken now: {error}"));
                thread::sleep(PAUSE);
            }
        }
    }
}

/// Starts the session of a client. Once the daemon ends, the connection is dropped.
fn add_client(daemon: &Arc<Daemon>, stream: Stream) -> Result<(), Error> {
    stream.limit_writes(daemon.stall).at("a client")?;
    let Some(client) = daemon.clients.add(stream) else { return Ok(()) };
    let theirs = Arc::clone(&client);
    spawn(daemon, move |daemon| run_client(daemon, &theirs)).inspect_err(|_| daemon.clients.remove(&client))
}

fn run_client(daemon: &Arc<Daemon>, client: &Arc<Client>) {
    if let Err(error) = session::run(daemon, client) {
        note(format_args!("client {}: {error}", client.number));
    }
    daemon.clients.remove(client);
}

//! The metrics in the text format of Prometheus: over HTTP on the loopback, or in a file.

use crate::Daemon;
use crate::error::{Error, Place, note};
use crate::frames::Reply;
use crate::metrics::{BOUNDS, Metrics};
use std::fmt::Write as _;
use std::fs;
use std::io::{self, Read, Write};
use std::net::{Ipv4Addr, TcpListener, TcpStream};
use std::path::{Path, PathBuf};
use std::thread;
use std::time::Duration;

/// How often the file is written.
const PERIOD: Duration = Duration::from_secs(10);
/// How long the figures of the store are waited for: a server that flushes or compacts does not answer meanwhile.
const PATIENCE: Duration = Duration::from_secs(5);
/// How long a reader of the metrics may take for its request, and for the answer.
const LIMIT: Duration = Duration::from_secs(5);
/// Greatest number of bytes of the head of a request.
const MOST: usize = 8 << 10;
/// The figures of the reply to `stats`, in its order: name and help.
const FIGURES: [(&str, &str); 10] = [
    ("logs", "Entry logs."),
    ("bytes", "Bytes of the records in all logs."),
    ("live", "Bytes of the records of ledgers that are not deleted."),
    ("cached", "Payload bytes of the write caches."),
    ("indexed", "Entries of the index."),
    ("durable", "Marks of the trail that are durable."),
    ("next_log", "Id of the next log."),
    ("front", "Length of the trail, in marks."),
    ("leases", "Leases that are out."),
    ("failures", "Failed calls of the device on logs since the opening."),
];

/// Where the metrics go.
pub enum Exporter {
    Port(TcpListener),
    File(PathBuf),
}

impl Exporter {
    pub fn at_port(port: u16) -> Result<Exporter, Error> {
        let address = (Ipv4Addr::LOCALHOST, port);
        Ok(Exporter::Port(TcpListener::bind(address).at(format_args!("{}:{port}", address.0))?))
    }

    /// Exports the metrics as long as the process lives.
    pub fn run(&self, daemon: &Daemon) {
        let mut was_written = true;
        loop {
            match self {
                // A reader that goes away, or is slow, gets nothing; the next one is served.
                Exporter::Port(listener) => {
                    drop(listener.accept().and_then(|(stream, _)| answer(stream, daemon)))
                }
                Exporter::File(path) => {
                    let outcome = replace(path, &text(daemon));
                    if let Err(error) = outcome.as_ref().map_err(|error| was_written.then_some(error)) {
                        error.iter().for_each(|error| note(format_args!("{}: {error}", path.display())));
                    }
                    was_written = outcome.is_ok();
                    thread::sleep(PERIOD);
                }
            }
        }
    }
}

fn replace(path: &Path, text: &str) -> io::Result<()> {
    let mut made = path.as_os_str().to_owned();
    made.push(".new");
    fs::write(&made, text)?;
    fs::rename(&made, path)
}

fn answer(mut stream: TcpStream, daemon: &Daemon) -> io::Result<()> {
    stream.set_read_timeout(Some(LIMIT))?;
    stream.set_write_timeout(Some(LIMIT))?;
    let mut head = Vec::new();
    let mut piece = [0; 1024];
    while !head.windows(4).any(|it| it == b"\r\n\r\n") && head.len() < MOST {
        match stream.read(&mut piece)? {
            0 => return Ok(()),
            count => head.extend_from_slice(&piece[..count]),
        }
    }
    let (status, body) = if head.starts_with(b"GET /metrics ") || head.starts_with(b"GET / ") {
        ("200 OK", text(daemon))
    } else {
        ("404 Not Found", "The metrics are at /metrics.\n".to_string())
    };
    let kind = "text/plain; version=0.0.4; charset=utf-8";
    write!(stream, "HTTP/1.1 {status}\r\nContent-Type: {kind}\r\nContent-Length: {}\r\n", body.len())?;
    write!(stream, "Connection: close\r\n\r\n{body}")
}

/// Returns all metrics.
fn text(daemon: &Daemon) -> String {
    let stats = daemon.server.stats().recv_timeout(PATIENCE).ok();
    let mut text = Text(String::new());
    let (clients, [received, sent]) = (&daemon.clients, daemon.server.metrics.bytes());
    text.one("bookie_daemon_clients", "gauge", "Clients that are connected.", clients.len() as u64);
    text.one("bookie_daemon_connections_total", "counter", "Clients that connected.", clients.count());
    text.one("bookie_daemon_received_bytes_total", "counter", "Bytes of requests that were taken.", received);
    text.one("bookie_daemon_sent_bytes_total", "counter", "Bytes of replies that were sent.", sent);
    text.counts(&daemon.server.metrics);
    text.times(&daemon.server.metrics);
    text.store(stats);
    text.0
}

struct Text(String);

impl Text {
    fn line(&mut self, line: std::fmt::Arguments<'_>) {
        let _ = writeln!(self.0, "{line}"); // a string takes all
    }

    fn family(&mut self, name: &str, kind: &str, help: &str) {
        self.line(format_args!("# HELP {name} {help}\n# TYPE {name} {kind}"));
    }

    fn one(&mut self, name: &str, kind: &str, help: &str, value: u64) {
        self.family(name, kind, help);
        self.line(format_args!("{name} {value}"));
    }

    fn counts(&mut self, metrics: &Metrics) {
        self.family("bookie_daemon_requests_total", "counter", "Requests that were taken.");
        for (call, count, _) in metrics.calls() {
            self.line(format_args!("bookie_daemon_requests_total{{call=\"{}\"}} {count}", call.text()));
        }
        self.family("bookie_daemon_refusals_total", "counter", "Requests that the server refused.");
        for (status, count) in metrics.refusals() {
            self.line(format_args!("bookie_daemon_refusals_total{{status=\"{}\"}} {count}", status.text()));
        }
        self.family("bookie_daemon_sessions_ended_total", "counter", "Sessions of clients that ended.");
        for (how, count) in metrics.ends() {
            self.line(format_args!(
                "bookie_daemon_sessions_ended_total{{reason=\"{}\"}} {count}",
                how.text()
            ));
        }
    }

    fn times(&mut self, metrics: &Metrics) {
        let name = "bookie_daemon_request_seconds";
        self.family(name, "histogram", "Time from a request's arrival to the server's reply.");
        for (call, _, times) in metrics.calls() {
            let (call, mut sum) = (call.text(), 0);
            let bounds = BOUNDS.iter().map(|bound| (*bound as f64 / 1e6).to_string()).chain(["+Inf".into()]);
            for (bound, count) in bounds.zip(times.counts()) {
                sum += count;
                self.line(format_args!("{name}_bucket{{call=\"{call}\",le=\"{bound}\"}} {sum}"));
            }
            self.line(format_args!("{name}_sum{{call=\"{call}\"}} {}", times.seconds()));
            self.line(format_args!("{name}_count{{call=\"{call}\"}} {sum}"));
        }
    }

    /// The figures of the store, if the server answered in time.
    fn store(&mut self, stats: Option<Reply>) {
        let up = "Whether the server answered `stats` in time.";
        self.one("bookie_store_answered", "gauge", up, u64::from(stats.is_some()));
        let numbers = stats.map(|reply| reply.numbers).unwrap_or_default();
        for ((figure, help), value) in FIGURES.iter().zip(numbers) {
            self.one(&format!("bookie_store_{figure}"), "gauge", help, value);
        }
    }
}

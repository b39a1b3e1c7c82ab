//! The command line.

use crate::error::Error;
use std::net::{SocketAddr, ToSocketAddrs};
use std::path::{Path, PathBuf};
use std::time::Duration;

pub const HELP: &str = "\
bookie daemon DIR [OPTIONS] [-- SERVER OPTIONS]

Shares one server of the directory DIR between several clients, over a Unix socket
or TCP. The words after `--` are options of the server (`bookie serve --help`).

  --socket PATH          listen at a Unix socket, whose file is made
  --mode OCTAL           mode of that file; 0600 unless given
  --listen ADDRESS:PORT  listen with TCP, at a loopback address; without
                         authentication and encryption
  --public               any address may follow `--listen`
  --clients N            most clients at once, 64 unless given
  --memory MIB           most memory for requests and replies of a client, in MiB;
                         320 unless given
  --stall SECONDS        end a client that reads no reply for so long, 30 unless given
  --metrics PORT|FILE    metrics for Prometheus, over HTTP at 127.0.0.1:PORT, or
                         written to FILE every 10 seconds
  --wait SECONDS         how long a directory that is in use is tried again, 10 unless
                         given: the server of a predecessor may still flush
  --server COMMAND       the server and its first arguments, apart by spaces
  --help                 print this text

SIGTERM and SIGINT end it in order: it answers what it has taken and flushes. The
exit status is 0 if everything is durable then, else 1, or 2 for a wrong command
line. tools/daemon/README.md describes the daemon.
";

/// Where the metrics go.
pub enum Target {
    Port(u16),
    File(PathBuf),
}

pub struct Options {
    pub directory: String,
    pub socket: Option<PathBuf>,
    pub mode: u32,
    pub listen: Option<SocketAddr>,
    pub clients: usize,
    /// Bytes of each client.
    pub memory: usize,
    pub stall: Duration,
    /// How long a directory that is in use is tried again.
    pub wait: Duration,
    pub metrics: Option<Target>,
    pub server: Vec<String>,
    pub server_options: Vec<String>,
    is_public: bool,
}

/// What a command line asks for.
pub enum Asked {
    Help,
    Serve(Options),
}

fn wrong(why: impl Into<String>) -> Error {
    Error::Usage(why.into())
}

/// Returns the value of an option from its text, if it is in a range.
fn number(option: &str, text: &str, least: u64, most: u64) -> Result<u64, Error> {
    let found = text.parse().ok().filter(|value| (least..=most).contains(value));
    found.ok_or_else(|| wrong(format!("{option} {text}: not a number from {least} to {most}")))
}

fn address(text: &str) -> Result<SocketAddr, Error> {
    let found = text.to_socket_addrs().ok().and_then(|mut all| all.next());
    found.ok_or_else(|| wrong(format!("--listen {text}: not ADDRESS:PORT")))
}

fn mode(text: &str) -> Result<u32, Error> {
    let found = u32::from_str_radix(text, 8).ok().filter(|mode| *mode <= 0o777);
    found.ok_or_else(|| wrong(format!("--mode {text}: not an octal number up to 777")))
}

/// Returns the words of a command, or the path of a program, which may have spaces.
fn command(text: &str) -> Vec<String> {
    if Path::new(text).is_file() {
        return vec![text.into()];
    }
    text.split_whitespace().map(String::from).collect()
}

impl Options {
    fn new() -> Options {
        Options {
            directory: String::new(),
            socket: None,
            mode: 0o600,
            listen: None,
            clients: 64,
            memory: 320 << 20,
            stall: Duration::from_secs(30),
            wait: Duration::from_secs(10),
            metrics: None,
            server: vec!["bk_serve".into()],
            server_options: Vec::new(),
            is_public: false,
        }
    }

    /// Parses the words after the program's name.
    pub fn parse(mut words: impl Iterator<Item = String>) -> Result<Asked, Error> {
        let mut options = Options::new();
        while let Some(word) = words.next() {
            match word.as_str() {
                "--help" | "-h" => return Ok(Asked::Help),
                "--" => {
                    options.server_options = words.collect();
                    break;
                }
                "--public" => options.is_public = true,
                option if option.starts_with("--") => {
                    let value = words.next().ok_or_else(|| wrong(format!("{option}: no value")))?;
                    options.set(option, &value)?;
                }
                _ if options.directory.is_empty() => options.directory = word,
                _ => return Err(wrong(format!("a second directory: {word}"))),
            }
        }
        options.checked().map(Asked::Serve)
    }

    fn set(&mut self, option: &str, value: &str) -> Result<(), Error> {
        match option {
            "--socket" => self.socket = Some(value.into()),
            "--mode" => self.mode = mode(value)?,
            "--listen" => self.listen = Some(address(value)?),
            "--clients" => self.clients = number(option, value, 1, 10_000)? as usize,
            "--memory" => self.memory = (number(option, value, 1, 1 << 20)? as usize) << 20,
            "--stall" => self.stall = Duration::from_secs(number(option, value, 1, 86_400)?),
            "--wait" => self.wait = Duration::from_secs(number(option, value, 0, 86_400)?),
            "--metrics" => {
                self.metrics = Some(value.parse().map_or_else(|_| Target::File(value.into()), Target::Port))
            }
            "--server" => self.server = command(value),
            _ => return Err(wrong(format!("unknown option {option}"))),
        }
        Ok(())
    }

    fn checked(self) -> Result<Options, Error> {
        if self.directory.is_empty() {
            return Err(wrong("no directory"));
        }
        if self.socket.is_none() && self.listen.is_none() {
            return Err(wrong("neither --socket nor --listen"));
        }
        match self.listen {
            Some(address) if !address.ip().is_loopback() && !self.is_public => Err(wrong(format!(
                "--listen {address}: whoever reaches this address can do everything; say --public"
            ))),
            _ => Ok(self),
        }
    }

    /// The command of the server.
    pub fn command(&self) -> Vec<String> {
        let directory = std::iter::once(&self.directory);
        self.server.iter().chain(directory).chain(&self.server_options).cloned().collect()
    }
}

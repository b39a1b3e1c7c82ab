//! Why the daemon does not start, and notes on the error stream.

use crate::frames::Reply;
use std::fmt::{self, Display, Formatter};
use std::io::{self, Write};
use std::path::PathBuf;

#[derive(Debug)]
pub enum Error {
    /// The command line is wrong.
    Usage(String),
    /// A call of the system failed on this file, address or program.
    Io { place: String, error: io::Error },
    /// Another process answers at this socket.
    Answered(PathBuf),
    /// This file is in the place of the socket, and is none.
    NoSocket(PathBuf),
    /// The server did not open the directory.
    Refused(Reply),
    /// The server ended before it answered the hello, or by an answer that is no reply.
    NoWelcome(String),
}

impl Error {
    /// The exit status of the program.
    pub fn status(&self) -> u8 {
        match self {
            Error::Usage(_) => 2,
            _ => 1,
        }
    }
}

impl Display for Error {
    fn fmt(&self, f: &mut Formatter<'_>) -> fmt::Result {
        match self {
            Error::Usage(why) => write!(f, "{why}; `bookie daemon --help` lists the options"),
            Error::Io { place, error } => write!(f, "{place}: {error}"),
            Error::Answered(path) => write!(f, "{}: another daemon answers at this socket", path.display()),
            Error::NoSocket(path) => write!(f, "{}: the file exists and is not a socket", path.display()),
            Error::Refused(reply) => {
                write!(f, "the server did not open the directory: {}", reply.status.text())?;
                reply.numbers.iter().try_for_each(|number| write!(f, " {number}"))
            }
            Error::NoWelcome(why) => write!(f, "the server did not answer the hello: {why}"),
        }
    }
}

/// Names what a failed call of the system was about.
pub trait Place<T> {
    fn at(self, place: impl Display) -> Result<T, Error>;
}

impl<T> Place<T> for io::Result<T> {
    fn at(self, place: impl Display) -> Result<T, Error> {
        self.map_err(|error| Error::Io { place: place.to_string(), error })
    }
}

/// Writes a line on the error stream. A failure to do so is ignored.
pub fn note(line: impl Display) {
    let _ = writeln!(io::stderr().lock(), "bookie daemon: {line}");
}

//! Connections and listeners, of Unix sockets and of TCP; the file of a Unix socket.

use crate::signals::with_mode;
use crate::{Error, Place};
use std::fs;
use std::io::{self, ErrorKind, Read, Write};
use std::net::{Shutdown, SocketAddr, TcpListener, TcpStream};
use std::os::unix::fs::{FileTypeExt, MetadataExt};
use std::os::unix::net::{UnixListener, UnixStream};
use std::path::{Path, PathBuf};
use std::time::Duration;

pub enum Stream {
    Unix(UnixStream),
    Tcp(TcpStream),
}

/// Calls a method of either kind of connection.
macro_rules! either {
    ($stream:expr, $inner:pat => $call:expr) => {
        match $stream {
            Stream::Unix($inner) => $call,
            Stream::Tcp($inner) => $call,
        }
    };
}

impl Stream {
    pub fn shut(&self, how: Shutdown) {
        // It fails if the other side has gone, and then there is nothing to shut.
        let _ = either!(self, it => it.shutdown(how));
    }

    pub fn limit_reads(&self, limit: Option<Duration>) -> io::Result<()> {
        either!(self, it => it.set_read_timeout(limit))
    }

    pub fn limit_writes(&self, limit: Duration) -> io::Result<()> {
        either!(self, it => it.set_write_timeout(Some(limit)))
    }
}

impl Read for &Stream {
    fn read(&mut self, buffer: &mut [u8]) -> io::Result<usize> {
        either!(self, it => (&mut &*it).read(buffer))
    }
}

impl Write for &Stream {
    fn write(&mut self, bytes: &[u8]) -> io::Result<usize> {
        either!(self, it => (&mut &*it).write(bytes))
    }

    fn flush(&mut self) -> io::Result<()> {
        Ok(())
    }
}

pub enum Listener {
    Unix(UnixListener),
    Tcp(TcpListener),
}

impl Listener {
    pub fn accept(&self) -> io::Result<Stream> {
        match self {
            Listener::Unix(it) => Ok(Stream::Unix(it.accept()?.0)),
            Listener::Tcp(it) => {
                let stream = it.accept()?.0;
                let _ = stream.set_nodelay(true); // else replies come later
                Ok(Stream::Tcp(stream))
            }
        }
    }

    pub fn tcp(address: SocketAddr) -> Result<Listener, Error> {
        Ok(Listener::Tcp(TcpListener::bind(address).at(address)?))
    }
}

/// The file of a Unix socket, which is removed when this is dropped, unless another one is in its place.
pub struct SocketFile {
    path: PathBuf,
    device: u64,
    inode: u64,
}

impl SocketFile {
    /// Removes the socket of a daemon that has ended without doing so.
    ///
    /// # Errors
    ///
    /// - `Answered` if somebody listens there.
    /// - `NoSocket` if the file is not a socket.
    pub fn clear(path: &Path) -> Result<(), Error> {
        let found = match fs::symlink_metadata(path) {
            Err(error) if error.kind() == ErrorKind::NotFound => return Ok(()),
            found => found.at(path.display())?,
        };
        if !found.file_type().is_socket() {
            return Err(Error::NoSocket(path.into()));
        }
        match UnixStream::connect(path) {
            Ok(_) => Err(Error::Answered(path.into())),
            Err(error) if error.kind() == ErrorKind::ConnectionRefused => {
                fs::remove_file(path).at(path.display())
            }
            Err(error) => Err(error).at(path.display()),
        }
    }

    /// Makes a socket whose file has this mode from the beginning.
    pub fn bind(path: &Path, mode: u32) -> Result<(Listener, SocketFile), Error> {
        let listener = with_mode(mode, || UnixListener::bind(path)).at(path.display())?;
        let made = fs::symlink_metadata(path).at(path.display())?;
        let file = SocketFile { path: path.into(), device: made.dev(), inode: made.ino() };
        Ok((Listener::Unix(listener), file))
    }
}

impl Drop for SocketFile {
    fn drop(&mut self) {
        let is_ours = |it: fs::Metadata| (it.dev(), it.ino()) == (self.device, self.inode);
        if fs::symlink_metadata(&self.path).is_ok_and(is_ours) {
            let _ = fs::remove_file(&self.path);
        }
    }
}

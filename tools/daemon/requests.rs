//! Requests of a client: which bytes are some, and by what fault a session ends.

use crate::frames::{Call, MAGIC, SHORTEST, Status, number};
use crate::server::Limits;

/// A request that was judged: its id, its call, the bytes of its frame, and what its client may hold by it.
pub struct Request {
    pub id: u64,
    pub call: Call,
    /// Bytes of its frame, with the length field.
    pub size: usize,
    /// Bytes of its frame and of the greatest reply that it can get.
    pub cost: usize,
}

/// Bytes that are no request: the frame that ends the session.
#[derive(Debug, PartialEq, Eq)]
pub struct Fault {
    pub id: u64,
    pub status: Status,
    pub numbers: Vec<u64>,
}

impl Fault {
    fn new(id: u64, status: Status, numbers: &[u64]) -> Fault {
        Fault { id, status, numbers: numbers.to_vec() }
    }

    pub fn frame(&self) -> Vec<u8> {
        self.status.frame(self.id, &self.numbers, &[]).unwrap_or_default()
    }

    /// Returns the size of the first frame, with its length field, or `None` if it is not whole yet.
    ///
    /// # Errors
    ///
    /// `Short` or `Oversized`, if a frame cannot have this length.
    pub fn or_size(bytes: &[u8], largest: u64) -> Result<Option<usize>, Fault> {
        if bytes.len() < 4 {
            return Ok(None);
        }
        let length = number(&bytes[..4]);
        if length < SHORTEST as u64 {
            return Err(Fault::new(0, Status::Short, &[length]));
        }
        if length > largest {
            return Err(Fault::new(0, Status::Oversized, &[length, largest]));
        }
        let size = 4 + length as usize;
        Ok((size <= bytes.len()).then_some(size))
    }

    /// Returns the fault of an input that ends after these bytes, or `None` if it ends after a whole frame.
    pub fn of_end(bytes: &[u8]) -> Option<Fault> {
        let read = bytes.len() as u64;
        match read {
            0 => None,
            1..=3 => Some(Fault::new(0, Status::Cut, &[4, read])),
            _ => Some(Fault::new(0, Status::Cut, &[number(&bytes[..4]), read - 4])),
        }
    }
}

/// Returns the id of a hello that speaks this version.
///
/// # Errors
///
/// - `NoHello` if the frame is no hello.
/// - `Version` if it does not speak the version.
pub fn greet(frame: &[u8], version: u64) -> Result<u64, Fault> {
    let id = number(&frame[4..12]);
    let fields = &frame[13..];
    if frame[12] != Call::Hello as u8 || !Call::Hello.fits(fields.len()) || number(&fields[..8]) != MAGIC {
        return Err(Fault::new(id, Status::NoHello, &[]));
    }
    let (lowest, highest) = (number(&fields[8..16]), number(&fields[16..]));
    if !(lowest..=highest).contains(&version) {
        return Err(Fault::new(id, Status::Version, &[version, version]));
    }
    Ok(id)
}

/// Returns the request of a whole frame after the id `last`.
///
/// # Errors
///
/// In this order: `NotRising`, `UnknownCall`, `BadFields`, `SecondHello`.
fn judge(frame: &[u8], last: u64, limits: &Limits) -> Result<Request, Fault> {
    let (id, code, fields) = (number(&frame[4..12]), frame[12], frame.len() - 13);
    if id <= last {
        return Err(Fault::new(id, Status::NotRising, &[id, last]));
    }
    let call = Call::of(code).ok_or_else(|| Fault::new(id, Status::UnknownCall, &[code.into()]))?;
    if !call.fits(fields) {
        return Err(Fault::new(id, Status::BadFields, &[code.into(), fields as u64]));
    }
    if call == Call::Hello {
        return Err(Fault::new(id, Status::SecondHello, &[]));
    }
    Ok(Request { id, call, size: frame.len(), cost: frame.len() + limits.largest_reply(call) })
}

/// What comes after the requests of a batch.
pub enum Next {
    /// Bytes that are not there yet.
    More,
    Close {
        id: u64,
    },
    Fault(Fault),
}

/// Adds the requests at the head of the bytes to a batch, with ids that rise from `last` on. Returns what comes
/// after them.
pub fn split(bytes: &[u8], last: &mut u64, limits: &Limits, batch: &mut Vec<Request>) -> Next {
    let mut at = 0;
    loop {
        let size = match Fault::or_size(&bytes[at..], limits.largest) {
            Ok(Some(size)) => size,
            Ok(None) => return Next::More,
            Err(fault) => return Next::Fault(fault),
        };
        match judge(&bytes[at..at + size], *last, limits) {
            Ok(Request { id, call: Call::Close, .. }) => return Next::Close { id },
            Ok(request) => {
                (*last, at) = (request.id, at + size);
                batch.push(request);
            }
            Err(fault) => return Next::Fault(fault),
        }
    }
}

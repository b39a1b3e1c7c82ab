//! Frames of `bk_serve` (../protocol.md): kinds of requests and replies, as values and as bytes.

// A program that has this file as a module need not use all of it.
#![allow(dead_code)]

pub const MAGIC: u64 = u64::from_be_bytes(*b"BKSERVE\n");
pub const VERSION: u64 = 1;
/// Greatest length of a frame, without its length field.
pub const LARGEST: usize = 5_000_064;
/// Least length of a frame: an id and a kind.
pub const SHORTEST: usize = 9;

/// Writes an enum of kinds of frames: code, name, number of numbers, least and most bytes after them.
macro_rules! kinds {
    ($(#[$doc:meta])* $name:ident { $($kind:ident = $code:literal, $text:literal, $numbers:literal, $least:literal, $most:literal;)* }) => {
        $(#[$doc])*
        #[derive(Clone, Copy, Debug, PartialEq, Eq)]
        pub enum $name { $($kind = $code),* }

        impl $name {
            /// The name of the protocol's page.
            pub fn text(self) -> &'static str {
                match self { $($name::$kind => $text),* }
            }

            /// How many numbers it has, and the least and the greatest number of bytes after them.
            pub fn layout(self) -> (usize, usize, usize) {
                match self { $($name::$kind => ($numbers, $least, $most)),* }
            }

            pub fn of(code: u8) -> Option<$name> {
                match code { $($code => Some($name::$kind),)* _ => None }
            }

            /// Whether a frame of this kind may have `length` bytes of fields.
            pub fn fits(self, length: usize) -> bool {
                let (numbers, least, most) = self.layout();
                (8 * numbers + least..=8 * numbers + most).contains(&length)
            }

            /// Returns the frame with these fields, or `None` if they are not those of this kind.
            pub fn frame(self, id: u64, numbers: &[u64], bytes: &[u8]) -> Option<Vec<u8>> {
                let (count, least, most) = self.layout();
                let is_right = numbers.len() == count && (least..=most).contains(&bytes.len());
                is_right.then(|| frame(self as u8, id, numbers, bytes))
            }
        }
    };
}

kinds! {
    /// Calls of requests.
    Call {
        Hello = 1, "hello", 3, 0, 0;
        Add = 2, "add", 2, 0, 4999984;
        AddRecovery = 3, "add_recovery", 2, 0, 4999984;
        Read = 4, "read", 2, 0, 0;
        ReadLast = 5, "read_last", 1, 0, 0;
        ReadBack = 6, "read_back", 3, 32, 32;
        LastEntry = 7, "last_entry", 1, 0, 0;
        Holds = 8, "holds", 2, 0, 0;
        Entries = 9, "entries", 3, 0, 0;
        Ledgers = 10, "ledgers", 2, 0, 0;
        Fence = 11, "fence", 1, 0, 0;
        IsFenced = 12, "is_fenced", 1, 0, 0;
        Delete = 13, "delete", 1, 0, 0;
        SetMasterKey = 14, "set_master_key", 1, 0, 256;
        MasterKey = 15, "master_key", 1, 0, 0;
        SetExplicitLac = 16, "set_explicit_lac", 1, 0, 256;
        ExplicitLac = 17, "explicit_lac", 1, 0, 0;
        Flush = 18, "flush", 0, 0, 0;
        Checkpoint = 19, "checkpoint", 0, 0, 0;
        Compact = 20, "compact", 2, 0, 0;
        Stats = 21, "stats", 0, 0, 0;
        Seal = 22, "seal", 0, 0, 0;
        Close = 23, "close", 0, 0, 0;
    }
}

kinds! {
    /// Statuses of replies.
    Status {
        Welcome = 32, "welcome", 4, 0, 0;
        Accepted = 33, "accepted", 1, 32, 32;
        Held = 34, "held", 0, 0, 0;
        Entry = 35, "entry", 2, 0, 4999984;
        NotHeld = 36, "not_held", 0, 0, 0;
        Last = 37, "last", 1, 0, 0;
        Yes = 38, "yes", 0, 0, 0;
        No = 39, "no", 0, 0, 0;
        Page = 40, "page", 0, 0, 524288;
        FencedNow = 41, "fenced_now", 0, 0, 0;
        FencedBefore = 42, "fenced_before", 0, 0, 0;
        Dropped = 43, "dropped", 1, 0, 0;
        Stored = 44, "stored", 0, 0, 0;
        Attribute = 45, "attribute", 0, 0, 256;
        NoAttribute = 46, "no_attribute", 0, 0, 0;
        Flushed = 47, "flushed", 1, 0, 0;
        Durable = 48, "durable", 1, 0, 0;
        Compacted = 49, "compacted", 2, 0, 0;
        Figures = 50, "figures", 10, 0, 0;
        Sealed = 51, "sealed", 1, 0, 0;
        NothingOpen = 52, "nothing_open", 0, 0, 0;
        Closed = 53, "closed", 1, 0, 0;
        Backwards = 64, "backwards", 2, 0, 0;
        Negative = 65, "negative", 0, 0, 0;
        TooLong = 66, "too_long", 1, 0, 0;
        Deleted = 67, "deleted", 0, 0, 0;
        Fenced = 68, "fenced", 0, 0, 0;
        Full = 69, "full", 2, 0, 0;
        Memory = 70, "memory", 0, 0, 0;
        NoSeat = 71, "no_seat", 0, 0, 0;
        TooMany = 72, "too_many", 0, 0, 0;
        AlreadyDeleted = 73, "already_deleted", 0, 0, 0;
        Missing = 74, "missing", 1, 0, 0;
        Differs = 75, "differs", 0, 0, 0;
        NotThere = 76, "not_there", 0, 0, 0;
        Disk = 77, "disk", 0, 0, 0;
        Odd = 78, "odd", 0, 0, 0;
        LogsFull = 79, "logs_full", 0, 0, 0;
        NoMoreIds = 80, "no_more_ids", 0, 0, 0;
        Settings = 81, "settings", 0, 0, 0;
        BadLog = 82, "bad_log", 1, 0, 0;
        LogTooLong = 83, "log_too_long", 1, 0, 0;
        InUse = 84, "in_use", 0, 0, 0;
        Busy = 85, "busy", 0, 0, 0;
        OutOfRange = 86, "out_of_range", 0, 0, 0;
        NoThread = 87, "no_thread", 0, 0, 0;
        NotOffered = 88, "not_offered", 0, 0, 0;
        NoHello = 96, "no_hello", 0, 0, 0;
        Version = 97, "version", 2, 0, 0;
        SecondHello = 98, "second_hello", 0, 0, 0;
        Cut = 99, "cut", 2, 0, 0;
        Short = 100, "short", 1, 0, 0;
        Oversized = 101, "oversized", 2, 0, 0;
        UnknownCall = 102, "unknown_call", 1, 0, 0;
        BadFields = 103, "bad_fields", 2, 0, 0;
        NotRising = 104, "not_rising", 2, 0, 0;
        InputFailed = 105, "input_failed", 0, 0, 0;
        NoMemory = 106, "no_memory", 0, 0, 0;
    }
}

impl Call {
    /// Whether its reply says that earlier adds are durable.
    pub fn is_flush(self) -> bool {
        matches!(self, Call::Flush | Call::Checkpoint | Call::Seal | Call::Close)
    }
}

impl Status {
    /// Whether it says that earlier adds are durable.
    pub fn is_flushed(self) -> bool {
        use Status::*;
        matches!(self, Flushed | Durable | Sealed | NothingOpen | Closed)
    }

    pub fn is_refusal(self) -> bool {
        (64..96).contains(&(self as u8))
    }

    pub fn is_end(self) -> bool {
        self as u8 >= 96
    }
}

/// A reply that is no refusal: its numbers in the order of the protocol's page, and the bytes after them.
#[derive(Clone, Debug, PartialEq, Eq)]
pub struct Reply {
    pub status: Status,
    pub numbers: Vec<u64>,
    pub bytes: Vec<u8>,
}

impl Reply {
    /// Returns the reply whose bytes after the id are these.
    pub fn decode(body: &[u8]) -> Result<Reply, String> {
        let (code, fields) = body.split_first().ok_or("no kind")?;
        let status = Status::of(*code).ok_or_else(|| format!("unknown status {code}"))?;
        let numbers = 8 * status.layout().0;
        if !status.fits(fields.len()) || status == Status::Page && (fields.len() - numbers) % 8 != 0 {
            return Err(format!("status {code} with {} bytes of fields", fields.len()));
        }
        let (numbers, bytes) = fields.split_at(numbers);
        Ok(Reply { status, numbers: numbers.chunks_exact(8).map(number).collect(), bytes: bytes.to_vec() })
    }
}

/// Returns the number of up to eight bytes, big-endian.
pub fn number(bytes: &[u8]) -> u64 {
    bytes.iter().fold(0, |value, byte| value << 8 | u64::from(*byte))
}

fn frame(kind: u8, id: u64, numbers: &[u64], bytes: &[u8]) -> Vec<u8> {
    let length = SHORTEST + 8 * numbers.len() + bytes.len();
    let mut frame = Vec::with_capacity(4 + length);
    frame.extend_from_slice(&(length as u32).to_be_bytes());
    frame.extend_from_slice(&id.to_be_bytes());
    frame.push(kind);
    numbers.iter().for_each(|number| frame.extend_from_slice(&number.to_be_bytes()));
    frame.extend_from_slice(bytes);
    frame
}

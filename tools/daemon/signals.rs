//! Signals and file modes, for which std has no calls. Linux.

use std::io;

const BLOCK: i32 = 0;
const HANGUP: i32 = 1;
const INTERRUPT: i32 = 2;
const TERMINATE: i32 = 15;
const IGNORE: usize = 1;

/// `sigset_t` of Linux.
#[repr(C, align(8))]
struct Set([u8; 128]);

extern "C" {
    fn sigemptyset(set: *mut Set) -> i32;
    fn sigaddset(set: *mut Set, signal: i32) -> i32;
    fn pthread_sigmask(how: i32, set: *const Set, old: *mut Set) -> i32;
    fn sigwait(set: *const Set, signal: *mut i32) -> i32;
    fn signal(signal: i32, handler: usize) -> usize;
    fn umask(mask: u32) -> u32;
}

/// The signals that end the session in order. They are blocked, so that they wait for `Ending::wait`.
pub struct Ending(Set);

impl Ending {
    /// Ignores SIGHUP, and blocks SIGINT and SIGTERM in this thread and those that it starts. std unblocks them in
    /// a process that it starts.
    pub fn block() -> io::Result<Ending> {
        let mut set = Set([0; 128]);
        // SAFETY: the set is as large as the C library's, and lives through the calls.
        let status = unsafe {
            signal(HANGUP, IGNORE);
            sigemptyset(&mut set);
            sigaddset(&mut set, INTERRUPT);
            sigaddset(&mut set, TERMINATE);
            pthread_sigmask(BLOCK, &set, std::ptr::null_mut())
        };
        if status != 0 {
            return Err(io::Error::from_raw_os_error(status));
        }
        Ok(Ending(set))
    }

    /// Waits for one of the signals. Returns its name.
    pub fn wait(&self) -> &'static str {
        let mut number = 0;
        // SAFETY: as above.
        while unsafe { sigwait(&self.0, &mut number) } != 0 {}
        if number == INTERRUPT { "SIGINT" } else { "SIGTERM" }
    }
}

/// Makes a file by a call, with this mode. No other thread may make one meanwhile.
pub fn with_mode<T>(mode: u32, make: impl FnOnce() -> T) -> T {
    // SAFETY: the call has no condition.
    let before = unsafe { umask(0o777 & !mode) };
    let made = make();
    // SAFETY: as above.
    unsafe { umask(before) };
    made
}

//! Tests other ends of a session than `close`. The program runs itself with further words, ROLE and
//! LEDGER, as one that gets a
//! signal or has no standard streams.

use crate::bookie::{Bookie, Call, Error, Pending};
use std::io::{BufRead, BufReader};
use std::os::unix::process::{CommandExt, ExitStatusExt};
use std::process::{Command, Stdio};
use std::sync::atomic::{AtomicBool, Ordering};
use std::thread;
use std::time::{Duration, Instant};

/// Entries of a session.
const FEW: u64 = 100;
/// Limit on waiting for a predecessor.
const LIMIT: Duration = Duration::from_secs(60);
const INTERRUPT: i32 = 2;
const KILL: i32 = 9;
/// SIGINT, SIGTERM, SIGHUP.
const SIGNALS: [i32; 3] = [INTERRUPT, 15, 1];

unsafe extern "C" {
    fn kill(process: i32, signal: i32) -> i32;
    fn signal(signal: i32, handler: usize) -> usize;
}

/// The words of the server and of this program, which runs itself.
pub struct Program<'a> {
    pub server: &'a str,
    pub directory: &'a str,
}

impl Program<'_> {
    fn open(&self) -> Result<Bookie, Error> {
        Bookie::open(self.server, &[self.directory])
    }

    fn add_few(&self, ledger: u64) -> Result<Bookie, Error> {
        let bookie = self.open()?;
        let send = |entry| bookie.send(Call::Add, &[ledger, entry], b"x");
        let sent: Vec<Pending> = (0..FEW).map(send).collect();
        for pending in sent {
            pending.wait()?;
        }
        Ok(bookie)
    }

    /// Returns how many entries of a ledger a new session finds. It waits for a predecessor that
    /// still flushes.
    fn found(&self, ledger: u64) -> Result<usize, Error> {
        let bookie = self.open()?;
        let count = bookie.entries(ledger)?.len();
        bookie.close()?;
        Ok(count)
    }

    /// Adds more entries after a flush, or none. The server is killed, not by the client. Returns
    /// how many entries `close` says
    /// may be lost.
    fn died(&self, ledger: u64, is_flushed: bool, more: u64) -> Result<String, Error> {
        let bookie = self.add_few(ledger)?;
        if is_flushed {
            bookie.flush()?;
        }
        for e in 0..more {
            bookie.add(ledger, FEW + e, b"x")?;
        }
        send_signal(bookie.id().expect("a child") as i32, KILL);
        match bookie.close() {
            Err(Error::Ended(why)) => {
                let count = bookie.unflushed().to_string();
                assert!(why.ends_with(&format!(": {count}")), "{why}");
                Ok(count)
            }
            _ => Ok("silent".into()),
        }
    }

    /// The command that runs this program in a role.
    fn role(&self, shell: &str, role: &str, ledger: u64) -> Command {
        let mut command = Command::new("/bin/sh");
        let program = std::env::current_exe().expect("the path of this program");
        command.args(["-c", shell, "sh"]).arg(program).args([self.server, self.directory, role]);
        command.arg(ledger.to_string());
        command
    }

    /// Sends a signal to the process group of a program with a session. Returns how many of its
    /// entries are found.
    fn signalled(&self, ledger: u64, number: i32) -> Result<usize, Error> {
        let mut command = self.role(r#"exec "$@""#, "signalled", ledger);
        let mut child = command.process_group(0).stdout(Stdio::piped()).spawn()?;
        let mut line = String::new();
        BufReader::new(child.stdout.take().expect("a pipe")).read_line(&mut line)?;
        assert_eq!(line, "ready\n");
        send_signal(-(child.id() as i32), number);
        let status = child.wait()?;
        let wanted = if number == INTERRUPT { None } else { Some(number) };
        assert!(status.signal() == wanted && status.success() == wanted.is_none(), "{status}");
        self.found(ledger)
    }

    /// Adds entries, and waits for a signal. Closes in order after SIGINT; another one ends it at
    /// once.
    pub fn play_signalled(&self, ledger: u64) -> Result<(), Error> {
        let handler = interrupt as extern "C" fn(i32) as usize;
        for number in SIGNALS {
            // SAFETY: the handler only writes an atomic; that of other signals is the usual one.
            unsafe { signal(number, if number == INTERRUPT { handler } else { 0 }) };
        }
        let bookie = self.add_few(ledger)?;
        println!("ready");
        for _ in 0..6000 {
            if IS_INTERRUPTED.load(Ordering::Relaxed) {
                break;
            }
            thread::sleep(Duration::from_millis(10));
        }
        bookie.close().map(drop)
    }

    /// Runs a program without standard input, output and errors. Returns how many of its entries
    /// are found.
    fn without_streams(&self, ledger: u64) -> Result<usize, Error> {
        let status = self.role(r#"exec "$@" <&- >&- 2>&-"#, "closed", ledger).status()?;
        assert!(status.success(), "{status}");
        self.found(ledger)
    }

    /// Adds an entry. The server's error stream is no file of the directory.
    pub fn play_closed(&self, ledger: u64) -> Result<(), Error> {
        let bookie = self.open()?;
        bookie.add(ledger, 0, b"x")?;
        if std::fs::exists("/proc/self/fd")? {
            let errors = std::fs::read_link(format!("/proc/{}/fd/2", bookie.id().expect("a child")))?;
            assert_eq!(errors.to_str(), Some("/dev/null"));
        }
        bookie.close().map(drop)
    }

    /// Drops requests that were sent. Returns how many of their entries are found by a later call.
    fn cancelled(&self, ledger: u64) -> Result<usize, Error> {
        let bookie = self.open()?;
        (0..FEW).for_each(|e| drop(bookie.send(Call::Add, &[ledger, e], b"x")));
        let count = bookie.entries(ledger)?.len();
        bookie.close()?;
        Ok(count)
    }

    /// Opens the directory while a predecessor has it, without and with time.
    fn succeed(&self, ledger: u64) -> Result<String, Error> {
        let first = self.add_few(ledger)?;
        let start = Instant::now();
        let refused = match Bookie::open_within(self.server, &[self.directory], Duration::ZERO) {
            Err(Error::Refused { status, .. }) => status.text(),
            _ => "opened",
        };
        // So the next opening is refused at first.
        let later = Duration::from_millis(300) + 2 * start.elapsed();
        let end = thread::spawn(move || {
            thread::sleep(later);
            first.close()
        });
        let second = Bookie::open_within(self.server, &[self.directory], LIMIT)?;
        let count = second.entries(ledger)?.len();
        second.close()?;
        end.join().expect("a thread")?;
        Ok(format!("{refused} {count}"))
    }

    pub fn ends(&self) -> Result<(), Error> {
        let lost = [self.died(11, false, 0)?, self.died(12, true, 0)?, self.died(20, true, 30)?];
        println!("died {}", lost.join(" "));
        print!("signals");
        for (ledger, number) in (13..).zip(SIGNALS) {
            print!(" {}", self.signalled(ledger, number)?);
        }
        println!("\ncancelled {}", self.cancelled(16)?);
        println!("without streams {}", self.without_streams(17)?);
        println!("successor {}", self.succeed(18)?);
        Ok(())
    }
}

static IS_INTERRUPTED: AtomicBool = AtomicBool::new(false);

extern "C" fn interrupt(_: i32) {
    IS_INTERRUPTED.store(true, Ordering::Relaxed);
}

fn send_signal(process: i32, number: i32) {
    // SAFETY: the call has no memory of this program.
    assert_eq!(unsafe { kill(process, number) }, 0);
}

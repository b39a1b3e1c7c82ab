//! The server as a process, until it has opened the directory.

use crate::error::{Error, Place};
use crate::frames::{Call, LARGEST, MAGIC, Reply, Status, VERSION};
use crate::input::Input;
use std::io::Write;
use std::os::unix::process::CommandExt;
use std::process::{Child, ChildStdin, ChildStdout, Command, Stdio};
use std::thread;
use std::time::{Duration, Instant};

/// Time after which a directory that is in use is tried again.
const PAUSE: Duration = Duration::from_millis(100);

/// A server that has answered the hello by `welcome`.
pub struct Welcomed {
    pub child: Child,
    pub input: ChildStdin,
    pub output: Input<ChildStdout>,
    pub welcome: Reply,
}

/// Starts the server and says hello, again for the time `wait` while another process has the directory. The server gets
/// a process group of its own, so that a signal to the group of the daemon does not end it.
pub fn start(command: &[String], wait: Duration) -> Result<Welcomed, Error> {
    let until = Instant::now() + wait;
    loop {
        match start_once(command) {
            Err(Error::Refused(Reply { status: Status::InUse, .. })) if Instant::now() < until => {}
            outcome => return outcome,
        }
        thread::sleep(PAUSE);
    }
}

fn start_once(command: &[String]) -> Result<Welcomed, Error> {
    let [program, arguments @ ..] = command else {
        return Err(Error::Usage("no server".into()));
    };
    let mut started = Command::new(program);
    started.args(arguments).stdin(Stdio::piped()).stdout(Stdio::piped()).process_group(0);
    let mut child = started.spawn().at(program)?;
    let (Some(input), Some(output)) = (child.stdin.take(), child.stdout.take()) else {
        return Err(Error::NoWelcome("no pipes".into())); // does not occur: both are piped
    };
    let mut server = Started { input, output: Input::new(output) };
    match server.hello() {
        Ok(welcome) if welcome.status == Status::Welcome => {
            Ok(Welcomed { child, input: server.input, output: server.output, welcome })
        }
        outcome => {
            drop(server); // its input ends, and so does the server
            child.wait().at(program)?;
            Err(outcome.map_or_else(Error::NoWelcome, Error::Refused))
        }
    }
}

struct Started {
    input: ChildStdin,
    output: Input<ChildStdout>,
}

impl Started {
    /// Returns the reply to the hello.
    fn hello(&mut self) -> Result<Reply, String> {
        let hello = Call::Hello.frame(0, &[MAGIC, VERSION, VERSION], &[]).unwrap_or_default();
        self.input.write_all(&hello).map_err(|error| error.to_string())?;
        let size = self.output.fill_frame(LARGEST as u64).map_err(|error| error.to_string())?;
        let size = size.map_err(|fault| fault.status.text())?.ok_or("it ended")?;
        let reply = Reply::decode(&self.output.bytes()[12..size]);
        self.output.consume(size);
        reply
    }
}

//! The gateway's process.

use crate::libc;
use poll::examples::{HOST, UNIT};
use poll::{Host, Line};
use std::fs;
use std::io::{BufRead, BufReader};
use std::net::TcpStream;
use std::path::{Path, PathBuf};
use std::process::{Child, ChildStdout, Command, ExitStatus, Stdio};
use std::time::{Duration, Instant};

/// Longer than any answer takes on a busy machine.
pub const LONG: Duration = Duration::from_secs(10);
/// How long a line is silent before a half frame is given up, and some more.
pub const SILENCE: Duration = Duration::from_millis(700);

/// A gateway that runs until it is stopped or dropped.
pub struct Gateway {
    process: Child,
    output: BufReader<ChildStdout>,
    /// Where it listens, `ADDRESS:PORT`.
    pub address: String,
}

/// The program's path.
fn path() -> PathBuf {
    let built = "/../build/firmware/tyurkanim-sanitized";
    let path = std::env::var_os("TYURKANIM").map_or_else(
        || PathBuf::from(env!("CARGO_MANIFEST_DIR").to_string() + built),
        PathBuf::from,
    );
    let shown = path.display();
    assert!(path.exists(), "no {shown}: tools/build-gateway makes it");
    path
}

/// The program, or something that runs it.
fn command(path: &Path) -> Command {
    let mut command = Command::new(path);
    // It allocates nothing while it serves, and the search for leaks at its
    // end takes seconds.
    command.env("ASAN_OPTIONS", "detect_leaks=0");
    command
}

/// The program, with some arguments.
pub fn program(arguments: &[&str]) -> Command {
    let mut program = command(&path());
    program.args(arguments);
    program
}

impl Gateway {
    /// Starts a gateway on a free port.
    pub fn start(arguments: &[&str]) -> Self {
        Self::begin(program(&["--port", "0"]).args(arguments))
    }

    /// Starts a gateway that may have so many files open.
    pub fn with_few_files(most: u8) -> Self {
        let limited = format!("ulimit -n {most}; exec \"$0\" --port 0");
        let mut shell = command(Path::new("/bin/sh"));
        Self::begin(shell.args(["-c", &limited]).arg(path()))
    }

    fn begin(command: &mut Command) -> Self {
        let mut process = command
            .stdout(Stdio::piped())
            .spawn()
            .expect("the gateway starts");
        let mut output = BufReader::new(process.stdout.take().expect("its output"));
        let mut line = String::new();
        output.read_line(&mut line).expect("its first line");
        // A serial line tells first that it was opened.
        while !line.is_empty() && !line.contains(" listening at ") {
            line.clear();
            output.read_line(&mut line).expect("its next line");
        }
        let (_, address) = line.trim_end().rsplit_once(' ').expect("an address");
        let address = address.to_string();
        Self {
            process,
            output,
            address,
        }
    }

    /// Starts a gateway that serves at a level.
    pub fn at_level(level: u8) -> Self {
        Self::start(&["--level", &level.to_string()])
    }

    /// Its process number.
    pub fn id(&self) -> u32 {
        self.process.id()
    }

    /// A new connection.
    pub fn connect(&self) -> TcpStream {
        TcpStream::connect(&self.address).expect("a connection")
    }

    /// A host on a new connection.
    pub fn host(&self) -> Host {
        let line = Line::over_tcp(self.connect()).expect("a line");
        Host::new(line, HOST, UNIT, LONG)
    }

    /// The next line that it prints.
    pub fn next_line(&mut self) -> String {
        let mut line = String::new();
        self.output.read_line(&mut line).expect("a line");
        line
    }

    /// The memory that it holds, in kilobytes.
    pub fn resident(&self) -> u64 {
        let status = fs::read_to_string(format!("/proc/{}/status", self.id())).expect("a status");
        status
            .lines()
            .find_map(|line| line.strip_prefix("VmRSS:"))
            .and_then(|rest| rest.trim().strip_suffix(" kB")?.parse().ok())
            .expect("its resident memory")
    }

    /// The processor time that it has taken, in hundredths of a second.
    pub fn processor_time(&self) -> u64 {
        let stat = fs::read_to_string(format!("/proc/{}/stat", self.id())).expect("a status");
        // Behind its name in parentheses, user and system time are fields 12
        // and 13.
        let (_, fields) = stat.rsplit_once(") ").expect("fields");
        let times = fields.split(' ').skip(11).take(2);
        times
            .map(|time| time.parse::<u64>().expect("a number"))
            .sum()
    }

    /// Ends it by a signal; it ends well, and a sanitizer that found something
    /// would not let it.
    pub fn stop(mut self, signal: i32) {
        libc::signal(self.id(), signal);
        let until = Instant::now() + LONG;
        let status = self.status(until);
        assert!(status.success(), "the gateway ended with {status}");
    }

    fn status(&mut self, until: Instant) -> ExitStatus {
        loop {
            if let Some(status) = self.process.try_wait().expect("a status") {
                return status;
            }
            assert!(Instant::now() < until, "the gateway does not end");
            std::thread::sleep(Duration::from_millis(5));
        }
    }
}

impl Drop for Gateway {
    fn drop(&mut self) {
        // A test failed before it stopped the gateway.
        let _ = self.process.kill();
        let _ = self.process.wait();
    }
}

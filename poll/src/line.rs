//! Bytes to and from a device, with a time-out.

use std::fs::File;
use std::io::{self, ErrorKind, Read, Write};
use std::net::{TcpStream, ToSocketAddrs};
use std::sync::mpsc::{self, Receiver, RecvTimeoutError};
use std::thread;
use std::time::Duration;

/// The most bytes taken at once.
const CHUNK: usize = 1024;

/// A way to a device.
pub enum Line {
    /// Over TCP.
    Tcp(TcpStream),
    /// Over a file that bytes come from when they please, such as a serial
    /// device or a pseudo-terminal.
    File {
        /// Where bytes are sent.
        to: File,
        /// What a thread reads; a file has no time-out of its own.
        from: Receiver<io::Result<Vec<u8>>>,
    },
}

impl Line {
    /// Opens a device named by a path (with a `/`), or connects to
    /// `ADDRESS:PORT`.
    pub fn open(host: &str, wait: Duration) -> io::Result<Self> {
        if host.contains('/') {
            let file = File::options().read(true).write(true).open(host)?;
            return Self::over_file(file);
        }
        let mut failure = io::Error::new(ErrorKind::NotFound, "no such address");
        for address in host.to_socket_addrs()? {
            match TcpStream::connect_timeout(&address, wait) {
                Ok(stream) => return Self::over_tcp(stream),
                Err(error) => failure = error,
            }
        }
        Err(failure)
    }

    /// A line over a connection.
    pub fn over_tcp(stream: TcpStream) -> io::Result<Self> {
        stream.set_nodelay(true)?;
        Ok(Self::Tcp(stream))
    }

    /// A line over a file that is open for reading and writing and carries
    /// bytes as they are.
    pub fn over_file(file: File) -> io::Result<Self> {
        let (came, from) = mpsc::channel();
        let mut reader = file.try_clone()?;
        thread::spawn(move || loop {
            let mut space = [0; CHUNK];
            let read = reader.read(&mut space).map(|count| space[..count].to_vec());
            let over = !matches!(&read, Ok(bytes) if !bytes.is_empty());
            if came.send(read).is_err() || over {
                break;
            }
        });
        Ok(Self::File { to: file, from })
    }

    /// Sends all bytes.
    pub fn send(&mut self, bytes: &[u8]) -> io::Result<()> {
        match self {
            Self::Tcp(stream) => stream.write_all(bytes),
            Self::File { to, .. } => to.write_all(bytes),
        }
    }

    /// The next bytes, at least one; none if none came in time.
    pub fn receive(&mut self, wait: Duration) -> io::Result<Option<Vec<u8>>> {
        let bytes = match self {
            Self::Tcp(stream) => read_within(stream, wait)?,
            Self::File { from, .. } => match from.recv_timeout(wait) {
                Ok(read) => Some(read?),
                Err(RecvTimeoutError::Timeout) => None,
                Err(RecvTimeoutError::Disconnected) => Some(Vec::new()),
            },
        };
        if bytes.as_ref().is_some_and(Vec::is_empty) {
            return Err(ErrorKind::UnexpectedEof.into());
        }
        Ok(bytes)
    }
}

fn read_within(stream: &mut TcpStream, wait: Duration) -> io::Result<Option<Vec<u8>>> {
    // A time-out of zero would mean none.
    stream.set_read_timeout(Some(wait.max(Duration::from_millis(1))))?;
    match read_some(stream) {
        Ok(bytes) => Ok(Some(bytes)),
        Err(error) if matches!(error.kind(), ErrorKind::WouldBlock | ErrorKind::TimedOut) => {
            Ok(None)
        }
        Err(error) => Err(error),
    }
}

/// The next bytes, none at the end.
fn read_some(from: &mut impl Read) -> io::Result<Vec<u8>> {
    let mut space = [0; CHUNK];
    loop {
        match from.read(&mut space) {
            Err(error) if error.kind() == ErrorKind::Interrupted => {}
            read => return read.map(|count| space[..count].to_vec()),
        }
    }
}

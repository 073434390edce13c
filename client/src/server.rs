//! What serves the other end of the socket, and how it is brought to its end.

use std::ffi::OsStr;
use std::io;
use std::net::Shutdown;
use std::os::fd::OwnedFd;
use std::os::unix::net::UnixStream;
use std::os::unix::process::CommandExt;
use std::process::{Child, Command, Stdio};
use std::thread;
use std::time::{Duration, Instant};

/// A process whose input has ended and that has not ended after this time is killed.
const PATIENCE: Duration = Duration::from_secs(2);

pub(crate) enum Server {
    /// Somebody else's: only the connection is closed.
    Peer,
    Process(Child),
    #[cfg(feature = "linked")]
    Thread(Option<thread::JoinHandle<()>>),
}

impl Server {
    /// A process whose standard input and output are the other end of a socket. It is in a group of
    /// its own: Ctrl-C at a terminal is the host's, which may still have calls to make.
    pub(crate) fn spawn(
        program: &OsStr,
        arguments: impl IntoIterator<Item = impl AsRef<OsStr>>,
    ) -> io::Result<(Server, UnixStream)> {
        let (ours, theirs) = UnixStream::pair()?;
        let input = OwnedFd::from(theirs.try_clone()?);
        let child = Command::new(program)
            .args(arguments)
            .process_group(0)
            .stdin(Stdio::from(input))
            .stdout(Stdio::from(OwnedFd::from(theirs)))
            .spawn()
            .map_err(|error| {
                let program = program.to_string_lossy();
                io::Error::new(error.kind(), format!("{program} cannot be started: {error}"))
            })?;
        Ok((Server::Process(child), ours))
    }

    /// Ends the input and the output, so that it ends even where an answer is still owed, and waits
    /// for the end.
    pub(crate) fn end(&mut self, stream: &UnixStream) {
        // It fails only where the other end is closed already.
        let _ = stream.shutdown(Shutdown::Both);
        match self {
            Server::Peer => {}
            Server::Process(child) => reap(child),
            #[cfg(feature = "linked")]
            Server::Thread(thread) => {
                // An engine does not unwind; and there is nobody to tell it here.
                let _ = thread.take().map(thread::JoinHandle::join);
            }
        }
    }

    /// Gives it up without waiting: a process is killed, a thread ends by itself once it finds its
    /// input closed.
    pub(crate) fn abandon(&mut self, stream: &UnixStream) {
        let _ = stream.shutdown(Shutdown::Both);
        if let Server::Process(mut child) = std::mem::replace(self, Server::Peer) {
            let _ = child.kill();
            let _ = child.wait();
        }
    }
}

fn reap(child: &mut Child) {
    let began = Instant::now();
    while began.elapsed() < PATIENCE {
        match child.try_wait() {
            Ok(None) => thread::sleep(Duration::from_millis(1)),
            Ok(Some(_)) | Err(_) => return,
        }
    }
    let _ = child.kill();
    let _ = child.wait();
}

//! A line on a local socket: one peer at a time, a second one is closed at once.

use super::port::{unix_listener, Port};
use crate::sys::{self, POLLERR, POLLHUP, POLLRDHUP};
use std::fs::{self, File};
use std::os::fd::{AsRawFd, OwnedFd, RawFd};
use std::os::unix::net::UnixListener;
use std::path::{Path, PathBuf};

pub struct Unix {
    listener: UnixListener,
    path: PathBuf,
}

pub fn open(path: &Path) -> Result<(Port, Option<File>), String> {
    let listener = unix_listener(path)?;
    Ok((Port::Unix(Unix { listener, path: path.to_path_buf() }), None))
}

impl Unix {
    pub fn descriptor(&self) -> RawFd {
        self.listener.as_raw_fd()
    }

    pub fn accept(&mut self) -> Option<File> {
        let (stream, _) = self.listener.accept().ok()?;
        stream.set_nonblocking(true).ok()?;
        Some(File::from(OwnedFd::from(stream)))
    }

    /// Closes the peers that wait, and tells how many.
    pub fn refuse(&mut self) -> u64 {
        std::iter::from_fn(|| self.listener.accept().ok()).take(8).count() as u64
    }

    pub fn close(&mut self) {
        // It may be gone already, which is what is wanted.
        let _ = fs::remove_file(&self.path);
    }
}

/// Whether the peer has ended its side, also where bytes of it are still to be read.
pub fn has_left(stream: &File) -> bool {
    sys::poll_one(stream.as_raw_fd(), POLLRDHUP) & (POLLRDHUP | POLLHUP | POLLERR) != 0
}

//! Where the stream of a line comes from.

use super::{pty, tty, unix};
use std::fs;
use std::io::ErrorKind;
use std::os::fd::RawFd;
use std::os::unix::fs::FileTypeExt;
use std::os::unix::net::{UnixListener, UnixStream};
use std::path::Path;

pub enum Port {
    Tty(tty::Tty),
    Unix(unix::Unix),
    Pty(pty::Pty),
}

impl Port {
    /// What tells that a peer comes or leaves, -1 where nothing does. While a peer is on its way
    /// out, the next one waits.
    pub fn descriptor(&self, ending: bool) -> RawFd {
        match self {
            Port::Unix(port) if !ending => port.descriptor(),
            Port::Pty(port) => port.descriptor(),
            Port::Unix(_) | Port::Tty(_) => -1,
        }
    }

    pub fn close(&mut self) {
        match self {
            Port::Unix(port) => port.close(),
            Port::Pty(port) => port.close(),
            Port::Tty(_) => {}
        }
    }
}

/// Listens at a path. A socket that nobody serves any more is replaced, anything else is not.
pub fn unix_listener(path: &Path) -> Result<UnixListener, String> {
    let shown = path.display();
    match fs::symlink_metadata(path) {
        Ok(found) if !found.file_type().is_socket() => {
            return Err(format!(
                "{shown} is there and is no socket; move it away or name another path"
            ));
        }
        Ok(_) if UnixStream::connect(path).is_ok() => {
            return Err(format!(
                "{shown} is served by another process; end that one or name another path"
            ));
        }
        Ok(_) => {
            fs::remove_file(path).map_err(|error| format!("{shown} cannot be replaced: {error}"))?
        }
        Err(error) if error.kind() == ErrorKind::NotFound => {}
        Err(error) => return Err(format!("{shown} cannot be looked at: {error}")),
    }
    let listener = UnixListener::bind(path).map_err(|error| {
        format!("{shown} cannot be made: {error}; its directory must be there and writable")
    })?;
    listener.set_nonblocking(true).map_err(|error| format!("{shown}: {error}"))?;
    Ok(listener)
}

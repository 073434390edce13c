//! A line on a pseudo-terminal: a link leads to its slave, which is raw before anyone can open it,
//! and is kept open here so that the master never hangs up. Who opens and closes it is watched.

use super::port::Port;
use crate::sys::{self, Parity, IN_CLOSE, IN_OPEN, O_NOCTTY, POLLIN};
use std::fs::{self, File, OpenOptions};
use std::io::ErrorKind;
use std::os::fd::{AsRawFd, RawFd};
use std::os::unix::fs::{symlink, OpenOptionsExt};
use std::path::{Path, PathBuf};

pub struct Pty {
    slave: File,
    slave_path: PathBuf,
    link: PathBuf,
    /// None where the system cannot watch files; then a gap alone ends a half string.
    watch: Option<File>,
    opened: u32,
    /// Set when the last peer has closed, until what it sent is read.
    left: bool,
}

pub fn open(link: &Path) -> Result<(Port, Option<File>), String> {
    let trouble = |error| format!("a pseudo-terminal cannot be made: {error}");
    let (master, slave_path) = sys::open_pty().map_err(trouble)?;
    let slave_path = PathBuf::from(slave_path);
    let slave = OpenOptions::new()
        .read(true)
        .write(true)
        .custom_flags(O_NOCTTY)
        .open(&slave_path)
        .map_err(trouble)?;
    // A pseudo-terminal has no speed and no parity; any will do.
    sys::set_raw(&slave, 9600, Parity::None).map_err(trouble)?;
    let watch = sys::watch_opens(&slave_path).ok();
    let link = link.to_path_buf();
    link_to(&slave_path, &link)?;
    let port = Pty { slave, slave_path, link, watch, opened: 0, left: false };
    Ok((Port::Pty(port), Some(master)))
}

/// Makes the link, in place of one that was left; nothing but a link is replaced.
fn link_to(slave: &Path, link: &Path) -> Result<(), String> {
    let shown = link.display();
    match fs::symlink_metadata(link) {
        Ok(found) if !found.file_type().is_symlink() => {
            return Err(format!(
                "{shown} is there and is no link; move it away or name another path"
            ));
        }
        Ok(_) => {
            fs::remove_file(link).map_err(|error| format!("{shown} cannot be replaced: {error}"))?
        }
        Err(error) if error.kind() == ErrorKind::NotFound => {}
        Err(error) => return Err(format!("{shown} cannot be looked at: {error}")),
    }
    symlink(slave, link).map_err(|error| {
        format!("{shown} cannot be made: {error}; its directory must be there and writable")
    })
}

impl Pty {
    pub fn descriptor(&self) -> RawFd {
        self.watch.as_ref().map_or(-1, AsRawFd::as_raw_fd)
    }

    /// Looks at who has opened and closed the slave; whether the last one has closed it.
    pub fn peer_left(&mut self) -> bool {
        let Some(watch) = &self.watch else { return false };
        let (mut opened, mut left) = (self.opened, false);
        sys::watched_events(watch, |mask| {
            if mask & IN_OPEN != 0 {
                opened += 1;
            } else if mask & IN_CLOSE != 0 {
                opened = opened.saturating_sub(1);
                left = left || opened == 0;
            }
        });
        self.opened = opened;
        self.left = self.left || left;
        left
    }

    /// Whether the last peer has left, nobody has come since, and all that it sent is read. It is
    /// told once.
    pub fn is_left(&mut self, master: Option<&File>) -> bool {
        let unread = master.is_some_and(|file| sys::poll_one(file.as_raw_fd(), POLLIN) != 0);
        if !self.left || unread {
            return false;
        }
        self.left = false;
        self.opened == 0
    }

    /// Drops the answers that nobody has read.
    pub fn drop_unread(&self) {
        sys::flush_terminal_input(&self.slave);
    }

    pub fn close(&mut self) {
        if fs::read_link(&self.link).is_ok_and(|slave| slave == self.slave_path) {
            let _ = fs::remove_file(&self.link);
        }
    }
}

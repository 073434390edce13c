//! A line on a serial device. Where it is lost, it is opened again each second.

use super::port::Port;
use crate::sys::{self, Parity, O_NOCTTY, O_NONBLOCK};
use std::fs::{File, OpenOptions};
use std::io;
use std::os::unix::fs::OpenOptionsExt;
use std::path::{Display, Path, PathBuf};

const PAUSE_MS: u64 = 1_000;

pub struct Tty {
    path: PathBuf,
    baud: u32,
    parity: Parity,
    retry: u64,
}

pub fn open(path: &Path, baud: u32, parity: Parity) -> Result<(Port, Option<File>), String> {
    let port = Tty { path: path.to_path_buf(), baud, parity, retry: 0 };
    let stream = port.device().map_err(|error| {
        format!(
            "the line {} cannot be opened: {error}; name a serial device that this user may use",
            path.display()
        )
    })?;
    Ok((Port::Tty(port), Some(stream)))
}

impl Tty {
    fn device(&self) -> io::Result<File> {
        let device = OpenOptions::new()
            .read(true)
            .write(true)
            .custom_flags(O_NOCTTY | O_NONBLOCK)
            .open(&self.path)?;
        sys::set_raw(&device, self.baud, self.parity)?;
        sys::set_exclusive(&device)?;
        sys::flush_terminal(&device);
        Ok(device)
    }

    pub fn name(&self) -> Display<'_> {
        self.path.display()
    }

    pub fn lose(&mut self, now: u64) {
        self.retry = now + PAUSE_MS;
    }

    pub fn reopen(&mut self, now: u64) -> Option<File> {
        if now < self.retry {
            return None;
        }
        self.retry = now + PAUSE_MS;
        self.device().ok()
    }
}

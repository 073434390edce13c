//! Signals, read from a descriptor by the loop. Also as process 1, which the system does not end by
//! signals of itself.

use crate::sys::{self, SIGHUP, SIGINT, SIGTERM, SIGUSR1};
use std::fs::File;
use std::io;
use std::os::fd::{AsRawFd, RawFd};

#[derive(Clone, Copy, Debug, PartialEq, Eq)]
pub enum Signal {
    End,
    Metrics,
}

pub struct Signals {
    descriptor: File,
}

impl Signals {
    /// To be made before any thread: threads take their parent's blocked signals over. (std ignores
    /// SIGPIPE already.)
    pub fn new() -> io::Result<Signals> {
        sys::ignore_signal(SIGHUP);
        Ok(Signals { descriptor: sys::signal_descriptor(&[SIGTERM, SIGINT, SIGUSR1])? })
    }

    pub fn descriptor(&self) -> RawFd {
        self.descriptor.as_raw_fd()
    }

    pub fn next(&self) -> Option<Signal> {
        match sys::next_signal(&self.descriptor)? {
            SIGUSR1 => Some(Signal::Metrics),
            _ => Some(Signal::End),
        }
    }
}

//! What can go wrong with a call.

use crate::Refusal;
use std::{fmt, io};

#[derive(Debug)]
pub enum Error {
    /// The engine refused; the drive is as it was, and the engine takes further calls.
    Refused(Refusal),
    /// The engine could not be started, or has ended. It takes no further call.
    Io(io::Error),
    /// What came is no answer of the protocol, or calls were made out of turn. The sentence says
    /// which. After a bad answer the engine takes no further call.
    Protocol(&'static str),
}

impl fmt::Display for Error {
    fn fmt(&self, f: &mut fmt::Formatter) -> fmt::Result {
        match self {
            Error::Refused(refusal) => refusal.fmt(f),
            Error::Io(error) => write!(f, "the engine cannot be reached: {error}"),
            Error::Protocol(sentence) => f.write_str(sentence),
        }
    }
}

impl std::error::Error for Error {
    fn source(&self) -> Option<&(dyn std::error::Error + 'static)> {
        match self {
            Error::Refused(refusal) => Some(refusal),
            Error::Io(error) => Some(error),
            Error::Protocol(_) => None,
        }
    }
}

impl From<Refusal> for Error {
    fn from(refusal: Refusal) -> Error {
        Error::Refused(refusal)
    }
}

impl From<io::Error> for Error {
    fn from(error: io::Error) -> Error {
        Error::Io(error)
    }
}

//! What is done before the loop: the state directory, the memory files, the engines.

use crate::drive::Drive;
use crate::log::Log;
use crate::options::Options;
use crate::store::Store;
use cuminhamper::{Engine, Error, Refusal};
use std::fs::{File, TryLockError};
use std::path::Path;

/// Holds the state directory for this gateway alone; the system lets it go when the process ends.
pub fn lock(directory: &Path) -> Result<File, String> {
    let shown = directory.display();
    if !directory.is_dir() {
        return Err(format!("the state directory {shown} is not there; make it, or name another"));
    }
    let file = File::options()
        .write(true)
        .create(true)
        .truncate(false)
        .open(directory.join(".lock"))
        .map_err(|error| {
            format!(
                "the state directory {shown} cannot be written to: {error}; let this user write \
                 there, or name another"
            )
        })?;
    match file.try_lock() {
        Ok(()) => Ok(file),
        Err(TryLockError::WouldBlock) => Err(format!(
            "the state directory {shown} is used by another gateway; end that one, or name another"
        )),
        Err(TryLockError::Error(error)) => {
            Err(format!("the state directory {shown} cannot be locked: {error}"))
        }
    }
}

/// The drives with their memory, each served by an engine.
pub fn drives(options: &Options, log: &Log) -> Result<Vec<Drive>, String> {
    let mut images = Vec::new();
    for name in &options.addresses {
        let store = Store::new(&options.state, *name);
        images.push((*name, store.load()?, store));
    }
    let mut drives = Vec::new();
    for (place, (name, image, store)) in images.into_iter().enumerate() {
        let engine = engine(options)
            .map_err(|error| format!("the engine of drive {name:02} cannot be started: {error}"))?;
        let drive =
            Drive::new(place, name, engine, image.as_deref()).map_err(|error| match error {
                Error::Refused(Refusal::Image) => store.no_image(),
                error => format!("drive {name:02} cannot be made: {error}"),
            })?;
        tell(&drive, image.is_some(), &store, log);
        drives.push(drive);
    }
    warn_of_equal_addresses(&drives, log);
    Ok(drives)
}

/// Both of two such drives hear a WS,AD, so no string can part them.
fn warn_of_equal_addresses(drives: &[Drive], log: &Log) {
    for (place, drive) in drives.iter().enumerate() {
        let same = drives[..place].iter().find(|other| other.address() == drive.address());
        if let Some(other) = same {
            let (one, two, address) = (other.name, drive.name, drive.address());
            log.warning(format!(
                "{one:02}.image and {two:02}.image both have address {address:02}, so no answer of \
                 theirs is sent: end the gateway and give one of them another address \
                 (docs/OPERATIONS.md, Memory)"
            ));
        }
    }
}

fn tell(drive: &Drive, loaded: bool, store: &Store, log: &Log) {
    let (name, address, path) = (drive.name, drive.address(), store.path());
    let path = path.display();
    match loaded {
        false => log.info(format!("drive {name:02} is a fresh one: {path} is not there")),
        true if name == address => log.info(format!("drive {name:02} is loaded from {path}")),
        true => log.warning(format!(
            "drive {name:02} is loaded from {path} and has address {address:02}, set by WS,AD"
        )),
    }
}

#[cfg(feature = "linked")]
fn engine(options: &Options) -> Result<Engine, Error> {
    match &options.engine {
        Some(words) => Engine::spawn(&words[0], &words[1..]),
        None => Engine::start(),
    }
}

#[cfg(not(feature = "linked"))]
fn engine(options: &Options) -> Result<Engine, Error> {
    match &options.engine {
        Some(words) => Engine::spawn(&words[0], &words[1..]),
        None => Err(Error::Protocol("no engine is linked in, so --engine is needed")),
    }
}

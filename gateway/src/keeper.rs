//! Keeps images in a thread of its own, since a sync of the disk takes milliseconds. Of several
//! images of one drive that come meanwhile the last is kept; one that cannot be kept is tried again
//! each second.

use crate::log::{Level, Log};
use crate::store::Store;
use std::io;
use std::sync::{Arc, Condvar, Mutex, MutexGuard};
use std::thread;
use std::time::{Duration, Instant};

/// The pause before an image is written, in which further changes come, and between trials.
const SETTLE: Duration = Duration::from_millis(50);
const AGAIN: Duration = Duration::from_secs(1);

pub struct Keeper {
    shared: Arc<Shared>,
}

struct Shared {
    state: Mutex<State>,
    changed: Condvar,
}

#[derive(Default)]
struct State {
    /// For each drive the image that is to be kept.
    pending: Vec<Option<Vec<u8>>>,
    /// Whether one is being written at this moment.
    writing: bool,
    ending: bool,
    saves: u64,
    errors: u64,
}

impl Keeper {
    pub fn start(stores: Vec<Store>, log: Arc<Log>) -> io::Result<Keeper> {
        let pending = stores.iter().map(|_| None).collect();
        let state = Mutex::new(State { pending, ..State::default() });
        let shared = Arc::new(Shared { state, changed: Condvar::new() });
        let theirs = shared.clone();
        thread::Builder::new().name("keeper".into()).spawn(move || theirs.serve(&stores, &log))?;
        Ok(Keeper { shared })
    }

    /// The image of a drive is to be kept.
    pub fn keep(&self, place: usize, image: Vec<u8>) {
        self.shared.lock().pending[place] = Some(image);
        self.shared.changed.notify_all();
    }

    /// Images kept, and trials that failed.
    pub fn counts(&self) -> (u64, u64) {
        let state = self.shared.lock();
        (state.saves, state.errors)
    }

    /// Has what is left written at once, and waits for it, but not long. False where something
    /// could not be kept.
    pub fn finish(&self, patience: Duration) -> bool {
        let until = Instant::now() + patience;
        let mut state = self.shared.lock();
        state.ending = true;
        self.shared.changed.notify_all();
        while state.unkept() && state.ending {
            let left = until.saturating_duration_since(Instant::now());
            if left.is_zero() {
                return false;
            }
            state = self.shared.wait(state, left);
        }
        !state.unkept()
    }
}

impl State {
    fn unkept(&self) -> bool {
        self.writing || self.pending.iter().any(Option::is_some)
    }
}

impl Shared {
    fn lock(&self) -> MutexGuard<'_, State> {
        self.state.lock().unwrap_or_else(|poisoned| poisoned.into_inner())
    }

    fn wait<'a>(&self, state: MutexGuard<'a, State>, time: Duration) -> MutexGuard<'a, State> {
        match self.changed.wait_timeout(state, time) {
            Ok((state, _)) => state,
            Err(poisoned) => poisoned.into_inner().0,
        }
    }

    fn serve(&self, stores: &[Store], log: &Log) {
        loop {
            let mut state = self.lock();
            while !state.unkept() && !state.ending {
                state = self.wait(state, AGAIN);
            }
            self.pause(state, SETTLE);
            let kept = self.write_all(stores, log);
            let mut state = self.lock();
            if state.ending && (!kept || !state.unkept()) {
                // What fails at the end is not tried again.
                state.ending = false;
                self.changed.notify_all();
                return;
            }
            if !kept {
                self.pause(state, AGAIN);
            }
        }
    }

    /// Lets a time pass, unless the end comes.
    fn pause(&self, mut state: MutexGuard<'_, State>, time: Duration) {
        let until = Instant::now() + time;
        while !state.ending && Instant::now() < until {
            let left = until.saturating_duration_since(Instant::now());
            state = self.wait(state, left);
        }
    }

    /// Writes what is to be kept; whether all of it could be.
    fn write_all(&self, stores: &[Store], log: &Log) -> bool {
        let mut all = true;
        for (place, store) in stores.iter().enumerate() {
            let mut state = self.lock();
            let Some(image) = state.pending[place].take() else { continue };
            state.writing = true;
            drop(state);
            let result = store.save(&image);
            all = all && result.is_ok();
            self.written(place, image, store, result, log);
        }
        all
    }

    fn written(
        &self,
        place: usize,
        image: Vec<u8>,
        store: &Store,
        result: io::Result<()>,
        log: &Log,
    ) {
        let mut state = self.lock();
        state.writing = false;
        match result {
            Ok(()) => state.saves += 1,
            Err(error) => {
                state.errors += 1;
                // A newer one may have come meanwhile.
                state.pending[place].get_or_insert(image);
                let path = store.path();
                let text = format!(
                    "{} cannot be kept: {error}; it is tried again each second",
                    path.display()
                );
                log.repeated("keeping", Level::Error, text);
            }
        }
        self.changed.notify_all();
    }
}

#[cfg(test)]
mod tests {
    use super::*;
    use std::fs;
    use std::path::{Path, PathBuf};

    const PATIENCE: Duration = Duration::from_secs(5);

    fn directory(name: &str) -> PathBuf {
        let path = std::env::temp_dir().join(format!("keeper-{}-{name}", std::process::id()));
        fs::create_dir(&path).unwrap();
        path
    }

    fn keeper(path: &Path) -> Keeper {
        let stores = vec![Store::new(path, 1), Store::new(path, 2)];
        Keeper::start(stores, Arc::new(Log::new().unwrap())).unwrap()
    }

    fn wait_for(done: impl Fn() -> bool) {
        let until = Instant::now() + PATIENCE;
        while !done() && Instant::now() < until {
            thread::sleep(Duration::from_millis(5));
        }
        assert!(done());
    }

    #[test]
    fn the_last_of_several_images_is_kept() {
        let path = directory("several");
        let keeper = keeper(&path);
        for image in [&b"one"[..], b"two", b"three"] {
            keeper.keep(0, image.to_vec());
        }
        wait_for(|| keeper.counts() == (1, 0));
        assert_eq!(fs::read(path.join("01.image")).unwrap(), b"three");
        assert!(keeper.finish(PATIENCE));
        fs::remove_dir_all(path).unwrap();
    }

    #[test]
    fn the_end_keeps_what_is_left() {
        let path = directory("left");
        let keeper = keeper(&path);
        keeper.keep(0, b"one".to_vec());
        keeper.keep(1, b"two".to_vec());
        assert!(keeper.finish(PATIENCE));
        assert_eq!(keeper.counts(), (2, 0));
        assert_eq!(fs::read(path.join("02.image")).unwrap(), b"two");
        fs::remove_dir_all(path).unwrap();
    }

    #[test]
    fn what_cannot_be_kept_is_tried_again() {
        let path = directory("again");
        let keeper = keeper(&path);
        fs::remove_dir(&path).unwrap();
        keeper.keep(0, b"one".to_vec());
        wait_for(|| keeper.counts() == (0, 1));
        fs::create_dir(&path).unwrap();
        wait_for(|| keeper.counts().0 == 1);
        assert_eq!(fs::read(path.join("01.image")).unwrap(), b"one");
        fs::remove_dir_all(path).unwrap();
    }

    #[test]
    fn an_end_that_cannot_keep_says_so() {
        let path = directory("fails");
        let keeper = keeper(&path);
        fs::remove_dir(&path).unwrap();
        keeper.keep(0, b"one".to_vec());
        assert!(!keeper.finish(PATIENCE));
    }
}

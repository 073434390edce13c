//! The log: a line a record on standard error, one write each. A thread writes, so that a reader of
//! the log that stands still does not hold the clock up; what does not fit its queue is counted.

use std::collections::BTreeMap;
use std::fmt;
use std::io::{self, Write};
use std::sync::mpsc::{sync_channel, Receiver, SyncSender, TrySendError};
use std::sync::Mutex;
use std::thread;
use std::time::{Duration, Instant, SystemTime, UNIX_EPOCH};

const QUEUE: usize = 256;
/// Repeated records come at most once in this time.
const PAUSE: Duration = Duration::from_secs(1);
/// So long the end waits for the last records to be written.
const LAST: Duration = Duration::from_millis(200);

#[derive(Clone, Copy)]
pub enum Level {
    Info,
    Warning,
    Error,
}

impl fmt::Display for Level {
    fn fmt(&self, f: &mut fmt::Formatter) -> fmt::Result {
        f.write_str(match self {
            Level::Info => "info",
            Level::Warning => "warning",
            Level::Error => "error",
        })
    }
}

pub struct Log {
    inner: Mutex<Inner>,
    done: Mutex<Receiver<()>>,
}

struct Inner {
    queue: Option<SyncSender<String>>,
    lost: u64,
    repeated: BTreeMap<&'static str, Repeated>,
}

/// A record that may come often: when it was last written, and what has come since.
struct Repeated {
    written: Instant,
    held: u64,
    level: Level,
    text: String,
}

impl Log {
    pub fn new() -> io::Result<Log> {
        let (queue, records) = sync_channel::<String>(QUEUE);
        let (finished, done) = sync_channel(1);
        thread::Builder::new().name("log".into()).spawn(move || {
            for record in records {
                // Where standard error takes nothing there is nobody to tell.
                let _ = io::stderr().write_all(record.as_bytes());
            }
            let _ = finished.send(());
        })?;
        let inner = Inner { queue: Some(queue), lost: 0, repeated: BTreeMap::new() };
        Ok(Log { inner: Mutex::new(inner), done: Mutex::new(done) })
    }

    pub fn info(&self, text: impl fmt::Display) {
        self.lock().write(Level::Info, &text.to_string());
    }

    pub fn warning(&self, text: impl fmt::Display) {
        self.lock().write(Level::Warning, &text.to_string());
    }

    pub fn error(&self, text: impl fmt::Display) {
        self.lock().write(Level::Error, &text.to_string());
    }

    /// A record that may come often: at most one a second of each kind is written, with how many
    /// there were.
    pub fn repeated(&self, kind: &'static str, level: Level, text: impl fmt::Display) {
        self.lock().repeat(kind, level, text.to_string(), Instant::now());
    }

    /// Writes what was held back for a second.
    pub fn settle(&self) {
        self.lock().settle(Instant::now());
    }

    /// Writes all that is left; the log takes nothing afterwards.
    pub fn close(&self) {
        {
            let mut inner = self.lock();
            inner.settle(Instant::now() + PAUSE);
            inner.queue = None;
        }
        if let Ok(done) = self.done.lock() {
            let _ = done.recv_timeout(LAST);
        }
    }

    fn lock(&self) -> std::sync::MutexGuard<'_, Inner> {
        self.inner.lock().unwrap_or_else(|poisoned| poisoned.into_inner())
    }
}

impl Inner {
    fn write(&mut self, level: Level, text: &str) {
        let Some(queue) = &self.queue else { return };
        let time = timestamp(SystemTime::now());
        let missing = match self.lost {
            0 => String::new(),
            lost => format!(" ({lost} records before this one were lost)"),
        };
        // A record is one line, whatever a file or a peer is called.
        let text = text.replace(|sign: char| sign.is_control(), " ");
        match queue.try_send(format!("{time} {level} {text}{missing}\n")) {
            Ok(()) => self.lost = 0,
            Err(TrySendError::Full(_) | TrySendError::Disconnected(_)) => self.lost += 1,
        }
    }

    fn repeat(&mut self, kind: &'static str, level: Level, text: String, now: Instant) {
        match self.repeated.get_mut(kind) {
            Some(repeated) if now < repeated.written + PAUSE => {
                (repeated.held, repeated.text) = (repeated.held + 1, text);
            }
            _ => {
                self.settle(now);
                self.write(level, &text);
                self.repeated.insert(kind, Repeated { written: now, held: 0, level, text });
            }
        }
    }

    fn settle(&mut self, now: Instant) {
        let due = |repeated: &Repeated| repeated.held > 0 && now >= repeated.written + PAUSE;
        let kinds: Vec<&'static str> =
            self.repeated.iter().filter(|(_, found)| due(found)).map(|(kind, _)| *kind).collect();
        for kind in kinds {
            let Some(repeated) = self.repeated.get_mut(kind) else { continue };
            let (level, text) =
                (repeated.level, format!("{} ({} of these)", repeated.text, repeated.held));
            (repeated.held, repeated.written) = (0, now);
            self.write(level, &text);
        }
    }
}

/// A time as 2026-11-18T01:32:02.123Z.
fn timestamp(time: SystemTime) -> String {
    let since = time.duration_since(UNIX_EPOCH).unwrap_or_default();
    let seconds = since.as_secs();
    let (year, month, day) = date(seconds / 86_400);
    let (hour, minute, second) = (seconds / 3600 % 24, seconds / 60 % 60, seconds % 60);
    let millisecond = since.subsec_millis();
    format!("{year:04}-{month:02}-{day:02}T{hour:02}:{minute:02}:{second:02}.{millisecond:03}Z")
}

/// Year, month and day of a day counted from 1970-01-01. Years are counted from March, so that the
/// day that is not always there is the last.
fn date(day: u64) -> (u64, u64, u64) {
    let day = day + 719_468;
    let (era, day) = (day / 146_097, day % 146_097);
    let year = (day - day / 1460 + day / 36_524 - day / 146_096) / 365;
    let day = day - (365 * year + year / 4 - year / 100);
    let month = (5 * day + 2) / 153;
    let day = day - (153 * month + 2) / 5 + 1;
    let (month, later) = if month < 10 { (month + 3, 0) } else { (month - 9, 1) };
    (era * 400 + year + later, month, day)
}

#[cfg(test)]
mod tests {
    use super::*;

    #[test]
    fn dates() {
        assert_eq!(date(0), (1970, 1, 1));
        assert_eq!(date(11_016), (2000, 2, 29));
        assert_eq!(date(11_017), (2000, 3, 1));
        assert_eq!(date(20_775), (2026, 11, 18));
        assert_eq!(date(24_836), (2037, 12, 31));
    }

    #[test]
    fn time_of_a_record() {
        let time = UNIX_EPOCH + Duration::from_millis(20_775 * 86_400_000 + 5_522_123);
        assert_eq!(timestamp(time), "2026-11-18T01:32:02.123Z");
    }

    #[test]
    fn repeated_records_are_counted() {
        let (queue, records) = sync_channel(8);
        let mut inner = Inner { queue: Some(queue), lost: 0, repeated: BTreeMap::new() };
        let began = Instant::now();
        for _ in 0..5 {
            inner.repeat("a", Level::Warning, "trouble".into(), began);
        }
        inner.settle(began + PAUSE / 2);
        assert!(records.try_recv().unwrap().ends_with(" warning trouble\n"));
        assert!(records.try_recv().is_err());
        inner.settle(began + PAUSE);
        assert!(records.try_recv().unwrap().ends_with(" warning trouble (4 of these)\n"));
        inner.settle(began + 3 * PAUSE);
        assert!(records.try_recv().is_err());
    }

    #[test]
    fn a_full_queue_counts_what_it_lost() {
        let (queue, records) = sync_channel(1);
        let mut inner = Inner { queue: Some(queue), lost: 0, repeated: BTreeMap::new() };
        for text in ["one", "two", "three"] {
            inner.write(Level::Info, text);
        }
        assert!(records.try_recv().unwrap().ends_with(" info one\n"));
        inner.write(Level::Info, "four\nlines");
        let record = records.try_recv().unwrap();
        assert!(record.ends_with(" info four lines (2 records before this one were lost)\n"));
    }
}

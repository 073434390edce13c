//! Writes the trace and the metrics outside the loop. What comes faster than it is written is
//! dropped: neither may hold the clock up.

use crate::log::{Level, Log};
use std::fs::{self, File, OpenOptions};
use std::io::{self, Write};
use std::path::{Path, PathBuf};
use std::sync::mpsc::{sync_channel, Receiver, SyncSender};
use std::sync::Arc;
use std::thread;
use std::time::Duration;

const QUEUE: usize = 64;
/// The trace is in two files in turn, each of at most so many bytes.
const TRACE_BYTES: u64 = 4 << 20;
/// So long the end waits for the last of it.
const LAST: Duration = Duration::from_millis(200);

pub enum Portion {
    Trace(String),
    Metrics(String),
}

pub struct Files {
    queue: Option<SyncSender<Portion>>,
    done: Receiver<()>,
}

impl Files {
    pub fn start(
        trace: Option<&Path>,
        metrics: Option<&Path>,
        log: Arc<Log>,
    ) -> Result<Files, String> {
        let trace = trace.map(TraceFile::create).transpose()?;
        let metrics = metrics.map(Path::to_path_buf);
        let (queue, portions) = sync_channel(QUEUE);
        let (finished, done) = sync_channel(1);
        let mut writer = Writer { trace, metrics, log };
        thread::Builder::new()
            .name("files".into())
            .spawn(move || {
                for portion in portions {
                    writer.write(portion);
                }
                let _ = finished.send(());
            })
            .map_err(|error| format!("a thread cannot be started: {error}"))?;
        Ok(Files { queue: Some(queue), done })
    }

    /// False where there is no room for it.
    pub fn write(&self, portion: Portion) -> bool {
        self.queue.as_ref().is_some_and(|queue| queue.try_send(portion).is_ok())
    }

    pub fn finish(&mut self) {
        self.queue = None;
        let _ = self.done.recv_timeout(LAST);
    }
}

struct Writer {
    trace: Option<TraceFile>,
    metrics: Option<PathBuf>,
    log: Arc<Log>,
}

impl Writer {
    fn write(&mut self, portion: Portion) {
        match portion {
            Portion::Trace(text) => {
                let Some(trace) = &mut self.trace else { return };
                if let Err(error) = trace.write(&text) {
                    let path = trace.path.display();
                    self.log.repeated(
                        "trace",
                        Level::Error,
                        format!("the trace {path} cannot be written: {error}"),
                    );
                }
            }
            Portion::Metrics(text) => {
                let Some(path) = &self.metrics else { return };
                if let Err(error) = replace(path, &text) {
                    let path = path.display();
                    self.log.repeated(
                        "metrics",
                        Level::Error,
                        format!("the metrics {path} cannot be written: {error}"),
                    );
                }
            }
        }
    }
}

/// A new file takes the place of the old one whole.
fn replace(path: &Path, text: &str) -> io::Result<()> {
    let new = with_ending(path, ".new");
    fs::write(&new, text)?;
    fs::rename(&new, path)
}

fn with_ending(path: &Path, ending: &str) -> PathBuf {
    let mut name = path.as_os_str().to_os_string();
    name.push(ending);
    PathBuf::from(name)
}

struct TraceFile {
    path: PathBuf,
    file: File,
    length: u64,
}

impl TraceFile {
    fn create(path: &Path) -> Result<TraceFile, String> {
        let file = new_file(path)
            .map_err(|error| format!("the trace {} cannot be made: {error}", path.display()))?;
        Ok(TraceFile { path: path.to_path_buf(), file, length: 0 })
    }

    fn write(&mut self, text: &str) -> io::Result<()> {
        if self.length > 0 && self.length + text.len() as u64 > TRACE_BYTES {
            fs::rename(&self.path, with_ending(&self.path, ".1"))?;
            self.file = new_file(&self.path)?;
            self.length = 0;
        }
        self.length += text.len() as u64;
        self.file.write_all(text.as_bytes())
    }
}

fn new_file(path: &Path) -> io::Result<File> {
    OpenOptions::new().write(true).create(true).truncate(true).open(path)
}

#[cfg(test)]
mod tests {
    use super::*;

    #[test]
    fn the_trace_is_in_two_files_in_turn() {
        let path = std::env::temp_dir().join(format!("gateway-{}-trace", std::process::id()));
        let mut trace = TraceFile::create(&path).unwrap();
        let portion = "0,1,2,3,00000000000000\n".repeat(10_000);
        for _ in 0..60 {
            trace.write(&portion).unwrap();
        }
        let (now, before) =
            (fs::metadata(&path).unwrap(), fs::metadata(with_ending(&path, ".1")).unwrap());
        let portions = TRACE_BYTES / portion.len() as u64;
        assert_eq!(before.len(), portions * portion.len() as u64);
        assert_eq!(now.len(), (60 % portions) * portion.len() as u64);
        fs::remove_file(&path).unwrap();
        fs::remove_file(with_ending(&path, ".1")).unwrap();
    }

    #[test]
    fn a_relative_path_is_beside_itself() {
        assert_eq!(with_ending(Path::new("metrics"), ".new"), Path::new("metrics.new"));
    }
}

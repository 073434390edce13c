//! What is counted since the start, and how it is written.

use std::fmt::Write;
use std::time::Duration;

#[derive(Clone, Debug, Default, PartialEq)]
pub struct Metrics {
    /// Milliseconds of the clock that were given, and those that were not made up.
    pub ms: u64,
    pub lost: u64,
    /// The most milliseconds that the loop was late.
    pub late_max: u64,
    pub strings: u64,
    pub answers: u64,
    pub silent: u64,
    /// Peers beyond the first, and frames of boards that were not handed on.
    pub refused: u64,
    pub steps: u64,
    /// Steps that a board made and the drive did not take.
    pub overrun: u64,
    /// Bytes: of strings that were too long or not ended, and of answers that were not taken.
    pub dropped: u64,
    pub collisions: u64,
    pub saves: u64,
    pub save_errors: u64,
    pub reconnects: u64,
    /// The work of the milliseconds: how long in all, how often, and the longest.
    pub work: Duration,
    pub works: u64,
    pub work_max: Duration,
}

impl Metrics {
    /// A wake-up of the clock took so long.
    pub fn worked(&mut self, time: Duration) {
        self.work += time;
        self.works += 1;
        self.work_max = self.work_max.max(time);
    }

    fn rows(&self, uptime_ms: u64) -> [(&'static str, u64); 17] {
        let mean = self.work.as_micros() as u64 / self.works.max(1);
        [
            ("ms", self.ms),
            ("lost", self.lost),
            ("late_max", self.late_max),
            ("strings", self.strings),
            ("answers", self.answers),
            ("silent", self.silent),
            ("refused", self.refused),
            ("steps", self.steps),
            ("overrun", self.overrun),
            ("dropped", self.dropped),
            ("collisions", self.collisions),
            ("saves", self.saves),
            ("save_errors", self.save_errors),
            ("reconnects", self.reconnects),
            ("work_mean_us", mean),
            ("work_max_us", self.work_max.as_micros() as u64),
            ("uptime_ms", uptime_ms),
        ]
    }

    /// A line for each.
    pub fn lines(&self, uptime_ms: u64) -> String {
        let mut text = String::new();
        for (name, value) in self.rows(uptime_ms) {
            let _ = writeln!(text, "{name} {value}");
        }
        text
    }

    /// All in one record of the log.
    pub fn record(&self, uptime_ms: u64) -> String {
        let mut text = "metrics".to_string();
        for (name, value) in self.rows(uptime_ms) {
            let _ = write!(text, " {name} {value}");
        }
        text
    }
}

#[cfg(test)]
mod tests {
    use super::*;

    #[test]
    fn lines_and_record() {
        let mut metrics = Metrics { ms: 12, steps: 34, ..Metrics::default() };
        metrics.worked(Duration::from_micros(10));
        metrics.worked(Duration::from_micros(21));
        let lines = metrics.lines(99);
        assert_eq!(lines.lines().count(), 17);
        assert!(lines.starts_with("ms 12\nlost 0\nlate_max 0\nstrings 0\n"));
        assert!(lines.ends_with("work_mean_us 15\nwork_max_us 21\nuptime_ms 99\n"));
        assert_eq!(metrics.record(99), format!("metrics {}", lines.trim_end().replace('\n', " ")));
    }
}

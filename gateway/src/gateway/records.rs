//! What the loop has written beside its work: metrics and the trace.

use super::Gateway;
use crate::files::Portion;
use crate::log::Level;
use crate::trace;

/// So often the trace is handed on, and the metrics are written.
const TRACE_MS: u64 = 100;
const METRICS_MS: u64 = 1_000;

impl Gateway {
    pub(super) fn write_records(&mut self, now: u64) {
        if now >= self.trace_due
            || self.trace.as_ref().is_some_and(|trace| trace.length() > trace::PORTION)
        {
            self.trace_due = now + TRACE_MS;
            self.hand_on_trace();
        }
        if now < self.metrics_due {
            return;
        }
        self.metrics_due = now + METRICS_MS;
        self.write_metrics();
        self.log.settle();
    }

    pub(super) fn write_metrics(&mut self) {
        self.count_keeping();
        self.files.write(Portion::Metrics(self.metrics.lines(self.clock.now())));
    }

    /// What each drive shows at the start.
    pub(super) fn see_all(&mut self) {
        let Some(trace) = &mut self.trace else { return };
        for drive in &self.drives {
            trace.see(drive.place, 0, drive);
        }
    }

    pub(super) fn hand_on_trace(&mut self) {
        let Some(trace) = &mut self.trace else { return };
        if trace.length() > 0 && !self.files.write(Portion::Trace(trace.take())) {
            self.log.repeated(
                "trace",
                Level::Warning,
                "lines of the trace are lost: its disk is too slow",
            );
        }
    }

    /// Counts that are kept elsewhere.
    pub(super) fn count_keeping(&mut self) {
        (self.metrics.saves, self.metrics.save_errors) = self.keeper.counts();
        for drive in &mut self.drives {
            let (steps, overrun) = drive.take_counts();
            self.metrics.steps += steps;
            self.metrics.overrun += overrun;
        }
    }

    pub(super) fn log_metrics(&mut self) {
        self.count_keeping();
        self.log.info(self.metrics.record(self.clock.now()));
    }
}

//! The trace: address, milliseconds since the start, position, hertz and outputs of each drive, a
//! line where something changed. Of an even motion only its bends and a point now and then are
//! written.

use crate::drive::Drive;
use std::fmt::Write;

/// An even motion has a point at least this often.
const EVERY_MS: u64 = 20;
/// The text is handed on when it has grown so long, and each tenth of a second.
pub const PORTION: usize = 16 << 10;

#[derive(Clone, Copy, Debug, PartialEq)]
struct Point {
    ms: u64,
    position: i32,
    hertz: i32,
    outputs: u16,
}

#[derive(Default)]
struct Course {
    written: Option<Point>,
    /// The last point of an even motion that is not written yet.
    held: Option<Point>,
}

impl Course {
    /// The points to write now that another is seen.
    fn see(&mut self, point: Point) -> [Option<Point>; 2] {
        let Some(written) = self.written else {
            self.written = Some(point);
            return [None, Some(point)];
        };
        let last = self.held.unwrap_or(written);
        let bend = (point.hertz, point.outputs) != (written.hertz, written.outputs);
        if !bend && point.position == last.position {
            return [None, None];
        }
        if !bend && point.ms < written.ms + EVERY_MS {
            self.held = Some(point);
            return [None, None];
        }
        self.written = Some(point);
        [self.held.take().filter(|_| bend), Some(point)]
    }
}

pub struct Trace {
    courses: Vec<Course>,
    text: String,
}

impl Trace {
    pub fn new(drives: usize) -> Trace {
        Trace { courses: (0..drives).map(|_| Course::default()).collect(), text: String::new() }
    }

    pub fn see(&mut self, place: usize, ms: u64, drive: &Drive) {
        let outputs = drive.shown().outputs;
        let point =
            Point { ms, position: drive.position(), hertz: drive.hertz(), outputs: outputs.bits() };
        for point in self.courses[place].see(point).into_iter().flatten() {
            let Point { ms, position, hertz, outputs } = point;
            let _ = write!(self.text, "{},{ms},{position},{hertz},", drive.name);
            for place in 0..14 {
                self.text.push(if outputs >> place & 1 == 1 { '1' } else { '0' });
            }
            self.text.push('\n');
        }
    }

    pub fn length(&self) -> usize {
        self.text.len()
    }

    pub fn take(&mut self) -> String {
        std::mem::take(&mut self.text)
    }
}

#[cfg(test)]
mod tests {
    use super::*;

    fn point(ms: u64, position: i32, hertz: i32, outputs: u16) -> Point {
        Point { ms, position, hertz, outputs }
    }

    fn points(seen: &[Point]) -> Vec<Point> {
        let mut course = Course::default();
        seen.iter().flat_map(|point| course.see(*point)).flatten().collect()
    }

    #[test]
    fn what_stands_is_written_once() {
        let standing: Vec<Point> = (0..100).map(|ms| point(ms, 5, 0, 1)).collect();
        assert_eq!(points(&standing), [point(0, 5, 0, 1)]);
    }

    #[test]
    fn an_even_motion_has_its_bends() {
        let mut seen = vec![point(0, 0, 0, 0)];
        seen.extend((1..=50).map(|ms| point(ms, ms as i32, 1000, 0)));
        seen.push(point(51, 51, 1000, 1));
        seen.push(point(52, 51, 0, 1));
        let expected = [(0, 0), (1, 1), (21, 21), (41, 41), (50, 50), (51, 51), (52, 51)];
        let places: Vec<(u64, i32)> =
            points(&seen).iter().map(|point| (point.ms, point.position)).collect();
        assert_eq!(places, expected);
    }
}

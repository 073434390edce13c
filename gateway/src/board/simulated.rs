//! A simulated pulse board: an order becomes steps, at-speed and halted, a millisecond at a time.
//!
//! Speeds are in Hz, and so in thousandths of a step a millisecond; distances are in thousandths of
//! a step.

use cuminhamper::{Motion, Run};

/// 001, Table 5: the milliseconds in which a ramp code, 10 to 42, brings a motor that stands to
/// 24,000 Hz.
const TOP: f64 = 24_000.0;
const FIRST_CODE: usize = 10;
const RAMP_TIMES: [u32; 33] = [
    16, 18, 20, 22, 24, 27, 30, 32, 34, 37, 40, 44, 48, 53, 60, 68, 80, 87, 96, 107, 120, 137, 160,
    192, 206, 240, 288, 320, 360, 480, 720, 960, 1440,
];
/// A speed so near to the ordered one has got there: sums of fractions are a little off.
const NEAR: f64 = 1e-6;

#[derive(Clone, Copy, Debug, PartialEq, Eq)]
pub enum Report {
    AtSpeed,
    Halted,
}

/// Milliseconds: their steps, and what the board reports after the last.
#[derive(Clone, Copy, Debug, Default, PartialEq, Eq)]
pub struct Move {
    pub ms: u64,
    pub steps: u32,
    pub report: Option<Report>,
}

/// What a board keeps of a run: its speed, the part of a step that is on its way, the slope of its
/// ramp in Hz a millisecond (0 without), the steps left (0 where none are counted), and whether
/// at-speed is reported.
#[derive(Default)]
pub struct Simulated {
    speed: f64,
    part: f64,
    slope: f64,
    left: u32,
    reported: bool,
}

impl Simulated {
    /// An order, after the one before it. A run begins from standing, also the way back of a zero
    /// search, which comes after slowing.
    pub fn follow(&mut self, before: Motion, now: Motion) {
        match (before, now) {
            (_, Motion::Stand) => *self = Simulated::default(),
            (_, Motion::Slow) => {}
            (Motion::Run(_), Motion::Run(run)) => self.left = run.rest.unsigned_abs(),
            (Motion::Stand | Motion::Slow, Motion::Run(run)) => {
                let left = run.rest.unsigned_abs();
                *self = Simulated { slope: slope(run), left, ..Simulated::default() };
            }
        }
    }

    /// The present speed in Hz.
    pub fn hertz(&self) -> u32 {
        self.speed.round() as u32
    }

    /// The next milliseconds under an order other than standing, at most so many: up to where
    /// there is something to report, or the last step of those left is made.
    pub fn plan(&mut self, motion: Motion, most: u64) -> Move {
        let counted = self.left > 0;
        let mut planned = Move::default();
        while planned.ms < most && planned.report.is_none() && (self.left > 0 || !counted) {
            let next = self.millisecond(motion);
            planned.ms += 1;
            planned.steps += next.steps;
            planned.report = next.report;
        }
        planned
    }

    /// One millisecond. It never makes more steps than are left.
    fn millisecond(&mut self, motion: Motion) -> Move {
        match motion {
            Motion::Run(run) if self.slope > 0.0 => self.ramped(f64::from(run.hertz)),
            Motion::Run(run) => self.moved(f64::from(run.hertz), f64::from(run.hertz), None),
            Motion::Slow | Motion::Stand => self.slowed(),
        }
    }

    /// Up to the ordered speed, and never faster than the steps left allow: where they are too few,
    /// the speed drops.
    fn ramped(&mut self, hertz: f64) -> Move {
        let left = 1000.0 * f64::from(self.left) - self.part;
        let counted = self.left > 0;
        let start =
            if counted { self.speed.min((2.0 * self.slope * left).sqrt()) } else { self.speed };
        let mut end = (start + self.slope).min(hertz);
        if counted {
            end = end.min(self.braked(start, left));
        }
        if end <= 0.0 {
            return self.moved(0.0, left, None);
        }
        if end > hertz - NEAR {
            end = hertz;
        }
        let report = (end == hertz && !self.reported).then_some(Report::AtSpeed);
        self.reported = self.reported || report.is_some();
        self.moved(end, (start + end) / 2.0, report)
    }

    /// The speed at the millisecond's end from which the ramp comes down with the last step: its
    /// square is twice the slope times what is left then. Where there is none above 0, the run ends
    /// in this millisecond.
    fn braked(&self, start: f64, left: f64) -> f64 {
        let slope = self.slope;
        let under = slope * slope + 8.0 * slope * left - 4.0 * slope * start;
        (under.max(0.0).sqrt() - slope) / 2.0
    }

    /// Down the ramp to standing, then halted.
    fn slowed(&mut self) -> Move {
        let start = self.speed;
        let end = if self.slope > 0.0 { (start - self.slope).max(0.0) } else { 0.0 };
        if end > 0.0 {
            return self.moved(end, (start + end) / 2.0, None);
        }
        let way = if self.slope > 0.0 { start * start / (2.0 * self.slope) } else { 0.0 };
        self.moved(0.0, way, Some(Report::Halted))
    }

    /// The whole steps of a distance; what is over is kept for the next millisecond.
    fn moved(&mut self, speed: f64, distance: f64, report: Option<Report>) -> Move {
        self.speed = speed;
        let mut gone = self.part + distance;
        let mut steps = (gone / 1000.0) as u32;
        let all = 1000.0 * f64::from(self.left);
        if self.left > 0 && (steps >= self.left || gone > all - NEAR) {
            (steps, gone) = (self.left, all);
        }
        self.part = gone - 1000.0 * f64::from(steps);
        self.left = self.left.saturating_sub(steps);
        Move { ms: 1, steps, report }
    }
}

/// The slope of a run's ramp. 001, 5.1: x4 multiplies the acceleration too. The order does not name
/// the multiplier: above 24,000 Hz it can only be x4, and up to there the gentler ramp is taken.
fn slope(run: Run) -> f64 {
    let times = if f64::from(run.hertz) > TOP { 4.0 } else { 1.0 };
    match usize::from(run.ramp).checked_sub(FIRST_CODE).and_then(|place| RAMP_TIMES.get(place)) {
        Some(time) => TOP / f64::from(*time) * times,
        None => 0.0,
    }
}

#[cfg(test)]
mod tests {
    use super::*;

    fn run(hertz: u32, ramp: u8, rest: i32) -> Motion {
        Motion::Run(Run { backward: rest < 0, hertz, ramp, rest })
    }

    /// Milliseconds and steps until the counted steps are made.
    fn made(motion: Motion, steps: u32) -> (u32, u32) {
        let mut board = Simulated::default();
        board.follow(Motion::Stand, motion);
        let (mut time, mut sum) = (0, 0);
        while sum < steps && time < 100_000 {
            let step = board.millisecond(motion);
            (time, sum) = (time + 1, sum + step.steps);
        }
        (time, sum)
    }

    #[test]
    fn without_ramp_the_time_is_steps_over_hertz() {
        assert_eq!(made(run(500, 0, 1200), 1200), (2400, 1200));
        assert_eq!(made(run(4800, 0, -4800), 4800), (1000, 4800));
        assert_eq!(made(run(4571, 0, 4571), 4571), (1000, 4571));
    }

    #[test]
    fn a_ramp_goes_up_and_comes_down_with_the_last_step() {
        // 10 kHz at code 20 (600 Hz a millisecond): 16.7 ms and 83 steps up and down.
        let (time, steps) = made(run(10_000, 20, 10_000), 10_000);
        assert_eq!(steps, 10_000);
        assert!((1015..=1019).contains(&time), "{time}");
        // Too few steps for the speed: up and down again.
        let (time, steps) = made(run(24_000, 42, 100), 100);
        assert_eq!(steps, 100);
        assert!((153..=158).contains(&time), "{time}");
    }

    #[test]
    fn at_speed_is_reported_once_and_halted_at_standing() {
        let motion = run(10_000, 20, 0);
        let mut board = Simulated::default();
        board.follow(Motion::Stand, motion);
        let reports: Vec<usize> = (1..=100)
            .filter(|_| board.millisecond(motion).report == Some(Report::AtSpeed))
            .collect();
        assert_eq!(reports, [17]);
        assert_eq!(board.hertz(), 10_000);
        board.follow(motion, Motion::Slow);
        let moves: Vec<Move> = (0..17).map(|_| board.millisecond(Motion::Slow)).collect();
        assert_eq!(moves.iter().position(|step| step.report == Some(Report::Halted)), Some(16));
        assert_eq!(board.hertz(), 0);
        let way: u32 = moves.iter().map(|step| step.steps).sum();
        assert!((82..=84).contains(&way), "{way}");
    }

    #[test]
    fn above_24_khz_the_ramp_is_that_of_x4() {
        assert_eq!(slope(Run { backward: false, hertz: 24_000, ramp: 26, rest: 0 }), 300.0);
        assert_eq!(slope(Run { backward: false, hertz: 96_000, ramp: 26, rest: 0 }), 1200.0);
        assert_eq!(slope(Run { backward: false, hertz: 4800, ramp: 0, rest: 0 }), 0.0);
    }

    #[test]
    fn slowing_makes_no_more_than_is_left() {
        let motion = run(24_000, 42, 1_000_000);
        let mut board = Simulated::default();
        board.follow(Motion::Stand, motion);
        for _ in 0..500 {
            board.millisecond(motion);
        }
        board.left = 10;
        board.follow(motion, Motion::Slow);
        let steps = board.millisecond(Motion::Slow).steps;
        assert!(steps <= 10, "{steps}");
    }

    #[test]
    fn milliseconds_at_once_are_those_one_by_one() {
        for motion in [run(4571, 0, 3000), run(10_000, 20, 2000), run(96_000, 42, 0)] {
            let (mut one, mut many) = (Simulated::default(), Simulated::default());
            one.follow(Motion::Stand, motion);
            many.follow(Motion::Stand, motion);
            for _ in 0..6 {
                let planned = many.plan(motion, 32);
                let moves: Vec<Move> = (0..planned.ms).map(|_| one.millisecond(motion)).collect();
                assert_eq!(moves.iter().map(|step| step.steps).sum::<u32>(), planned.steps);
                assert_eq!(moves.last().unwrap().report, planned.report);
                assert!(moves.iter().rev().skip(1).all(|step| step.report.is_none()));
            }
            assert_eq!((one.left, one.part, one.speed), (many.left, many.part, many.speed));
        }
    }

    #[test]
    fn a_plan_ends_with_the_last_step() {
        let motion = run(1000, 0, 40);
        let mut board = Simulated::default();
        board.follow(Motion::Stand, motion);
        assert_eq!(board.plan(motion, 32), Move { ms: 32, steps: 32, report: None });
        assert_eq!(board.plan(motion, 32), Move { ms: 8, steps: 8, report: None });
    }
}

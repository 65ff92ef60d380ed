//! The mainline's counts: periods of 300 ticks, and what a completed one measured. What the poll record alone asks for, passages and greens
//! begun, is not counted here, nor is what the readings alone ask for: the latest and slowest speeds, and those of a lane that is not good.

/// A period's ticks.
const TICKS: u16 = 300;
pub const MAINLINE_LANES: usize = 6;
/// The two loops of a lane are 6.1 m apart: in km/h, the speed of a vehicle that takes a millisecond.
const LOOPS: u32 = 21960;

/// One mainline lane at one tick, in range.
#[derive(Clone, Copy, Default)]
pub struct Sample {
    pub working: bool,
    /// Milliseconds of the tick, 0-100.
    pub occupied: u8,
    pub vehicle: bool,
    /// Milliseconds from loop to loop, of the vehicle; 0 for none.
    pub time: u16,
}

/// A mainline lane's counts in the open period.
#[derive(Clone, Copy, Default)]
struct Counts {
    /// It did not work at some tick.
    failed: bool,
    vehicles: u16,
    /// Milliseconds.
    occupied: u16,
    /// Vehicles that were timed, and their milliseconds in all.
    timed: u16,
    millis: u32,
}

impl Counts {
    fn count(&mut self, sample: &Sample) {
        if !sample.working {
            // no more is asked of a lane that is not good
            self.failed = true;
            return;
        }
        // a time without a vehicle is ignored
        let time = if sample.vehicle { sample.time } else { 0 };
        self.vehicles += sample.vehicle as u16;
        self.occupied += sample.occupied as u16;
        self.timed += (time != 0) as u16;
        self.millis += time as u32;
    }
}

/// Over the good lanes; flow and occupancy rounded down.
pub struct Measures {
    /// Vehicles an hour per lane.
    pub flow: u16,
    /// Tenths of a percent.
    pub occupancy: u16,
    /// In km/h, where a vehicle was timed.
    pub speed: Option<f64>,
}

/// The last completed period.
pub enum Completed {
    None,
    NoGoodLane,
    Measured(Measures),
}

impl Completed {
    fn of(lanes: &[Counts]) -> Completed {
        let (mut good, mut vehicles, mut occupied, mut timed, mut millis) = (0, 0, 0, 0, 0);
        for lane in lanes.iter().filter(|lane| !lane.failed) {
            good += 1;
            vehicles += lane.vehicles as u32;
            occupied += lane.occupied as u32;
            timed += lane.timed as u32;
            millis += lane.millis;
        }
        if good == 0 {
            return Completed::NoGoodLane;
        }
        Completed::Measured(Measures {
            flow: (vehicles * 120 / good) as u16,
            occupancy: (occupied / (30 * good)) as u16,
            speed: if timed == 0 { None } else { Some((LOOPS * timed) as f64 / millis as f64) },
        })
    }
}

pub struct Periods {
    /// Of the open period.
    ticks: u16,
    open: [Counts; MAINLINE_LANES],
    pub completed: Completed,
}

impl Periods {
    pub fn new() -> Periods {
        Periods { ticks: 0, open: Default::default(), completed: Completed::None }
    }

    /// Counts a tick's samples of the site's mainline lanes; the 300th tick closes the period.
    pub fn count(&mut self, samples: &[Sample]) {
        for (counts, sample) in self.open.iter_mut().zip(samples) {
            counts.count(sample);
        }
        self.ticks += 1;
        if self.ticks == TICKS {
            self.completed = Completed::of(&self.open[..samples.len()]);
            self.open = Default::default();
            self.ticks = 0;
        }
    }
}

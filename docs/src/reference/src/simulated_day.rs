//! A whole day of ticks from power-up, and a checksum of all that the driver and the control centre see.
//! The samples come from the same small generator as those of `crates/simulated_day`.

use crate::calendar::{Clock, Date};
use crate::group::Indications;
use crate::periods::Sample;
use crate::site::{self, Site, UNUSED};
use crate::text;
use crate::tick::{poll_record, power_up, tick, Input};
use crate::tick_records::record;
use crate::wanted::lanes;
use std::io::{self, BufWriter, Write};

const TICKS: u32 = 864_000;
const SEED: u32 = 1;

/// Four lanes and six mainline lanes; metering is wanted all day, most of it responsive, and some level is always met.
pub fn site() -> Site {
    Site {
        timings: vec![4, 0, 2, 20, 60, 30, 25, 100, 50, 30, 50, 50, 15, 10, 6, 0, 0],
        entries: vec![
            [127, 0, 2, 900, 0],
            [127, 1, 3, 900, 1],
            [62, 360, 3, 600, 2],
            [127, 1140, 3, 900, 1],
            [128, 0, 1, 0, 0],
        ],
        holidays: vec![[1, 1, 1, 0, 0], [1, 7, 4, 0, 0], [2, 11, 4, 4, 0], [3, 11, 4, 4, 0], [2, 5, 5, 1, 0], [1, 12, 25, 0, 0]],
        levels: vec![
            [1, 1, UNUSED, UNUSED, 1200],
            [1, 2250, UNUSED, UNUSED, 900],
            [1, UNUSED, 470, UNUSED, 720],
            [1, UNUSED, UNUSED, 32, 600],
            [2, UNUSED, 1, UNUSED, 900],
            [2, 2400, 475, UNUSED, 450],
            [2, UNUSED, UNUSED, 31, 300],
        ],
    }
}

// Samples.

/// A Lehmer generator: numbers below 2^31.
struct Samples(u32);

fn chance(hit: bool) -> u16 {
    hit as u16
}

/// Number j of six to 31.
fn of_six(x: u32, j: usize) -> u16 {
    (x >> (5 * j) & 31) as u16
}

impl Samples {
    fn next(&mut self) -> u32 {
        self.0 = (self.0 as u64 * 16807 % 2_147_483_647) as u32;
        self.0
    }

    /// Demand, passage, and the mainline lanes.
    fn draw(&mut self) -> ([u16; 4], [u16; 4], [Sample; 6]) {
        let (a, b, c, d) = (self.next(), self.next(), self.next(), self.next());
        let demand = std::array::from_fn(|i| chance(a >> (3 * i) & 7 != 0));
        let passage = std::array::from_fn(|i| chance(a >> (12 + 3 * i) & 7 == 0));
        let mainline = std::array::from_fn(|j| Sample {
            working: chance(b >> 20 != j as u32),
            occupied: 3 * of_six(b, j),
            vehicles: chance(of_six(c, j) < 2),
            time: 40 * of_six(d, j),
        });
        (demand, passage, mainline)
    }
}

/// The ticks of the day, with no call and no command.
fn inputs() -> impl Iterator<Item = Input> {
    let mut samples = Samples(SEED);
    (0..TICKS).map(move |tenth| {
        let (demand, passage, mainline) = samples.draw();
        let clock = Clock { date: Date { year: 2025, month: 1, day: 6 }, tenth };
        Input { demand, passage, mainline, ..Input::at(clock) }
    })
}

/// Writes the tick records of the day.
pub fn write_records(out: impl Write) -> io::Result<()> {
    let (n, m) = lanes(&site());
    let mut out = BufWriter::with_capacity(1 << 20, out);
    inputs().try_for_each(|input| out.write_all(&record(&input, n, m)))?;
    out.flush()
}

// The checksum.

fn summed(sum: u32, x: u32) -> u32 {
    sum.wrapping_mul(31).wrapping_add(x)
}

fn four(v: [u16; 4]) -> u32 {
    v.iter().fold(0, |sum, x| sum * 4 + *x as u32)
}

fn with_shown(sum: u32, shown: &Indications, released: usize) -> u32 {
    let lower = shown.lower.map(|lit| lit as u16);
    let sum = summed(summed(sum, four(shown.colours)), four(lower));
    summed(sum, shown.sign as u32 * 8 + released as u32)
}

/// The refusal, or 0 and the record.
fn with_poll(sum: u32, poll: Result<Vec<u8>, u8>) -> u32 {
    match poll {
        Ok(record) => record.iter().fold(summed(sum, 0), |sum, byte| summed(sum, *byte as u32)),
        Err(refusal) => summed(sum, refusal as u32),
    }
}

/// What the program prints of a site file.
pub fn print(file: &[u8]) -> String {
    match site::read(file) {
        Ok(site) => print_day(&site),
        Err(r) => text::refusal(r),
    }
}

fn print_day(site: &Site) -> String {
    let (_, mut state) = power_up(Some(site));
    let (mut accepted, mut released, mut polled, mut sum) = (0, 0, 0, 0);
    for input in inputs() {
        let answer = tick(Some(site), &state, &input);
        state = answer.state;
        accepted += (answer.refusal == 0) as u32;
        released += (answer.released != 0) as u32;
        sum = with_shown(sum, &answer.indications, answer.released);
        if state.periods.ticks == 0 {
            sum = with_poll(sum, poll_record(Some(site), &state));
            polled += 1;
        }
    }
    format!("accepted {accepted}, released {released}, polled {polled}, checksum {sum}\n")
}

fn with_six(sum: u32, v: [u16; 6]) -> u32 {
    summed(summed(sum, four([v[0], v[1], v[2], v[3]])), four([0, 0, v[4], v[5]]))
}

/// The samples alone.
pub fn print_samples() -> String {
    let mut samples = Samples(SEED);
    let mut sum = 0;
    for _ in 0..TICKS {
        let (demand, passage, mainline) = samples.draw();
        sum = summed(summed(sum, four(demand)), four(passage));
        sum = with_six(sum, mainline.map(|s| s.working));
        sum = with_six(sum, mainline.map(|s| s.occupied));
        sum = with_six(sum, mainline.map(|s| s.vehicles));
        sum = with_six(sum, mainline.map(|s| s.time));
    }
    format!("samples {sum}\n")
}

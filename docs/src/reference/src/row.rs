//! A tick as one row of numbers: year, month, day, the tenth's high and low half; demand and passage of each metered lane; working,
//! occupied, vehicles and time of each mainline lane; the calls, which are preemption and bypass; kind, rate and table of the manual
//! command, then of the communications command.

use crate::calendar::{Clock, Date};
use crate::periods::{halves, Sample};
use crate::tick::Input;
use crate::wanted::Command;

/// Preemption and bypass.
const CALLS: usize = 2;

/// How many numbers the row of n metered and m mainline lanes has.
pub fn size(n: usize, m: usize) -> usize {
    5 + 2 * n + 4 * m + CALLS + 6
}

/// The row of the first n metered and m mainline lanes.
pub fn numbers(input: &Input, n: usize, m: usize) -> Vec<u16> {
    let Clock { date, tenth } = input.clock;
    let mut out = vec![date.year, date.month, date.day];
    out.extend(halves(tenth));
    out.extend((0..n).flat_map(|i| [input.demand[i], input.passage[i]]));
    out.extend(input.mainline[..m].iter().flat_map(|s| [s.working, s.occupied, s.vehicles, s.time]));
    out.extend([input.preemption, input.bypass]);
    out.extend(input.commands.iter().flat_map(|c| [c.kind, c.rate, c.table]));
    out
}

/// The tick of a row; a lane that it lacks has zeros.
pub fn input(row: &[u16], n: usize, m: usize) -> Input {
    assert_eq!(row.len(), size(n, m));
    let (clock, rest) = row.split_at(5);
    let (metered, rest) = rest.split_at(2 * n);
    let (mainline, rest) = rest.split_at(4 * m);
    let (calls, commands) = rest.split_at(CALLS);

    let date = Date { year: clock[0], month: clock[1], day: clock[2] };
    let tenth = (clock[3] as u32) << 16 | clock[4] as u32;
    let mut input = Input::at(Clock { date, tenth });
    for (i, lane) in metered.chunks(2).enumerate() {
        (input.demand[i], input.passage[i]) = (lane[0], lane[1]);
    }
    for (sample, lane) in input.mainline.iter_mut().zip(mainline.chunks(4)) {
        *sample = Sample { working: lane[0], occupied: lane[1], vehicles: lane[2], time: lane[3] };
    }
    (input.preemption, input.bypass) = (calls[0], calls[1]);
    for (command, words) in input.commands.iter_mut().zip(commands.chunks(3)) {
        *command = Command { kind: words[0], rate: words[1], table: words[2] };
    }
    input
}

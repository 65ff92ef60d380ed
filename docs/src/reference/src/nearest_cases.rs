//! Stored runs in metering whose cycle is the nearest whole tick: at every rate whose exact cycle ends in a half, which goes up, and right
//! beside it; in both service modes; with the rate from each of its sources, and with one that changes from tick to tick.
//! Where a case is aimed at a cycle, that is the one of the rate sheet.

use crate::call_run::{from_power_up, Op};
use crate::cases::HALVES;
use crate::periods::Sample;
use crate::rate_sheet::nearest;
use crate::site::{bytes, Site, UNUSED};
use crate::tick::{Input, KeptLane, State};
use crate::tick_cases::{at, fixed, fresh, in_demand, with_timings, GREEN, NONE};
use crate::wanted::Command;

/// Besides the halves, of V 1, 2 and 3: the ends of the range, and 700; with V 1 also 600, 810 and 879, and two whose cycles are shorter
/// than the exact ones by the largest share, 1757 of all and 1181 of those with a cycle of 30 or more.
const OTHERS: [&[u16]; 3] = [&[150, 600, 700, 810, 879, 1181, 1757, 1800], &[150, 700, 1800], &[150, 700, 1800]];
/// Of V 1, 2 and 3, for runs of several lanes: cycles of 113, 63, 51, 44, 41, 38 and 23, of 188 and 113, of 113 and 68.
const SHARED: [&[u16]; 3] = [&[320, 576, 700, 810, 879, 960, 1600], &[384, 640], &[960, 1600]];
/// Of V 1, for each source of a rate. Rounded up the cycles would be 52, 38, 63 and 45; rounded down 51, 37, 62 and 44.
const SOURCED: [u16; 4] = [700, 960, 576, 810];

/// A green, a yellow and a red of at least 10 ticks each, and the shortest startup.
pub fn quick(n: u16, mode: u16, v: u16) -> Site {
    with_timings(&[(0, n), (1, mode), (2, v), (5, 10), (6, 10), (7, 10), (8, 10), (9, 10), (10, 10), (13, 1)])
}

/// At such a site metering is entered at tick 92 from power-up, and the first lane is released at this one.
const RELEASED: u16 = 102;

/// All lanes in demand, and a vehicle on each at every tick: greens end at their minimum.
pub fn passing(manual: Command) -> Input {
    Input { passage: [1; 4], ..in_demand(manual) }
}

fn ticks(count: u16, rate: u16) -> Op {
    Op::Ticks(count, passing(fixed(rate)))
}

/// The halves of V and the rates right beside them.
fn about_halves(v: u16) -> Vec<u16> {
    HALVES[v as usize - 1].iter().flat_map(|half| [half - 1, *half, half + 1]).collect()
}

/// The same and the others.
fn rates(v: u16) -> Vec<u16> {
    [&about_halves(v)[..], OTHERS[v as usize - 1]].concat()
}

// Runs.

/// So long that a lane has two greens, a cycle apart, where nothing else keeps them farther apart.
fn two_greens(v: u16, rate: u16) -> u16 {
    2 * nearest(v, rate) + 20
}

/// One rate after the other, each for two greens.
fn greens(n: u16, mode: u16, v: u16, rates: &[u16]) -> Vec<u8> {
    let mut ops = vec![ticks(RELEASED, 600)];
    ops.extend(rates.iter().map(|rate| ticks(two_greens(v, *rate), *rate)));
    from_power_up(&bytes(&quick(n, mode, v)), &ops)
}

/// One lane at all the rates; 1, 2 and 4 lanes in both modes at some.
fn runs() -> Vec<Vec<u8>> {
    let mut out = Vec::new();
    for v in [1, 2, 3] {
        out.push(greens(1, 0, v, &rates(v)));
        for (n, mode) in [(1, 1), (2, 0), (2, 1), (4, 0), (4, 1)] {
            out.push(greens(n, mode, v, SHARED[v as usize - 1]));
        }
    }
    out
}

// Limits.

/// All lanes long red, and their last greens long ago.
fn long_red(n: u16) -> State {
    let mut state = fresh(n as usize, 7, 500);
    state.lanes[..n as usize].iter_mut().for_each(|lane| lane.age = 99);
    state
}

/// At the first tick a lane's last green began a tick less than a cycle ago, at the second a cycle; also cycles that are shorter than
/// green, yellow and red.
fn cycle_limits(v: u16) -> Vec<u8> {
    let at_limit = |rate: u16| {
        let mut state = long_red(1);
        state.lanes[0] = KeptLane { counter: nearest(v, rate) - 2, ..state.lanes[0] };
        [Op::State(state), ticks(2, rate)]
    };
    from_power_up(&bytes(&quick(1, 0, v)), &rates(v).into_iter().flat_map(at_limit).collect::<Vec<Op>>())
}

/// The same of the group's last green and the share of a lane, which is rounded up.
fn offset_limits(n: u16, v: u16) -> Vec<u8> {
    let at_limit = |rate: u16| {
        let share = (nearest(v, rate) + n - 1) / n;
        [Op::State(State { offset: share - 2, ..long_red(n) }), ticks(2, rate)]
    };
    from_power_up(&bytes(&quick(n, 1, v)), &about_halves(v).into_iter().flat_map(at_limit).collect::<Vec<Op>>())
}

fn limits() -> Vec<Vec<u8>> {
    [1, 2, 3].into_iter().flat_map(|v| [cycle_limits(v), offset_limits(2, v), offset_limits(4, v)]).collect()
}

// Sources.

/// An entry of mode 2 for each rate, then one of mode 3 for each table, two minutes apart from eight on; each table has one level, which
/// every period with a vehicle meets. Where no lane is good an entry of mode 3 has the next table's rate.
fn sourced_site() -> Site {
    let mut site = quick(1, 0, 1);
    for (k, rate) in (0..).zip(SOURCED) {
        site.entries.push([127, 480 + 2 * k, 2, rate, 0]);
        site.entries.push([127, 488 + 2 * k, 3, SOURCED[(k as usize + 1) % 4], k + 1]);
        site.levels.push([k + 1, 1, UNUSED, UNUSED, rate]);
    }
    site
}

/// Vehicles at every tick on a mainline that works or does not, at a minute and under commands.
fn sourced(working: u16, minute: u32, commands: [Command; 2]) -> Input {
    let mainline = [Sample { working, occupied: 30, vehicles: 1, time: 274 }; 6];
    Input { clock: at(2025, 1, 6, minute), mainline, commands, ..passing(NONE) }
}

/// Two greens at each rate, from each source: manual and communications, fixed and by a level; an entry's own rate, and a level that an
/// entry looks at. Then with no good lane the own rates of what is responsive.
fn sources() -> Vec<u8> {
    let mut ops = vec![Op::Ticks(300, sourced(1, 480, [GREEN, NONE])), Op::Ticks(60, sourced(1, 480, [fixed(600), NONE]))];
    let mut put = |working, minute, commands, rate| ops.push(Op::Ticks(two_greens(1, rate), sourced(working, minute, commands)));
    let responsive = |rate, table| Command { kind: 4, rate, table };
    for (k, rate) in (0..).zip(SOURCED) {
        for command in [fixed(rate), responsive(600, k as u16 + 1)] {
            put(1, 480, [command, NONE], rate);
            put(1, 480, [NONE, command], rate);
        }
        put(1, 480 + 2 * k, [NONE, NONE], rate);
        put(1, 488 + 2 * k, [NONE, NONE], rate);
    }
    ops.push(Op::Ticks(300, sourced(0, 480, [fixed(600), NONE])));
    for (k, rate) in (0..).zip(SOURCED) {
        for commands in [[responsive(rate, 1), NONE], [NONE, responsive(rate, 4)]] {
            ops.push(Op::Ticks(two_greens(1, rate), sourced(0, 480, commands)));
        }
        ops.push(Op::Ticks(two_greens(1, rate), sourced(0, 488 + 2 * ((k + 3) % 4), [NONE, NONE])));
    }
    from_power_up(&bytes(&sourced_site()), &ops)
}

// Changes.

/// A rate that comes a tick before the end of its cycle, after a lower one: the lane is released at its second tick.
fn late_rates() -> Vec<u8> {
    let mut ops = vec![ticks(RELEASED, 600)];
    for rate in [959, 960, 961, 575, 576, 577, 700, 810, 879] {
        ops.extend([ticks(nearest(1, rate) - 2, 150), ticks(1, rate), ticks(1, rate)]);
    }
    from_power_up(&bytes(&quick(1, 0, 1)), &ops)
}

/// Two rates by turns up to a release, the cycle of the first being a tick longer: at the tick at which the second's alone is over, the
/// first rules at first and then the second.
fn by_turns(site: &Site, wait: u16, rates: [u16; 2]) -> Vec<u8> {
    let [up, down] = rates;
    let mut ops = vec![ticks(RELEASED, 600)];
    for turns in [&[up, down, up, down][..], &[down, up, down]] {
        ops.push(ticks(wait, 150));
        ops.extend(turns.iter().map(|rate| ticks(1, *rate)));
    }
    from_power_up(&bytes(site), &ops)
}

fn changes() -> Vec<Vec<u8>> {
    vec![
        late_rates(),
        // 38 and 37 ticks
        by_turns(&quick(1, 0, 1), 34, [960, 961]),
        // 63 and 62 ticks
        by_turns(&quick(1, 1, 2), 59, [1152, 1153]),
        // 113 and 112 ticks, of which the share of two lanes is 57 and 56, of four 29 and 28
        by_turns(&quick(2, 1, 1), 53, [320, 321]),
        by_turns(&quick(4, 1, 3), 25, [960, 961]),
    ]
}

pub fn cases() -> Vec<Vec<u8>> {
    [runs(), limits(), vec![sources()], changes()].concat()
}

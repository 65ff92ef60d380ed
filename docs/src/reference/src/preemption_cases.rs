//! Stored runs under a preemption call: it comes in every interval, lasts, goes, and is interrupted by refused ticks; and calls that begin
//! where the way to pre-metering green is longest, stored and random.

use crate::call_run::{from_power_up, Op};
use crate::periods::Sample;
use crate::preemption::bound;
use crate::random::Random;
use crate::site::{bytes, Site, UNUSED};
use crate::tick::{Input, KeptLane, State};
use crate::tick_cases::{
    counted, distinct, fixed, fresh, in_demand, short_timings, times, with_timings, DARK, DECIDE, GREEN, NONE, POLL, RESPONSIVE,
};
use crate::wanted::Command;

const METER: Command = Command { kind: 3, rate: 900, table: 0 };
/// Under the last of them the wish is clear.
const WISHES: [Command; 4] = [METER, GREEN, DARK, RESPONSIVE];

fn ticks(count: u16, wish: Command) -> Op {
    Op::Ticks(count, in_demand(wish))
}

/// The same with the call.
fn called(count: u16, wish: Command) -> Op {
    Op::Ticks(count, Input { preemption: 1, ..in_demand(wish) })
}

fn run(ops: &[Op]) -> Vec<u8> {
    from_power_up(&bytes(&distinct()), ops)
}

// The call in each interval of `distinct`.

/// The time that an interval runs whatever is wanted; of those without one, some time.
fn time(interval: u16) -> u16 {
    match times(interval)[..] {
        [time] => time,
        _ => 40,
    }
}

/// From the first, a middle and the last tick of each interval up to where the group is held and beyond; then the call ends, under each
/// wish in turn.
fn each_interval() -> Vec<u8> {
    let mut ops = Vec::new();
    for interval in 0..10 {
        let last = time(interval) - 1;
        for (k, age) in [0, last / 2, last].into_iter().enumerate() {
            let wish = |more: usize| WISHES[(interval as usize + k + more) % 4];
            ops.extend([Op::State(fresh(3, interval, age)), called(1, wish(0)), called(90, wish(1))]);
            ops.extend([ticks(1, wish(2)), ticks(1, wish(3))]);
        }
    }
    run(&ops)
}

/// From power-up on: dark at tick 50 and held, with green or metering wanted, up to the tick without the call; also a call that begins
/// at tick 50 or behind it, and one that ends there or before.
fn power_up() -> Vec<u8> {
    let mut ops = Vec::new();
    for wish in [METER, GREEN] {
        ops.extend([Op::PowerUp, called(49, wish), called(1, wish), called(1, wish), called(60, wish), ticks(1, wish)]);
        ops.extend([Op::PowerUp, ticks(49, wish), called(3, wish), ticks(1, wish)]);
        ops.extend([Op::PowerUp, ticks(50, wish), called(3, wish), ticks(1, wish)]);
        ops.extend([Op::PowerUp, called(49, wish), ticks(2, wish), Op::PowerUp, called(50, wish), ticks(1, wish)]);
    }
    run(&ops)
}

/// Dark is held under every wish, to the oldest age and beyond; the tick without the call does what is wanted.
fn dark_held() -> Vec<u8> {
    let mut ops = Vec::new();
    for wish in WISHES {
        ops.extend([Op::State(fresh(3, 1, 0)), called(1, wish), called(40, wish), ticks(1, wish), ticks(1, DARK)]);
    }
    ops.extend([Op::State(fresh(3, 1, 35998)), called(4, GREEN), ticks(1, GREEN)]);
    run(&ops)
}

/// Green is held under every wish; the call ends about the minimum, about the maximum and at the oldest age, and that very tick does
/// what is wanted.
fn green_held() -> Vec<u8> {
    let (minimum, maximum) = (29, 600);
    let mut ops = Vec::new();
    for wish in WISHES {
        // age of the last tick with the call
        for age in [minimum - 2, minimum - 1, minimum, maximum - 2, maximum - 1, maximum, maximum + 50, 36000] {
            ops.extend([Op::State(fresh(3, 2, age - 5)), called(5, wish), ticks(1, wish), ticks(1, wish)]);
        }
    }
    run(&ops)
}

/// The same from power-up: green all of the maximum and more, with something else wanted when the call ends.
fn green_held_from_power_up() -> Vec<u8> {
    let mut ops = Vec::new();
    for wish in WISHES {
        ops.extend([Op::PowerUp, ticks(60, GREEN), called(650, wish), ticks(1, wish), ticks(2, wish)]);
    }
    run(&ops)
}

/// The call ends on the way, in each interval that it passes: the way goes on, and what is wanted rules from where it is asked for.
fn ends_on_the_way() -> Vec<u8> {
    let mut ops = Vec::new();
    // from the tick behind the entry of 3: in 3, 4, 5, 6, 7, 8, 9 and 2
    for last in [5, 11, 30, 50, 60, 61, 62, 70, 84, 85, 90] {
        for wish in [METER, DARK] {
            ops.extend([Op::PowerUp, ticks(80, METER), called(last, wish), ticks(90, wish)]);
        }
    }
    run(&ops)
}

// The call and the lanes.

/// Lanes of these colours, of some age.
fn with_colours(interval: u16, colours: [u16; 3]) -> State {
    let mut state = fresh(3, interval, 200);
    for (lane, colour) in state.lanes.iter_mut().zip(colours) {
        *lane = KeptLane { colour, age: 9, counter: 300, passages: 1 };
    }
    state.offset = 290;
    state
}

/// Metering with lanes of each colour closes at the call's first tick, no lane is released, greens end as ever; and a call that comes and
/// goes within closing changes nothing.
fn lanes_under_call(mode: u16) -> Vec<u8> {
    let mut site = distinct();
    site.timings[1] = mode;
    let mut ops = Vec::new();
    for colours in [[1, 1, 1], [3, 1, 1], [1, 2, 1], [3, 2, 1], [3, 3, 3]] {
        let passing = Input { passage: [1, 0, 1, 0], preemption: 1, ..in_demand(METER) };
        ops.extend([Op::State(with_colours(7, colours)), Op::Ticks(1, passing), Op::Ticks(4, passing), called(80, METER)]);
        ops.extend([Op::State(with_colours(8, colours)), called(1, METER), ticks(1, METER), called(2, DARK), ticks(60, METER)]);
    }
    from_power_up(&bytes(&site), &ops)
}

/// Calls of one tick in metering, at the tick that would release a lane and at another: closing, shutdown red and green follow, and then
/// what is wanted.
fn one_tick() -> Vec<u8> {
    let mut ops = Vec::new();
    for wish in WISHES {
        // metering is entered at tick 140; lane 1 is released at tick 156
        for before in [140, 155, 156, 170] {
            ops.extend([Op::PowerUp, ticks(before, METER), called(1, wish), ticks(120, wish)]);
        }
    }
    // a call every other tick closes no faster
    ops.extend([Op::PowerUp, ticks(160, METER)]);
    for _ in 0..6 {
        ops.extend([called(1, METER), ticks(1, METER)]);
    }
    ops.extend([ticks(150, METER)]);
    run(&ops)
}

// The call and what else a tick brings.

/// Refused ticks within a call, in each interval: nothing ages, and the call goes on behind them.
fn refused_within() -> Vec<u8> {
    let sound = Input { preemption: 1, ..in_demand(METER) };
    let bad = |change: fn(&mut Input)| {
        let mut input = sound;
        change(&mut input);
        Op::Ticks(1, input)
    };
    let mut ops = Vec::new();
    for interval in 0..10 {
        ops.extend([Op::State(fresh(3, interval, time(interval) - 2)), Op::Ticks(1, sound)]);
        ops.extend([bad(|x| x.clock.tenth = 864_000), bad(|x| x.preemption = 2)]);
        // a refused tick without the call does not end it
        ops.extend([bad(|x| (x.preemption, x.passage[1]) = (0, 2)), bad(|x| x.preemption = UNUSED)]);
        ops.extend([bad(|x| x.commands[1].kind = 5), Op::Ticks(1, sound)]);
    }
    run(&ops)
}

/// Who rules and what is wanted is said as ever, and a call goes before each: manual and communications commands of each kind, the plan,
/// and a level that the last period meets.
fn commands_under_call() -> Vec<u8> {
    let mut site = distinct();
    site.entries = vec![[127, 0, 2, 600, 0]];
    site.levels = vec![[1, 1, UNUSED, UNUSED, 1500]];
    let mut ops = Vec::new();
    let responsive = Command { kind: 4, rate: 700, table: 1 };
    for command in [NONE, DARK, GREEN, fixed(1000), responsive] {
        for commands in [[command, NONE], [NONE, command], [command, DARK]] {
            for (interval, preemption) in [(2, 1), (7, 1), (2, 0)] {
                let input = Input { commands, preemption, ..in_demand(NONE) };
                let state = State { periods: counted().periods, ..fresh(3, interval, 700) };
                ops.extend([Op::State(state), Op::Ticks(1, input)]);
            }
        }
    }
    ops.push(DECIDE);
    from_power_up(&bytes(&site), &ops)
}

/// A period ends during the call: counts, poll record, level and rate are as ever.
fn period_within() -> Vec<u8> {
    let mut site = distinct();
    site.levels = vec![[1, 120, UNUSED, UNUSED, 1200]];
    let input = |preemption| {
        let mut input = Input { passage: [1, 0, 1, 0], preemption, ..in_demand(RESPONSIVE) };
        input.mainline = [Sample { working: 1, occupied: 30, vehicles: 1, time: 274 }; 6];
        input
    };
    let call = |count| Op::Ticks(count, input(1));
    // a call from tick 61 on holds green over a period's end; then one that begins at a period's last tick, in metering
    let ops = [
        ticks(60, GREEN),
        call(239),
        POLL,
        call(1),
        POLL,
        DECIDE,
        call(2),
        Op::Ticks(297, input(0)),
        call(1),
        POLL,
        call(299),
        call(1),
        POLL,
        Op::Ticks(2, input(0)),
    ];
    from_power_up(&bytes(&site), &ops)
}

// The longest way.

/// How many ticks from power-up enter the warning, and release the first lane: metering is wanted, all lanes are in demand.
fn warned(site: &Site) -> u16 {
    50 + 1 + site.timings[13]
}

fn released(site: &Site) -> u16 {
    warned(site) + site.timings[7..11].iter().sum::<u16>() + site.timings[6]
}

/// A site whose lanes take longer to turn red than its startup.
fn slow_lanes() -> Site {
    with_timings(&[(3, 30), (4, 70), (5, 35), (7, 11), (8, 12), (9, 13), (10, 14), (11, 15)])
}

/// From the tick behind `before` on: all ticks of the call but the last that the group may need, that one, and more.
fn just_in_time(site: &Site, before: u16) -> Vec<Op> {
    let bound = bound(site) as u16;
    vec![Op::PowerUp, ticks(before, METER), called(bound - 1, METER), called(1, METER), called(5, METER), ticks(1, METER)]
}

/// Calls that begin where the way is longest, and a tick before and behind that: behind the tick that enters the warning, and behind
/// that which releases a lane.
fn longest_ways() -> Vec<Vec<u8>> {
    let about = |site: &Site, before: u16| [before - 1, before, before + 1].map(|before| just_in_time(site, before)).concat();
    let (startup, lanes) = (distinct(), slow_lanes());
    let mut offset = slow_lanes();
    (offset.timings[0], offset.timings[1]) = (4, 1);
    vec![
        from_power_up(&bytes(&startup), &about(&startup, warned(&startup))),
        from_power_up(&bytes(&lanes), &about(&lanes, released(&lanes))),
        from_power_up(&bytes(&offset), &about(&offset, released(&offset))),
    ]
}

// Random calls.

/// A random site, and a call about the tick from which the way is longest; then what is wanted rules.
pub fn aimed(r: &mut Random, k: u16) -> Vec<u8> {
    let mut site = with_timings(&[]);
    site.timings = short_timings(r, k);
    if r.percent(50) {
        site.timings[7..11].fill(10);
        site.timings[10] += r.number(0, 4);
        site.timings[4] = r.number(site.timings[3].max(60), 100);
    }
    let startup = site.timings[7..11].iter().sum::<u16>() + 1;
    let lane = site.timings[4] + site.timings[5];
    let before = if startup > lane { warned(&site) } else { released(&site) };
    let call = bound(&site) as u16 + r.number(0, 30);
    let wish = r.pick(&WISHES);
    let ops = [ticks(before + r.number(0, 2) - 1, METER), called(call, wish), ticks(r.number(1, 40), wish)];
    from_power_up(&bytes(&site), &ops)
}

pub fn cases() -> Vec<Vec<u8>> {
    let intervals = [each_interval(), power_up(), dark_held(), green_held(), green_held_from_power_up(), ends_on_the_way()];
    let lanes = [lanes_under_call(0), lanes_under_call(1), one_tick()];
    let inputs = [refused_within(), commands_under_call(), period_within()];
    [&intervals[..], &lanes, &inputs, &longest_ways()].concat()
}

//! Stored cases of the tick: the paper's runs, each limit from both sides, states that no run reaches, and long random runs.
//! The cases are made without the rules, but for the cycle that some aim at, which is the rate sheet's: a change of another rule changes
//! what they print, never the cases.

use crate::bypass::{Bypass, LONGEST_TIMER};
use crate::calendar::{later, shifted, Clock, Date, TENTHS};
use crate::call_run::{from_power_up, timing, Op};
use crate::cases;
use crate::files::site_a;
use crate::periods::{Counts, Sample};
use crate::random::Random;
use crate::random_calls::{next_calls, Calls};
use crate::rate_sheet::nearest;
use crate::site::{bytes, timing_range, Site, TIMINGS, UNUSED};
use crate::speeds::LOOPS;
use crate::tick::{Input, KeptLane, State};
use crate::wanted::Command;

const RUNS: u16 = 24;
const STRANGE: u16 = 12;

// Pieces.

pub const NONE: Command = Command { kind: 0, rate: 0, table: 0 };
pub const DARK: Command = Command { kind: 1, rate: 0, table: 0 };
pub const GREEN: Command = Command { kind: 2, rate: 0, table: 0 };
pub const RESPONSIVE: Command = Command { kind: 4, rate: 600, table: 1 };

pub fn fixed(rate: u16) -> Command {
    Command { kind: 3, rate, table: 0 }
}

pub fn at(year: u16, month: u16, day: u16, minute: u32) -> Clock {
    Clock { date: Date { year, month, day }, tenth: minute * 600 }
}

/// All samples 0 but for working lanes, under a manual command, on a Monday at eight.
pub fn quiet(manual: Command) -> Input {
    Input {
        clock: at(2025, 1, 6, 480),
        demand: [0; 4],
        passage: [0; 4],
        mainline: [Sample { working: 1, ..Sample::default() }; 6],
        preemption: 0,
        bypass: 0,
        commands: [manual, NONE],
    }
}

/// Into a buffer with room for every record.
pub const POLL: Op = Op::Poll(64);
pub const DECIDE: Op = Op::Decide(Clock { date: Date { year: 2025, month: 1, day: 6 }, tenth: 288_000 }, [NONE, NONE]);

pub fn in_demand(manual: Command) -> Input {
    Input { demand: [1; 4], ..quiet(manual) }
}

pub fn with_timings(changes: &[(usize, u16)]) -> Site {
    let mut site = site_a();
    for (i, value) in changes {
        site.timings[*i] = *value;
    }
    site
}

/// The kept lanes as power-up and entering metering leave them, in any interval.
pub fn fresh(n: usize, interval: u16, age: u16) -> State {
    let mut state = State { interval, age, offset: 720, last: n as u16, ..State::default() };
    for lane in &mut state.lanes[..n] {
        *lane = KeptLane { colour: 1, age: 0, counter: 720, passages: 0 };
    }
    state
}

// The paper's worked runs.

fn site_a_runs() -> Vec<Vec<u8>> {
    let always = |rate| vec![Op::Ticks(800, in_demand(fixed(rate)))];
    let long = vec![Op::Ticks(300, in_demand(fixed(150))), Op::Ticks(2200, in_demand(fixed(150)))];
    vec![
        from_power_up(&bytes(&site_a()), &always(600)),
        from_power_up(&bytes(&with_timings(&[(1, 1)])), &always(600)),
        from_power_up(&bytes(&site_a()), &always(700)),
        from_power_up(&bytes(&with_timings(&[(1, 1)])), &always(700)),
        from_power_up(&bytes(&with_timings(&[(2, 3)])), &long),
        from_power_up(&bytes(&with_timings(&[(0, 4), (1, 1), (2, 3)])), &long),
    ]
}

/// 41, 42 and 43 bytes, and a minimum green of 101.
fn file_lengths() -> Vec<Vec<u8>> {
    let file = bytes(&site_a());
    let longer = [&file[..], &[0]].concat();
    let green = bytes(&with_timings(&[(3, 101)]));
    let tick = vec![Op::Ticks(1, quiet(NONE))];
    [&file[..41], &file, &longer, &green].into_iter().map(|f| from_power_up(f, &tick)).collect()
}

/// Thanksgiving and the day after, the final Monday of May, and the days about them; green on holidays.
fn holiday_runs() -> Vec<u8> {
    let mut site = site_a();
    site.holidays = vec![[2, 11, 4, 4, 0], [3, 11, 4, 4, 0], [2, 5, 5, 1, 0]];
    site.entries = vec![[127, 0, 2, 600, 0], [128, 0, 1, 0, 0]];
    let november = [21, 22, 27, 28, 29, 30].map(|day| at(2024, 11, day, 0));
    let may = [19, 25, 26, 27].map(|day| at(2025, 5, day, 0));
    let ticks = |clock: &Clock| Op::Ticks(2, Input { clock: *clock, ..quiet(NONE) });
    from_power_up(&bytes(&site), &november.iter().chain(&may).map(ticks).collect::<Vec<Op>>())
}

/// The entries of the timetable, about their starts.
fn entry_runs() -> Vec<u8> {
    let mut site = site_a();
    site.entries = vec![[2, 330, 2, 600, 0], [2, 330, 2, 720, 0], [130, 1170, 0, 0, 0]];
    site.holidays = vec![[1, 1, 8, 0, 0]];
    let mut ops = Vec::new();
    for day in [6, 7, 8] {
        for minute in [330, 1170] {
            let mut clock = at(2025, 1, day, minute);
            clock.tenth -= 1;
            ops.push(Op::Ticks(2, Input { clock, ..in_demand(NONE) }));
        }
    }
    from_power_up(&bytes(&site), &ops)
}

/// 31 and then 32 vehicles on three good lanes against a flow of 1260; a fourth lane fails or there is none.
fn flow_run(m: u16) -> Vec<u8> {
    let mut site = with_timings(&[(14, m)]);
    site.levels = vec![[1, 1260, UNUSED, UNUSED, 900]];
    let input = |vehicles: [u16; 3]| {
        let mut input = in_demand(RESPONSIVE);
        for (sample, vehicle) in input.mainline.iter_mut().zip(vehicles) {
            *sample = Sample { working: 1, occupied: 40, vehicles: vehicle, time: 244 };
        }
        input.mainline[3] = Sample { working: 0, occupied: 100, vehicles: 1, time: 2196 };
        input
    };
    let period = |last: [u16; 3]| {
        vec![Op::Ticks(10, input([1; 3])), Op::Ticks(1, input(last)), Op::Ticks(289, input([0; 3])), POLL]
    };
    from_power_up(&bytes(&site), &[period([1, 0, 0]), period([1, 1, 0]), period([1, 0, 0])].concat())
}

fn paper() -> Vec<Vec<u8>> {
    [site_a_runs(), file_lengths(), vec![holiday_runs(), entry_runs(), flow_run(3), flow_run(4)]].concat()
}

// Each interval at its limits.

/// A site whose times are all different, the least of them 10.
pub fn distinct() -> Site {
    with_timings(&[
        (0, 3),
        (2, 2),
        (3, 12),
        (4, 24),
        (5, 14),
        (6, 16),
        (7, 11),
        (8, 13),
        (9, 17),
        (10, 19),
        (11, 23),
        (13, 29),
        (14, 2),
    ])
}

/// The times that end each interval of `distinct`.
pub fn times(interval: u16) -> Vec<u16> {
    match interval {
        0 => vec![50],
        2 => vec![29, 600],
        3 => vec![11],
        4 => vec![13],
        5 => vec![17],
        6 => vec![19],
        9 => vec![23],
        _ => vec![],
    }
}

/// One tick short of each time, at it, and at the oldest; under each wish, the last of them clear; without a call and with one.
fn interval_limits(preemption: u16) -> Vec<u8> {
    let mut ops = Vec::new();
    for interval in 0..10 {
        let ages: Vec<u16> = times(interval).iter().flat_map(|t| [t - 2, t - 1]).chain([36000]).collect();
        for age in ages {
            for wish in [DARK, GREEN, fixed(900), RESPONSIVE] {
                ops.push(Op::State(fresh(3, interval, age)));
                ops.push(Op::Ticks(1, Input { preemption, ..in_demand(wish) }));
            }
        }
    }
    from_power_up(&bytes(&distinct()), &ops)
}

/// Closing under lanes of each colour, whatever is wanted, up to shutdown red.
fn closings() -> Vec<u8> {
    let mut ops = Vec::new();
    for (interval, colours) in
        [(7, [1, 1, 1]), (7, [1, 3, 2]), (8, [1, 1, 1]), (8, [1, 2, 1]), (8, [1, 1, 3]), (8, [2, 2, 1]), (8, [3, 3, 3])]
    {
        for wish in [DARK, fixed(1800)] {
            let mut state = fresh(3, interval, 35997);
            for (lane, colour) in state.lanes.iter_mut().zip(colours) {
                *lane = KeptLane { colour, age: 11, counter: 700, passages: 1 };
            }
            state.offset = 690;
            ops.push(Op::State(state));
            // one tick by itself, then up to the end of shutdown red
            ops.push(Op::Ticks(1, in_demand(DARK)));
            ops.push(Op::Ticks(4, Input { passage: [0, 1, 1, 0], ..in_demand(wish) }));
            ops.push(Op::Ticks(60, in_demand(wish)));
        }
    }
    from_power_up(&bytes(&distinct()), &ops)
}

/// Wishes that change while an interval runs its time, a minimum and a maximum counted from the interval's own start.
fn changing_wishes() -> Vec<u8> {
    let ticks = |count, wish| Op::Ticks(count, in_demand(wish));
    let ops = [
        ticks(49, fixed(900)),
        ticks(2, DARK),
        ticks(3, RESPONSIVE),
        ticks(1, GREEN),
        ticks(10, DARK),
        ticks(18, fixed(900)),
        ticks(1, RESPONSIVE),
        ticks(1, fixed(900)),
        ticks(1, fixed(900)),
        ticks(10, DARK),
        ticks(13, RESPONSIVE),
        ticks(17, GREEN),
        // metering is entered under a wish of dark, and left at the next tick
        ticks(19, DARK),
        ticks(1, DARK),
        ticks(30, fixed(900)),
        ticks(40, GREEN),
    ];
    from_power_up(&bytes(&distinct()), &ops)
}

/// Green without end, and a clear wish at the maximum: a tick short of it, at it.
fn long_green() -> Vec<u8> {
    let ticks = |count, wish| Op::Ticks(count, in_demand(wish));
    let mut ops = vec![ticks(51, GREEN), ticks(37000, GREEN)];
    // periods are completed by now, without a level and with good lanes: clear
    ops.extend([ticks(1, RESPONSIVE), ticks(1, GREEN), ticks(598, GREEN), ticks(3, RESPONSIVE)]);
    from_power_up(&bytes(&distinct()), &ops)
}

// Lanes and release at their limits.

/// One green lane of three: its age and its passages on both sides of the minimum and the maximum.
fn green_limits() -> Vec<u8> {
    let mut ops = Vec::new();
    for (age, passages, passage) in [
        (10, 2, 0),
        (10, 1, 1),
        (11, 2, 0),
        (11, 1, 1),
        (11, 1, 0),
        (11, 0, 1),
        (12, 1, 1),
        (15, 3, 1),
        (22, 1, 0),
        (22, 0, 1),
        (23, 0, 0),
        (23, 1, 0),
        (24, 0, 0),
        (719, 0, 0),
        (720, 0, 1),
    ] {
        let mut state = fresh(3, 7, 100);
        state.lanes[1] = KeptLane { colour: 3, age, counter: 300, passages };
        ops.push(Op::State(state));
        // the passage of another lane says nothing of this one
        let others = 1 - passage;
        ops.push(Op::Ticks(1, Input { passage: [others, passage, others, 0], ..quiet(fixed(900)) }));
    }
    from_power_up(&bytes(&distinct()), &ops)
}

/// A passage at the tick of release does not count; later ones do, in green alone, and the count stays.
fn passages_from_release(v: u16) -> Vec<u8> {
    let tick = |count, passage| Op::Ticks(count, Input { passage: [passage; 4], ..in_demand(fixed(1800)) });
    let mut state = fresh(1, 7, 0);
    state.lanes[0].age = 99;
    let mut ops = Vec::new();
    for pulses in [[1, 0, 0], [0, 1, 0], [1, 1, 0], [0, 1, 1], [1, 1, 1]] {
        ops.push(Op::State(state));
        ops.extend(pulses.iter().map(|passage| tick(1, *passage)));
        ops.push(tick(10, 0));
        // for V 1 in yellow, else in green
        ops.push(tick(4, 1));
        ops.push(tick(50, 0));
    }
    from_power_up(&bytes(&with_timings(&[(0, 1), (2, v), (4, 30)])), &ops)
}

/// Who is released: every lane last, every set of demands, all lanes red for long.
fn turns() -> Vec<u8> {
    let mut ops = Vec::new();
    for last in 1..=4 {
        for set in 1..16 {
            let mut state = fresh(4, 7, 500);
            state.lanes.iter_mut().for_each(|lane| lane.age = 300);
            state.last = last;
            ops.push(Op::State(state));
            let demand = [set & 1, set >> 1 & 1, set >> 2 & 1, set >> 3 & 1];
            ops.push(Op::Ticks(1, Input { demand, ..quiet(fixed(1800)) }));
        }
    }
    from_power_up(&bytes(&with_timings(&[(0, 4)])), &ops)
}

/// Red age, cycle counter and offset counter on both sides of their limits; a rate that changes the cycle at once.
fn release_limits(mode: u16) -> Vec<u8> {
    let mut ops = Vec::new();
    // at 1100 and V 2 the cycle is 65, its third 22; at 1000 72 and 24; at 1080 67 and 23; at 1152 63, a half going up, and 21
    for (rate, cycle) in [(1100, 65), (1000, 72), (1080, 67), (1152, 63)] {
        let third = (cycle + 2) / 3;
        let limits = [
            (14, 720, 720),
            (15, 720, 720),
            (99, cycle - 2, 720),
            (99, cycle - 1, 720),
            (99, 720, third - 2),
            (99, 720, third - 1),
        ];
        for (age, counter, offset) in limits {
            let mut state = fresh(3, 7, 500);
            state.lanes[0] = KeptLane { colour: 1, age, counter, passages: 2 };
            state.last = 1;
            state.offset = offset;
            ops.push(Op::State(state));
            ops.push(Op::Ticks(1, Input { demand: [1, 0, 0, 1], ..quiet(fixed(rate)) }));
        }
    }
    // a lane that turns yellow at this tick, one that is yellow, one that is green
    for (colour, age) in [(3, 23), (2, 5), (2, 13), (3, 5)] {
        let mut state = fresh(3, 7, 500);
        state.lanes[0] = KeptLane { colour: 1, age: 50, counter: 400, passages: 0 };
        state.lanes[2] = KeptLane { colour, age, counter: 30, passages: 0 };
        state.offset = 30;
        ops.push(Op::State(state));
        ops.push(Op::Ticks(2, in_demand(fixed(1100))));
    }
    let mut site = distinct();
    site.timings[1] = mode;
    from_power_up(&bytes(&site), &ops)
}

/// The clock and the wish may change between two greens: the cycle is that of the present rate.
fn changing_rates(mode: u16) -> Vec<u8> {
    let ticks = |count, rate| Op::Ticks(count, in_demand(fixed(rate)));
    let mut state = fresh(3, 7, 0);
    state.lanes.iter_mut().take(3).for_each(|lane| lane.age = 16);
    let ops = [
        Op::State(state),
        ticks(50, 150),
        ticks(1, 1800),
        ticks(80, 300),
        ticks(30, 1800),
        ticks(300, 240),
        ticks(1, 1200),
        ticks(400, 700),
    ];
    let mut site = distinct();
    site.timings[1] = mode;
    from_power_up(&bytes(&site), &ops)
}

fn limits() -> Vec<Vec<u8>> {
    vec![
        interval_limits(0),
        interval_limits(1),
        closings(),
        changing_wishes(),
        long_green(),
        green_limits(),
        passages_from_release(1),
        passages_from_release(2),
        turns(),
        release_limits(0),
        release_limits(1),
        changing_rates(0),
        changing_rates(1),
    ]
}

// Spoilt states.

/// A state of `distinct` with every kind of count, its lanes red.
pub fn counted() -> State {
    let mut state = fresh(3, 7, 40);
    let counts = |ticks: u16| Counts {
        passages: [ticks - 1, 1, 2, 0],
        greens: [1, 0, 2, 0],
        worked: [ticks, ticks - 1, 0, 0, 0, 0],
        vehicles: [4, 3, 0, 0, 0, 0],
        occupied: [90, 100, 0, 0, 0, 0],
        timed: [2, 3, 0, 0, 0, 0],
        millis: [400, 900, 0, 0, 0, 0],
    };
    state.periods.ticks = 20;
    state.periods.current = counts(20);
    state.periods.serial = 5;
    state.periods.last = counts(300);
    state
}

/// The counts of one period at their limits and one beyond, and 0 and 1 in the lanes that there are not.
fn counts_at_limits(ticks: u16, put: &mut dyn FnMut(&dyn Fn(&mut Counts))) {
    for more in [0, 1] {
        for i in [0, 2] {
            put(&|c| c.passages[i] = ticks + more);
            put(&|c| c.greens[i] = ticks + more);
        }
        for j in [0, 1] {
            put(&|c| c.worked[j] = ticks + more);
            put(&|c| c.vehicles[j] = ticks + more);
            put(&|c| c.occupied[j] = 100 * ticks + more);
            put(&|c| c.timed[j] = c.vehicles[j] + more);
            put(&|c| c.millis[j] = 65535 * c.timed[j] as u32 + more as u32);
            put(&|c| c.millis[j] = c.timed[j] as u32 - more as u32);
        }
    }
    put(&|c| c.millis[1] = u32::MAX);
    put(&|c| (c.timed[0], c.millis[0]) = (0, 1));
    put(&|c| (c.timed[0], c.millis[0]) = (0, 0));
    put(&|c| (c.timed[0], c.millis[0]) = (1, 0));
    put(&|c| c.passages[3] = 1);
    put(&|c| c.greens[3] = 1);
    for j in [2, 5] {
        put(&|c| c.worked[j] = 1);
        put(&|c| c.vehicles[j] = 1);
        put(&|c| c.occupied[j] = 1);
        put(&|c| c.timed[j] = 1);
        put(&|c| c.millis[j] = 1);
    }
    // in range of each other, but beyond m
    put(&|c| (c.vehicles[2], c.timed[2], c.millis[2]) = (1, 1, 1));
}

/// States with one number at a limit or beyond it.
fn states_at_limits() -> Vec<State> {
    let mut out = Vec::new();
    let mut put = |change: &dyn Fn(&mut State)| {
        let mut state = counted();
        change(&mut state);
        out.push(state);
    };
    for interval in [9, 10, UNUSED] {
        put(&|s| s.interval = interval);
    }
    for age in [36000, 36001, UNUSED] {
        put(&|s| s.age = age);
    }
    for counter in [720, 721, UNUSED] {
        put(&|s| s.offset = counter);
        for i in [0, 1, 2] {
            put(&|s| s.lanes[i].age = counter);
            put(&|s| s.lanes[i].counter = counter);
        }
    }
    for i in [0, 1, 2] {
        for passages in [3, 4] {
            put(&|s| s.lanes[i].passages = passages);
        }
        for colour in [0, 3, 4] {
            put(&|s| s.lanes[i].colour = colour);
        }
    }
    put(&|s| s.lanes[2].colour = UNUSED);
    // yellow and green in every interval
    for interval in 0..10 {
        put(&|s| (s.interval, s.lanes[2].colour) = (interval, 2));
        put(&|s| (s.interval, s.lanes[0].colour) = (interval, 3));
    }
    // beyond n
    put(&|s| s.lanes[3].colour = 1);
    put(&|s| s.lanes[3].age = 1);
    put(&|s| s.lanes[3].counter = 1);
    put(&|s| s.lanes[3].passages = 1);
    for last in [0, 1, 3, 4, UNUSED] {
        put(&|s| s.last = last);
    }
    for ticks in [299, 300, UNUSED] {
        put(&|s| s.periods.ticks = ticks);
    }
    // the counts of 20 ticks are too many for 19
    put(&|s| s.periods.ticks = 19);
    counts_at_limits(20, &mut |change| put(&|s| change(&mut s.periods.current)));
    counts_at_limits(300, &mut |change| put(&|s| change(&mut s.periods.last)));
    // at serial 0 and at period ticks 0 every count is 0
    put(&|s| s.periods.serial = 0);
    put(&|s| (s.periods.serial, s.periods.last) = (0, Counts::default()));
    put(&|s| (s.periods.ticks, s.periods.current) = (0, Counts::default()));
    let ones: [&dyn Fn(&mut Counts); 5] =
        [&|c| c.passages[1] = 1, &|c| c.greens[1] = 1, &|c| c.worked[1] = 1, &|c| c.vehicles[1] = 1, &|c| {
            c.occupied[1] = 1
        }];
    for one in ones {
        put(&|s| {
            (s.periods.serial, s.periods.last) = (0, Counts::default());
            one(&mut s.periods.last);
        });
        put(&|s| {
            (s.periods.ticks, s.periods.current) = (0, Counts::default());
            one(&mut s.periods.current);
        });
    }
    out
}

fn spoilt_states() -> Vec<Vec<u8>> {
    let states = states_at_limits();
    let ops = |state: &State| [Op::State(*state), Op::Ticks(1, quiet(fixed(900))), DECIDE, POLL, Op::Readings];
    let case = |some: &[State]| from_power_up(&bytes(&distinct()), &some.iter().flat_map(ops).collect::<Vec<Op>>());
    states.chunks(100).map(case).collect()
}

// Spoilt sites.

/// Each timing on both sides of its ends: a tick, a poll and a power-up, then the file's site again.
fn spoilt_sites() -> Vec<Vec<u8>> {
    let mut ops = Vec::new();
    for i in 0..TIMINGS.len() {
        let (low, high) = timing_range(&site_a().timings, i);
        for value in [low.saturating_sub(1), low, high, high + 1, UNUSED] {
            ops.extend([timing(i, value), Op::Ticks(1, in_demand(fixed(600))), POLL, Op::Repair]);
        }
    }
    // the maximum green below the minimum, and at it
    for green in [9, 10, 11] {
        ops.extend([timing(4, green), Op::Ticks(2, in_demand(GREEN)), Op::Repair]);
    }
    let zero = vec![
        Op::Ticks(70, in_demand(fixed(600))),
        // power-up under a spoilt site leaves zeros, which are spoilt under any site
        timing(0, 5),
        Op::PowerUp,
        Op::Ticks(2, quiet(GREEN)),
        POLL,
        Op::Repair,
        POLL,
        Op::Ticks(2, quiet(GREEN)),
        Op::PowerUp,
        Op::Ticks(60, in_demand(fixed(600))),
        // two timings at once: one of them repaired by hand
        timing(3, 101),
        timing(5, 61),
        timing(3, 20),
        Op::Ticks(1, quiet(GREEN)),
        timing(5, 60),
        Op::Ticks(1, quiet(GREEN)),
        Op::Repair,
        Op::Ticks(1, quiet(GREEN)),
    ];
    // power-up looks at every timing
    let beyond = |i: usize| [timing(i, TIMINGS[i].1 + 1), Op::PowerUp, Op::Repair];
    let powered = [(0..TIMINGS.len()).flat_map(beyond).collect(), vec![Op::PowerUp]].concat();
    [ops, zero, powered].iter().map(|ops| from_power_up(&bytes(&site_a()), ops)).collect()
}

// Refused inputs.

/// Inputs with one number at an end of its range or beyond it.
fn inputs_at_limits() -> Vec<Input> {
    let mut out = Vec::new();
    let mut put = |change: &dyn Fn(&mut Input)| {
        let mut input = in_demand(fixed(900));
        change(&mut input);
        out.push(input);
    };
    for year in [1999, 2000, 2099, 2100] {
        put(&|x| x.clock.date.year = year);
    }
    for (year, month, day) in [
        (2024, 0, 1),
        (2024, 13, 1),
        (2024, 2, 29),
        (2024, 2, 30),
        (2023, 2, 29),
        (2025, 4, 30),
        (2025, 4, 31),
        (2025, 1, 31),
        (2025, 1, 32),
        (2025, 1, 0),
        (2000, 2, 29),
        (2099, 12, 31),
        (2100, 1, 1),
        (1999, 12, 31),
    ] {
        put(&|x| x.clock.date = Date { year, month, day });
    }
    for tenth in [863_999, 864_000, u32::MAX] {
        put(&|x| x.clock.tenth = tenth);
    }
    // lanes 3 of `distinct` and 2 of its mainline are the last ones; those beyond are not looked at
    for i in [0, 2, 3] {
        put(&|x| x.demand[i] = 2);
        put(&|x| x.passage[i] = 2);
    }
    put(&|x| (x.demand[3], x.passage[3]) = (UNUSED, UNUSED));
    for j in [0, 1, 2, 5] {
        put(&|x| x.mainline[j].working = 2);
        put(&|x| x.mainline[j].occupied = 101);
        put(&|x| x.mainline[j].vehicles = 2);
        // no time is out of range
        put(&|x| x.mainline[j].time = UNUSED);
    }
    for call in [0, 1, 2, 256, 257, UNUSED] {
        put(&|x| x.preemption = call);
        put(&|x| x.bypass = call);
    }
    for working in [0, 1] {
        for (occupied, vehicles, time) in
            [(100, 1, UNUSED), (100, 0, UNUSED), (0, 1, 0), (0, 1, 1), (101, 1, 250), (0, 2, 0), (0, 0, 251), (0, 2, UNUSED)]
        {
            put(&|x| x.mainline[1] = Sample { working, occupied, vehicles, time });
        }
    }
    for which in [0, 1] {
        for kind in 0..6 {
            let (rate, table) = (if kind == 3 || kind == 4 { 150 } else { 0 }, if kind == 4 { 1 } else { 0 });
            put(&|x| x.commands[which] = Command { kind, rate, table });
            put(&|x| x.commands[which] = Command { kind, rate: 149, table });
            put(&|x| x.commands[which] = Command { kind, rate: 1800, table });
            put(&|x| x.commands[which] = Command { kind, rate: 1801, table });
            put(&|x| x.commands[which] = Command { kind, rate, table: 4 });
            put(&|x| x.commands[which] = Command { kind, rate, table: 5 });
            put(&|x| x.commands[which] = Command { kind, rate: 0, table: 0 });
        }
    }
    // two or three at once: the first of the order is given
    for (clock, sample, command) in [(1, 1, 0), (1, 0, 1), (0, 1, 1), (1, 1, 1)] {
        put(&|x| {
            x.clock.date.month += 12 * clock;
            x.passage[0] += 2 * sample;
            x.commands[1].kind += 5 * command;
        });
        put(&|x| {
            x.clock.date.day += 31 * clock;
            x.preemption = 2 * sample;
            x.commands[0].kind += 5 * command;
        });
        put(&|x| {
            x.clock.tenth += 864_000 * clock as u32;
            x.bypass = 2 * sample;
            x.commands[1].kind += 5 * command;
        });
    }
    out
}

/// From metering with a green, a yellow and a red lane: nothing ages at a refused tick, and the indications stay.
fn refused_inputs() -> Vec<Vec<u8>> {
    let mut state = fresh(3, 7, 100);
    state.lanes[0] = KeptLane { colour: 3, age: 2, counter: 2, passages: 1 };
    state.lanes[1] = KeptLane { colour: 2, age: 7, counter: 31, passages: 2 };
    state.lanes[2] = KeptLane { colour: 1, age: 9, counter: 60, passages: 0 };
    state.offset = 2;
    let inputs = inputs_at_limits();
    let case = |some: &[Input]| {
        let mut ops = vec![Op::State(state)];
        ops.extend(some.iter().map(|input| Op::Ticks(1, *input)));
        from_power_up(&bytes(&distinct()), &ops)
    };
    let mut out: Vec<Vec<u8>> = inputs.chunks(40).map(case).collect();

    // in every interval a bad clock shows that interval; a spoilt state and a spoilt site go before it
    let mut bad = quiet(GREEN);
    bad.clock.date.day = 32;
    let mut ops = Vec::new();
    for interval in 0..11 {
        ops.extend([Op::State(fresh(3, interval, 7)), Op::Ticks(2, bad)]);
    }
    ops.extend([timing(14, 7), Op::Ticks(2, bad), Op::Repair, Op::Ticks(1, bad)]);
    // the tenth goes round: two bad ones, then 0; and out of the day
    let mut round = quiet(GREEN);
    round.clock.tenth = u32::MAX - 1;
    let mut out_of_day = quiet(GREEN);
    out_of_day.clock.tenth = 863_990;
    ops.extend([Op::PowerUp, Op::Ticks(4, round), Op::Ticks(20, out_of_day)]);
    out.push(from_power_up(&bytes(&distinct()), &ops));
    out
}

// Periods.

/// Releases at the last tick of a period and about it, polls at each stage, serials at their end.
fn periods() -> Vec<u8> {
    let mut ops =
        vec![POLL, Op::Ticks(299, in_demand(fixed(900))), POLL, Op::Ticks(1, in_demand(fixed(900))), POLL];
    for serial in [0, 65535, u32::MAX - 1, u32::MAX] {
        for ticks in [298, 299, 0] {
            let mut state = counted();
            state.periods.ticks = ticks;
            state.periods.serial = serial;
            if ticks == 0 {
                state.periods.current = Counts::default();
            }
            if serial == 0 {
                state.periods.last = Counts::default();
            }
            state.lanes.iter_mut().take(3).for_each(|lane| lane.age = 100);
            ops.push(Op::State(state));
            let passage = [1, 0, 1, 0];
            ops.push(Op::Ticks(1, Input { passage, ..in_demand(fixed(900)) }));
            ops.push(POLL);
            ops.push(Op::Ticks(3, Input { passage, ..in_demand(fixed(900)) }));
        }
        ops.extend([Op::Ticks(300, in_demand(fixed(1500))), POLL]);
    }
    // 14, 13, 12
    let asked = [POLL, Op::Readings];
    for before in [timing(0, 0), Op::State(fresh(3, 10, 0)), Op::Repair, Op::PowerUp, Op::State(fresh(2, 7, 0))] {
        ops.push(before);
        ops.extend(asked.clone());
    }
    from_power_up(&bytes(&distinct()), &ops)
}

/// The wish of the tick that closes a period looks at that period, and clear becomes metering at it.
fn closing_wish() -> Vec<u8> {
    let mut site = distinct();
    site.levels = vec![[1, UNUSED, 300, UNUSED, 450], [2, UNUSED, UNUSED, 60, 1500], [1, UNUSED, 600, UNUSED, 900]];
    let input = |occupied, time, table| {
        let mut input = in_demand(Command { kind: 4, rate: 777, table });
        input.mainline = [Sample { working: 1, occupied, vehicles: 1, time }; 6];
        input
    };
    let mut failed = input(90, 1098, 1);
    failed.mainline[0].working = 0;
    let mut all_failed = failed;
    all_failed.mainline[1].working = 0;
    let ops = [
        Op::Ticks(299, input(29, 365, 1)),
        Op::Ticks(1, input(100, 365, 1)),
        POLL,
        Op::Ticks(300, input(30, 366, 1)),
        POLL,
        Op::Ticks(1, input(60, 366, 2)),
        Op::Ticks(298, input(60, 366, 1)),
        Op::Ticks(2, input(60, 366, 1)),
        Op::Ticks(298, failed),
        Op::Ticks(1, failed),
        Op::Ticks(1, all_failed),
        Op::Ticks(299, input(1, 244, 2)),
        POLL,
        Op::Ticks(300, input(1, 244, 2)),
        POLL,
    ];
    from_power_up(&bytes(&site), &ops)
}

/// Operations that end a case: an unknown one, and ones cut short.
fn cut_operations() -> Vec<Vec<u8>> {
    let file = bytes(&site_a());
    let ops = [Op::Ticks(2, quiet(GREEN)), POLL];
    let whole = from_power_up(&file, &ops);
    let more = |words: &[u16]| [&whole[..], &words.iter().flat_map(|w| w.to_be_bytes()).collect::<Vec<u8>>()].concat();
    let cut = |op: Op, short: usize| {
        let bytes = from_power_up(&file, &[ops[0].clone(), op]);
        bytes[..bytes.len() - short].to_vec()
    };
    vec![
        from_power_up(&file, &[]),
        more(&[0, 5, 6]),
        more(&[7, 5]),
        more(&[UNUSED]),
        more(&[3, 0]),
        cut(Op::Ticks(2, quiet(GREEN)), 2),
        cut(Op::State(fresh(2, 7, 0)), 2),
        cut(Op::State(fresh(2, 7, 0)), 1),
        // without its speeds, and with all but the last
        cut(Op::State(fresh(2, 7, 0)), 240),
        cut(Op::State(fresh(2, 7, 0)), 8),
        cut(Op::Readings, 1),
        cut(POLL, 1),
        cut(Op::PowerUp, 2),
    ]
}

// Random sites and inputs.

/// Short times, so that metering is reached soon; now and then any time. Of 24 sites one behind the other each has
/// another n, service mode and V.
pub fn short_timings(r: &mut Random, k: u16) -> Vec<u16> {
    let mut row: Vec<u16> = TIMINGS.iter().map(|(low, high)| r.number(*low, (*high).min(low + 15))).collect();
    row[0] = 1 + k % 4;
    row[1] = k / 4 % 2;
    row[2] = 1 + k / 8 % 3;
    row[12] = 1;
    row[13] = r.number(1, 40);
    for i in [3, 5, 6, 7, 8, 9, 10, 11, 12, 13] {
        if r.percent(4) {
            row[i] = r.edged(TIMINGS[i].0, TIMINGS[i].1.min(200));
        }
    }
    row[4] = r.number(row[3], (row[3] + 30).min(100));
    (row[15], row[16]) = cases::bypass_timings(r, row[0]);
    row
}

/// Thresholds that a period with few vehicles may meet.
fn levels(r: &mut Random, tables: u16) -> Vec<[u16; 5]> {
    let used = |r: &mut Random, high| if r.percent(50) { r.edged(1, high) } else { UNUSED };
    (0..r.from(0, 6))
        .map(|_| [r.number(1, tables), used(r, 3000), used(r, 1000), used(r, 250), cases::rate_from(r, 600)])
        .collect()
}

pub struct Setting {
    pub site: Site,
    starts: Vec<u16>,
    dates: Vec<Date>,
    tables: u16,
    /// Percent.
    failing: u64,
    demand: u64,
    /// The travel times of most vehicles, and whether some take the least or the most time.
    times: (u16, u16),
    edges: bool,
    /// Of each mainline lane, how many of a thousand vehicles are timed: most, hardly one in a period, or none.
    timed: [u64; 6],
}

/// From fast traffic to slow: a threshold of 1 to 250 km/h is met by about every other one.
const TIMES: [(u16, u16); 7] = [(88, 120), (88, 120), (100, 180), (130, 300), (200, 700), (700, 2500), (2000, 20_000)];

pub fn setting(r: &mut Random, timings: impl Fn(&mut Random) -> Vec<u16>) -> Setting {
    let (starts, tables) = (cases::starts(r), r.number(1, 4));
    let date = cases::date(r);
    // the days about it, and any
    let mut dates: Vec<Date> = (-2..=9).filter_map(|by| shifted(date, by)).filter(|d| d.year >= 2000).collect();
    dates.extend([date, date, cases::date(r)]);
    let timings = timings(r);
    let entries = cases::entries(r, &starts, tables);
    let holidays = cases::holidays(r, date);
    let mut site = Site { timings, entries, holidays, levels: levels(r, tables) };
    let (failing, demand) = (r.pick(&[0, 0, 1, 10]), r.pick(&[50, 80, 80, 95]));
    let (mut times, mut edges) = (r.pick(&TIMES), r.percent(15));
    if r.percent(20) {
        (times, edges) = (one_speed(r, &mut site), false);
    }
    let timed = [0; 6].map(|_| r.pick(&[750, 750, 750, 750, 750, 750, 750, 3, 3, 0]));
    Setting { site, starts, dates, tables, failing, demand, times, edges, timed }
}

/// All vehicles at one whole speed, which is often a level's threshold, or right beside it; gives their times.
fn one_speed(r: &mut Random, site: &mut Site) -> (u16, u16) {
    let speed = r.pick(&cases::WHOLE_SPEEDS);
    for level in site.levels.iter_mut().filter(|level| level[3] != UNUSED) {
        if r.percent(60) {
            level[3] = (speed + r.pick(&[0, 0, 1, 2])).saturating_sub(r.pick(&[0, 0, 0, 1])).max(1);
        }
    }
    let time = (LOOPS / speed as u64) as u16;
    (time, time)
}

/// Mostly to meter, often at a high rate.
pub fn command(r: &mut Random, s: &Setting, none: u64) -> Command {
    if r.percent(none) {
        return NONE;
    }
    let kind = r.pick(&[1, 2, 3, 3, 3, 3, 3, 3, 4, 4]);
    let (mut rate, table) = cases::rate_and_table(r, kind - 1, s.tables);
    if rate != 0 && r.percent(60) {
        rate = cases::rate_from(r, 900);
    }
    Command { kind, rate, table }
}

fn metered(r: &mut Random, n: usize, chance: u64) -> [u16; 4] {
    let mut row = [0; 4].map(|_: u16| r.percent(chance) as u16);
    if n < 4 && r.percent(5) {
        row[3] = r.pick(&[2, UNUSED]);
    }
    row
}

/// Of a vehicle on mainline lane j, from 0.
fn travel_time(r: &mut Random, s: &Setting, j: usize) -> u16 {
    if r.from(1, 1000) > s.timed[j] {
        return 0;
    }
    if s.edges && r.percent(2) {
        return r.pick(&[1, 1, 2, 65534, UNUSED, UNUSED]);
    }
    r.number(s.times.0, s.times.1)
}

fn sample(r: &mut Random, s: &Setting, count: u16, j: usize) -> Sample {
    let passing = if count <= 5 { 60 } else { 5 };
    Sample {
        working: !r.percent(s.failing) as u16,
        occupied: r.edged(0, 100),
        vehicles: r.percent(passing) as u16,
        time: travel_time(r, s, j),
    }
}

/// Mostly to another of some days in a row; at times to a moment before midnight.
pub fn jump(r: &mut Random, s: &Setting) -> Clock {
    let before_midnight = TENTHS - r.from(1, 300) as u32;
    let tenth = if r.percent(15) { before_midnight } else { cases::tenth(r, &s.starts) };
    Clock { date: r.pick(&s.dates), tenth }
}

/// Of so many ticks those that fit into the day.
pub fn of_today(clock: Clock, ticks: u16) -> u16 {
    (ticks as u32).min(TENTHS - clock.tenth) as u16
}

/// The clock after so many ticks, over midnight as a clock goes; at the end of 2099 it jumps.
pub fn after(r: &mut Random, s: &Setting, clock: Clock, ticks: u16) -> Clock {
    later(clock, ticks as u32).unwrap_or_else(|| jump(r, s))
}

/// For so many ticks with one input: where they are few, vehicles are frequent.
pub fn samples(r: &mut Random, s: &Setting, count: u16, input: &mut Input) {
    let (n, m) = (s.site.timings[0] as usize, s.site.timings[14] as usize);
    input.demand = metered(r, n, s.demand);
    input.passage = metered(r, n, 35);
    input.mainline = [0, 1, 2, 3, 4, 5].map(|j| sample(r, s, count, j));
    if m < 6 && r.percent(5) {
        input.mainline[5] = Sample { working: 2, occupied: 101, vehicles: 2, time: UNUSED };
    }
}

fn damage_sample(r: &mut Random, s: &Setting, input: &mut Input) {
    let (n, m) = (s.site.timings[0], s.site.timings[14]);
    let (i, j) = (r.number(0, n - 1) as usize, r.number(0, m - 1) as usize);
    match r.from(0, 6) {
        0 => input.demand[i] = r.pick(&[2, UNUSED]),
        1 => input.passage[i] = r.pick(&[2, 256]),
        2 => input.mainline[j].working = r.pick(&[2, 257]),
        3 => input.mainline[j].occupied = r.pick(&[101, UNUSED]),
        4 => input.mainline[j].vehicles = r.pick(&[2, UNUSED]),
        5 => input.preemption = r.pick(&[2, 257, UNUSED]),
        _ => input.bypass = r.pick(&[2, 257, UNUSED]),
    }
}

/// One of the three, at times two.
pub fn damage_input(r: &mut Random, s: &Setting, input: &mut Input) {
    for _ in 0..r.pick(&[1, 1, 1, 2]) {
        match r.from(0, 2) {
            0 => cases::damage_clock(r, &mut input.clock),
            1 => damage_sample(r, s, input),
            _ => cases::damage_command(r, &mut input.commands),
        }
    }
}

// Random runs.

fn length(r: &mut Random) -> u16 {
    match r.from(1, 100) {
        1..=22 => r.number(1, 3),
        23..=65 => r.number(4, 60),
        66..=92 => r.number(61, 200),
        _ => r.number(300, 700),
    }
}

/// Something other than sound ticks, now and then.
fn interruption(r: &mut Random, s: &Setting, input: &Input, ops: &mut Vec<Op>) {
    let mut bad = *input;
    let i = r.from(0, TIMINGS.len() as u64 - 1) as usize;
    match r.from(1, 100) {
        1..=5 => {
            damage_input(r, s, &mut bad);
            ops.push(Op::Ticks(r.number(1, 3), bad));
        }
        6 => {
            let beyond = if r.percent(50) { TIMINGS[i].1 + 1 } else { TIMINGS[i].0.saturating_sub(1) };
            ops.extend([timing(i, beyond), Op::Ticks(r.number(1, 3), bad), Op::Repair]);
        }
        // a site that another file could give, for a while
        7 => {
            let value = r.number(TIMINGS[i].0, TIMINGS[i].1.min(TIMINGS[i].0 + 30));
            ops.extend([timing(i, value), Op::Ticks(r.number(1, 40), bad), Op::Repair]);
        }
        8..=11 => ops.extend([POLL, Op::Readings]),
        12 if r.percent(40) => ops.push(Op::PowerUp),
        _ => {}
    }
}

pub fn random_run(r: &mut Random, s: &Setting) -> Vec<u8> {
    let mut input = quiet(fixed(1200));
    input.clock = jump(r, s);
    let mut calls = [Calls::trucks(r, s, 12), Calls::buses(r, 30)];
    let mut ops = Vec::new();
    for _ in 0..r.from(25, 45) {
        if r.percent(25) {
            input.commands = [command(r, s, 40), command(r, s, 60)];
        }
        if r.percent(15) {
            input.clock = jump(r, s);
        }
        let length = of_today(input.clock, length(r));
        let count = next_calls(r, &mut calls, length, &mut input);
        samples(r, s, count, &mut input);
        interruption(r, s, &input, &mut ops);
        ops.push(Op::Ticks(count, input));
        input.clock = after(r, s, input.clock, count);
    }
    ops.extend([POLL, Op::Readings]);
    from_power_up(&bytes(&s.site), &ops)
}

// States in range that no run need reach.

/// About a limit, about the end of the range, or any.
fn about(r: &mut Random, limit: u16, most: u16) -> u16 {
    match r.from(0, 9) {
        0..=5 => (limit + r.number(0, 2)).saturating_sub(2).min(most),
        6 => most - r.number(0, 1),
        7 => 0,
        _ => r.number(0, most),
    }
}

fn strange_lane(r: &mut Random, t: &[u16], running: bool, cycle: u16) -> KeptLane {
    let colour = if running { r.pick(&[1, 1, 1, 2, 3, 3]) } else { 1 };
    let limit = match colour {
        1 => t[6],
        2 => t[5],
        _ => r.pick(&[t[3], t[4]]),
    };
    KeptLane { colour, age: about(r, limit, 720), counter: about(r, cycle, 720), passages: r.number(0, 3) }
}

fn interval_limit(r: &mut Random, t: &[u16], interval: u16) -> u16 {
    match interval {
        0 => 50,
        2 => r.pick(&[t[13], 600 * t[12]]),
        3 => t[7],
        4 => t[8],
        5 => t[9],
        6 => t[10],
        9 => t[11],
        _ => 2,
    }
}

/// Kept where it may be, its timer mostly about its end; a mark in any interval.
fn strange_bypass(r: &mut Random, t: &[u16], interval: u16) -> Bypass {
    let kept = interval == 7 && t[15] != 0 && r.percent(50);
    let timer = if kept { about(r, 10 * t[16], LONGEST_TIMER) } else { 0 };
    Bypass { kept, mark: r.percent(30), timer }
}

pub fn strange_state(r: &mut Random, t: &[u16], cycle: u16) -> State {
    let (n, m) = (t[0] as usize, t[14] as usize);
    let interval = r.pick(&[7, 7, 7, 7, 7, 7, 8, 8, 8, 0, 1, 2, 3, 4, 5, 6, 9]);
    let limit = interval_limit(r, t, interval);
    let mut state = fresh(n, interval, about(r, limit, 36000));
    for lane in &mut state.lanes[..n] {
        *lane = strange_lane(r, t, interval == 7 || interval == 8, cycle);
    }
    state.offset = about(r, cycle.div_ceil(t[0]), 720);
    state.last = r.number(1, t[0]);
    state.bypass = strange_bypass(r, t, interval);
    if r.percent(30) {
        state.periods = cases::periods(r, n, m);
    } else {
        state.periods.ticks = r.pick(&[0, 1, 298, 299]);
        if r.percent(30) {
            state.periods.speeds = cases::speeds(r, m);
        }
    }
    state
}

pub fn strange_states(r: &mut Random, s: &Setting) -> Vec<u8> {
    let t = &s.site.timings;
    let mut ops = Vec::new();
    for _ in 0..15 {
        let rate = cases::rate_from(r, 150);
        ops.push(Op::State(strange_state(r, t, nearest(t[2], rate))));
        let mut input = quiet(if r.percent(75) { fixed(rate) } else { command(r, s, 20) });
        input.clock = jump(r, s);
        let count = r.pick(&[1, 1, 2, 3, 40]);
        samples(r, s, count, &mut input);
        input.preemption = r.percent(15) as u16;
        input.bypass = r.percent(60) as u16;
        if r.percent(60) {
            input.demand[..t[0] as usize].fill(1);
        }
        ops.push(Op::Ticks(count, input));
        if r.percent(40) {
            ops.push(Op::Readings);
        }
    }
    from_power_up(&bytes(&s.site), &ops)
}

pub fn cases(r: &mut Random) -> Vec<Vec<u8>> {
    let mut out = [paper(), limits(), spoilt_states(), spoilt_sites(), refused_inputs()].concat();
    out.extend([periods(), closing_wish()]);
    out.extend(cut_operations());
    for k in 0..STRANGE {
        let s = setting(r, |r| short_timings(r, 7 * k));
        out.push(strange_states(r, &s));
    }
    for k in 0..RUNS {
        let s = setting(r, |r| short_timings(r, k));
        out.push(random_run(r, &s));
    }
    out
}

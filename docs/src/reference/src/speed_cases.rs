//! Stored cases of the speeds from loop pairs: kept speeds and sums at their limits, readings, latest and slowest speeds, and levels that
//! a speed just meets or just misses. Where a time divides 21960 its speed is a whole number: 183 ms are 120 km/h, 244 are 90, 366 are 60,
//! 549 are 40, 1098 are 20, 2196 are 10.

use crate::call_run::{timing, Op};
use crate::periods::Sample;
use crate::site::{Site, UNUSED};
use crate::speed_steps::{all_at, carried, completed, counts, failed, measured, nobody, site, vehicles, whole, Case, ABSENT};
use crate::speed_watch::EDGES;
use crate::speeds::{Double, LaneSpeeds, Pair, Reading};
use crate::tick::State;
use crate::tick_cases::{quiet, GREEN, POLL};
use crate::wanted::Command;

const MINUS_ZERO: Double = Double(0x8000_0000_0000_0000);
/// 21960 ÷ 65535, the slowest that a vehicle can be.
const SLOWEST: Double = Double(0x3fd5_7215_7215_7215);

// Kept speeds at their limits.

/// Besides the edges: NaN of other patterns, and numbers that are in range.
const OTHERS: [u64; 9] = [
    0x7ff0_0000_0000_0001,
    0x7fff_ffff_ffff_ffff,
    0xfff0_0000_0000_0001,
    0xfff8_0000_0000_0000,
    0xffff_ffff_ffff_ffff,
    0x3fd0_0000_0000_0001,
    0x40d5_71ff_ffff_ffff,
    0x4056_8000_0000_0000,
    0x3fd5_7215_7215_7215,
];

/// Whether a speed may be kept of a lane that there is, and of one that there is not.
fn allowed(bits: u64) -> (bool, bool) {
    let zero = bits == 0 || bits == MINUS_ZERO.0;
    (zero || (0x3fd0_0000_0000_0000..=0x40d5_7200_0000_0000).contains(&bits), zero)
}

/// Each of the five kept speeds at each edge, on the first and the last of two lanes, and on the third and the sixth, beyond them:
/// readings, and a tick where they are in range.
fn kept_at_edges() -> Vec<Vec<u8>> {
    let all: Vec<u64> = EDGES.iter().map(|(_, edge)| edge.0).chain(OTHERS).collect();
    let of_lane = |j: usize| {
        let mut case = Case::new(&site(2, &[]));
        for (k, bits) in (0..5).flat_map(|k| all.iter().map(move |bits| (k, *bits))) {
            let mut state = completed(&[(2, 488), (0, 0)]);
            *state.periods.speeds.of_lane_mut(j)[k] = Double(bits);
            case.state(state);
            let fits = if j < 2 { allowed(bits).0 } else { allowed(bits).1 };
            if !fits {
                case.refused(13);
                continue;
            }
            case.op(Op::Readings);
            case.ticks(1, nobody());
        }
        case.ticks_refused(1, nobody(), if j < 2 { 0 } else { 13 });
        case.payload()
    };
    [0, 1, 2, 5].into_iter().map(of_lane).collect()
}

/// The tick, the decision and the poll look at kept speeds too, before a clock that is none.
fn kept_at_calls() -> Vec<u8> {
    let mut case = Case::new(&site(3, &[]));
    let mut bad = nobody();
    bad.clock.date.month = 13;
    for (j, k) in (0..4).flat_map(|j| (0..5).map(move |k| (j, k))) {
        let mut state = completed(&[(2, 488); 3]);
        *state.periods.speeds.of_lane_mut(j)[k] = Double(1);
        case.state(state);
        case.ticks_refused(1, bad, 13);
        case.op(Op::Decide(nobody().clock, [GREEN; 2]));
        case.op(POLL);
        case.refused(13);
    }
    case.payload()
}

/// Nothing ties kept speeds to each other or to the counts: a slowest above the latest, speeds in a period that timed nobody, at serial 0.
fn kept_alone() -> Vec<u8> {
    let mut case = Case::new(&site(2, &[]));
    let mut state = completed(&[(0, 0), (1, 366)]);
    let speeds = &mut state.periods.speeds;
    speeds.current = [Pair { latest: whole(10), slowest: whole(90) }; 6];
    speeds.last = [Pair { latest: Double::LEAST, slowest: Double::MOST }; 6];
    speeds.earlier = [whole(45); 6];
    for j in 2..6 {
        speeds.of_lane_mut(j).into_iter().for_each(|speed| *speed = Double::ZERO);
    }
    case.state(state);
    let kept = |reading| LaneSpeeds { reading, pair: Pair { latest: Double::LEAST, slowest: Double::MOST } };
    case.readings(&[kept(Reading::CarriedOver(whole(45))), kept(Reading::Measured(whole(60)))]);
    // a slowest of 90 gives way to 60, and 60 not to 120
    case.ticks(1, vehicles(&[(1, 366)]));
    case.ticks(1, vehicles(&[(1, 183)]));
    assert_eq!(case.kept().periods.speeds.current[0], Pair { latest: whole(120), slowest: whole(60) });

    (state.periods.serial, state.periods.last) = (0, counts(0, &[]));
    case.state(state);
    case.refused(12);
    case.ticks(3, vehicles(&[(2, 1)]));
    case.refused(12);
    assert_eq!(case.kept().periods.speeds.current[1], Pair { latest: Double::MOST, slowest: whole(90) });
    state.periods.ticks = 299;
    case.state(state);
    // it closes: the speeds of the open period are those of the last, and 45 stays
    case.ticks(1, nobody());
    let closed = LaneSpeeds { reading: Reading::CarriedOver(whole(45)), pair: Pair { latest: whole(10), slowest: whole(90) } };
    case.readings(&[closed; 2]);
    case.payload()
}

/// 0 of the other sign: it counts as 0, and stays as it is where nothing replaces it.
fn minus_zero() -> Vec<u8> {
    let mut case = Case::new(&site(2, &[]));
    let mut state = completed(&[(0, 0), (0, 0)]);
    for j in 0..6 {
        state.periods.speeds.of_lane_mut(j).into_iter().for_each(|speed| *speed = MINUS_ZERO);
    }
    state.periods.ticks = 296;
    let kept = Pair { latest: MINUS_ZERO, slowest: MINUS_ZERO };
    case.state(state);
    // an earlier speed of -0 is none; the latest and the slowest are shown as they are
    case.readings(&[LaneSpeeds { reading: Reading::Absent, pair: kept }; 6]);
    case.ticks(1, vehicles(&[(1, 366)]));
    assert_eq!(case.kept().periods.speeds.current[..2], [Pair { latest: whole(60), slowest: whole(60) }, kept]);
    case.ticks(2, vehicles(&[(1, 549)]));
    // the period closes, and then another one that times nobody
    case.ticks(1, nobody());
    assert_eq!(case.kept().periods.speeds.earlier, [MINUS_ZERO; 6]);
    case.op(Op::Readings);
    case.ticks(300, nobody());
    assert_eq!(case.kept().periods.speeds.last, [Pair::default(); 6]);
    assert_eq!(case.kept().periods.speeds.earlier[1..], [MINUS_ZERO; 5]);
    case.op(Op::Readings);
    case.payload()
}

/// The lanes beyond m at another site: what is kept of them is too much there.
fn fewer_lanes() -> Vec<u8> {
    let given = site(3, &[]);
    let at = |m: u16| Some(Site { timings: site(m, &[]).timings, ..given.clone() });
    let mut case = Case::new(&given);
    case.period(2, vehicles(&[(1, 366), (3, 244)]));
    case.period(1, nobody());
    case.readings(&[carried(whole(60)), ABSENT, carried(whole(90))]);
    // the counts of a period that timed nobody beyond m, but worked there, are too many too
    let mut state = case.kept();
    for counts in [&mut state.periods.current, &mut state.periods.last] {
        counts.worked[2] = 0;
    }
    case.state(state);
    case.change(timing(14, 2), at(2));
    case.refused(13);
    state.periods.speeds.earlier[2] = Double::ZERO;
    case.state(state);
    case.readings(&[carried(whole(60)), ABSENT]);
    case.change(timing(14, 4), at(4));
    case.readings(&[carried(whole(60)), ABSENT, ABSENT, ABSENT]);
    case.change(timing(14, 7), None);
    case.refused(14);
    case.payload()
}

// Sums at their limits.

/// Milliseconds one below the timed vehicles, as many, 65535 times as many, and one more; in the open and in the completed period, of the
/// first and of the last lane.
fn sums() -> Vec<u8> {
    let mut case = Case::new(&site(3, &[]));
    for (j, timed) in [0, 2].into_iter().flat_map(|j| [1, 2, 299].map(|timed| (j, timed))) {
        let least = timed as u32;
        for (millis, refusal) in [(least - 1, 13), (least, 0), (65535 * least, 0), (65535 * least + 1, 13)] {
            let mut lanes = [(0, 0); 3];
            lanes[j] = (timed, millis);
            let mut open = completed(&[(0, 0); 3]);
            (open.periods.ticks, open.periods.current) = (299, counts(299, &lanes));
            for state in [completed(&lanes), open] {
                case.state(state);
                case.ticks_refused(1, nobody(), refusal);
                match refusal {
                    0 => case.op(Op::Readings),
                    _ => case.refused(13),
                }
            }
            // by the quotient over the lane alone, the counts having been read or closed
            if refusal == 0 {
                let speed = if millis == least { Double::MOST } else { SLOWEST };
                assert_eq!(crate::speeds::of_last(&case.kept().periods)[j].reading, Reading::Measured(speed));
            }
        }
    }
    case.payload()
}

/// Quotients that are no whole numbers, worked out with fractions elsewhere.
fn quotients() -> Vec<u8> {
    let mut case = Case::new(&site(1, &[]));
    for (timed, millis, bits) in [
        (1, 200, 0x405b_7333_3333_3333),
        (1, 3, 0x40bc_9800_0000_0000),
        (1, 7, 0x40a8_8249_2492_4925),
        (1, 247, 0x4056_3a0a_5d47_83a1),
        (1, 1234, 0x4031_cbb8_a2a5_2270),
        (7, 1234, 0x405f_2483_1ca0_fc44),
        (3, 700, 0x4057_8750_7507_5075),
        (2, 401, 0x405b_61ad_01ea_4b55),
        (3, 1041, 0x404f_a484_cb9e_9de1),
        (13, 4001, 0x4051_d689_d250_bf71),
        (2, 65537, 0x3fe5_71ea_8e15_71eb),
        (300, 90001, 0x4052_4cbf_7978_7c8a),
        (300, 19_660_500, 0x3fd5_7215_7215_7215),
        (300, 300, 0x40d5_7200_0000_0000),
    ] {
        case.state(completed(&[(timed, millis)]));
        case.readings(&[LaneSpeeds { reading: Reading::Measured(Double(bits)), pair: Pair::default() }]);
    }
    case.payload()
}

// Levels.

/// Thresholds at which 21960 × vehicles is threshold × milliseconds, over lanes that are all good: a millisecond less is faster, and
/// misses it.
fn at_thresholds() -> Vec<u8> {
    let mut case = Case::new(&site(3, &[]));
    let rows: [(u16, &[(u16, u32)]); 13] = [
        (90, &[(1, 244)]),
        (60, &[(1, 366)]),
        (1, &[(1, 21_960)]),
        (244, &[(1, 90)]),
        (250, &[(25, 2196)]),
        (249, &[(249, 21_960)]),
        (7, &[(7, 21_960)]),
        (1, &[(300, 6_588_000)]),
        (10, &[(300, 658_800)]),
        // ten vehicles in 3660 ms, of each lane at another speed
        (60, &[(3, 700), (5, 1200), (2, 1760)]),
        (60, &[(9, 3650), (0, 0), (1, 10)]),
        (120, &[(300, 54_000), (300, 54_900), (300, 55_800)]),
        (1, &[(300, 6_500_000), (300, 6_600_000), (300, 6_664_000)]),
    ];
    for (speed, lanes) in rows {
        let mut all = [(0, 0); 3];
        all[..lanes.len()].copy_from_slice(lanes);
        let site = site(3, &[speed]);
        case.op(Op::Damage(3, 0, 1));
        for (place, number) in (1..).zip(site.levels[0]) {
            case.op(Op::Damage(3, place, number));
        }
        case.change(Op::Damage(3, 0, 1), Some(site));
        for (less, more, level) in [(1, 0, 0), (0, 0, 1), (0, 1, 1)] {
            let mut lanes = all;
            lanes[0].1 = lanes[0].1 + more - less;
            case.state(completed(&lanes));
            case.level(level);
        }
    }
    case.payload()
}

/// The speed is over the good lanes alone: the second of three failed at a tick, and timed the slowest vehicles, or the fastest.
fn not_good() -> Vec<u8> {
    let mut case = Case::new(&site(3, &[60]));
    for (second, worked) in [((300, 19_660_500), 299), ((300, 300), 299), ((0, 0), 299), ((5, 1830), 0)] {
        for (millis, level) in [(1899, 0), (1900, 1), (1901, 1)] {
            let mut state = completed(&[(3, millis), second, (7, 1760)]);
            state.periods.last.worked[1] = worked;
            case.state(state);
            case.level(level);
        }
    }
    // as many vehicles in as many milliseconds, all of the lane that is not good, or of lanes that are
    for (worked, level) in [(299, 0), (300, 1)] {
        let mut state = completed(&[(0, 0), (10, 3660), (0, 0)]);
        state.periods.last.worked[1] = worked;
        case.state(state);
        case.level(level);
        case.op(Op::Readings);
    }
    // with no good lane at all it is the command's rate, whatever was timed
    let mut state = completed(&[(10, 36_600); 3]);
    state.periods.last.worked = [299, 0, 299, 0, 0, 0];
    case.state(state);
    case.level(0);
    case.op(Op::Readings);
    case.payload()
}

/// Thresholds of 61, 60 and 59: no longer rounded down, a speed a little above one of them does not meet it.
fn not_rounded() -> Vec<u8> {
    let mut case = Case::new(&site(1, &[61, 60, 59]));
    for (millis, level) in [(359, 0), (360, 1), (365, 1), (366, 2), (372, 2), (373, 3)] {
        case.state(completed(&[(1, millis)]));
        case.level(level);
        case.state(completed(&[(300, 300 * millis)]));
        case.level(level);
    }
    for (millis, level) in [(109_799, 1), (109_800, 2), (109_801, 2)] {
        case.state(completed(&[(300, millis)]));
        case.level(level);
    }
    case.payload()
}

/// A run at whose period's last tick a level is met by the speed of that very period, then missed, then without a speed; a carried-over
/// speed is none, nor is that of a lane that is not good.
fn levels_of_a_run() -> Vec<u8> {
    let mut case = Case::new(&site(2, &[250, 60]));
    case.period(1, vehicles(&[(1, 366)]));
    case.level(2);
    case.readings(&[all_at(whole(60)), ABSENT]);
    case.period(1, vehicles(&[(1, 365)]));
    case.level(1);
    // nobody is timed
    case.period(1, vehicles(&[(1, 0), (2, 0)]));
    case.level(0);
    // on the second lane, which fails at one tick, a slow one
    case.ticks(1, failed(2, nobody()));
    case.ticks(1, vehicles(&[(2, 2196)]));
    case.ticks(298, nobody());
    case.level(0);
    // 21960 / 365 is carried over
    let carried_over = carried(Double(0x404e_150a_8542_a151));
    case.readings(&[carried_over, all_at(whole(10))]);
    // both lanes time one, the first is good: 60 meets both levels, whatever the second says
    case.ticks(1, failed(2, vehicles(&[(1, 366)])));
    case.ticks(1, vehicles(&[(2, 1)]));
    case.ticks(298, nobody());
    case.level(2);
    case.readings(&[all_at(whole(60)), all_at(Double::MOST)]);
    case.payload()
}

// Readings.

/// Measured, empty, empty: carried over twice; then measured again, by a lane that fails at one tick and is not good.
fn carried_over() -> Vec<u8> {
    let mut case = Case::new(&site(2, &[]));
    case.refused(12);
    case.period(1, vehicles(&[(1, 366)]));
    case.readings(&[all_at(whole(60)), ABSENT]);
    case.period(1, nobody());
    case.readings(&[carried(whole(60)), ABSENT]);
    case.period(1, vehicles(&[(2, 244)]));
    case.readings(&[carried(whole(60)), all_at(whole(90))]);
    case.ticks(1, failed(1, vehicles(&[(1, 1), (2, 183)])));
    case.ticks(2, vehicles(&[(1, 549)]));
    case.ticks(297, nobody());
    case.readings(&[all_at(whole(40)), all_at(whole(120))]);
    case.op(POLL);
    // what is carried over is the latest measured: not the first, nor the fastest
    case.period(1, nobody());
    case.readings(&[carried(whole(40)), carried(whole(120))]);
    for _ in 0..3 {
        case.period(1, nobody());
    }
    case.readings(&[carried(whole(40)), carried(whole(120))]);
    case.period(3, vehicles(&[(1, 1098)]));
    case.readings(&[all_at(whole(20)), carried(whole(120))]);
    // power-up forgets them
    case.power_up();
    case.refused(12);
    case.period(1, nobody());
    case.readings(&[ABSENT, ABSENT]);
    case.payload()
}

/// The speed that is carried over is that of the period, and not its latest or its slowest.
fn carries_over_the_period() -> Vec<u8> {
    let mut case = Case::new(&site(1, &[]));
    // 183 and 549: 43920 ÷ 732 is 60
    case.ticks(1, vehicles(&[(1, 549)]));
    case.ticks(1, vehicles(&[(1, 183)]));
    case.ticks(298, nobody());
    case.readings(&[measured(whole(60), whole(120), whole(40))]);
    case.period(1, nobody());
    case.readings(&[carried(whole(60))]);
    case.payload()
}

/// A vehicle at the 300th tick alone is in the period that it closes; one at the 301st is not.
fn last_tick() -> Vec<u8> {
    let mut case = Case::new(&site(2, &[60]));
    case.ticks(299, nobody());
    case.refused(12);
    case.ticks(1, vehicles(&[(1, 366)]));
    case.readings(&[all_at(whole(60)), ABSENT]);
    case.level(1);
    case.ticks(1, vehicles(&[(1, 183), (2, 366)]));
    case.readings(&[all_at(whole(60)), ABSENT]);
    case.ticks(298, nobody());
    case.readings(&[all_at(whole(60)), ABSENT]);
    case.ticks(1, vehicles(&[(1, 549)]));
    // 43920 ÷ 732
    case.readings(&[measured(whole(60), whole(40), whole(40)), all_at(whole(60))]);
    case.ticks(299, nobody());
    case.ticks(1, vehicles(&[(2, 244)]));
    case.readings(&[carried(whole(60)), all_at(whole(90))]);
    case.payload()
}

/// The latest and the slowest over several vehicles: slower, faster, equal; and at the least and the most time.
fn latest_and_slowest() -> Vec<u8> {
    let mut case = Case::new(&site(2, &[]));
    for (times, speeds) in [
        // 60, 40, 90, 40, 120: 109800 ÷ 1891 together
        (&[366, 549, 244, 549, 183][..], (Double(0x404d_0842_1084_2108), whole(120), whole(40))),
        (&[183, 183][..], (whole(120), whole(120), whole(120))),
        (&[183, 549][..], (whole(60), whole(40), whole(40))),
        (&[549, 183][..], (whole(60), whole(120), whole(40))),
        (&[1][..], (Double::MOST, Double::MOST, Double::MOST)),
        (&[65535][..], (SLOWEST, SLOWEST, SLOWEST)),
        // 43920 ÷ 65536
        (&[65535, 1][..], (Double(0x3fe5_7200_0000_0000), Double::MOST, SLOWEST)),
        (&[1, 65535][..], (Double(0x3fe5_7200_0000_0000), SLOWEST, SLOWEST)),
        (&[0, 366, 0][..], (whole(60), whole(60), whole(60))),
    ] {
        for time in times {
            case.ticks(1, vehicles(&[(1, *time), (2, *time)]));
        }
        case.ticks(300 - times.len() as u16, nobody());
        case.readings(&[measured(speeds.0, speeds.1, speeds.2); 2]);
    }
    case.payload()
}

/// A vehicle at every tick, of the least and of the most time: the sums at their ends from power-up.
fn at_every_tick() -> Vec<u8> {
    let mut case = Case::new(&site(6, &[1]));
    let all = |time| vehicles(&[1, 2, 3, 4, 5, 6].map(|lane| (lane, time)));
    case.ticks(300, all(UNUSED));
    case.readings(&[all_at(SLOWEST); 6]);
    case.level(1);
    case.ticks(300, all(1));
    case.readings(&[all_at(Double::MOST); 6]);
    case.level(0);
    case.payload()
}

/// A time without a vehicle, a vehicle without a time, and both on a lane that does not work: nobody is timed.
fn not_timed() -> Vec<u8> {
    let mut case = Case::new(&site(3, &[250]));
    let mut alone = nobody();
    alone.mainline[0] = Sample { working: 1, occupied: 100, vehicles: 0, time: 366 };
    alone.mainline[1] = Sample { working: 1, occupied: 100, vehicles: 1, time: 0 };
    alone.mainline[2] = Sample { working: 0, occupied: 100, vehicles: 1, time: 366 };
    case.period(5, alone);
    case.readings(&[ABSENT; 3]);
    case.level(0);
    // behind a period that timed one they are carried over
    case.period(1, vehicles(&[(1, 366), (2, 244), (3, 183)]));
    case.period(300, alone);
    case.readings(&[carried(whole(60)), carried(whole(90)), carried(whole(120))]);
    case.payload()
}

/// Sites of one to six lanes, each lane with another time; lanes beyond are not looked at.
fn each_m() -> Vec<Vec<u8>> {
    let times = [183, 244, 366, 549, 1098, 2196];
    let speeds = [120, 90, 60, 40, 20, 10].map(|speed| all_at(whole(speed)));
    let at = |m: u16| {
        let mut case = Case::new(&site(m, &[]));
        let all: Vec<(usize, u16)> = (1..).zip(times).collect();
        case.period(2, vehicles(&all));
        case.readings(&speeds[..m as usize]);
        case.period(1, vehicles(&all[1..]));
        case.op(Op::Readings);
        case.period(1, nobody());
        case.readings(&speeds.map(|lane| carried(lane.reading.numbers().1))[..m as usize]);
        case.payload()
    };
    (1..=6).map(at).collect()
}

// Refusals.

/// 14 before 13 before 12.
fn refusals() -> Vec<u8> {
    let mut case = Case::new(&site(2, &[]));
    let sound = completed(&[(1, 366), (0, 0)]);
    let mut none = completed(&[]);
    none.periods.serial = 0;
    none.periods.speeds.earlier[0] = whole(60);
    let spoilt = |state: State| State { interval: 10, ..state };
    let mut damaged = none;
    damaged.periods.speeds.last[1].latest = Double(1);
    for (state, refusal) in [(sound, 0), (none, 12), (spoilt(sound), 13), (spoilt(none), 13), (damaged, 13), (State::default(), 13)] {
        case.state(state);
        case.change(timing(0, 5), None);
        case.refused(14);
        case.repair();
        match refusal {
            0 => case.op(Op::Readings),
            _ => case.refused(refusal),
        }
    }
    for (section, place, value) in [(0, 15, 7), (1, 0, 17), (2, 5, 2), (3, 120, 1)] {
        case.state(sound);
        case.change(Op::Damage(section, place, value), None);
        case.refused(14);
        case.repair();
        case.op(Op::Readings);
    }
    case.payload()
}

/// A refused tick with times leaves all, also where it would have closed the period; the same tick in range closes it.
fn refused_ticks() -> Vec<u8> {
    let mut case = Case::new(&site(2, &[]));
    case.period(1, vehicles(&[(1, 366)]));
    case.ticks(298, vehicles(&[(2, 244)]));
    let good = vehicles(&[(1, 1), (2, UNUSED)]);
    let (mut clock, mut sample, mut command) = (good, good, good);
    clock.clock.date.day = 32;
    sample.mainline[1].vehicles = 2;
    command.commands[1] = Command { kind: 5, rate: 0, table: 0 };
    // in place of the 299th tick and of the 300th
    for _ in 0..2 {
        for (input, refusal) in [(clock, 8), (sample, 9), (command, 10)] {
            case.ticks_refused(2, input, refusal);
            case.readings(&[all_at(whole(60)), ABSENT]);
        }
        case.ticks(1, nobody());
    }
    case.readings(&[carried(whole(60)), all_at(whole(90))]);
    case.payload()
}

/// Readings between calls with records: the open period is not shown, and what the records close is.
fn between_records() -> Vec<u8> {
    let mut case = Case::new(&site(2, &[]));
    case.records(100, vehicles(&[(1, 366)]));
    case.refused(12);
    case.records(199, nobody());
    case.refused(12);
    case.records(1, vehicles(&[(2, 244)]));
    case.readings(&[all_at(whole(60)), all_at(whole(90))]);
    case.records(100, vehicles(&[(1, 1)]));
    case.readings(&[all_at(whole(60)), all_at(whole(90))]);
    case.ticks(100, vehicles(&[(1, 1)]));
    case.readings(&[all_at(whole(60)), all_at(whole(90))]);
    case.records(101, quiet(GREEN));
    case.readings(&[all_at(Double::MOST), carried(whole(90))]);
    case.op(POLL);
    case.payload()
}

/// The serial's end: it stays, and speeds go on.
fn last_serial() -> Vec<u8> {
    let mut case = Case::new(&site(1, &[]));
    let mut state = completed(&[(1, 366)]);
    (state.periods.serial, state.periods.ticks) = (u32::MAX, 299);
    state.periods.current = counts(299, &[(1, 244)]);
    case.state(state);
    case.ticks(1, nobody());
    case.op(Op::Readings);
    case.ticks(300, nobody());
    case.readings(&[carried(whole(90))]);
    case.payload()
}

pub fn cases() -> Vec<Vec<u8>> {
    let kept = [kept_at_edges(), vec![kept_at_calls(), kept_alone(), minus_zero(), fewer_lanes()]].concat();
    let sums = vec![sums(), quotients()];
    let levels = vec![at_thresholds(), not_good(), not_rounded(), levels_of_a_run()];
    let readings = vec![carried_over(), carries_over_the_period(), last_tick(), latest_and_slowest(), at_every_tick(), not_timed()];
    let refusals = vec![refusals(), refused_ticks(), between_records(), last_serial()];
    [kept, sums, levels, readings, each_m(), refusals].concat()
}

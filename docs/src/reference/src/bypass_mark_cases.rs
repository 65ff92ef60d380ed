//! Stored runs with a bus bypass, the second part: the mark, which lets a call bring one bypass alone; buses and fire trucks; the counts;
//! refused ticks; states that no run reaches, and spoilt ones. Words in quotation marks are the request's.

use crate::bypass::Bypass;
use crate::bypass_steps::*;
use crate::call_run::{timing, Op};
use crate::site::UNUSED;
use crate::tick::{Input, State};
use crate::tick_cases::{counted, fresh, quiet, DARK, DECIDE, POLL};

// The mark.

/// "Another bypass needs an accepted tick without the call first": the call stays on behind each end, goes for a tick, and comes again.
fn second_calls() -> Vec<Vec<u8>> {
    in_both(
        |mode| site(2, mode, 1, 1),
        |site| {
            let calling = Input { bypass: 1, ..quiet(METER) };
            let without = quiet(METER);
            let lit = metering(&[(LIT, 3), (RED, 50)]);
            let again = [
                step(40, calling, "RR none"),
                step(1, without, "RR none"),
                step(1, calling, "GR runs"),
                step(1, without, "YR none"),
                step(1, calling, "YR waits"),
            ];
            let passed = [step(1, calling, "GR runs"), step(1, past(1, calling), "YR none")];
            let timed_out = [step(10, calling, "GR runs"), step(1, calling, "YR none")];
            // the tick at which the call goes is itself the one without it
            let gone = [
                step(2, calling, "GR runs"),
                step(1, without, "YR none"),
                step(1, calling, "YR waits"),
                step(9, calling, "YR waits"),
                step(1, calling, "YR none"),
            ];
            [from(site, lit, &[&passed[..], &again].concat()), from(site, lit, &[&timed_out[..], &again].concat()), from(site, lit, &gone)]
                .concat()
        },
    )
}

/// The mark over closing, shutdown, pre-metering green and startup: a call that stays on brings none in the next metering; one that goes
/// for a tick on the way does, at the tick that enters metering.
fn mark_over_intervals() -> Vec<Vec<u8>> {
    in_both(
        |mode| site(2, mode, 1, 0),
        |site| {
            let start = [step(ENTERS, plain(), "RR none"), step(16, bus(), "GR runs"), step(1, wishing(DARK, bus()), "YR none")];
            // 14 ticks of yellow, one that finds the lanes red, shutdown red, pre-metering green, startup
            let way = [step(14, bus(), "RR none"), step(1, bus(), "RR none"), step(9, bus(), "RR none"), step(1, bus(), "GG none")];
            let startup =
                |input: Input, left: &'static str| vec![step(40, bus(), "RR none"), step(1, input, left), step(16, bus(), "GR none")];
            let stays = [&start[..], &way, &startup(bus(), "RR none")].concat();
            // without demand nothing is released
            let kept = |input: Input| Input { demand: [0; 4], ..input };
            let goes = [
                &start[..],
                &way,
                &[step(10, bus(), "GG none"), step(1, plain(), "GG none"), step(29, bus(), "RR none"), step(1, kept(bus()), "RR waits")],
                &[step(16, kept(bus()), "GR runs")],
            ]
            .concat();
            let mut ops = from_start(site, &stays);
            ops.extend(from_start(site, &goes));
            ops
        },
    )
}

/// A call whose first tick is the one that closes brings none and sets no mark: it brings one when metering is entered again.
fn first_tick_closes() -> Vec<Vec<u8>> {
    in_both(
        |mode| site(2, mode, 2, 0),
        |site| {
            let calling = Input { bypass: 1, ..quiet(METER) };
            let lit = metering(&[(RED, 50), (LIT, 3)]);
            let way = [
                step(8, calling, "RG none"),
                // by the maximum alone, as ever
                step(12, calling, "RY none"),
                step(14, calling, "RR none"),
                step(11, calling, "GG none"),
                step(41, calling, "RR waits"),
                step(16, calling, "RG runs"),
            ];
            let by_wish = [&[step(1, wishing(DARK, calling), "RG none")][..], &way].concat();
            let by_truck = [&[step(1, Input { preemption: 1, ..calling }, "RG none")][..], &way].concat();
            [from(site, lit, &by_wish), from(site, lit, &by_truck)].concat()
        },
    )
}

/// The mark in every interval: it stays with the call and goes without it, and is no bypass kept.
fn mark_in_each_interval() -> Vec<u8> {
    let site = site(2, 0, 1, 0);
    let mut ops = Vec::new();
    for interval in 0..10 {
        let state = State { bypass: Bypass { mark: true, ..Bypass::default() }, ..fresh(2, interval, 3) };
        for input in [bus(), plain()] {
            ops.extend([Op::State(state), Op::Ticks(1, input), DECIDE]);
        }
    }
    case(&site, &ops)
}

/// A call that brought none because the priority lane was 0 has set no mark: with a priority lane, at the same call, one begins. And the
/// mark of a bypass stands at a site without a priority lane, as long as the call does.
fn priority_lane_changes() -> Vec<u8> {
    let site = site(2, 0, 0, 0);
    let lanes = [(RED, 100), (RED, 100)];
    let ops = [
        Op::State(metering(&lanes)),
        Op::Ticks(3, bus()),
        timing(15, 2),
        Op::Ticks(40, bus()),
        Op::Ticks(1, past(2, bus())),
        timing(15, 0),
        Op::Ticks(2, bus()),
        timing(15, 1),
        Op::Ticks(2, bus()),
        timing(15, 0),
        Op::Ticks(1, plain()),
        timing(15, 1),
        Op::Ticks(2, bus()),
        // a bypass kept at a site without a priority lane, and at one without it: 13, 14
        timing(15, 0),
        Op::Ticks(1, bus()),
        DECIDE,
        timing(15, 3),
        Op::Ticks(1, bus()),
        Op::PowerUp,
        Op::Repair,
        Op::Ticks(1, bus()),
    ];
    case(&site, &ops)
}

// Preemption.

/// A fire truck before the bus, at its tick and behind it, in metering and at the tick that enters it, and one that goes at once.
fn trucks() -> Vec<Vec<u8>> {
    in_both(
        |mode| site(2, mode, 2, 0),
        |site| {
            let up = |count| step(count, plain(), if count < ENTERS { "RR none" } else { "GR none" });
            let metered = up(ENTERS + 20);
            // lane 1 is green, of age 4: closing lasts until it is red, then shutdown red and green
            let same_tick = [
                metered,
                step(1, bus_and_truck(), "GR none"),
                step(18, bus_and_truck(), "GR none"),
                step(1, bus_and_truck(), "YR none"),
                step(14, bus_and_truck(), "RR none"),
                step(11, bus_and_truck(), "GG none"),
                step(41, bus(), "RR waits"),
            ];
            let behind = [
                metered,
                step(7, bus(), "GR waits"),
                step(1, bus_and_truck(), "GR none"),
                step(12, bus_and_truck(), "YR none"),
                step(14, bus_and_truck(), "RR none"),
                step(11, bus_and_truck(), "GG none"),
                step(41, bus(), "RR none"),
                step(30, bus(), "GR none"),
            ];
            let before = [
                metered,
                step(1, truck(), "GR none"),
                step(19, bus_and_truck(), "YR none"),
                step(14, bus_and_truck(), "RR none"),
                step(11, bus_and_truck(), "GG none"),
                step(41, bus(), "RR waits"),
                step(16, bus(), "RG runs"),
                step(1, bus_and_truck(), "RY none"),
            ];
            let at_the_entry = [up(ENTERS - 1), step(1, bus_and_truck(), "RR waits"), step(1, bus_and_truck(), "RR none")];
            let goes_at_once =
                [up(ENTERS - 1), step(1, bus_and_truck(), "RR waits"), step(15, bus(), "RR waits"), step(1, bus(), "RG runs")];
            [&same_tick[..], &behind, &before, &at_the_entry, &goes_at_once].iter().flat_map(|steps| from_start(site, steps)).collect()
        },
    )
}

// Counts.

/// A release under the bypass is a green begun, at a period's last tick in the period that it closes; a green that a call finds is none.
/// Passages count as ever.
fn counts() -> Vec<Vec<u8>> {
    in_both(
        |mode| site(2, mode, 2, 0),
        |_| {
            let mut ops = Vec::new();
            for lanes in [[(RED, 50), (RED, 50)], [(RED, 50), (LIT, 3)]] {
                for ticks in [298, 299, 0] {
                    let mut state = metering(&lanes);
                    state.periods.ticks = ticks;
                    ops.extend([
                        Op::State(state),
                        Op::Ticks(1, past(2, bus())),
                        POLL,
                        Op::Ticks(1, past(2, bus())),
                        POLL,
                        Op::Ticks(3, bus()),
                    ]);
                }
            }
            // a whole period from power-up with two buses, and a poll
            ops.extend([Op::PowerUp, Op::Ticks(150, plain()), Op::Ticks(45, bus()), Op::Ticks(1, past(2, bus()))]);
            ops.extend([Op::Ticks(40, plain()), Op::Ticks(50, bus()), Op::Ticks(14, past(2, plain())), POLL]);
            ops
        },
    )
}

/// The last released lane: the one that the bypass releases, and not the one that it finds green. Then the turn goes on from there.
fn last_released() -> Vec<Vec<u8>> {
    in_both(
        |mode| site(4, mode, 2, 0),
        |site| {
            let mut ops = Vec::new();
            for last in 1..=4 {
                let released = State { last, ..metering(&[(RED, 50); 4]) };
                let turn = [step(1, bus(), "RGRR runs"), step(22, bus(), "RGRR runs"), step(1, past(2, bus()), "RYGR none")];
                ops.extend(from(site, released, &turn));
                let mut found = metering(&[(RED, 50); 4]);
                (found.last, found.lanes[1].colour) = (last, LIT);
                // behind lane 1 comes lane 2 itself, which is yellow
                let left = ["RYGR none", "RYGR none", "RYRG none", "GYRR none"][last as usize - 1];
                ops.extend(from(site, found, &[step(3, bus(), "RGRR runs"), step(1, plain(), left)]));
            }
            ops
        },
    )
}

// Refused ticks.

/// While one waits and while one runs: the timer, the mark and all else stand still at a refused tick, with the call or without it; and
/// one without the call does not take the mark away.
fn refused_within() -> Vec<Vec<u8>> {
    let bad = |change: fn(&mut Input)| {
        let mut input = bus();
        change(&mut input);
        Op::Ticks(2, input)
    };
    let refused = [
        bad(|x| x.clock.tenth = 864_000),
        bad(|x| x.bypass = 2),
        bad(|x| x.bypass = 257),
        bad(|x| x.bypass = UNUSED),
        bad(|x| (x.bypass, x.preemption) = (0, 2)),
        bad(|x| (x.bypass, x.demand[1]) = (0, 2)),
        bad(|x| (x.bypass, x.commands[1].kind) = (0, 5)),
        bad(|x| (x.bypass, x.clock.date.month) = (2, 13)),
        bad(|x| (x.bypass, x.commands[0].rate) = (2, 1)),
    ];
    in_both(
        |mode| site(2, mode, 1, 1),
        |_| {
            let mut ops = Vec::new();
            for lanes in [[(RED, 100), (LIT, 0)], [(LIT, 3), (RED, 50)]] {
                ops.extend([Op::State(metering(&lanes)), Op::Ticks(9, bus())]);
                ops.extend(refused.clone());
                // the tenth tick behind the first
                ops.extend([Op::Ticks(1, bus()), Op::Ticks(1, bus())]);
                ops.extend(refused[4..7].to_vec());
                ops.extend([Op::Ticks(2, bus()), Op::Ticks(1, plain()), Op::Ticks(1, bus())]);
            }
            ops
        },
    )
}

// States.

/// A bypass kept in states in range that no run reaches: without a mark, with a timer at or beyond its timeout or at its end, with others
/// green that no rule leaves so, with counters at odds; with the call and without it, with a passage and without.
fn strange_states() -> Vec<Vec<u8>> {
    let lanes = [
        [(RED, 100), (LIT, 30), (LIT, 3)],
        [(LIT, 700), (LIT, 5), (YELLOW, 700)],
        [(YELLOW, 2), (LIT, 720), (RED, 0)],
        [(RED, 720), (RED, 0), (RED, 720)],
        [(LIT, 0), (RED, 1), (RED, 2)],
    ];
    let mut out = Vec::new();
    for (k, timeout) in [0, 1, 255].into_iter().enumerate() {
        out.extend(in_both(
            |mode| site(3, mode, 1, timeout),
            |_| {
                let mut ops = Vec::new();
                for (i, lanes) in lanes.iter().enumerate() {
                    for (j, timer) in [0, 8, 9, 500, 2548, 2549, 2550].into_iter().enumerate() {
                        let mut state = metering(lanes);
                        state.bypass = Bypass { kept: true, mark: (i + j) % 3 == 0, timer };
                        (state.lanes[0].counter, state.lanes[0].passages, state.offset) = (3, 3, 720);
                        let input = match (i + j + k) % 4 {
                            0 => bus(),
                            1 => past(1, bus()),
                            2 => plain(),
                            _ => only(2, bus()),
                        };
                        ops.extend([Op::State(state), Op::Ticks(1 + 2 * (j as u16 % 2), input)]);
                    }
                }
                ops
            },
        ));
    }
    out
}

/// What 13 says of a bypass, each from both sides: kept outside metering, kept without a priority lane, a timer above 2550, a timer without
/// a bypass. At a tick, a decision and a poll, also where the tick itself would be refused.
fn spoilt_states() -> Vec<Vec<u8>> {
    let state = |interval, kept, mark, timer| {
        let periods = counted().periods;
        State { bypass: Bypass { kept, mark, timer }, periods, ..fresh(3, interval, 3) }
    };
    let mut states = Vec::new();
    for interval in 0..11 {
        states.extend([state(interval, true, true, 0), state(interval, false, true, 0), state(interval, false, false, 1)]);
    }
    for timer in [1, 2549, 2550, 2551, UNUSED] {
        states.extend([
            state(7, true, true, timer),
            state(7, true, false, timer),
            state(7, false, true, timer),
            state(8, true, true, timer),
        ]);
    }
    let mut bad = bus();
    bad.bypass = 2;
    let at = |lane| {
        let site = site(3, 0, lane, 0);
        let ops: Vec<Op> = states.iter().flat_map(|state| [Op::State(*state), Op::Ticks(1, bus()), DECIDE, POLL]).collect();
        let refused = [Op::State(state(8, true, false, 0)), Op::Ticks(1, bad), Op::State(state(7, true, false, 0)), Op::Ticks(1, bad)];
        case(&site, &[&ops[..], &refused].concat())
    };
    // all 13 where there is no priority lane and one is kept
    let none = site(3, 1, 0, 9);
    let few =
        [state(7, true, true, 0), state(7, true, false, 5), state(7, false, true, 0), state(7, false, false, 0), state(7, false, false, 5)];
    let ops: Vec<Op> = few.iter().flat_map(|state| [Op::State(*state), Op::Ticks(1, bus()), DECIDE, POLL]).collect();
    vec![at(1), at(3), case(&none, &ops)]
}

/// 14: a priority lane that there is not, and a timeout above 255, at every call; and just in range. Power-up brings no bypass.
fn spoilt_sites() -> Vec<Vec<u8>> {
    let at = |n: u16| {
        let site = site(n, 0, n, 1);
        let mut ops = Vec::new();
        for (i, value) in [(15, n + 1), (15, 5), (15, UNUSED), (16, 256), (16, UNUSED), (15, n), (15, 0), (16, 255), (16, 0)] {
            ops.extend([timing(i, value), Op::Ticks(1, bus()), DECIDE, POLL, Op::Write(64), Op::PowerUp, Op::Repair, Op::PowerUp]);
        }
        case(&site, &ops)
    };
    (1..=4).map(at).collect()
}

pub fn cases() -> Vec<Vec<u8>> {
    let marks = [second_calls(), mark_over_intervals(), first_tick_closes(), trucks()];
    let single = vec![mark_in_each_interval(), priority_lane_changes()];
    let rest = [single, counts(), last_released(), refused_within(), strange_states(), spoilt_states(), spoilt_sites()];
    [&marks[..], &rest].concat().concat()
}

//! Stored runs with a bus bypass: at every priority lane, in both service modes, with each kind of timeout; calls that begin about every
//! other change; the four ends; and how long a bypass waits. Words in quotation marks are the request's.

use crate::bypass::Bypass;
use crate::bypass_mark_cases;
use crate::bypass_steps::*;
use crate::bypass_watch::bound;
use crate::call_run::Op;
use crate::site::Site;
use crate::tick::{Input, State};
use crate::tick_cases::{fixed, in_demand, quiet, with_timings, DARK, GREEN, RESPONSIVE};

// Every priority lane.

/// Red for long, just short of the minimum and at it at the call's tick, freshly red; yellow; green, and at the maximum at the call's tick.
const PRIORITY: [(u16, u16); 7] = [(RED, 100), (RED, 14), (RED, 15), (RED, 0), (YELLOW, 5), (LIT, 3), (LIT, 23)];
/// Red; green below the minimum, short of it and at it at the call's tick, beyond it; yellow, and ending at the call's tick.
const OTHERS: [(u16, u16); 8] = [(RED, 50), (LIT, 5), (LIT, 10), (LIT, 11), (LIT, 15), (YELLOW, 3), (YELLOW, 13), (LIT, 0)];

/// Scenario k at a site: the lanes' colours and ages, and how the call or the bypass ends.
fn scenario(site: &Site, k: usize) -> Vec<Op> {
    let (n, lane) = (site.timings[0] as usize, site.timings[15]);
    let lanes: Vec<(u16, u16)> = (0..n).map(|i| if i + 1 == lane as usize { PRIORITY[k % 7] } else { OTHERS[(k + 3 * i) % 8] }).collect();
    let ticks = |count, input| Op::Ticks(count, input);
    let end = match k % 4 {
        0 => vec![ticks(50, bus()), ticks(16, plain())],
        1 => vec![ticks(44, bus()), ticks(1, past(lane, bus())), ticks(8, bus())],
        2 => vec![ticks(9, bus()), ticks(20, plain())],
        _ => vec![ticks(46, bus()), ticks(20, wishing(DARK, bus()))],
    };
    [vec![Op::State(metering(&lanes))], end].concat()
}

/// All sites of 1 to 4 lanes with each priority lane, both modes and timeouts of 0, 1, 2 and 255 s; three scenarios at each, so that every
/// colour of the priority lane meets every colour of another.
fn every_lane() -> Vec<Vec<u8>> {
    let mut out = Vec::new();
    let mut k = 0;
    for (n, lane) in (1..=4).flat_map(|n| (1..=n).map(move |lane| (n, lane))) {
        for (mode, timeout) in [(0, 0), (1, 1), (0, 2), (1, 255), (1, 0), (0, 1), (1, 2), (0, 255)] {
            let site = site(n, mode, lane, timeout);
            let ops: Vec<Op> = (k..k + 3).flat_map(|k| scenario(&site, k)).collect();
            out.push(case(&site, &ops));
            k += 3;
        }
    }
    out
}

/// "A call that brings no bypass .. because the priority lane is 0, does nothing": the runs with a call are those without.
fn no_priority_lane() -> Vec<Vec<u8>> {
    in_both(
        |mode| site(3, mode, 0, 1),
        |site| {
            let lanes = [(RED, 100), (LIT, 3), (YELLOW, 5)];
            let mut ops = Vec::new();
            for input in [bus(), plain()] {
                ops.extend([Op::State(metering(&lanes)), Op::Ticks(60, input), Op::PowerUp, Op::Ticks(150, input)]);
            }
            // the mark stands while the call is on, and goes without it
            let marked = State { bypass: Bypass { mark: true, ..Bypass::default() }, ..since(3, &lanes) };
            ops.extend(from(site, marked, &[step(2, bus(), "RGY none"), step(1, plain(), "RGY none"), step(1, bus(), "RGY none")]));
            ops
        },
    )
}

// The call begins.

/// "In metering, the tick that enters it included": calls that begin in every interval up to metering and there, about the tick that
/// enters it and the one that releases a lane, and stay; at both lanes of two and the second of four.
fn arrivals() -> Vec<Vec<u8>> {
    let mut out = Vec::new();
    for (n, mode, lane) in [(2, 0, 1), (2, 1, 2), (4, 1, 2)] {
        let site = site(n, mode, lane, 0);
        let mut ops = Vec::new();
        // without the call lane 1 is released 16 ticks behind the entry
        for before in [0, 49, 51, 65, 90, 91, 92, 93, 106, 107, 108, 109, 125, 140] {
            ops.extend([Op::PowerUp, Op::Ticks(before, plain()), Op::Ticks(165 - before, bus()), Op::Ticks(5, plain())]);
        }
        // calls that go before metering, at the tick that enters it, and right behind that
        for last in [90, 91, 92, 93] {
            ops.extend([Op::PowerUp, Op::Ticks(60, plain()), Op::Ticks(last - 60, bus()), Op::Ticks(30, plain())]);
        }
        out.push(case(&site, &ops));
    }
    out
}

/// The same of one lane, tick by tick: red for the minimum from the entry on, no demand, a cycle of 480.
fn at_the_entry() -> Vec<Vec<u8>> {
    in_both(
        |mode| site(1, mode, 1, 2),
        |site| {
            let calling = Input { bypass: 1, ..quiet(fixed(150)) };
            let without = quiet(fixed(150));
            let steps = [
                step(ENTERS - 1, calling, "R none"),
                step(1, calling, "R waits"),
                step(15, calling, "R waits"),
                step(1, calling, "G runs"),
                // the timer, 0 at the entry, is 20 at the fourth tick behind the release
                step(3, calling, "G runs"),
                step(1, calling, "Y none"),
                step(40, calling, "R none"),
                step(1, without, "R none"),
                // neither its demand nor its cycle is asked
                step(1, calling, "G runs"),
            ];
            from_start(site, &steps)
        },
    )
}

/// "ends the other lanes' greens at minimum green": one a tick short of it, one at it, one long beyond; V passages are not waited for.
fn other_greens() -> Vec<Vec<u8>> {
    let steps = |lanes: &[(u16, u16)], steps: &[Step]| (metering(lanes), steps.to_vec());
    let runs = [
        // at the call's tick 12: it ends there
        steps(&[(RED, 100), (LIT, 11)], &[step(1, bus(), "RY waits"), step(13, bus(), "RY waits"), step(1, bus(), "GR runs")]),
        // 11 at the call's tick, 12 at the next
        steps(&[(RED, 100), (LIT, 10)], &[step(1, bus(), "RG waits"), step(1, bus(), "RY waits"), step(14, bus(), "GR runs")]),
        steps(&[(RED, 100), (LIT, 20)], &[step(1, bus(), "RY waits"), step(14, bus(), "GR runs")]),
        // passages below the minimum end nothing
        steps(
            &[(RED, 100), (LIT, 2)],
            &[step(9, past(2, bus()), "RG waits"), step(1, past(2, bus()), "RY waits"), step(14, bus(), "GR runs")],
        ),
        // yellow already, and red at the call's tick
        steps(&[(RED, 100), (YELLOW, 12)], &[step(1, bus(), "RY waits"), step(1, bus(), "GR runs")]),
        steps(&[(RED, 100), (YELLOW, 13)], &[step(1, bus(), "GR runs")]),
        // the priority lane itself is the last to be red for long enough
        steps(&[(YELLOW, 13), (RED, 50)], &[step(1, bus(), "RR waits"), step(15, bus(), "RR waits"), step(1, bus(), "GR runs")]),
        steps(&[(RED, 14), (RED, 50)], &[step(1, bus(), "RR waits"), step(1, bus(), "GR runs")]),
        steps(&[(RED, 15), (RED, 50)], &[step(1, bus(), "GR runs")]),
    ];
    in_both(|mode| site(2, mode, 1, 0), |site| runs.iter().flat_map(|(state, steps)| from(site, *state, steps)).collect())
}

/// Several lanes green at once, as fractional offset has them: all have to be red before the release.
fn several_greens() -> Vec<Vec<u8>> {
    in_both(
        |mode| site(4, mode, 3, 0),
        |site| {
            let one = [
                step(1, bus(), "GYRY waits"),
                step(4, bus(), "GYRR waits"),
                step(4, bus(), "GYRR waits"),
                step(1, bus(), "YYRR waits"),
                step(5, bus(), "YRRR waits"),
                step(8, bus(), "YRRR waits"),
                step(1, bus(), "RRGR runs"),
            ];
            let all =
                [step(1, bus(), "YYGY runs"), step(14, bus(), "RRGR runs"), step(30, bus(), "RRGR runs"), step(1, plain(), "GRYR none")];
            let lanes = [(LIT, 2), (LIT, 11), (RED, 100), (YELLOW, 9)];
            let mut ops = from(site, metering(&lanes), &one);
            ops.extend(from(site, metering(&[(LIT, 11), (LIT, 23), (LIT, 1), (LIT, 12)]), &all));
            ops
        },
    )
}

/// "A priority lane already green as the call's tick begins counts as released, but is not released anew": fresh, at the maximum, with its
/// vehicles through at that very tick; and it stays green.
fn found_green() -> Vec<Vec<u8>> {
    let long = [step(1, bus(), "GR runs"), step(60, bus(), "GR runs"), step(1, plain(), "YG none")];
    let with_passages = |age, passages| {
        let mut state = metering(&[(LIT, age), (RED, 50)]);
        state.lanes[0].passages = passages;
        state
    };
    in_both(
        |mode| site(2, mode, 1, 0),
        |site| {
            let mut ops = Vec::new();
            for (age, passages) in [(0, 0), (3, 1), (11, 2), (11, 3), (22, 0), (23, 0), (24, 1), (719, 0), (720, 3)] {
                ops.extend(from(site, with_passages(age, passages), &long));
            }
            // V passages at the call's tick, at the minimum: they end neither the green nor the bypass; the next one ends both
            let at_the_call = [step(1, past(1, bus()), "GR runs"), step(9, bus(), "GR runs"), step(1, past(1, bus()), "YG none")];
            ops.extend(from(site, with_passages(11, 1), &at_the_call));
            ops.extend(from(site, with_passages(30, 3), &at_the_call));
            ops
        },
    )
}

// The ends.

/// "at its first passage while green under it (the tick of release, or of a call that finds it green, not counted)": at that tick and at
/// the next; passages while the lane is red or yellow, and those of another lane.
fn passages() -> Vec<Vec<u8>> {
    let (mine, other) = (past(1, bus()), past(2, bus()));
    in_both(
        |mode| site(2, mode, 1, 0),
        |site| {
            let rested = metering(&[(RED, 15), (RED, 50)]);
            let yellow = metering(&[(YELLOW, 13), (RED, 50)]);
            let lit = metering(&[(LIT, 3), (RED, 50)]);
            // the lane that was released has a new offset: in fractional offset the other waits for its share
            let ended = ["YG none", "YR none"];
            [
                from(site, rested, &[step(1, mine, "GR runs"), by_mode(1, mine, ended), by_mode(3, bus(), ended)]),
                from(site, rested, &[step(1, mine, "GR runs"), step(1, bus(), "GR runs"), by_mode(1, mine, ended)]),
                from(site, rested, &[step(1, bus(), "GR runs"), step(80, other, "GR runs"), by_mode(1, mine, ["YG none", "YG none"])]),
                from(site, yellow, &[step(16, mine, "RR waits"), step(1, mine, "GR runs"), by_mode(1, mine, ended)]),
                from(site, lit, &[step(1, mine, "GR runs"), step(1, mine, "YG none")]),
                from(site, lit, &[step(1, bus(), "GR runs"), step(1, mine, "YG none")]),
                from(site, lit, &[step(1, mine, "GR runs"), step(2, other, "GR runs"), step(1, past(1, plain()), "YG none")]),
            ]
            .concat()
        },
    )
}

/// "when the call goes, at the timeout, or at closing", while it runs: the green turns yellow at that tick whatever its age, then red.
fn ends_while_running() -> Vec<Vec<u8>> {
    let yellow_then = |input: Input, first: &'static str| {
        [step(1, input, first), step(13, Input { demand: [0; 4], ..input }, first), step(1, input, "RG none")]
    };
    in_both(
        |mode| site(2, mode, 1, 1),
        |site| {
            let found = since(3, &[(LIT, 3), (RED, 50)]);
            let lit = metering(&[(LIT, 3), (RED, 50)]);
            let closed = [step(1, wishing(DARK, bus()), "YR none"), step(13, bus(), "YR none"), step(1, bus(), "RR none")];
            let cleared = [step(1, wishing(RESPONSIVE, bus()), "YR none"), step(14, plain(), "RR none")];
            let preempted = [step(1, bus_and_truck(), "YR none"), step(14, bus(), "RR none")];
            [
                from(site, lit, &[&[step(2, bus(), "GR runs")][..], &yellow_then(plain(), "YG none")[..2]].concat()),
                from(site, lit, &[&[step(10, bus(), "GR runs")][..], &yellow_then(bus(), "YG none")[..2]].concat()),
                from(site, found, &[&[step(5, bus(), "GR runs")][..], &closed].concat()),
                from(site, found, &[&[step(5, bus(), "GR runs")][..], &cleared].concat()),
                from(site, found, &[&[step(5, bus(), "GR runs")][..], &preempted].concat()),
                // several at once
                from(site, found, &[step(10, bus(), "GR runs"), step(1, past(1, wishing(GREEN, plain())), "YR none")]),
                from(site, lit, &[step(10, bus(), "GR runs"), step(1, past(1, plain()), "YG none")]),
            ]
            .concat()
        },
    )
}

/// The same while it waits: no lamp changes for it, and the other green goes on to its own end.
fn ends_while_waiting() -> Vec<Vec<u8>> {
    in_both(
        |mode| site(2, mode, 1, 1),
        |site| {
            // released two ticks ago
            let young = since(2, &[(RED, 100), (LIT, 2)]);
            let closed = |input: Input| [step(3, bus(), "RG waits"), step(1, input, "RG none"), step(17, bus(), "RG none")];
            let gone = [
                step(5, bus(), "RG waits"),
                step(1, plain(), "RG none"),
                step(15, plain(), "RG none"),
                // at the maximum; in fractional offset the share of 40 is not up
                by_mode(1, plain(), ["GY none", "RY none"]),
            ];
            let timed_out = [step(9, bus(), "RG waits"), step(1, bus(), "RY waits"), by_mode(1, bus(), ["GY none", "RY none"])];
            let fresh_green = since(0, &[(RED, 100), (LIT, 0)]);
            [
                from(site, young, &gone),
                from(site, young, &timed_out),
                // at the minimum at the tick of the end: it is not cut any more
                from(site, young, &[step(9, bus(), "RG waits"), step(1, plain(), "RG none"), step(11, plain(), "RG none")]),
                from(site, fresh_green, &[step(10, bus(), "RG waits"), step(1, bus(), "RG none"), step(12, bus(), "RG none")]),
                from(site, young, &[&closed(wishing(DARK, bus()))[..], &[step(1, bus(), "RY none")]].concat()),
                from(site, young, &closed(wishing(RESPONSIVE, bus()))),
                from(site, young, &closed(bus_and_truck())),
                from(site, young, &[step(3, bus(), "RG waits"), step(1, wishing(DARK, plain()), "RG none")]),
                // a passage ends nothing while the lane is not green
                from(site, young, &[step(9, past(1, bus()), "RG waits")]),
            ]
            .concat()
        },
    )
}

/// The lane would be released at the tick of the timeout, one before or one behind: the end wins, and what ordinary releases do at that
/// tick they do. The other lane is yellow, red at tick 10, 11 or 12 of the call; or green, red at tick 20, 21 or 22.
fn release_at_the_timeout() -> Vec<Vec<u8>> {
    let calling = Input { bypass: 1, ..quiet(METER) };
    let (wanted, unwanted) = (only(1, calling), calling);
    let cases = [(1, YELLOW, [4, 3, 2], [9, 1, 1]), (2, LIT, [6, 5, 4], [19, 1, 1])];
    let mut out = Vec::new();
    for (timeout, colour, ages, counts) in cases {
        out.extend(in_both(
            |mode| site(2, mode, 1, timeout),
            |site| {
                let state = |k: usize| metering(&[(RED, 100), (colour, ages[k])]);
                let runs = |k: usize, input: Input, left: [&'static str; 3]| {
                    let steps: Vec<Step> = counts.into_iter().zip(left).map(|(count, left)| step(count, input, left)).collect();
                    from(site, state(k), &steps)
                };
                [
                    runs(0, unwanted, ["RY waits", "GR runs", "YR none"]),
                    runs(1, unwanted, ["RY waits", "RY waits", "RR none"]),
                    // the same lane is released at the end's tick by its demand, and the bypass is over
                    runs(1, wanted, ["RY waits", "RY waits", "GR none"]),
                    // the other is still yellow, which ordinary releases do not mind
                    runs(2, unwanted, ["RY waits", "RY waits", "RY none"]),
                    runs(2, wanted, ["RY waits", "RY waits", "GY none"]),
                ]
                .concat()
            },
        ));
    }
    out
}

/// Timeouts from the call's first tick in metering on: 1 s, 2 s, 255 s, and none, where the timer stops at 2550.
fn timeouts() -> Vec<Vec<u8>> {
    let mut out = Vec::new();
    for (timeout, last) in [(1, 10), (2, 20), (3, 30), (255, 2550)] {
        out.extend(in_both(
            |mode| site(2, mode, 2, timeout),
            |site| {
                let steps =
                    [step(1, bus(), "RG runs"), step(last - 1, bus(), "RG runs"), step(1, bus(), "GY none"), step(20, bus(), "GR none")];
                from(site, metering(&[(RED, 50), (LIT, 3)]), &steps)
            },
        ));
    }
    out.extend(in_both(
        |mode| site(2, mode, 2, 0),
        |site| {
            let steps = [
                step(2550, bus(), "RG runs"),
                step(1, bus(), "RG runs"),
                step(1, bus(), "RG runs"),
                step(300, bus(), "RG runs"),
                step(1, past(2, bus()), "GY none"),
                step(1, plain(), "GY none"),
            ];
            from(site, metering(&[(RED, 50), (LIT, 3)]), &steps)
        },
    ));
    out
}

/// From power-up: 255 s are up 2550 ticks behind the tick that enters metering.
fn timeout_from_power_up() -> Vec<u8> {
    let site = site(2, 0, 1, 255);
    let steps = [
        step(ENTERS, bus(), "RR waits"),
        step(16, bus(), "GR runs"),
        step(2550 - 17, bus(), "GR runs"),
        step(1, bus(), "YG none"),
        step(29, bus(), "RY none"),
        step(1, bus(), "GY none"),
    ];
    case(&site, &from_start(&site, &steps))
}

/// "From that tick other greens end as before": those that the bypass leaves, by V passages and at the maximum.
fn other_greens_afterwards() -> Vec<Vec<u8>> {
    in_both(
        |mode| site(3, mode, 3, 0),
        |site| {
            let quiet = |input: Input| Input { demand: [0; 4], ..input };
            let lanes = [(LIT, 9), (LIT, 4), (RED, 100)];
            let served = [
                step(2, quiet(bus()), "GGR waits"),
                step(1, quiet(plain()), "GGR none"),
                step(4, quiet(plain()), "GGR none"),
                // the second passage since it began
                step(1, past(1, quiet(plain())), "YGR none"),
                step(11, quiet(plain()), "YGR none"),
                step(1, quiet(plain()), "YYR none"),
            ];
            from(site, metering(&lanes), &served)
        },
    )
}

// How long it takes.

/// Other times for the two minima.
fn with_minima(n: u16, mode: u16, lane: u16, green: u16, red: u16) -> Site {
    let mut site = site(n, mode, lane, 0);
    (site.timings[3], site.timings[6]) = (green, red);
    site
}

/// A call right behind the tick that releases another lane, where the minimum green is the larger; and right behind the one at which the
/// priority lane turned yellow, where the minimum red is or there is no other lane: a bypass needs all its ticks. A tick later it needs one
/// less.
fn longest_waits() -> Vec<Vec<u8>> {
    let mut out = Vec::new();
    for (n, lane) in [(1, 1), (2, 1), (2, 2), (3, 2), (4, 1), (4, 4)] {
        for mode in [0, 1] {
            for (green, red) in [(22, 11), (11, 22), (15, 15)] {
                let site = with_minima(n, mode, lane, green, red);
                let other = if lane == 1 { 2 } else { 1 };
                let bound = bound(&site) as u16;
                let released = ENTERS + red;
                let mut ops = Vec::new();
                for late in [0, 1] {
                    if green >= red && n > 1 {
                        ops.extend([Op::PowerUp, Op::Ticks(released + late, only(other, plain()))]);
                        ops.extend([
                            Op::Ticks(bound - 1, bus()),
                            Op::Ticks(1, bus()),
                            Op::Ticks(30, bus()),
                            Op::Ticks(1, past(lane, bus())),
                        ]);
                    }
                    if red >= green || n == 1 {
                        // its green ends at the maximum
                        ops.extend([Op::PowerUp, Op::Ticks(released + 24 + late, only(lane, plain()))]);
                        ops.extend([Op::Ticks(bound - 1, bus()), Op::Ticks(1, bus()), Op::Ticks(5, bus())]);
                    }
                }
                if !ops.is_empty() {
                    out.push(case(&site, &ops));
                }
            }
        }
    }
    out
}

/// A bypass that comes while a lane waits: all four times 10, priority lane 1, rate 1800. Lane 2 is released and stays in demand; lane 1's
/// demand comes 30 ticks later, when it is released; 10 ticks later the call comes and holds it, and lane 2 waits meanwhile.
fn held_while_another_waits() -> Vec<Vec<u8>> {
    let times = [(3, 10), (4, 10), (5, 10), (6, 10), (7, 10), (8, 10), (9, 10), (10, 10), (13, 1), (15, 1)];
    let rate = fixed(1800);
    in_both(
        |mode| with_timings(&[&times[..], &[(1, mode)]].concat()),
        |site| {
            let second = only(2, in_demand(rate));
            let calling = Input { bypass: 1, ..in_demand(rate) };
            let steps = [
                step(ENTERS, second, "RR none"),
                step(10, second, "RG none"),
                step(29, second, "RR none"),
                step(1, in_demand(rate), "GR none"),
                step(9, in_demand(rate), "GR none"),
                step(1, calling, "GR runs"),
                step(50, calling, "GR runs"),
                step(1, past(1, calling), "YG none"),
            ];
            from_start(site, &steps)
        },
    )
}

pub fn cases() -> Vec<Vec<u8>> {
    let begins = [every_lane(), no_priority_lane(), arrivals(), at_the_entry(), other_greens(), several_greens(), found_green()];
    let ends = [passages(), ends_while_running(), ends_while_waiting(), release_at_the_timeout(), timeouts(), other_greens_afterwards()];
    let long = [vec![timeout_from_power_up()], longest_waits(), held_while_another_waits()];
    [&begins[..], &ends, &long, &[bypass_mark_cases::cases()]].concat().concat()
}

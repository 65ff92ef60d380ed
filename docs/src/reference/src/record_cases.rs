//! Stored cases of the call of many ticks: each refusal at each place of a call, more than one thing wrong at once, outputs of every size.

use crate::bypass::Bypass;
use crate::bypass_steps::{metering, LIT, RED};
use crate::call_run::{from_power_up, timing, Op};
use crate::output::ROOM;
use crate::record_runs;
use crate::record_steps::{at_place, records, site, ticks, with_count, Case};
use crate::row;
use crate::site::{bytes, Site, UNUSED};
use crate::tick::{Input, State};
use crate::tick_cases::{fixed, in_demand, quiet, NONE, POLL};
use crate::tick_records::size;
use crate::wanted::{lanes, Command};

// Pieces.

/// In metering: the first lane green, the others red.
fn state_at(site: &Site) -> State {
    let (n, _) = lanes(site);
    metering(&[[(LIT, 3)].to_vec(), vec![(RED, 9); n - 1]].concat())
}

fn good() -> Input {
    in_demand(fixed(1800))
}

/// Three good records.
fn three(site: &Site) -> Vec<Vec<u8>> {
    records(site, &ticks(&[(3, good())]))
}

fn record(site: &Site, input: Input) -> Vec<u8> {
    records(site, &[input]).concat()
}

fn changed(change: impl Fn(&mut Input)) -> Input {
    let mut input = good();
    change(&mut input);
    input
}

const ENOUGH: u16 = 16;

// 15.

/// A last record of every length below its own, behind a good one and alone; some behind two.
fn cuts() -> Vec<u8> {
    let site = site(1, 1);
    let good = three(&site);
    let mut case = Case::new(&site, state_at(&site));
    for length in 1..size(1, 1) {
        case.call(ENOUGH, &[&good[0], &good[1][..length]].concat(), (15, 1));
        if length % 5 == 2 || length == 1 || length == size(1, 1) - 1 {
            case.call(ENOUGH, &good[0][..length], (15, 0));
            case.call(ENOUGH, &[&good[0], &good[1], &good[2][..length]].concat(), (15, 2));
        }
    }
    case.op(POLL);
    case.payload()
}

/// A record that lacks a byte, or two, or has one too many, with a good one directly behind: its counts are out of step.
fn out_of_step() -> Vec<u8> {
    let site = site(2, 3);
    let good = three(&site);
    let mut case = Case::new(&site, state_at(&site));
    for at in [2, 3, 11, 20, 40, 50] {
        let short = |many: usize| [&good[1][..at], &good[1][at + many..]].concat();
        let long = [&good[1][..at], &[0], &good[1][at..]].concat();
        for one in [short(1), short(2), long] {
            case.call(ENOUGH, &at_place(&good, 2, &one), (15, 1));
        }
        case.call(ENOUGH, &at_place(&good, 1, &short(1)), (15, 0));
    }
    case.payload()
}

/// Each count one too high and one too low, 0, 65535, and with its bytes the wrong way round; at each place of three records.
fn wrong_counts() -> Vec<Vec<u8>> {
    let site = site(2, 3);
    let good = three(&site);
    let of_section = |(section, count): (usize, u16)| {
        let mut case = Case::new(&site, state_at(&site));
        for value in [count + 1, count - 1, 0, UNUSED, count << 8] {
            for place in 1..=3 {
                let wrong = with_count(&site, &good[place - 1], section, value);
                case.call(ENOUGH, &at_place(&good, place, &wrong), (15, place - 1));
            }
        }
        case.payload()
    };
    (1..).zip([5, 2, 3, 2, 2]).map(of_section).collect()
}

/// Records of other numbers of lanes, as long as those of this site among them.
fn other_lanes() -> Vec<Vec<u8>> {
    let at = |n: u16, m: u16, others: &[(u16, u16)]| {
        let own = site(n, m);
        let mut case = Case::new(&own, state_at(&own));
        for (n, m) in others {
            let theirs = three(&site(*n, *m));
            case.call(ENOUGH, &theirs.concat(), (15, 0));
            case.call(ENOUGH, &at_place(&three(&own), 3, &theirs[0]), (15, 2));
        }
        case.call(ENOUGH, &three(&own).concat(), (0, 3));
        case.payload()
    };
    vec![at(1, 3, &[(3, 2), (1, 2), (1, 4), (2, 3)]), at(3, 2, &[(1, 3), (2, 2), (3, 1), (2, 3)]), at(2, 2, &[(1, 1), (4, 1), (4, 6)])]
}

// 11.

/// Three records into outputs of every size up to more than enough: as many ticks as there is room for.
fn outputs() -> Vec<Vec<u8>> {
    let at = |n: u16| {
        let site = site(n, 1);
        let good = three(&site).concat();
        let mut case = Case::new(&site, state_at(&site));
        for size in 0..=3 * (n + 1) + 2 {
            let room = (size / (n + 1)) as usize;
            case.call(size, &good, if room < 3 { (11, room) } else { (0, 3) });
        }
        // nothing is written where there is no record
        case.call(0, &[], (0, 0));
        case.call(n, &[], (0, 0));
        case.call(64, &[], (0, 0));
        case.op(POLL);
        case.payload()
    };
    (1..=4).map(at).collect()
}

/// Outputs that are far longer than needed, the longest that there is among them.
fn long_outputs() -> Vec<u8> {
    let site = site(2, 1);
    let good = three(&site);
    let mut bad = changed(|x| x.clock.date.month = 13);
    bad.clock.tenth += 2;
    let refused = at_place(&good, 3, &record(&site, bad));
    let mut case = Case::new(&site, state_at(&site));
    case.call(300, &good.concat(), (0, 3));
    case.call(UNUSED, &good.concat(), (0, 3));
    case.call(ROOM as u16 + 1, &refused, (8, 2));
    case.call(100, &refused[..refused.len() - 1], (15, 2));
    case.call(40, &[], (0, 0));
    case.payload()
}

// 8, 9 and 10.

/// Ticks that are refused, one number each: the clock; a metered lane, a mainline lane, a call; the manual command and the other.
fn refused_inputs() -> Vec<(u8, Input)> {
    let command = |kind, rate, table| Command { kind, rate, table };
    vec![
        (8, changed(|x| x.clock.date.month = 13)),
        (8, changed(|x| x.clock.date.year = 2100)),
        (8, changed(|x| (x.clock.date.month, x.clock.date.day) = (2, 29))),
        (8, changed(|x| x.clock.tenth = 864_000)),
        (9, changed(|x| x.demand[0] = 2)),
        (9, changed(|x| x.passage[1] = 2)),
        (9, changed(|x| x.mainline[0].working = 2)),
        (9, changed(|x| x.mainline[2].occupied = 101)),
        (9, changed(|x| x.mainline[1].vehicles = 2)),
        (9, changed(|x| x.mainline[2].vehicles = UNUSED)),
        (9, changed(|x| x.preemption = 2)),
        (9, changed(|x| x.bypass = 2)),
        (10, changed(|x| x.commands[0] = command(5, 0, 0))),
        (10, changed(|x| x.commands[0] = command(3, 1801, 0))),
        (10, changed(|x| x.commands[1] = command(4, 600, 5))),
        (10, changed(|x| x.commands[1] = command(1, 150, 0))),
    ]
}

/// Each at the first, the middle and the last of three places: those before it stand, those behind it are not taken. Then a good one.
fn refused_ticks() -> Vec<Vec<u8>> {
    let site = site(2, 3);
    let good = three(&site);
    let case = |some: &[(u8, Input)]| {
        let mut case = Case::new(&site, state_at(&site));
        for (refusal, input) in some {
            let bad = record(&site, *input);
            for place in 1..=3 {
                case.call(ENOUGH, &at_place(&good, place, &bad), (*refusal, place - 1));
            }
            case.call(ENOUGH, &good[0], (0, 1));
        }
        case.payload()
    };
    refused_inputs().chunks(8).map(case).collect()
}

/// The refusal of a number of a record's row that is out of range; 0 of a travel time, which never is.
fn refusal_of(i: usize, n: usize, m: usize) -> u8 {
    let mainline = 5 + 2 * n..5 + 2 * n + 4 * m;
    match i {
        0..=4 => 8,
        _ if mainline.contains(&i) && (i - mainline.start) % 4 == 3 => 0,
        _ if i < row::size(n, m) - 6 => 9,
        _ => 10,
    }
}

/// A tick at whose tenth both halves can be too high, with no command.
fn late() -> Input {
    let mut input = quiet(NONE);
    input.clock.tenth = 13 << 16;
    input
}

/// Every number of a record at 65535; and each at the least that is out of range: never 15. A travel time of 65535 is taken. At the site
/// of one lane a good record is behind each.
fn every_number() -> Vec<Vec<u8>> {
    let case = |n: u16, m: u16, value: &dyn Fn(usize) -> u16| {
        let site = site(n, m);
        let (n, m) = lanes(&site);
        let (row, behind) = (row::numbers(&late(), n, m), record(&site, late()));
        let mut case = Case::new(&site, state_at(&site));
        for i in 0..row.len() {
            let mut row = row.clone();
            row[i] = value(i);
            let bad = record(&site, row::input(&row, n, m));
            let many = if n == 1 { 2 } else { 1 };
            let records = [vec![bad], vec![behind.clone(); many - 1]].concat().concat();
            let refusal = refusal_of(i, n, m);
            case.call(ENOUGH, &records, (refusal, if refusal == 0 { many } else { 0 }));
        }
        case.call(ENOUGH, &behind, (0, 1));
        case.payload()
    };
    let least = [2100, 13, 32, 14, 12_032, 2, 2, 2, 101, 2, UNUSED, 2, 2, 5, 1, 1, 5, 1, 1];
    vec![case(4, 6, &|_| UNUSED), case(1, 1, &|i| least[i])]
}

// Several at once.

/// A good record and then one with every choice of what can be wrong: the first of 15, 11, 8, 9, 10 is given.
fn precedence() -> Vec<u8> {
    let site = site(2, 1);
    let first = record(&site, good());
    let mut case = Case::new(&site, state_at(&site));
    for cut in [false, true] {
        for set in 0..32 {
            let wrong = |k: u8| set >> k & 1 == 1;
            let bad = changed(|x| {
                x.clock.date.day += 40 * wrong(2) as u16;
                x.passage[1] += 2 * wrong(3) as u16;
                x.commands[1].kind += 7 * wrong(4) as u16;
            });
            let whole = record(&site, bad);
            let one = match (wrong(0), cut) {
                (false, true) => continue,
                (false, false) => whole,
                (true, false) => with_count(&site, &whole, 1 + set as usize % 5, 4),
                (true, true) => whole[..whole.len() - 1 - set as usize].to_vec(),
            };
            let output = if wrong(1) { 3 + set as u16 % 3 } else { 6 };
            let refusal = [(0, 15), (1, 11), (2, 8), (3, 9), (4, 10)].into_iter().find(|(k, _)| wrong(*k));
            let given = refusal.map_or((0, 2), |(_, refusal)| (refusal, 1));
            case.call(output, &[first.clone(), one].concat(), given);
        }
    }
    case.payload()
}

/// Records of every kind: none, good ones, cut, with a wrong count, and refused for each reason.
fn any_records(site: &Site) -> Vec<Vec<u8>> {
    let good = three(site);
    let bad = changed(|x| (x.clock.date.month, x.demand[0], x.commands[0].kind) = (13, 2, 5));
    let wrong = with_count(site, &good[0], 1, 6);
    vec![vec![], good.concat(), good[0][..1].to_vec(), wrong, record(site, bad)]
}

/// 13 and 14 go before everything, also where there is no record; and a site and a state in range behind them.
fn spoilt() -> Vec<Vec<u8>> {
    let site = site(3, 2);
    let sound = state_at(&site);
    let zero = State::default();
    let interval = State { interval: 10, ..sound };
    let last = State { last: 4, ..sound };
    let bus = State { interval: 8, bypass: Bypass { kept: true, mark: true, timer: 0 }, ..sound };
    let mut period = sound;
    period.periods.ticks = 300;
    let mut beyond = sound;
    beyond.lanes[3].age = 1;
    let all = any_records(&site);

    let mut states = Case::new(&site, sound);
    for state in [zero, interval, last, bus, period, beyond] {
        states.state(state);
        for records in &all {
            states.call(ENOUGH, records, (13, 0));
        }
        states.call(0, &all[4], (13, 0));
        states.call(0, &[], (13, 0));
    }
    states.state(sound);
    states.call(0, &[], (0, 0));
    states.call(ENOUGH, &all[1], (0, 3));

    let mut sites = Case::new(&site, sound);
    let numbers = [timing(0, 0), timing(0, UNUSED), timing(14, 7), timing(15, 4)];
    let rows = [Op::Damage(1, 0, 17), Op::Damage(2, 1, 1), Op::Damage(3, 5, 149)];
    for (i, damage) in numbers.into_iter().chain(rows).enumerate() {
        sites.spoil(damage);
        sites.call(ENOUGH, &[], (14, 0));
        sites.call(ENOUGH, &all[1 + i % 4], (14, 0));
        // the state is spoilt too
        let kept = sites.kept();
        sites.state(if i % 2 == 0 { interval } else { zero });
        sites.call(0, &[], (14, 0));
        sites.call(0, &all[4 - i % 4], (14, 0));
        sites.repair();
        sites.call(0, &[], (13, 0));
        sites.call(0, &all[1 + i % 4], (13, 0));
        sites.state(kept);
        sites.call(ENOUGH, &[], (0, 0));
        sites.call(ENOUGH, &all[1], (0, 3));
    }
    vec![states.payload(), sites.payload()]
}

// Operations.

/// An odd number of bytes with an operation behind it, and operations that are cut.
fn operations() -> Vec<Vec<u8>> {
    let site = site(2, 1);
    let (tick, good) = (good(), three(&site).concat());
    let first = |length: usize| Op::Records(ENOUGH, good[..length].to_vec());
    let file = bytes(&site);
    let whole = from_power_up(&file, &[first(1), first(53), POLL, first(104), first(155), Op::Ticks(1, tick), first(0)]);
    let words = |words: &[u16]| [from_power_up(&file, &[first(52)]), words.iter().flat_map(|w| w.to_be_bytes()).collect()].concat();
    let cut = |length: usize, short: usize| {
        let bytes = from_power_up(&file, &[first(52), first(length)]);
        bytes[..bytes.len() - short].to_vec()
    };
    let short = [words(&[9]), words(&[9, 64]), words(&[9, 64, 1]), words(&[9, 64, UNUSED, 5, 2000])];
    [vec![whole, cut(52, 1), cut(52, 2), cut(104, 60), cut(51, 4), cut(52, 0)], short.to_vec()].concat()
}

pub fn cases() -> Vec<Vec<u8>> {
    let lists = [wrong_counts(), other_lanes(), outputs(), refused_ticks(), every_number(), spoilt(), operations()].concat();
    [vec![cuts(), out_of_step(), long_outputs(), precedence()], lists, record_runs::cases()].concat()
}

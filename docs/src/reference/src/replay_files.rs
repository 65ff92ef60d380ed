//! Ticks and site files for the replay program's tests, and the runs that its test program makes of them.

use crate::files::{site_a, site_with_rows};
use crate::replay;
use crate::replay_lines;
use crate::replay_refusals;
use crate::site::{bytes, Site};
use crate::speed_text;
use crate::tick::{power_up, tick, Input};
use crate::tick_records::record;
use crate::wanted::lanes;
use std::io::Result;

/// The numbers of one tick's line.
pub struct Line {
    pub clock: [u32; 4],
    pub lanes: Vec<[u32; 2]>,
    pub mainline: Vec<[u32; 4]>,
    pub preemption: u32,
    pub bypass: u32,
    pub commands: [[u32; 3]; 2],
}

impl Line {
    pub fn text(&self) -> String {
        let lanes = self.lanes.as_flattened().iter().chain(self.mainline.as_flattened());
        let numbers = self.clock.iter().chain(lanes).chain([&self.preemption, &self.bypass]).chain(self.commands.as_flattened());
        numbers.map(u32::to_string).collect::<Vec<_>>().join(" ") + "\n"
    }
}

/// Tick i of a run at a site of two lanes and one mainline lane, on a Monday from 5:59:30 on: the plan's rate, from 6:00 the level that the
/// first period decides.
pub fn plain(i: u32) -> Line {
    Line {
        clock: [2024, 6, 3, 215_700 + i],
        lanes: vec![[1, (i % 40 == 7) as u32], [(i / 100 % 2 == 0) as u32, (i % 55 == 9) as u32]],
        mainline: vec![[1, 20 + i % 60, (i % 30 == 0) as u32, if i % 30 == 0 { 200 + 3 * (i % 50) } else { 0 }]],
        preemption: 0,
        bypass: 0,
        commands: [[0, 0, 0]; 2],
    }
}

/// The run of the replay program's own test.
pub fn ticks() -> String {
    let mut lines: Vec<Line> = (0..640).map(plain).collect();
    // the technician's command, the control centre's, and both
    lines[420..460].iter_mut().for_each(|line| line.commands[0] = [3, 1200, 0]);
    lines[450..480].iter_mut().for_each(|line| line.commands[1] = [4, 300, 2]);
    // a fire truck: closing, shutdown red, pre-metering green, and the startup begins when it has gone
    lines[455..560].iter_mut().for_each(|line| line.preemption = 1);
    // buses: one waits for the other lane, runs and meets the timeout; one passes; one is cut off by the fire truck
    for called in [312..345, 384..420, 445..470] {
        lines[called].iter_mut().for_each(|line| line.bypass = 1);
    }
    lines[411].lanes[1][1] = 1;
    // on a holiday in the evening the plan's dark
    lines[600..].iter_mut().for_each(|line| line.clock = [2024, 7, 4, 702_000 + line.clock[3] % 100]);
    // refused: the date, the tenth, a sample of each kind, a command, and each call, of the fire truck also while it is on
    lines[350].clock[1] = 13;
    lines[351].clock[3] = u32::MAX;
    lines[352].lanes[1][0] = 2;
    lines[353].mainline[0][2] = 2;
    lines[354].commands[1] = [5, 0, 0];
    lines[355].preemption = 65535;
    lines[356].bypass = 2;
    lines[530].preemption = 2;
    lines.iter().map(Line::text).collect::<String>() + "end\n"
}

/// The site with rows of every kind, whose lane 2 is the priority lane, for 3 s.
fn plain_site() -> Site {
    let mut site = site_with_rows();
    (site.timings[15], site.timings[16]) = (2, 3);
    site
}

/// The ticks of the run that are accepted at that site.
fn accepted_ticks(site: &Site) -> Vec<Input> {
    let (_, mut state) = power_up(Some(site));
    let lines = ticks();
    let inputs = lines.lines().filter_map(|line| replay::input(site, line.as_bytes()).ok());
    let mut out = Vec::new();
    for input in inputs {
        let answer = tick(Some(site), &state, &input);
        state = answer.state;
        if answer.refusal == 0 {
            out.push(input);
        }
    }
    out
}

/// The run of the simulate program's own test, in records: these ticks, then one with a month of 13, and one that is good and not taken.
pub fn simulate_records() -> Vec<u8> {
    let site = plain_site();
    let (n, m) = lanes(&site);
    let mut inputs = accepted_ticks(&site);
    let mut good = *inputs.last().expect("a tick");
    good.clock.tenth += 1;
    let mut bad = good;
    bad.clock.date.month = 13;
    good.clock.tenth += 1;
    inputs.extend([bad, good]);
    inputs.iter().flat_map(|input| record(input, n, m)).collect()
}

/// A site of four metered and six mainline lanes, in fractional offset, with priority lane 3.
fn wide_site() -> Site {
    let mut site = site_a();
    (site.timings[0], site.timings[1], site.timings[14]) = (4, 1, 6);
    (site.timings[15], site.timings[16]) = (3, 1);
    site.entries = vec![[255, 0, 2, 900, 0]];
    site
}

/// Tick i of a run there; every lane's numbers differ.
pub fn wide(i: u32) -> Line {
    let mainline = |k: u32| {
        let vehicle = (i % (20 + k) == 0) as u32;
        [(k != 3 || i != 9) as u32, 10 * k + i % 11, vehicle, vehicle * (400 + 37 * k + i)]
    };
    Line {
        clock: [2000, 2, 29, i],
        lanes: (0..4).map(|k| [(i >> k) & 1, (i % (10 + 7 * k) == 0) as u32]).collect(),
        mainline: (0..6).map(mainline).collect(),
        // from the period's last tick but one on
        preemption: (i >= 298) as u32,
        // before metering is entered, with the 291st tick
        bypass: (i >= 280) as u32,
        commands: [[0; 3]; 2],
    }
}

/// One period there.
fn wide_ticks() -> String {
    (0..302).map(|i| wide(i).text()).collect()
}

/// Vehicles of two periods there: the tick from 0, the mainline lane from 1 and the time. What the first period shows of the lanes is
/// worked out by hand: 43920 ÷ 566; 21960; 21960 ÷ 65535; none; 65880 ÷ 2406; 43920 ÷ 65536. In the second the fourth and the fifth are
/// measured.
const TIMED: [(u32, usize, u32); 14] = [
    (0, 1, 200),
    (299, 1, 366),
    (5, 2, 1),
    (7, 3, 65535),
    (10, 5, 87),
    (20, 5, 2196),
    (30, 5, 123),
    (298, 6, 65535),
    (299, 6, 1),
    (300, 4, 244),
    (310, 5, 48),
    (320, 5, 200),
    (330, 5, 16),
    (599, 5, 220),
];
const SHOWN: [&str; 2] = [
    "speeds m 77.5 60.0 60.0 m 21960.0 21960.0 21960.0 m 0.3 0.3 0.3 - 0.0 0.0 0.0 m 27.3 178.5 10.0 m 0.6 21960.0 0.3",
    "speeds c 77.5 0.0 0.0 c 21960.0 0.0 0.0 c 0.3 0.0 0.0 m 90.0 90.0 90.0 m 181.4 99.8 99.8 c 0.6 0.0 0.0",
];

/// Two periods there with those vehicles. The fourth lane has a time without a vehicle, the fifth does not work at a tick with both.
fn timed_ticks() -> String {
    let line = |i: u32| {
        let mut line = wide(i);
        line.mainline = vec![[1, 5, 0, 0]; 6];
        for (_, lane, time) in TIMED.iter().filter(|(tick, _, _)| *tick == i) {
            line.mainline[lane - 1] = [1, 50, 1, *time];
        }
        line
    };
    let mut lines: Vec<Line> = (0..601).map(line).collect();
    lines[40].mainline[3] = [1, 5, 0, 366];
    lines[40].mainline[4] = [0, 5, 1, 366];
    let ticks: String = lines.iter().map(Line::text).collect();
    let said = replay::print(&bytes(&wide_site()), "wide.bin", ticks.as_bytes());
    assert_eq!(said.output.lines().filter(|line| line.starts_with("speeds")).collect::<Vec<&str>>(), SHOWN);
    ticks
}

/// A site of one metered and one mainline lane, with buses and no timeout.
fn narrow_site() -> Site {
    let mut site = site_a();
    (site.timings[0], site.timings[14], site.timings[15]) = (1, 1, 1);
    site.entries = vec![[255, 0, 2, 900, 0]];
    site
}

/// So many ticks there, with one fire truck and some buses, that more than two blocks of output are written, of 65,536 bytes less a line or
/// two each.
fn long_ticks() -> String {
    let line = |i: u32| Line {
        clock: [2024, 2, 29, 36_000 + i],
        lanes: vec![[1, (i % 50 == 20) as u32]],
        mainline: vec![[1, i % 7, (i % 90 == 0) as u32, if i % 90 == 0 { 240 + i / 90 } else { 0 }]],
        preemption: (1500..1700).contains(&i) as u32,
        bypass: (i / 100 % 3 == 1) as u32,
        commands: [[0; 3]; 2],
    };
    (0..2700).map(|i| line(i).text()).collect()
}

// Runs.

/// A run of the test program: the site file's name, the ticks' file's name, and the ticks.
pub struct Run {
    pub site: &'static str,
    pub name: String,
    pub ticks: Vec<u8>,
}

impl Run {
    pub fn new(site: &'static str, name: &str, ticks: impl Into<Vec<u8>>) -> Run {
        Run { site, name: name.to_string(), ticks: ticks.into() }
    }
}

/// A site that is refused, and runs from power-up on.
fn whole_runs() -> Vec<Run> {
    let good = plain(0).text();
    vec![
        Run::new("absent.bin", "good.txt", good.clone()),
        Run::new("refused.bin", "good.txt", good.clone()),
        Run::new("site.bin", "good.txt", good),
        Run::new("wide.bin", "wide.txt", wide_ticks()),
        Run::new("site.bin", "wide.txt", wide_ticks()),
        Run::new("narrow.bin", "long.txt", long_ticks()),
        Run::new("wide.bin", "speeds.txt", timed_ticks()),
    ]
}

/// In the order in which the test program makes them.
fn runs() -> Vec<Run> {
    [whole_runs(), replay_lines::runs(), replay_refusals::runs()].into_iter().flatten().collect()
}

/// The site files that the test program reads; `absent.bin` is not there.
fn sites() -> Vec<(&'static str, Vec<u8>)> {
    let mut green_101 = bytes(&site_with_rows());
    green_101[9] = 101;
    vec![
        ("site.bin", bytes(&plain_site())),
        ("wide.bin", bytes(&wide_site())),
        ("narrow.bin", bytes(&narrow_site())),
        ("refused.bin", green_101),
    ]
}

/// All files that the test program reads.
fn files() -> Vec<(String, Vec<u8>)> {
    let sites = sites().into_iter().map(|(name, file)| (name.to_string(), file));
    let mut out: Vec<(String, Vec<u8>)> = sites.collect();
    for run in runs() {
        match out.iter().find(|(name, _)| *name == run.name) {
            Some((name, ticks)) => assert!(*ticks == run.ticks, "two files of the name {name}"),
            None => out.push((run.name, run.ticks)),
        }
    }
    out
}

/// Writes the test program's folder.
pub fn write(folder: &str) -> Result<()> {
    files().iter().try_for_each(|(name, file)| std::fs::write(format!("{folder}/{name}"), file))
}

/// The test program's standard input: a line for each run, the site file's name and the ticks' file's.
pub fn list() -> String {
    runs().into_iter().map(|run| format!("{} {}\n", run.site, run.name)).collect()
}

/// What the test program prints: of each run its names, its output and, behind that, what it explains.
pub fn answers() -> String {
    speed_text::hold_times();
    let sites = sites();
    // an absent file counts as empty
    let site = |name: &str| sites.iter().find(|(n, _)| *n == name).map_or(&[][..], |(_, file)| file);
    let answer = |run: Run| {
        let said = replay::print(site(run.site), run.site, &run.ticks);
        format!("-- {} {}\n{}{}", run.site, run.name, said.output, said.explanation)
    };
    runs().into_iter().map(answer).collect()
}

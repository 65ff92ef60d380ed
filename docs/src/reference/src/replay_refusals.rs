//! Refused ticks for the replay program's tests: each number of a tick on both sides of its range.

use crate::replay_files::{plain, wide, Line, Run};

/// A run of a good tick, one that is just in range, the one that is refused and explained, one more that is refused and not explained, and
/// a good one.
fn run(site: &'static str, name: &str, line: fn(u32) -> Line, in_range: impl Fn(&mut Line), refused: impl Fn(&mut Line)) -> Run {
    let mut ticks: Vec<Line> = (0..5).map(line).collect();
    in_range(&mut ticks[1]);
    refused(&mut ticks[2]);
    ticks[3].clock[1] = 14;
    Run::new(site, name, ticks.iter().map(Line::text).collect::<String>())
}

/// The clock's numbers; of the tick in range and of the refused one.
fn clocks() -> Vec<Run> {
    let clock = |name, good: [u32; 4], bad: [u32; 4]| run("site.bin", name, plain, |line| line.clock = good, |line| line.clock = bad);
    vec![
        clock("year_1999.txt", [2000, 12, 31, 0], [1999, 12, 31, 0]),
        clock("year_2100.txt", [2099, 1, 1, 0], [2100, 1, 1, 0]),
        clock("month_0.txt", [2024, 1, 1, 0], [2024, 0, 1, 0]),
        clock("month_13.txt", [2024, 12, 1, 0], [2024, 13, 1, 0]),
        clock("day_0.txt", [2024, 6, 1, 0], [2024, 6, 0, 0]),
        clock("january_32.txt", [2024, 1, 31, 0], [2024, 1, 32, 0]),
        clock("february_29_in_2023.txt", [2024, 2, 29, 0], [2023, 2, 29, 0]),
        clock("february_30_in_2024.txt", [2024, 2, 29, 0], [2024, 2, 30, 0]),
        clock("april_31.txt", [2024, 4, 30, 0], [2024, 4, 31, 0]),
        clock("tenth_864000.txt", [2024, 6, 3, 863_999], [2024, 6, 3, 864_000]),
    ]
}

fn samples() -> Vec<Run> {
    let metered = |site, name, line, lane: usize, k: usize| {
        run(site, name, line, move |line: &mut Line| line.lanes[lane - 1][k] = 1, move |line: &mut Line| line.lanes[lane - 1][k] = 2)
    };
    let mainline = |site, name, line, lane: usize, k: usize, most: u32| {
        let set = move |value| move |line: &mut Line| line.mainline[lane - 1][k] = value;
        run(site, name, line, set(most), set(most + 1))
    };
    let preemption = |site, name, line, value: u32| {
        run(site, name, line, |line: &mut Line| line.preemption = 1, move |line: &mut Line| line.preemption = value)
    };
    let bypass = |site, name, line, value: u32| {
        run(site, name, line, |line: &mut Line| line.bypass = 1, move |line: &mut Line| line.bypass = value)
    };
    vec![
        metered("site.bin", "demand_2.txt", plain, 1, 0),
        metered("site.bin", "passage_2.txt", plain, 2, 1),
        mainline("site.bin", "working_2.txt", plain, 1, 0, 1),
        mainline("site.bin", "occupied_101.txt", plain, 1, 1, 100),
        mainline("site.bin", "vehicles_2.txt", plain, 1, 2, 1),
        metered("wide.bin", "lane_4_passage_2.txt", wide, 4, 1),
        mainline("wide.bin", "mainline_lane_6_vehicles_2.txt", wide, 6, 2, 1),
        // every time is taken, and one beside a number that is refused is not named
        run("site.bin", "time_65535.txt", plain, |line| line.mainline[0] = [1, 9, 1, 65535], |line| line.mainline[0] = [1, 101, 1, 65535]),
        preemption("site.bin", "preemption_2.txt", plain, 2),
        preemption("wide.bin", "preemption_65535.txt", wide, 65535),
        bypass("site.bin", "bypass_2.txt", plain, 2),
        bypass("wide.bin", "bypass_65535.txt", wide, 65535),
    ]
}

/// Each number of a command, of the manual one and of communications: kind, rate and table in range, and with one that is not.
fn commands() -> Vec<Run> {
    let cases = [
        ("kind_5", [4, 150, 1], [5, 0, 0]),
        ("none_rate_1", [0, 0, 0], [0, 1, 0]),
        ("none_table_1", [0, 0, 0], [0, 0, 1]),
        ("dark_rate_150", [1, 0, 0], [1, 150, 0]),
        ("green_table_4", [2, 0, 0], [2, 0, 4]),
        ("fixed_rate_149", [3, 150, 0], [3, 149, 0]),
        ("fixed_rate_1801", [3, 1800, 0], [3, 1801, 0]),
        ("fixed_table_1", [3, 600, 0], [3, 600, 1]),
        ("responsive_rate_149", [4, 150, 2], [4, 149, 2]),
        ("responsive_rate_1801", [4, 1800, 3], [4, 1801, 3]),
        ("responsive_table_0", [4, 600, 1], [4, 600, 0]),
        ("responsive_table_5", [4, 600, 4], [4, 600, 5]),
    ];
    let of = |(k, who): (usize, &'static str)| {
        cases.map(|(name, good, bad)| {
            let set = move |command| move |line: &mut Line| line.commands[k] = command;
            run("site.bin", &format!("{who}_{name}.txt"), plain, set(good), set(bad))
        })
    };
    ["manual", "communications"].into_iter().enumerate().flat_map(of).collect()
}

/// More than one number is out of range: the clock goes first, then samples, then commands, and of each the leftmost.
fn first_of_many() -> Vec<Run> {
    let all = |line: &mut Line| {
        line.clock = [2024, 2, 30, 864_000];
        line.lanes[1] = [2, 2];
        line.mainline[0] = [2, 101, 2, 65535];
        (line.preemption, line.bypass) = (2, 2);
        line.commands = [[3, 149, 1], [5, 1, 1]];
    };
    let good = |_: &mut Line| {};
    let then = |fix: fn(&mut Line)| {
        move |line: &mut Line| {
            all(line);
            fix(line);
        }
    };
    let letter = |line: Line| line.text() + "end\n";
    let mut refused = plain(0);
    refused.lanes[0][0] = 65535;
    vec![
        run("site.bin", "all_out_of_range.txt", plain, good, all),
        run("site.bin", "samples_and_commands.txt", plain, good, then(|line| line.clock = [2024, 2, 29, 0])),
        run(
            "site.bin",
            "mainline_and_commands.txt",
            plain,
            good,
            then(|line| {
                line.clock = [2024, 2, 29, 0];
                line.lanes[1] = [1, 1];
            }),
        ),
        run(
            "site.bin",
            "preemption_and_commands.txt",
            plain,
            good,
            then(|line| {
                line.clock = [2024, 2, 29, 0];
                line.lanes[1] = [1, 1];
                line.mainline[0] = [1, 100, 1, 250];
            }),
        ),
        run(
            "site.bin",
            "bypass_and_commands.txt",
            plain,
            good,
            then(|line| {
                line.clock = [2024, 2, 29, 0];
                line.lanes[1] = [1, 1];
                line.mainline[0] = [1, 100, 1, 250];
                line.preemption = 1;
            }),
        ),
        run("site.bin", "tenth_and_bypass.txt", plain, good, |line| (line.clock[3], line.bypass) = (864_000, 2)),
        run("wide.bin", "mainline_lane_6_and_bypass.txt", wide, good, |line| (line.mainline[5][2], line.bypass) = (2, 2)),
        run("site.bin", "tenth_and_preemption.txt", plain, good, |line| (line.clock[3], line.preemption) = (864_000, 2)),
        run("wide.bin", "mainline_lane_6_and_preemption.txt", wide, good, |line| (line.mainline[5][2], line.preemption) = (2, 2)),
        run("wide.bin", "mainline_lanes_3_and_5.txt", wide, good, |line| {
            line.mainline[2] = [0, 101, 1, 65535];
            line.mainline[4] = [2, 0, 0, 0];
        }),
        run("site.bin", "both_commands.txt", plain, good, |line| line.commands = [[3, 149, 1], [5, 1, 1]]),
        // a refused tick is explained also where the run ends at a line that is no tick, or where it is the last
        Run::new("site.bin", "refused_and_no_tick.txt", letter(refused)),
        Run::new("site.bin", "refused_no_newline.txt", plain(0).text().trim_end().replacen("2024", "1024", 1)),
    ]
}

pub fn runs() -> Vec<Run> {
    [clocks(), samples(), commands(), first_of_many()].into_iter().flatten().collect()
}

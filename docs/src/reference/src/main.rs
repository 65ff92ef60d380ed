//! Document 01 in plain Rust, with the preemption, the nearest cycle, the plans past midnight, the bus bypass, the one cycle per tick and
//! the holidays that move of document 02. It also has that document's many ticks in one call, speeds from loop pairs, yellow times for
//! slopes, joining of two plan lists and polling desk.
//! `reference NAME` writes test inputs and what they should give:
//!
//! - `site-bounds stdin`, `site-bounds stdout`: the files of `crates/site_bounds`.
//! - `call-cases stdin`, `call-cases stdout`: the files of `crates/call_cases`.
//! - `yellow-cases stdin`, `yellow-cases stdout`: the files of `crates/yellow_cases`.
//! - `join-cases stdin`, `join-cases stdout`: the files of `crates/join_cases`.
//! - `desk-cases stdin`, `desk-cases stdout`: the files of `crates/desk_cases`.
//! - `call-cases tally`, `join-cases tally`, `desk-cases tally`: how many of each kind are stored.
//! - `random PROGRAM SEED FOLDER`: fresh cases of a seed for one of these five programs, as FOLDER/stdin, and what they give,
//!   as FOLDER/stdout; prints how many of each kind they are.
//! - `random timetable SEED FOLDER`: site files for the timetable program, FOLDER/0/site.bin and so on, and what it prints and explains of
//!   all of them, as FOLDER/stdout and FOLDER/stderr.
//! - `random replay SEED FOLDER`: the same for the replay program, with ticks, FOLDER/0/ticks and so on.
//! - `random simulate SEED FOLDER`: the same for the simulate program, with tick records, FOLDER/0/ticks and so on.
//! - `random yellow-sheet SEED FOLDER`: words for the yellow_sheet program, two for each call, as FOLDER/words, a byte of 0 behind each;
//!   and what it writes of all calls in a row, as FOLDER/stdout and FOLDER/stderr.
//! - `random join-plans SEED FOLDER`: pairs of site files for the join_plans program, FOLDER/0/site.bin, FOLDER/0/works.bin and so on; and
//!   what it writes of all of them, as FOLDER/stdout and FOLDER/stderr.
//! - `random polling-desk SEED FOLDER`: lines for the polling_desk program, as FOLDER/stdin, and what it writes of them, as FOLDER/stdout
//!   and FOLDER/stderr.
//! - `simulated-day stdin`: the site file of `crates/simulated_day`; `simulated-day`: what that program prints of the site file on
//!   standard input, and what it explains; `simulated-day samples`: what it prints of the samples alone.
//! - `day-records`: the ticks of that day at that site, as tick records.
//! - `simulate FILE`: what the simulate program writes of a site file and the tick records on standard input, on both streams.
//! - `simulate-records`: the tick records of `crates/simulate`.
//! - `timetable FILE [NAME]`: what the timetable program prints of a file, and on standard error why it is refused, as a file of that name.
//! - `replay FILE [NAME]`: what the replay program prints of a site file and the ticks on standard input, and what it explains.
//! - `replay-ticks`: the ticks of `crates/replay`.
//! - `replay-cases stdin`, `replay-cases stdout`: the runs of `crates/replay_cases`, and what it prints.
//! - `replay-files FOLDER`: the files that it reads.
//! - `rate-sheet`: what `crates/rate_sheet` prints.
//! - `yellow-sheet`: what `crates/yellow_sheet` prints.
//! - `yellow-sheet WORD..`: what that program writes of these arguments, on both streams. They may be any bytes.
//! - `join-plans FILE FILE [NAME NAME]`: what the join_plans program writes of two site files, on both streams. In messages they have these
//!   names, or else those of the files; all of them may be any bytes.
//! - `join-plans-files FOLDER`: the files of `crates/join_plans`.
//! - `polling-desk`: what the polling_desk program writes of the lines on standard input, on both streams.
//! - `polling-desk-calls`: the lines of `crates/polling_desk`.
//! - `release-check`: what `crates/release_check` prints.
//! - `calendar-check`: what `crates/calendar_check` prints.
//! - `paper-site`: the site file of `crates/timetable`.
//! - `timetable-cases stdout`: what `crates/timetable_cases` prints.
//! - `timetable-files FOLDER`: the files that it reads.

mod bypass;
mod bypass_cases;
mod bypass_mark_cases;
mod bypass_steps;
mod bypass_watch;
mod calendar;
mod calendar_check;
mod call_cases;
mod call_run;
mod cases;
mod desk;
mod desk_book;
mod desk_cases;
mod desk_claim;
mod desk_lines;
mod desk_run;
mod desk_watch;
mod diagnosis;
mod files;
mod group;
mod join_cases;
mod join_plans;
mod join_run;
mod joining;
mod joining_claim;
mod joining_year;
mod lanes;
mod midnight_cases;
mod moved_cases;
mod nearest_cases;
mod output;
mod periods;
mod poll;
mod polling_desk;
mod preemption;
mod preemption_cases;
mod random;
mod random_calls;
mod random_cases;
mod random_desk;
mod random_joins;
mod random_records;
mod random_replay;
mod random_simulate;
mod random_yellow;
mod rate_sheet;
mod record;
mod record_cases;
mod record_runs;
mod record_steps;
mod record_tally;
mod refusal_cases;
mod release_check;
mod replay;
mod replay_files;
mod replay_lines;
mod replay_refusals;
mod row;
mod simulate;
mod simulated_day;
mod site;
mod site_run;
mod slope;
mod speed_cases;
mod speed_steps;
mod speed_text;
mod speed_watch;
mod speeds;
mod tally;
mod text;
mod tick;
mod tick_cases;
mod tick_diagnosis;
mod tick_records;
mod timetable;
mod timetable_files;
mod timings;
mod wanted;
mod yellow_cases;
mod yellow_sheet;

use std::ffi::OsString;
use std::io::{Read, Result, Write};
use std::os::unix::ffi::OsStrExt;
use std::path::Path;
use tally::Tally;

/// Each case behind its length in two bytes.
fn framed(cases: &[Vec<u8>]) -> Vec<u8> {
    assert!(cases.iter().all(|c| c.len() < 65536));
    cases.iter().flat_map(|c| [&(c.len() as u16).to_be_bytes()[..], c].concat()).collect()
}

/// The stored cases of a program, or fresh ones of a seed, and what they give.
fn cases_of(program: &str, seed: Option<u64>, tally: &mut Tally) -> (Vec<Vec<u8>>, String) {
    match program {
        "site-bounds" => {
            let files = seed.map_or_else(files::bound_files, random_cases::files);
            let answers = files.iter().map(|file| site_run::answer(file, tally)).collect();
            (files, answers)
        }
        "yellow-cases" => {
            let cases = seed.map_or_else(yellow_cases::cases, random_yellow::cases);
            let answers = cases.iter().map(|case| yellow_cases::answer(case, tally)).collect();
            (cases, answers)
        }
        "join-cases" => {
            let cases = seed.map_or_else(join_cases::cases, random_joins::cases);
            let answers = cases.iter().map(|case| join_run::answer(case, tally)).collect();
            (cases, answers)
        }
        "desk-cases" => {
            let cases = seed.map_or_else(desk_cases::cases, random_desk::cases);
            let answers = desk_run::answers(&cases, tally);
            (cases, answers)
        }
        _ => {
            let cases = seed.map_or_else(call_cases::cases, random_cases::call_cases);
            let answers = cases.iter().map(|case| call_run::answer(case, tally)).collect();
            (cases, answers)
        }
    }
}

/// A file's bytes; an absent one counts as empty.
fn contents(file: impl AsRef<Path>) -> Vec<u8> {
    std::fs::read(file).unwrap_or_default()
}

fn standard_input() -> Result<Vec<u8>> {
    let mut bytes = Vec::new();
    std::io::stdin().read_to_end(&mut bytes)?;
    Ok(bytes)
}

/// Writes what a program prints and what it explains.
fn say(output: &str, explanation: &str) -> Result<()> {
    std::io::stdout().write_all(output.as_bytes())?;
    std::io::stderr().write_all(explanation.as_bytes())
}

fn timetable(file: &str, name: &str) -> Result<()> {
    let file = contents(file);
    say(&timetable::print(&file), &diagnosis::of(&file, name))
}

fn replay(file: &str, name: &str) -> Result<()> {
    let said = replay::print(&contents(file), name, &standard_input()?);
    say(&said.output, &said.explanation)
}

fn simulate(file: &str) -> Result<()> {
    let said = simulate::print(&contents(file), &standard_input()?);
    std::io::stdout().write_all(&said.output)?;
    std::io::stderr().write_all(said.explanation.as_bytes())
}

/// The words behind this one, if it is the first. They need not be UTF-8.
fn words_behind(command: &str) -> Option<Vec<OsString>> {
    let mut words = std::env::args_os().skip(1);
    let first = words.next()?;
    (first == command).then(|| words.collect())
}

fn yellow_sheet(words: &[OsString]) -> Result<()> {
    let words: Vec<Vec<u8>> = words.iter().map(|word| word.as_bytes().to_vec()).collect();
    let said = yellow_sheet::print(&words);
    std::io::stdout().write_all(said.output.as_bytes())?;
    std::io::stderr().write_all(&said.explanation)
}

/// Two files, and the names that they have in messages.
fn join_plans(words: &[OsString]) -> Result<()> {
    let ([site, works] | [site, works, _, _]) = words else {
        no_such_test(&words)
    };
    let files = [site, works].map(contents);
    let names = &words[words.len() - 2..];
    let said = join_plans::print(&files, [names[0].as_bytes(), names[1].as_bytes()]);
    std::io::stdout().write_all(&said.output)?;
    std::io::stderr().write_all(&said.explanation)
}

fn no_such_test(words: &dyn std::fmt::Debug) -> ! {
    eprintln!("reference: no such test: {words:?}");
    std::process::exit(2)
}

fn main() -> Result<()> {
    if let Some(words) = words_behind("yellow-sheet") {
        return yellow_sheet(&words);
    }
    if let Some(words) = words_behind("join-plans") {
        return join_plans(&words);
    }
    let words: Vec<String> = std::env::args().skip(1).collect();
    let words: Vec<&str> = words.iter().map(String::as_str).collect();
    let mut out = std::io::stdout();
    match words[..] {
        [program @ ("site-bounds" | "call-cases" | "yellow-cases" | "join-cases" | "desk-cases"), stream @ ("stdin" | "stdout")] => {
            let (cases, answers) = cases_of(program, None, &mut Tally::default());
            out.write_all(if stream == "stdin" { framed(&cases) } else { answers.into_bytes() }.as_slice())
        }
        [program @ ("call-cases" | "join-cases" | "desk-cases"), "tally"] => {
            let tally = &mut Tally::default();
            cases_of(program, None, tally);
            out.write_all(tally.print().as_bytes())
        }
        ["random", program @ ("site-bounds" | "call-cases" | "yellow-cases" | "join-cases" | "desk-cases"), seed, folder] => {
            let tally = &mut Tally::default();
            let (cases, answers) = cases_of(program, Some(seed.parse().expect("a seed")), tally);
            std::fs::write(format!("{folder}/stdin"), framed(&cases))?;
            std::fs::write(format!("{folder}/stdout"), answers)?;
            out.write_all(tally.print().as_bytes())
        }
        ["random", "timetable", seed, folder] => {
            let files = random_cases::timetable_files(seed.parse().expect("a seed"));
            for (i, file) in files.iter().enumerate() {
                std::fs::create_dir_all(format!("{folder}/{i}"))?;
                std::fs::write(format!("{folder}/{i}/site.bin"), file)?;
            }
            std::fs::write(format!("{folder}/stdout"), files.iter().map(|file| timetable::print(file)).collect::<String>())?;
            std::fs::write(format!("{folder}/stderr"), files.iter().map(|file| diagnosis::of(file, "site.bin")).collect::<String>())?;
            writeln!(out, "{} timetables", files.len())
        }
        ["random", "replay", seed, folder] => {
            let tally = &mut Tally::default();
            let (mut stdout, mut stderr) = (String::new(), String::new());
            for (i, run) in random_replay::runs(seed.parse().expect("a seed")).iter().enumerate() {
                std::fs::create_dir_all(format!("{folder}/{i}"))?;
                std::fs::write(format!("{folder}/{i}/site.bin"), &run.file)?;
                std::fs::write(format!("{folder}/{i}/ticks"), &run.ticks)?;
                let said = random_replay::answer(run, tally);
                stdout += &said.output;
                stderr += &said.explanation;
            }
            std::fs::write(format!("{folder}/stdout"), stdout)?;
            std::fs::write(format!("{folder}/stderr"), stderr)?;
            out.write_all(tally.print().as_bytes())
        }
        ["random", "simulate", seed, folder] => {
            let tally = &mut Tally::default();
            let (mut stdout, mut stderr) = (Vec::new(), String::new());
            for (i, run) in random_simulate::runs(seed.parse().expect("a seed")).iter().enumerate() {
                std::fs::create_dir_all(format!("{folder}/{i}"))?;
                std::fs::write(format!("{folder}/{i}/site.bin"), &run.file)?;
                std::fs::write(format!("{folder}/{i}/ticks"), &run.ticks)?;
                let said = random_simulate::answer(run, tally);
                stdout.extend(said.output);
                stderr += &said.explanation;
            }
            std::fs::write(format!("{folder}/stdout"), stdout)?;
            std::fs::write(format!("{folder}/stderr"), stderr)?;
            out.write_all(tally.print().as_bytes())
        }
        ["random", "yellow-sheet", seed, folder] => {
            let tally = &mut Tally::default();
            let (mut all_words, mut stdout, mut stderr) = (Vec::new(), String::new(), Vec::new());
            for words in random_yellow::calls(seed.parse().expect("a seed")) {
                let said = random_yellow::answer(&words, tally);
                all_words.extend(words.iter().flat_map(|word| [&word[..], &[0]].concat()));
                stdout += &said.output;
                stderr.extend(said.explanation);
            }
            std::fs::write(format!("{folder}/words"), all_words)?;
            std::fs::write(format!("{folder}/stdout"), stdout)?;
            std::fs::write(format!("{folder}/stderr"), stderr)?;
            out.write_all(tally.print().as_bytes())
        }
        ["random", "join-plans", seed, folder] => {
            let tally = &mut Tally::default();
            let (mut stdout, mut stderr) = (Vec::new(), Vec::new());
            for (i, pair) in random_joins::pairs(seed.parse().expect("a seed")).iter().enumerate() {
                std::fs::create_dir_all(format!("{folder}/{i}"))?;
                std::fs::write(format!("{folder}/{i}/site.bin"), &pair[0])?;
                std::fs::write(format!("{folder}/{i}/works.bin"), &pair[1])?;
                let said = random_joins::answer(pair, tally);
                stdout.extend(said.output);
                stderr.extend(said.explanation);
            }
            std::fs::write(format!("{folder}/stdout"), stdout)?;
            std::fs::write(format!("{folder}/stderr"), stderr)?;
            out.write_all(tally.print().as_bytes())
        }
        ["random", "polling-desk", seed, folder] => {
            let tally = &mut Tally::default();
            let lines = random_desk::lines(seed.parse().expect("a seed"));
            let said = polling_desk::print(&lines, tally);
            std::fs::write(format!("{folder}/stdin"), lines)?;
            std::fs::write(format!("{folder}/stdout"), said.output)?;
            std::fs::write(format!("{folder}/stderr"), said.explanation)?;
            out.write_all(tally.print().as_bytes())
        }
        ["simulated-day", "stdin"] => out.write_all(&site::bytes(&simulated_day::site())),
        ["simulated-day"] => {
            let file = standard_input()?;
            say(&simulated_day::print(&file), &diagnosis::of(&file, "standard input"))
        }
        ["simulated-day", "samples"] => out.write_all(simulated_day::print_samples().as_bytes()),
        ["day-records"] => simulated_day::write_records(out),
        ["simulate", file] => simulate(file),
        ["simulate-records"] => out.write_all(&replay_files::simulate_records()),
        ["timetable", file] => timetable(file, "site.bin"),
        ["timetable", file, name] => timetable(file, name),
        ["replay", file] => replay(file, "site.bin"),
        ["replay", file, name] => replay(file, name),
        ["replay-ticks"] => out.write_all(replay_files::ticks().as_bytes()),
        ["replay-cases", "stdin"] => out.write_all(replay_files::list().as_bytes()),
        ["replay-cases", "stdout"] => out.write_all(replay_files::answers().as_bytes()),
        ["replay-files", folder] => replay_files::write(folder),
        ["rate-sheet"] => out.write_all(rate_sheet::print().as_bytes()),
        ["polling-desk"] => {
            let said = polling_desk::print(&standard_input()?, &mut Tally::default());
            say(&said.output, &said.explanation)
        }
        ["polling-desk-calls"] => out.write_all(&desk_lines::input()),
        ["release-check"] => out.write_all(release_check::print().as_bytes()),
        ["calendar-check"] => out.write_all(calendar_check::print().as_bytes()),
        ["paper-site"] => out.write_all(&site::bytes(&timetable_files::paper())),
        ["timetable-cases", "stdout"] => out.write_all(timetable_files::answers().as_bytes()),
        ["join-plans-files", folder] => join_plans::write(folder),
        ["timetable-files", folder] => timetable_files::write(folder),
        _ => no_such_test(&words),
    }
}

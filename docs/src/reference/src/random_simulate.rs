//! Fresh random runs of a seed for the simulate program: a site file and tick records, most of them longer than one read of 65,536 bytes,
//! whose end is seldom a record's.

use crate::random::Random;
use crate::random_cases::{any_setting, damaged_file, soon_metering};
use crate::random_records::{part, wrong_count};
use crate::random_replay::{inputs, metered_inputs, Run};
use crate::record_steps::records;
use crate::simulate::{self, Simulated};
use crate::site::{self, bytes};
use crate::tally::Tally;
use crate::tick::{power_up, tick, Input};
use crate::tick_cases::{damage_input, Setting};
use crate::tick_records::size;
use crate::wanted::lanes;

/// How much the program reads at once.
const READ: usize = 65536;

/// How a run ends.
#[derive(Clone, Copy, PartialEq)]
enum End {
    /// With its last record.
    Whole,
    /// Inside its last record.
    Cut,
    /// At a record that is refused with 8, 9 or 10, with others behind it.
    Number,
    /// At a record with a wrong count, with others behind it.
    Count,
    /// At the site file, which is refused.
    Site,
}

/// How many records each run has at least and at most, and how it ends.
const RUNS: [(u64, u64, End); 12] = [
    (0, 0, End::Whole),
    (300, 900, End::Site),
    (1, 1, End::Cut),
    (300, 900, End::Cut),
    (5000, 9000, End::Cut),
    (300, 900, End::Number),
    (5000, 9000, End::Number),
    (5000, 9000, End::Count),
    (300, 900, End::Whole),
    (5000, 9000, End::Whole),
    (5000, 9000, End::Whole),
    (7000, 12_000, End::Whole),
];

/// A tick that is refused, whatever the state.
fn refused(r: &mut Random, s: &Setting, input: &Input) -> Input {
    let (_, state) = power_up(Some(&s.site));
    loop {
        let mut bad = *input;
        damage_input(r, s, &mut bad);
        if tick(Some(&s.site), &state, &bad).refusal != 0 {
            return bad;
        }
    }
}

fn refused_file(r: &mut Random) -> Vec<u8> {
    loop {
        let file = damaged_file(r);
        if site::read(&file).is_err() {
            return file;
        }
    }
}

fn run(r: &mut Random, k: u16, (least, most, end): (u64, u64, End)) -> Run {
    let s = if r.percent(60) { soon_metering(r, k) } else { any_setting(r, k) };
    let many = r.from(least, most) as usize;
    let mut inputs = if r.percent(40) { metered_inputs(r, &s, many) } else { inputs(r, &s, many, 0) };
    let late = r.from(many as u64 / 2, many.saturating_sub(2) as u64) as usize;
    if end == End::Number {
        inputs[late] = refused(r, &s, &inputs[late]);
    }
    let mut records = records(&s.site, &inputs);
    match end {
        End::Count => {
            let good = records[late].clone();
            while records[late] == good {
                records[late] = wrong_count(r, &s, &good);
            }
        }
        End::Cut => {
            let last = records.last_mut().expect("a record");
            last.truncate(part(r, last.len()));
        }
        End::Whole | End::Number | End::Site => {}
    }
    let file = if end == End::Site { refused_file(r) } else { bytes(&s.site) };
    Run { file, ticks: records.concat() }
}

pub fn runs(seed: u64) -> Vec<Run> {
    let mut r = Random::new(seed);
    let first = r.number(0, 23);
    // one lane more from run to run
    (first..).zip(RUNS).map(|(k, kind)| run(&mut r, k, kind)).collect()
}

/// What the program writes of a run.
pub fn answer(run: &Run, tally: &mut Tally) -> Simulated {
    tally.count("simulations", 1);
    tally.count("simulations with no record", run.ticks.is_empty() as u64);
    let Ok(site) = site::read(&run.file) else {
        tally.count("simulations of a refused site file", 1);
        return simulate::print(&run.file, &run.ticks);
    };
    let (mut released, mut metered) = (0, 0);
    let (said, ran) = simulate::at_site(&site, &run.ticks, &mut |_, answer| {
        released += (answer.released != 0) as u64;
        metered += (answer.state.interval == 7) as u64;
    });
    let (n, m) = lanes(&site);
    let inside = (1..=run.ticks.len() / READ).filter(|k| k * READ % size(n, m) != 0).count();
    tally.count("simulated ticks", ran.accepted as u64);
    tally.count("simulated ticks in metering", metered);
    tally.count("simulated ticks that release a lane", released);
    tally.count("simulated reads that end inside a record", inside as u64);
    match ran.refusal {
        0 => tally.count("simulations with nothing refused", 1),
        refusal => tally.count(&format!("simulations refused with {refusal}"), 1),
    }
    said
}

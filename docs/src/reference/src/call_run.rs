//! The cases of `crates/call_cases`: the words of an operation, and what a case should print.
//!
//! A case is the length of a site file, the file, and operations one behind the other, in two-byte numbers:
//! 1 ticks: how many, and the first one's row of 4 metered and 6 mainline lanes;
//! 2 a state in place of the present one;
//! 3 a number of the site record set to any value: its section from 0, its place from 1 or 0 for the count, the value;
//! 4 the site record of the file again; 5 power-up;
//! 6 poll into a buffer of so many bytes, or of `ROOM` where that is less;
//! 7 decide: a row of no lanes, whose calls are not looked at; 8 write into such a buffer;
//! 9 records: the size of such a buffer, the number B of bytes of the tick records, these bytes, and one byte of 0 more where B is odd.
//! It prints `records`, the refusal, how many ticks were accepted, the buffer, and the state, which is then the present one;
//! 10 readings: prints `readings`, the refusal, and of each of the six mainline lanes the case (0 absent, 1 measured, 2 carried over), its
//! speed, and the latest and the slowest speed.
//! A speed is four numbers of a state, the highest first, and prints as 16 hexadecimal digits; every NaN is taken for the same.
//! An unknown or a cut operation ends the case.

use crate::bypass::Bypass;
use crate::bypass_watch;
use crate::calendar::Clock;
use crate::output::{untouched, Outcome, ROOM};
use crate::periods::Counts;
use crate::preemption;
use crate::record::Record;
use crate::record_tally;
use crate::row;
use crate::site::{self, Site};
use crate::speed_watch;
use crate::speeds::{Double, LaneSpeeds, Pair};
use crate::tally::{InForce, Tally};
use crate::text;
use crate::tick::{self, state_spoilt, Answer, Input, KeptLane, State, NOTHING_DECIDED};
use crate::tick_records;
use crate::wanted::{cycle, half_goes_up, lanes, Command, Wish};
use std::fmt::Write;

#[derive(Clone, Debug)]
pub enum Op {
    /// So many ticks with one input, whose tenth rises by one with each.
    Ticks(u16, Input),
    State(State),
    Damage(u16, u16, u16),
    Repair,
    PowerUp,
    Poll(u16),
    Decide(Clock, [Command; 2]),
    Write(u16),
    /// The size of the output, and the bytes of the records.
    Records(u16, Vec<u8>),
    Readings,
}

/// Timing i, from 0, set to any value.
pub fn timing(i: usize, value: u16) -> Op {
    Op::Damage(0, i as u16 + 1, value)
}

// Words.

/// Bytes as numbers, with a byte of 0 more where they are odd.
fn padded(bytes: &[u8]) -> Vec<u16> {
    bytes.chunks(2).map(|b| u16::from_be_bytes([b[0], b.get(1).copied().unwrap_or(0)])).collect()
}

fn op_words(op: &Op) -> Vec<u16> {
    match op {
        Op::Ticks(count, input) => [vec![1, *count], row::numbers(input, 4, 6)].concat(),
        Op::State(state) => [vec![2], state.words()].concat(),
        Op::Damage(section, place, value) => vec![3, *section, *place, *value],
        Op::Repair => vec![4],
        Op::PowerUp => vec![5],
        Op::Poll(size) => vec![6, *size],
        Op::Decide(clock, commands) => {
            let input = Input { commands: *commands, ..Input::at(*clock) };
            [vec![7], row::numbers(&input, 0, 0)].concat()
        }
        Op::Write(size) => vec![8, *size],
        Op::Records(size, bytes) => {
            assert!(bytes.len() < 65536);
            [vec![9, *size, bytes.len() as u16], padded(bytes)].concat()
        }
        Op::Readings => vec![10],
    }
}

/// A case in bytes.
pub fn payload(file: &[u8], ops: &[Op]) -> Vec<u8> {
    let words: Vec<u16> = ops.iter().flat_map(op_words).collect();
    let mut out = (file.len() as u16).to_be_bytes().to_vec();
    out.extend(file);
    out.extend(words.iter().flat_map(|w| w.to_be_bytes()));
    out
}

/// The same, from power-up.
pub fn from_power_up(file: &[u8], ops: &[Op]) -> Vec<u8> {
    payload(file, &[&[Op::PowerUp], ops].concat())
}

/// The words still to come; `None` at the end.
struct Words(std::vec::IntoIter<u16>);

impl Words {
    /// A last odd byte is no word.
    fn of(bytes: &[u8]) -> Words {
        let words: Vec<u16> = bytes.chunks_exact(2).map(|b| u16::from_be_bytes([b[0], b[1]])).collect();
        Words(words.into_iter())
    }

    fn one(&mut self) -> Option<u16> {
        self.0.next()
    }

    fn long(&mut self) -> Option<u32> {
        Some((self.one()? as u32) << 16 | self.one()? as u32)
    }

    fn row<const N: usize>(&mut self) -> Option<[u16; N]> {
        let mut out = [0; N];
        for word in &mut out {
            *word = self.one()?;
        }
        Some(out)
    }

    /// So many bytes; behind an odd number of them one more goes by.
    fn bytes(&mut self, many: u16) -> Option<Vec<u8>> {
        let words: Option<Vec<u16>> = (0..many.div_ceil(2)).map(|_| self.one()).collect();
        let mut out: Vec<u8> = words?.into_iter().flat_map(u16::to_be_bytes).collect();
        out.truncate(many as usize);
        Some(out)
    }

    fn input(&mut self, n: usize, m: usize) -> Option<Input> {
        let words: Option<Vec<u16>> = (0..row::size(n, m)).map(|_| self.one()).collect();
        Some(row::input(&words?, n, m))
    }

    fn counts(&mut self) -> Option<Counts> {
        let mut c = Counts {
            passages: self.row()?,
            greens: self.row()?,
            worked: self.row()?,
            vehicles: self.row()?,
            occupied: self.row()?,
            timed: self.row()?,
            millis: [0; 6],
        };
        for sum in &mut c.millis {
            *sum = self.long()?;
        }
        Some(c)
    }

    fn double(&mut self) -> Option<Double> {
        Some(Double::of_words(self.row()?))
    }

    fn state(&mut self) -> Option<State> {
        let mut state = State { interval: self.one()?, age: self.one()?, ..State::default() };
        let [colours, ages, counters, passages]: [[u16; 4]; 4] = [self.row()?, self.row()?, self.row()?, self.row()?];
        state.lanes = std::array::from_fn(|i| KeptLane {
            colour: colours[i],
            age: ages[i],
            counter: counters[i],
            passages: passages[i],
        });
        state.offset = self.one()?;
        state.last = self.one()?;
        state.bypass = Bypass { kept: self.one()? != 0, mark: self.one()? != 0, timer: self.one()? };
        state.periods.ticks = self.one()?;
        state.periods.current = self.counts()?;
        state.periods.serial = self.long()?;
        state.periods.last = self.counts()?;
        let speeds = &mut state.periods.speeds;
        for pair in speeds.current.iter_mut().chain(&mut speeds.last) {
            *pair = Pair { latest: self.double()?, slowest: self.double()? };
        }
        for speed in &mut speeds.earlier {
            *speed = self.double()?;
        }
        Some(state)
    }

    fn op(&mut self) -> Option<Op> {
        match self.one()? {
            1 => Some(Op::Ticks(self.one()?, self.input(4, 6)?)),
            2 => Some(Op::State(self.state()?)),
            3 => Some(Op::Damage(self.one()?, self.one()?, self.one()?)),
            4 => Some(Op::Repair),
            5 => Some(Op::PowerUp),
            6 => Some(Op::Poll(self.one()?)),
            7 => self.input(0, 0).map(|input| Op::Decide(input.clock, input.commands)),
            8 => Some(Op::Write(self.one()?)),
            9 => {
                let (size, many) = (self.one()?, self.one()?);
                Some(Op::Records(size, self.bytes(many)?))
            }
            10 => Some(Op::Readings),
            _ => None,
        }
    }
}

// Lines.

fn tick_line(a: &Answer) -> String {
    let (lamps, decision) = (text::lamps(&a.indications, 4), text::decision(&a.decision));
    format!("{} {} {lamps} {decision} {} {} {}", a.refusal, a.state.interval, a.cycle, a.released, a.bypass.word())
}

fn state_line(state: &State) -> String {
    let numbers = state.numbers().into_iter().map(|n| n.to_string());
    let speeds = state.periods.speeds.doubles().into_iter().map(Double::hex);
    format!("state {}\n", numbers.chain(speeds).collect::<Vec<String>>().join(" "))
}

/// A lane's words behind those before it.
fn lane_words(lane: &LaneSpeeds) -> String {
    let (case, speed) = lane.reading.numbers();
    format!(" {case} {} {} {}", speed.hex(), lane.pair.latest.hex(), lane.pair.slowest.hex())
}

// Runs.

/// How a spoilt record is counted, by the section that was damaged.
const SPOILT_IN: [&str; 4] =
    ["sites spoilt in the timings", "sites spoilt in the entries", "sites spoilt in the holidays", "sites spoilt in the levels"];

/// No holidays where no file could give the record: nothing is decided there.
fn holidays(site: &Option<Site>) -> &[[u16; 5]] {
    site.as_ref().map_or(&[], |site| &site.holidays)
}

struct Run<'a> {
    /// The site that the file gave; the present record; and its site, none where no file could give it.
    given: Site,
    record: Record,
    site: Option<Site>,
    state: State,
    /// The site of the last power-up, while every tick accepted since is at that site, and no state came from elsewhere.
    powered: Option<Site>,
    preemptions: preemption::Watch,
    bypasses: bypass_watch::Watch,
    speeds: speed_watch::Watch,
    /// Of the decisions and of the ticks.
    decided: InForce,
    ticked: InForce,
    out: String,
    tally: &'a mut Tally,
}

impl Run<'_> {
    fn print_state(&mut self) {
        self.out += &state_line(&self.state);
    }

    fn power_up(&mut self) {
        let (refusal, state) = tick::power_up(self.site.as_ref());
        self.tally.refused(refusal);
        self.state = state;
        self.powered = self.site.clone();
        self.preemptions.end_call();
        self.bypasses.power_up();
        self.speeds.power_up();
        writeln!(self.out, "power {refusal}").unwrap();
        self.print_state();
    }

    /// Ticks are to come. At a spoilt site none is accepted.
    fn begin_ticks(&mut self) {
        if self.site.is_some() && self.site != self.powered {
            self.powered = None;
        }
    }

    /// A tick and its answer, whose state is the present one from now on.
    fn take(&mut self, input: &Input, answer: &Answer) {
        self.tally.count("ticks accepted", (answer.refusal == 0) as u64);
        self.tally.count("lanes released", (answer.released != 0) as u64);
        if answer.refusal == 0 {
            self.watch_calls(input, answer);
        }
        self.state = answer.state;
        let half = self.goes_up(answer.decision.wish);
        self.tally.count("ticks whose cycle is a half going up", half);
        self.ticked.note(holidays(&self.site), input.clock, &answer.decision);
        speed_watch::count_tests(&answer.decision.tests, self.tally);
    }

    fn ticks(&mut self, count: u16, mut input: Input) {
        self.tally.count("ticks", count as u64);
        self.begin_ticks();
        let mut before = String::new();
        for number in 1..=count {
            let answer = tick::tick(self.site.as_ref(), &self.state, &input);
            if number == 1 {
                self.tally.refused(answer.refusal);
            }
            self.take(&input, &answer);
            let line = tick_line(&answer);
            if line != before || answer.released != 0 {
                writeln!(self.out, "{number} {line}").unwrap();
            }
            before = line;
            input.clock.tenth = input.clock.tenth.wrapping_add(1);
        }
        self.print_state();
    }

    /// The ticks that the call accepts are noted like those of operation 1.
    fn records(&mut self, size: u16, records: &[u8]) {
        let (mut buffer, mut ticks) = (untouched(size), Vec::new());
        let mut see = |input: &Input, answer: &Answer| ticks.push((*input, *answer));
        let ran = tick_records::run_seen(self.site.as_ref(), &self.state, records, &mut buffer, &mut see);
        record_tally::count(self.site.as_ref(), records, buffer.len(), &ran, self.tally);
        self.begin_ticks();
        ticks.iter().for_each(|(input, answer)| self.take(input, answer));
        assert_eq!(self.state.words(), ran.state.words(), "the state so far is another");
        writeln!(self.out, "records {} {} {}", ran.refusal, ran.accepted, text::hex(&buffer)).unwrap();
        self.print_state();
    }

    /// 1 where the wish has a cycle that is a half going up; where something is refused it has none.
    fn goes_up(&self, wish: Wish) -> u64 {
        self.site.as_ref().is_some_and(|site| half_goes_up(site, wish)) as u64
    }

    /// Of an accepted tick, from the present state.
    fn watch_calls(&mut self, input: &Input, answer: &Answer) {
        self.tally.count("ticks accepted under preemption", input.preemption as u64);
        if let Some(site) = &self.powered {
            self.preemptions.tick(site, input.preemption, answer.state.interval);
        }
        if let Some(site) = &self.site {
            let tick = bypass_watch::Tick { site, before: &self.state, input, answer };
            self.bypasses.tick(tick, self.powered.is_some());
            self.speeds.tick(tick);
        }
    }

    fn replace_state(&mut self, state: State) {
        let spoilt = state_spoilt(&self.given, &state);
        self.tally.count(if spoilt { "states spoilt" } else { "states in range" }, 1);
        speed_watch::count_kept(&state.periods.speeds, lanes(&self.given).1, self.tally);
        self.state = state;
        self.powered = None;
    }

    fn damage(&mut self, section: u16, place: u16, value: u16) {
        self.record.set(section, place, value);
        self.site = self.record.site();
        if self.site.is_none() {
            self.tally.count("sites spoilt", 1);
            // a section that there is not leaves a spoilt record as it was
            if let Some(spoilt) = SPOILT_IN.get(section as usize) {
                self.tally.count(spoilt, 1);
            }
            let beyond = place != 0 && self.record.beyond(section, place);
            self.tally.count("sites spoilt beyond a count", beyond as u64);
        }
    }

    fn poll(&mut self, size: u16) {
        let outcome = Outcome::of(ROOM.min(size as usize), |out| tick::poll(self.site.as_ref(), &self.state, out));
        let Outcome { refusal, count, ref buffer } = outcome;
        self.tally.count("polls", 1);
        self.tally.count("polls refused", (refusal != 0) as u64);
        self.tally.refused(refusal);
        writeln!(self.out, "poll {refusal} {count} {}", text::hex(buffer)).unwrap();
    }

    /// Held to the watch where every tick since power-up was at the present site.
    fn readings(&mut self) {
        let given = tick::readings(self.site.as_ref(), &self.state);
        speed_watch::count_readings(self.site.as_ref(), &self.state, given, self.tally);
        if self.powered.is_some() && self.site == self.powered {
            self.speeds.readings(given);
        }
        let (refusal, readings) = match given {
            Ok(readings) => (0, readings),
            Err(refusal) => (refusal, [LaneSpeeds::default(); 6]),
        };
        let words: String = readings.iter().map(lane_words).collect();
        writeln!(self.out, "readings {refusal}{words}").unwrap();
    }

    fn decide(&mut self, clock: Clock, commands: [Command; 2]) {
        let (refusal, decision) = match tick::decision(self.site.as_ref(), &self.state, clock, commands) {
            Ok(decision) => (0, decision),
            Err(refusal) => (refusal, NOTHING_DECIDED),
        };
        let cycle = match (&self.site, decision.wish) {
            (Some(site), Wish::Metering(rate)) => cycle(site, rate),
            _ => 0,
        };
        self.tally.count("decisions", 1);
        let half = self.goes_up(decision.wish);
        self.tally.count("decisions whose cycle is a half going up", half);
        self.decided.note(holidays(&self.site), clock, &decision);
        speed_watch::count_tests(&decision.tests, self.tally);
        if let (0, Some(site)) = (refusal, &self.site) {
            speed_watch::hold_thresholds(site, &self.state.periods);
        }
        self.tally.refused(refusal);
        writeln!(self.out, "decide {refusal} {} {cycle}", text::decision(&decision)).unwrap();
    }

    fn write(&mut self, size: u16) {
        let outcome = Outcome::of(ROOM.min(size as usize), |out| tick::write(self.site.as_ref(), out));
        self.tally.count("writes", 1);
        self.tally.refused(outcome.refusal);
        writeln!(self.out, "write {}", outcome.words()).unwrap();
    }

    fn op(&mut self, op: Op) {
        match op {
            Op::Ticks(count, input) => self.ticks(count, input),
            Op::State(state) => self.replace_state(state),
            Op::Damage(section, place, value) => self.damage(section, place, value),
            Op::Repair => {
                self.record = Record::of(&self.given);
                self.site = Some(self.given.clone());
            }
            Op::PowerUp => self.power_up(),
            Op::Poll(size) => self.poll(size),
            Op::Decide(clock, commands) => self.decide(clock, commands),
            Op::Write(size) => self.write(size),
            Op::Records(size, records) => self.records(size, &records),
            Op::Readings => self.readings(),
        }
    }
}

/// What a case prints.
pub fn answer(case: &[u8], tally: &mut Tally) -> String {
    let length = u16::from_be_bytes([case[0], case[1]]) as usize;
    let (file, operations) = case[2..].split_at(length);
    let given = match site::read(file) {
        Ok(site) => site,
        Err(r) => {
            tally.refused(r.number);
            return text::refusal(r);
        }
    };
    tally.count("sites", 1);
    let mut run = Run {
        record: Record::of(&given),
        site: Some(given.clone()),
        given,
        state: State::default(),
        powered: None,
        preemptions: preemption::Watch::default(),
        bypasses: bypass_watch::Watch::default(),
        speeds: speed_watch::Watch::default(),
        decided: InForce::default(),
        ticked: InForce::default(),
        out: String::new(),
        tally,
    };
    let mut words = Words::of(operations);
    while let Some(op) = words.op() {
        run.op(op);
    }
    run.preemptions.count(run.tally);
    run.bypasses.count(run.tally);
    run.speeds.count(run.tally);
    run.decided.count("decisions", run.tally);
    run.ticked.count("ticks", run.tally);
    run.ticked.count_midnights("ticks", run.tally);
    run.out
}

//! Pieces of the stored calls with tick records: sites, records, and a case that goes on from call to call, where behind each call stands
//! what the page gives for it, worked out by hand: the refusal and how many ticks are accepted. The call is held to it.

use crate::bypass_steps;
use crate::call_run::{payload, Op};
use crate::output::untouched;
use crate::site::{bytes, Site, UNUSED};
use crate::tick::{Input, State};
use crate::tick_records::{count_at, record, run};
use crate::wanted::lanes;

/// So many metered and mainline lanes, both service modes among them, and the last lane for buses; the shortest startup.
pub fn site(n: u16, m: u16) -> Site {
    let mut site = bypass_steps::site(n, n % 2, n, 0);
    site.timings[14] = m;
    site.levels = vec![[1, 1, UNUSED, UNUSED, 1500]];
    site
}

/// The records of these ticks.
pub fn records(site: &Site, inputs: &[Input]) -> Vec<Vec<u8>> {
    let (n, m) = lanes(site);
    inputs.iter().map(|input| record(input, n, m)).collect()
}

/// So many ticks with each input, whose tenth rises by one with each.
pub fn ticks(steps: &[(u16, Input)]) -> Vec<Input> {
    let many = |(count, input): &(u16, Input)| {
        let mut inputs = vec![*input; *count as usize];
        inputs.iter_mut().zip(0..).for_each(|(input, k)| input.clock.tenth += k);
        inputs
    };
    steps.iter().flat_map(many).collect()
}

/// The record with the count of a section from 1 set to any value.
pub fn with_count(site: &Site, record: &[u8], section: usize, value: u16) -> Vec<u8> {
    let (n, m) = lanes(site);
    let (at, mut out) = (count_at(section, n, m), record.to_vec());
    out[at..at + 2].copy_from_slice(&value.to_be_bytes());
    out
}

/// The records with one of them, from 1, in place of what stands there.
pub fn at_place(records: &[Vec<u8>], place: usize, one: &[u8]) -> Vec<u8> {
    let mut out = records.to_vec();
    out[place - 1] = one.to_vec();
    out.concat()
}

pub struct Case {
    given: Site,
    /// None where no file could give the present record.
    site: Option<Site>,
    state: State,
    ops: Vec<Op>,
}

impl Case {
    pub fn new(site: &Site, state: State) -> Case {
        Case { given: site.clone(), site: Some(site.clone()), state, ops: vec![Op::State(state)] }
    }

    pub fn state(&mut self, state: State) {
        self.state = state;
        self.ops.push(Op::State(state));
    }

    /// The present state.
    pub fn kept(&self) -> State {
        self.state
    }

    /// A number of the record that no file could give there.
    pub fn spoil(&mut self, op: Op) {
        self.site = None;
        self.ops.push(op);
    }

    pub fn repair(&mut self) {
        self.site = Some(self.given.clone());
        self.ops.push(Op::Repair);
    }

    /// A call, and what it should give: the refusal and the accepted ticks.
    pub fn call(&mut self, size: u16, records: &[u8], given: (u8, usize)) {
        let ran = run(self.site.as_ref(), &self.state, records, &mut untouched(size));
        let call = self.ops.len();
        assert_eq!((ran.refusal, ran.accepted), given, "operation {call} at {:?}, output {size}", self.given.timings);
        self.state = ran.state;
        self.ops.push(Op::Records(size, records.to_vec()));
    }

    pub fn op(&mut self, op: Op) {
        self.ops.push(op);
    }

    pub fn payload(&self) -> Vec<u8> {
        payload(&bytes(&self.given), &self.ops)
    }
}

//! What the program `simulate` writes: of a site file, and of tick records from power-up.

use crate::site::{self, Site};
use crate::text;
use crate::tick::{power_up, Answer, Input};
use crate::tick_records::{run_seen, size, Ran};
use crate::wanted::lanes;

/// On standard output the accepted ticks' indications; on standard error how many ticks were accepted and what was refused.
pub struct Simulated {
    pub output: Vec<u8>,
    pub explanation: String,
}

/// The same at a site, with what the call gives; each accepted tick is seen from outside.
pub fn at_site(site: &Site, records: &[u8], see: &mut dyn FnMut(&Input, &Answer)) -> (Simulated, Ran) {
    let (n, m) = lanes(site);
    // room for every record, a last one that is cut short too
    let mut output = vec![0; records.len().div_ceil(size(n, m)) * (n + 1)];
    let (_, state) = power_up(Some(site));
    let ran = run_seen(Some(site), &state, records, &mut output, see);
    output.truncate(ran.accepted * (n + 1));
    (Simulated { output, explanation: format!("accepted {} refusal {}\n", ran.accepted, ran.refusal) }, ran)
}

pub fn print(file: &[u8], records: &[u8]) -> Simulated {
    match site::read(file) {
        Ok(site) => at_site(&site, records, &mut |_, _| {}).0,
        Err(refused) => Simulated { output: Vec::new(), explanation: text::refusal(refused) },
    }
}

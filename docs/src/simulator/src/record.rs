//! A tick record: its sections, and the checks of its numbers.

use crate::calendar::Clock;
use crate::group::LANES;
use crate::periods::{Sample, MAINLINE_LANES};
use crate::site::Site;
use crate::wanted::Order;

const BAD_CLOCK: u8 = 8;
const BAD_SAMPLE: u8 = 9;
const BAD_COMMAND: u8 = 10;
/// A record is cut short or has a wrong count.
pub const WRONG_RECORD: u8 = 15;

/// One tick's input, in range; of the lanes that the site lacks all is 0.
#[derive(Default)]
pub struct Record {
    pub clock: Clock,
    pub demand: [bool; LANES],
    pub passage: [bool; LANES],
    pub mainline: [Sample; MAINLINE_LANES],
    pub preemption: bool,
    pub bypass: bool,
    pub manual: Option<Order>,
    pub communications: Option<Order>,
}

/// How many bytes a record of the site has.
pub fn size(site: &Site) -> usize {
    36 + 4 * site.timings.lanes + 8 * site.timings.mainline_lanes
}

impl Record {
    /// Becomes the tick of a record's bytes, or says why they are refused; then it is no tick.
    pub fn parse(&mut self, bytes: &[u8], site: &Site) -> Result<(), u8> {
        let (clock, rest) = section::<2>(bytes, 5)?;
        let (lanes, rest) = section::<4>(rest, site.timings.lanes)?;
        let (mainline, rest) = section::<8>(rest, site.timings.mainline_lanes)?;
        let (calls, rest) = section::<2>(rest, 2)?;
        let (commands, _) = section::<6>(rest, 2)?;

        let [year, month, day, high, low] = std::array::from_fn(|i| number(&clock[i], 0));
        self.clock = Clock::new(year, month, day, (high as u32) << 16 | low as u32).ok_or(BAD_CLOCK)?;
        for (i, lane) in lanes.iter().enumerate() {
            self.demand[i] = bit(number(lane, 0))?;
            self.passage[i] = bit(number(lane, 1))?;
        }
        for (sample, lane) in self.mainline.iter_mut().zip(mainline) {
            *sample = parse_sample(lane)?;
        }
        self.preemption = bit(number(&calls[0], 0))?;
        self.bypass = bit(number(&calls[1], 0))?;
        self.manual = parse_command(&commands[0])?;
        self.communications = parse_command(&commands[1])?;
        Ok(())
    }
}

/// The section's rows of N bytes, behind their count, and what follows.
fn section<const N: usize>(bytes: &[u8], count: usize) -> Result<(&[[u8; N]], &[u8]), u8> {
    let (announced, rest) = bytes.split_first_chunk::<2>().ok_or(WRONG_RECORD)?;
    if number(announced, 0) as usize != count {
        return Err(WRONG_RECORD);
    }
    let (rows, rest) = rest.split_at_checked(N * count).ok_or(WRONG_RECORD)?;
    Ok((rows.as_chunks().0, rest))
}

/// A row's number at that place.
fn number<const N: usize>(row: &[u8; N], place: usize) -> u16 {
    u16::from_be_bytes([row[2 * place], row[2 * place + 1]])
}

/// A sample of 0 or 1.
fn bit(number: u16) -> Result<bool, u8> {
    if number > 1 {
        return Err(BAD_SAMPLE);
    }
    Ok(number != 0)
}

fn parse_sample(row: &[u8; 8]) -> Result<Sample, u8> {
    let [working, occupied, vehicles, time] = std::array::from_fn(|i| number(row, i));
    if working > 1 || occupied > 100 || vehicles > 1 {
        return Err(BAD_SAMPLE);
    }
    Ok(Sample { working: working != 0, occupied: occupied as u8, vehicle: vehicles != 0, time })
}

fn parse_command(row: &[u8; 6]) -> Result<Option<Order>, u8> {
    Order::of_kind(number(row, 0), number(row, 1), number(row, 2)).map_err(|_| BAD_COMMAND)
}

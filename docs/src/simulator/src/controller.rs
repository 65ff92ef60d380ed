//! The controller: what it keeps from tick to tick, and one tick.

use crate::group::Group;
use crate::periods::Periods;
use crate::record::Record;
use crate::site::Site;
use crate::wanted;

pub struct Controller {
    periods: Periods,
    group: Group,
}

impl Controller {
    pub fn power_up(site: &Site) -> Controller {
        Controller { periods: Periods::new(), group: Group::power_up(&site.timings) }
    }

    /// Counts, what is wanted, then the group.
    pub fn tick(&mut self, site: &Site, record: &Record) {
        self.periods.count(&record.mainline[..site.timings.mainline_lanes]);
        let wish = wanted::wish(site, record, &self.periods.completed);
        self.group.tick(&site.timings, wish, record);
    }

    /// A byte for each lane, then the sign's.
    pub fn show(&self, site: &Site, shown: &mut [u8]) {
        self.group.show(&site.timings, shown);
    }
}

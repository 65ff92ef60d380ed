//! The timings of a site by their names, all times in ticks.

use crate::site::Site;

pub struct Timings {
    pub lanes: usize,
    pub fractional_offset: bool,
    pub vehicles_per_green: u16,
    pub minimum_green: u16,
    pub maximum_green: u16,
    pub yellow: u16,
    pub minimum_red: u16,
    pub warning: u16,
    pub startup_green: u16,
    pub startup_yellow: u16,
    pub startup_red: u16,
    pub shutdown_red: u16,
    pub maximum_premetering: u16,
    pub minimum_premetering: u16,
    /// From 1; 0 for none.
    pub priority_lane: usize,
    /// 0 for never.
    pub bypass_timeout: u16,
}

impl Timings {
    /// Of a site that a file could give.
    pub fn of(site: &Site) -> Timings {
        let t = &site.timings;
        Timings {
            lanes: t[0] as usize,
            fractional_offset: t[1] == 1,
            vehicles_per_green: t[2],
            minimum_green: t[3],
            maximum_green: t[4],
            yellow: t[5],
            minimum_red: t[6],
            warning: t[7],
            startup_green: t[8],
            startup_yellow: t[9],
            startup_red: t[10],
            shutdown_red: t[11],
            // the only one in minutes
            maximum_premetering: t[12] * 600,
            minimum_premetering: t[13],
            priority_lane: t[15] as usize,
            // the only one in seconds
            bypass_timeout: t[16] * 10,
        }
    }
}

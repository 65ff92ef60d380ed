//! Dates of 2000 to 2099, their weekdays, and the holidays.

const SUNDAY: u8 = 0;
/// Tenths of a second in a day.
const TENTHS: u32 = 864_000;
/// Days before each month of a common year.
const DAYS_BEFORE: [u16; 12] = [0, 31, 59, 90, 120, 151, 181, 212, 243, 273, 304, 334];

pub fn days_in(month: u8, leap: bool) -> u8 {
    match month {
        2 => 28 + leap as u8,
        4 | 6 | 9 | 11 => 30,
        _ => 31,
    }
}

#[derive(Clone, Copy, Default)]
pub struct Date {
    year: u16,
    month: u8,
    day: u8,
}

impl Date {
    fn is_leap(self) -> bool {
        self.year.is_multiple_of(4)
    }

    /// 1 January 2000 is a Saturday. Asked for of 2000 and later.
    fn weekday(self) -> u8 {
        let years = self.year - 2000;
        let leap_days = years.div_ceil(4) + (self.is_leap() && self.month > 2) as u16;
        let days = 365 * years + leap_days + DAYS_BEFORE[self.month as usize - 1] + self.day as u16 - 1;
        ((days + 6) % 7) as u8
    }
}

/// A tick's clock, in range.
#[derive(Clone, Copy, Default)]
pub struct Clock {
    pub date: Date,
    tenth: u32,
}

impl Clock {
    /// None where there is no such date or tenth.
    pub fn new(year: u16, month: u16, day: u16, tenth: u32) -> Option<Clock> {
        if !(2000..=2099).contains(&year) || !(1..=12).contains(&month) || !(1..=31).contains(&day) || tenth >= TENTHS {
            return None;
        }
        let date = Date { year, month: month as u8, day: day as u8 };
        if date.day > days_in(date.month, date.is_leap()) {
            return None;
        }
        Some(Clock { date, tenth })
    }

    pub fn minute(self) -> u16 {
        (self.tenth / 600) as u16
    }
}

/// A date and its weekday, 0 Sunday to 6 Saturday.
#[derive(Clone, Copy)]
pub struct Day {
    date: Date,
    weekday: u8,
}

impl Day {
    pub fn of(date: Date) -> Day {
        Day { date, weekday: date.weekday() }
    }

    /// The day before; 31 December 1999, a Friday, before 1 January 2000.
    pub fn before(self) -> Day {
        let Date { year, month, day } = self.date;
        let date = match (month, day) {
            (1, 1) => Date { year: year - 1, month: 12, day: 31 },
            (_, 1) => Date { year, month: month - 1, day: days_in(month - 1, self.date.is_leap()) },
            _ => Date { year, month, day: day - 1 },
        };
        Day { date, weekday: if self.weekday == 0 { 6 } else { self.weekday - 1 } }
    }

    /// Whether it is 1 January 2000.
    pub fn is_first(self) -> bool {
        let Date { year, month, day } = self.date;
        (year, month, day) == (2000, 1, 1)
    }

    /// Whether it is the final one of its weekday in its month.
    fn is_final(self) -> bool {
        self.date.day + 7 > days_in(self.date.month, self.date.is_leap())
    }

    /// Its bit in an entry's days: bit 7 on a holiday, else that of its weekday, bit 0 Sunday.
    pub fn bit(self, holidays: &[Holiday]) -> u8 {
        let yesterday = self.before();
        if holidays.iter().any(|holiday| holiday.is_on(self, yesterday)) {
            1 << 7
        } else {
            1 << self.weekday
        }
    }
}

/// A day of each year that has it.
#[derive(Clone, Copy)]
pub enum DayRule {
    Fixed { day: u8 },
    /// That weekday of week 1 to 4 of the month.
    Floating { week: u8, weekday: u8 },
    /// The final such weekday of the month.
    Final { weekday: u8 },
    /// The fixed date in years in which it is a Sunday.
    Sunday { day: u8 },
    /// And in the other years.
    NoSunday { day: u8 },
}

/// A holiday is a day by a rule, or the day after it. A fixed date that moves is two of them: the day in years in which it is no Sunday,
/// and the day after in the others.
pub struct Holiday {
    pub month: u8,
    pub rule: DayRule,
    pub day_after: bool,
}

impl Holiday {
    fn is_on(&self, today: Day, yesterday: Day) -> bool {
        let day = if self.day_after { yesterday } else { today };
        day.date.month == self.month && self.rule.names(day)
    }
}

impl DayRule {
    /// Of a day of the rule's month.
    fn names(self, day: Day) -> bool {
        let Day { date, weekday: this_weekday } = day;
        match self {
            DayRule::Fixed { day } => date.day == day,
            DayRule::Floating { week, weekday } => this_weekday == weekday && date.day.div_ceil(7) == week,
            DayRule::Final { weekday } => this_weekday == weekday && day.is_final(),
            DayRule::Sunday { day } => date.day == day && this_weekday == SUNDAY,
            DayRule::NoSunday { day } => date.day == day && this_weekday != SUNDAY,
        }
    }
}

//! "Yellow times for slopes" of document 02: the yellow by the ITE kinematic formula, t + V ÷ (2a + 2Gg), in the formula's own units and in
//! exact fractions. Only the ticks at the end are rounded.
//!
//! The page also gives the ticks as one quotient, three yellows, their range and their order. `check` holds every yellow to that.

use std::ops::RangeInclusive;

/// In km/h.
pub const SPEEDS: RangeInclusive<i64> = 20..=80;
/// In per mille, downhill negative.
pub const GRADES: RangeInclusive<i64> = -80..=80;
/// Speed or grade out of range.
pub const BAD_APPROACH: u8 = 16;

// Fractions.

/// A fraction of whole numbers, not reduced; its denominator is above 0.
#[derive(Clone, Copy)]
struct Fraction {
    numerator: i128,
    denominator: i128,
}

impl Fraction {
    const fn whole(n: i64) -> Fraction {
        Fraction { numerator: n as i128, denominator: 1 }
    }

    const fn plus(self, other: Fraction) -> Fraction {
        Fraction {
            numerator: self.numerator * other.denominator + other.numerator * self.denominator,
            denominator: self.denominator * other.denominator,
        }
    }

    const fn times(self, other: Fraction) -> Fraction {
        Fraction { numerator: self.numerator * other.numerator, denominator: self.denominator * other.denominator }
    }

    /// Divided by one above 0.
    const fn over(self, other: Fraction) -> Fraction {
        assert!(other.numerator > 0, "divided by 0 or less");
        Fraction { numerator: self.numerator * other.denominator, denominator: self.denominator * other.numerator }
    }

    /// The least whole number that is not below it.
    const fn rounded_up(self) -> i128 {
        let down = self.numerator.div_euclid(self.denominator);
        if down * self.denominator == self.numerator {
            down
        } else {
            down + 1
        }
    }
}

const fn whole(n: i64) -> Fraction {
    Fraction::whole(n)
}

// The formula.

/// t, in seconds.
const REACTION: Fraction = whole(1);
/// a: 3.05 m/s².
const DECELERATION: Fraction = whole(305).over(whole(100));
/// g: 9.81 m/s².
const GRAVITY: Fraction = whole(981).over(whole(100));

const METRES_OF_A_KILOMETRE: Fraction = whole(1000);
const SECONDS_OF_AN_HOUR: Fraction = whole(3600);
const PER_MILLE_OF_ONE: Fraction = whole(1000);
const TICKS_OF_A_SECOND: Fraction = whole(10);

/// V: a speed of km/h in m/s.
fn metres_a_second(speed: i64) -> Fraction {
    whole(speed).times(METRES_OF_A_KILOMETRE).over(SECONDS_OF_AN_HOUR)
}

/// G: a grade of per mille as metres of rise to each metre of road.
fn rise(grade: i64) -> Fraction {
    whole(grade).over(PER_MILLE_OF_ONE)
}

/// t + V ÷ (2a + 2Gg), in seconds.
fn seconds(speed: i64, grade: i64) -> Fraction {
    let slowing = whole(2).times(DECELERATION).plus(whole(2).times(rise(grade)).times(GRAVITY));
    REACTION.plus(metres_a_second(speed).over(slowing))
}

// The call.

#[derive(Clone, Copy, Debug, PartialEq)]
pub struct Yellow {
    /// 0 or 16.
    pub refusal: u8,
    /// 0 where refused.
    pub ticks: u16,
}

pub fn yellow(speed: i64, grade: i64) -> Yellow {
    if !SPEEDS.contains(&speed) || !GRADES.contains(&grade) {
        return Yellow { refusal: BAD_APPROACH, ticks: 0 };
    }
    Yellow { refusal: 0, ticks: seconds(speed, grade).times(TICKS_OF_A_SECOND).rounded_up() as u16 }
}

// What the page says besides.

/// "Level at 40 gives 29, 80 per mille downhill gives 35, uphill 25": of 40 km/h the grade and the ticks.
const GIVEN: [(i64, u16); 3] = [(0, 29), (-80, 35), (80, 25)];
/// "lies within 10-60".
const TICKS: RangeInclusive<u16> = 10..=60;

/// "10 + 1250000 × v ÷ (9 × (305000 + 981 × s)), rounded up": so many ticks are not below that, and one less is. Both sides are
/// multiplied by what the page divides by.
fn is_as_on_the_page(ticks: u16, speed: i64, grade: i64) -> bool {
    let (over, divisor) = (1250000 * speed, 9 * (305000 + 981 * grade));
    let not_below = |ticks: i64| (ticks - 10) * divisor >= over;
    not_below(ticks as i64) && !not_below(ticks as i64 - 1)
}

/// A pair in range, with its neighbours uphill and at a higher speed.
fn check_pair(speed: i64, grade: i64) {
    let Yellow { refusal, ticks } = yellow(speed, grade);
    let at = format!("{ticks} ticks at {speed} km/h and {grade} per mille");
    assert!(refusal == 0, "refused with {refusal}: {at}");
    assert!(TICKS.contains(&ticks), "out of the yellow's range: {at}");
    assert!(grade == 80 || yellow(speed, grade + 1).ticks <= ticks, "grows as the road tips upward: {at}");
    assert!(speed == 80 || yellow(speed + 1, grade).ticks >= ticks, "falls as the speed rises: {at}");
    assert!(is_as_on_the_page(ticks, speed, grade), "another quotient than the page's: {at}");
}

/// Holds every pair in range, and every pair just outside, to what the page says.
pub fn check() {
    for (grade, ticks) in GIVEN {
        assert_eq!(yellow(40, grade), Yellow { refusal: 0, ticks }, "at 40 km/h and {grade} per mille");
    }
    for speed in 19..=81 {
        for grade in -81..=81 {
            if [19, 81].contains(&speed) || [-81, 81].contains(&grade) {
                assert_eq!(yellow(speed, grade), Yellow { refusal: 16, ticks: 0 }, "at {speed} km/h and {grade} per mille");
            } else {
                check_pair(speed, grade);
            }
        }
    }
}

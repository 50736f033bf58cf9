// Made by tools/to_rust.py of crates/ixdtf_instants/src/days.rt. Do not edit.

//! The number of days from 1970-01-01 to a date.

// A number of years. It is a multiple of 400, so that leap years stay leap years, and it is greater than the number of years
// before year 0 that an `i32` can have.
const SHIFT: i64 = 2_147_484_000;

// The number of days that the formula of `day_number` gives for 1 January 1970, without subtracting EPOCH.
const EPOCH: i64 = 784_353_144_339;

// The numbers that a month adds. Both tables have the same index. EPOCH is already subtracted in the table, so that a call
// takes fewer instructions.
struct Months {
    // SHIFT, or SHIFT - 1 for January and February: if each year begins on 1 March, these months are in the year before.
    shifts: [i64; 12],
    // The number of days from 1 March to the first day of the month, minus EPOCH.
    days: [i64; 12],
}

static MONTHS: Months = Months {
    shifts: [SHIFT - 1, SHIFT - 1, SHIFT, SHIFT, SHIFT, SHIFT, SHIFT, SHIFT, SHIFT, SHIFT, SHIFT, SHIFT],
    days: [
        306 - EPOCH, 337 - EPOCH, 0 - EPOCH, 31 - EPOCH, 61 - EPOCH, 92 - EPOCH,
        122 - EPOCH, 153 - EPOCH, 184 - EPOCH, 214 - EPOCH, 245 - EPOCH, 275 - EPOCH,
    ],
};

/// Returns the number of days from 1970-01-01 to a date, for every year that an `i32` can have.
///
/// Returns `None` if the month is not from 1 to 12. If the month does not have the day, the result is the number of days
/// from 1970-01-01 to the first day of the month, plus `day - 1`. So 31 February counts as 3 March, or as 2 March in a leap year.
#[inline(always)]
pub fn day_number(year: i32, month: u8, day: u8) -> Option<i64> {
    let index = month_index(month)?;
    let years = march_year(year, index);
    Some(days_of_years(years) as i64 + days_from_march(index) + i64::from(day))
}

// Returns the index of a month in the tables: January has index 0. Returns `None` if the month is not from 1 to 12.
#[inline(always)]
fn month_index(month: u8) -> Option<usize> {
    let index = usize::from(month).wrapping_sub(1);
    if index >= 12 {
        return None;
    }
    Some(index)
}

// Returns the year that contains a month, if each year begins on 1 March and year -SHIFT has the number 0. A leap day is then
// the last day of a year.
#[inline(always)]
fn march_year(year: i32, index: usize) -> u64 {
    (i64::from(year) + year_shift(index)) as u64
}

// Returns SHIFT, or SHIFT - 1 for January and February.
#[inline(always)]
fn year_shift(index: usize) -> i64 {
    MONTHS.shifts[index]
}

// Returns the number of days from 1 March to the first day of a month, minus EPOCH.
#[inline(always)]
fn days_from_march(index: usize) -> i64 {
    MONTHS.days[index]
}

// Returns the number of days in the first `years` years, if each year begins on 1 March. The multiplication by 1,374,389,535
// and the shift divide by 100.
#[inline(always)]
fn days_of_years(years: u64) -> u64 {
    let centuries = (years * 1_374_389_535) >> 37;
    1461 * years / 4 - (3 * centuries + 3) / 4
}

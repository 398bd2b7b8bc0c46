//! The last day of each month and the day after it (A5 of 02), in common and in leap years. Which of them is real is
//! written here from the calendar.

use super::{at, book_ax, graded, stamped, Sample};
use crate::books::rule;

/// Each month's last day and the day after it, in a common year.
const COMMON: [&str; 24] = [
    "0131", "0132", "0228", "0229", "0331", "0332", "0430", "0431", "0531", "0532", "0630", "0631", "0731", "0732",
    "0831", "0832", "0930", "0931", "1031", "1032", "1130", "1131", "1231", "1232",
];
/// The same in a leap year: February alone is another.
const LEAP: [&str; 24] = {
    let mut days = COMMON;
    (days[2], days[3]) = ("0229", "0230");
    days
};
/// Days of months that there are not, which come after the 24.
const NO_MONTHS: [&str; 6] = ["0001", "0030", "0031", "1301", "1330", "1331"];

/// The repetitions whose day is not real.
const BROKEN_DAYS: [u32; 18] = [2, 4, 6, 8, 10, 12, 14, 16, 18, 20, 22, 24, 25, 26, 27, 28, 29, 30];
/// The repetitions whose month is not real.
const BROKEN_MONTHS: [u32; 6] = [25, 26, 27, 28, 29, 30];

pub fn samples() -> Vec<Sample> {
    let years = [("2023", COMMON), ("2024", LEAP), ("1900", COMMON), ("2000", LEAP)];
    let mut all: Vec<Sample> = years.iter().map(|(year, days)| values(year, days)).collect();
    let stamps = COMMON.iter().zip([true, false].into_iter().cycle());
    all.extend(stamps.map(|(day, real)| stamped(&format!("2025{day}235959-0500"), real)));
    all
}

/// Each day in a repetition of its own: as a DATE, in a whole TIME, and its month alone as a TIME.
fn values(year: &str, days: &[&str]) -> Sample {
    let days = days.iter().chain(&NO_MONTHS);
    let values = days.map(|day| format!("{year}{day}^{year}{day}235959-0500^{year}{}", &day[..2]));
    let rules = [
        rule("PID", 3, 1, 4, b'E', [0, 0, 0]),
        rule("PID", 3, 2, 5, b'W', [0, 14, 0]),
        rule("PID", 3, 3, 5, b'I', [0, 6, 0]),
    ];
    let broken = [("E", BROKEN_DAYS.as_slice()), ("W", &BROKEN_DAYS), ("I", &BROKEN_MONTHS)];
    let mut expected = "MSA|AE|M1\n".to_string();
    for (rule, (severity, repetitions)) in (1..).zip(broken) {
        for repetition in repetitions {
            let place = format!("PID^1^3^{repetition}^{rule}");
            expected += &format!("ERR||{place}|102^Data type error^HL70357|{severity}|{rule}^^L\n");
        }
    }
    let segments = format!("PID|||{}\n", values.collect::<Vec<_>>().join("~"));
    let sample = graded(&format!("months of {year}"), &segments, book_ax(&rules), &expected);
    at([2, 3, 14, 1], &format!("{year}0732"), sample)
}

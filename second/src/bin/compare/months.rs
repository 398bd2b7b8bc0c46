//! The months whose last day is taken and whose day after it is not, by DATE, by TIME and in the stamp.

use crate::coverage::Row;
use crate::judged;
use second::book::{Kind, Rule};
use second::cutting::Message;
use second::refusals::is_stamp;
use std::collections::HashSet;

const USES: [&str; 3] = ["DATE", "TIME", "stamp"];
const YEARS: [&str; 4] = ["common year", "leap year", "common century year", "leap century year"];
const SIDES: [(&str, &str); 2] = [("last day of", "taken"), ("day after", "not taken")];

/// A value on one side of a month's end, by its places in the counts.
#[derive(PartialEq, Eq, Hash)]
pub struct Edge {
    by: usize,
    year: usize,
    month: usize,
    side: usize,
}

#[derive(Default)]
pub struct Months {
    /// By use and month.
    ends: [[[u64; SIDES.len()]; 12]; USES.len()],
    /// Of February, by the kind of year.
    februaries: [[u64; SIDES.len()]; YEARS.len()],
}

impl Months {
    pub fn count<'e>(&mut self, edges: impl IntoIterator<Item = &'e Edge>) {
        for &Edge { by, year, month, side } in edges {
            self.ends[by][month][side] += 1;
            if month == 1 {
                self.februaries[year][side] += 1;
            }
        }
    }

    pub fn rows(&self) -> Vec<Row> {
        let mut rows = Vec::new();
        let mut add = |by: &str, month: String, counts: [u64; SIDES.len()]| {
            let sides = SIDES.iter().zip(counts);
            rows.extend(sides.map(|((day, taken), count)| (format!("{by}: {day} {month} {taken}"), count)));
        };
        for (by, months) in USES.iter().zip(self.ends) {
            (1..).zip(months).for_each(|(month, counts)| add(by, format!("month {month}"), counts));
        }
        for (year, counts) in YEARS.iter().zip(self.februaries) {
            add(year, "February".into(), counts);
        }
        rows
    }
}

/// Those among the values that the rules judge.
pub fn edges(message: Message, rules: &[Rule]) -> HashSet<Edge> {
    let mut edges = HashSet::new();
    for rule in rules {
        let by = match rule.kind {
            Kind::Date => 0,
            Kind::Time { .. } => 1,
            _ => continue,
        };
        let repetitions = judged::fields(message, rule).into_iter().flatten();
        let values = repetitions.map(|repetition| judged::value(message, rule, repetition));
        edges.extend(values.filter_map(|value| edge(by, value, |v| !rule.broken(v, &[]))));
    }
    edges
}

pub fn stamp_edge(stamp: &[u8]) -> Option<Edge> {
    edge(2, stamp, is_stamp)
}

/// A value that is taken where the next day is not, or the other way round with the day before.
fn edge(by: usize, value: &[u8], is_taken: impl Fn(&[u8]) -> bool) -> Option<Edge> {
    let (date, rest) = value.split_first_chunk::<8>().filter(|(date, _)| date.iter().all(u8::is_ascii_digit))?;
    let date = date.iter().fold(0, |date, digit| date * 10 + u32::from(digit - b'0'));
    let with = |date: u32| is_taken(&[format!("{date:08}").as_bytes(), rest].concat());
    let side = match is_taken(value) {
        true if !with(date + 1) => 0,
        false if with(date.checked_sub(1)?) => 1,
        _ => return None,
    };
    let year = match date / 10_000 {
        year if year.is_multiple_of(400) => 3,
        year if year.is_multiple_of(100) => 2,
        year => usize::from(year.is_multiple_of(4)),
    };
    Some(Edge { by, year, month: (date / 100 % 100) as usize - 1, side })
}

#[cfg(test)]
mod tests {
    use super::*;
    use second::values::is_date;

    #[test]
    fn ends_of_months() {
        let of = |value: &str| {
            edge(0, value.as_bytes(), is_date)
                .map(|Edge { year, month, side, .. }| (YEARS[year], month + 1, SIDES[side].1))
        };
        for (value, expected) in [
            ("20230131", Some(("common year", 1, "taken"))),
            ("20241232", Some(("leap year", 12, "not taken"))),
            ("19000229", Some(("common century year", 2, "not taken"))),
            ("20000229", Some(("leap century year", 2, "taken"))),
            ("20240228", None),
            ("20240231", None),
            ("20230100", None),
            ("20230001", None),
            ("20231301", None),
            ("00000000", None),
            ("+0240132", None),
            ("2023013", None),
            ("202301311", None),
        ] {
            assert_eq!(of(value), expected, "{value}");
        }
        let stamp = stamp_edge(b"20250431235959-0500").map(|edge| (USES[edge.by], edge.month + 1, SIDES[edge.side].1));
        assert_eq!(stamp, Some(("stamp", 4, "not taken")));
        // Not for its day alone.
        assert!(stamp_edge(b"20250431245959-0500").is_none());
    }
}

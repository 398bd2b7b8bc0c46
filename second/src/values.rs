//! What counts as a value, and whether a value is a NUMBER, a DATE or a TIME.

/// Two quotes ask a registry to delete what it holds, so they are no more a value than nothing is (A3 of 02).
pub fn is_value(bytes: &[u8]) -> bool {
    !matches!(bytes, b"" | b"\"\"")
}

/// Optional sign, digits with at most one point, at least one digit.
pub fn is_number(value: &[u8]) -> bool {
    let unsigned = match value {
        [b'+' | b'-', rest @ ..] => rest,
        all => all,
    };
    let (mut digits, mut points) = (0, 0);
    for b in unsigned {
        match b {
            b'0'..=b'9' => digits += 1,
            b'.' => points += 1,
            _ => return false,
        }
    }
    digits >= 1 && points <= 1
}

/// Eight digits of a real Gregorian date, year 0001 to 9999.
pub fn is_date(value: &[u8]) -> bool {
    value.len() == 8 && leading_digits(value) == 8 && real_date(value)
}

/// How many digits stand before the point or the sign of a TIME; `None` if it is not a TIME.
pub fn time_digits(value: &[u8]) -> Option<usize> {
    let digits = leading_digits(value);
    if !matches!(digits, 4 | 6 | 8 | 10 | 12 | 14) || !real_date(&value[..digits.min(8)]) {
        return None;
    }
    let limits: [u32; 3] = [23, 59, 59];
    let pairs = value[..digits].chunks_exact(2).skip(4);
    if pairs.zip(limits).any(|(pair, limit)| number(pair) > limit) {
        return None;
    }
    let mut rest = &value[digits..];
    if let (14, [b'.', fraction @ ..]) = (digits, rest) {
        let length = leading_digits(fraction);
        if !(1..=4).contains(&length) {
            return None;
        }
        rest = &fraction[length..];
    }
    match rest {
        [] => Some(digits),
        [b'+' | b'-', zone @ ..] if is_zone(zone) => Some(digits),
        _ => None,
    }
}

fn is_zone(zone: &[u8]) -> bool {
    zone.len() == 4 && leading_digits(zone) == 4 && number(&zone[..2]) <= 23 && number(&zone[2..]) <= 59
}

/// The year, the month and the day as far as the digits go: YYYY, YYYYMM or YYYYMMDD.
fn real_date(digits: &[u8]) -> bool {
    let year = number(&digits[..4]);
    let month = digits.get(4..6).map_or(1, number);
    let day = digits.get(6..8).map_or(1, number);
    year >= 1 && (1..=12).contains(&month) && (1..=days(year, month)).contains(&day)
}

/// Named and not worked out as A5 asks of the main code, so that two ways of saying it are compared.
fn days(year: u32, month: u32) -> u32 {
    match month {
        4 | 6 | 9 | 11 => 30,
        2 if year.is_multiple_of(4) && (!year.is_multiple_of(100) || year.is_multiple_of(400)) => 29,
        2 => 28,
        _ => 31,
    }
}

fn leading_digits(value: &[u8]) -> usize {
    value.iter().take_while(|b| b.is_ascii_digit()).count()
}

fn number(digits: &[u8]) -> u32 {
    digits.iter().fold(0, |n, b| n * 10 + u32::from(b - b'0'))
}

#[cfg(test)]
mod tests {
    use super::*;

    #[test]
    fn only_nothing_and_two_quotes_are_no_value() {
        assert!(!is_value(b"") && !is_value(b"\"\""));
        for first in 0..=255 {
            assert!(is_value(&[first]), "{first}");
            for second in 0..=255 {
                let pair = [first, second];
                assert_eq!(is_value(&pair), pair != *b"\"\"", "{pair:?}");
                assert!(is_value(&[b'"', first, second]) && is_value(&[first, second, b'"']), "{pair:?}");
            }
        }
    }

    #[test]
    fn numbers() {
        for good in [".5", "5.", "+.5", "-5.", "007", "0"] {
            assert!(is_number(good.as_bytes()), "{good}");
        }
        for bad in ["", "+", ".", "+.", "1.2.3", " 5", "5 ", "1e5", "1,5", "--1", "1-", "+-1"] {
            assert!(!is_number(bad.as_bytes()), "{bad}");
        }
    }

    #[test]
    fn dates() {
        for good in ["20240229", "20000229", "00010101", "99991231", "20240430"] {
            assert!(is_date(good.as_bytes()), "{good}");
        }
        for bad in [
            "20230229",
            "19000229",
            "00000101",
            "20240431",
            "20240100",
            "20240001",
            "20241301",
            "2024022",
            "202402290",
            "2024022x",
        ] {
            assert!(!is_date(bad.as_bytes()), "{bad}");
        }
    }

    #[test]
    fn months() {
        // The last days from the calendar; no month has the number 0 or 13.
        let common = [0, 31, 28, 31, 30, 31, 30, 31, 31, 30, 31, 30, 31, 0];
        let mut leap = common;
        leap[2] = 29;
        for (year, lasts) in [("2023", common), ("1900", common), ("2024", leap), ("2000", leap)] {
            for (month, last) in lasts.into_iter().enumerate() {
                for day in 0..=99 {
                    let date = format!("{year}{month:02}{day:02}");
                    let real = 1 <= day && day <= last;
                    assert_eq!(is_date(date.as_bytes()), real, "{date}");
                    assert_eq!(time_digits(date.as_bytes()), real.then_some(8), "{date}");
                }
                let month = format!("{year}{month:02}");
                assert_eq!(time_digits(month.as_bytes()), (last > 0).then_some(6), "{month}");
            }
        }
    }

    #[test]
    fn times() {
        for (good, digits) in [
            ("20240229120000.1234-0500", 14),
            ("20240229235959", 14),
            ("20240229120000.1", 14),
            ("20240229120000+2359", 14),
            ("202402291200-0000", 12),
            ("2024022923", 10),
            ("20240229", 8),
            ("202412", 6),
            ("2024", 4),
            ("2024+0000", 4),
        ] {
            assert_eq!(time_digits(good.as_bytes()), Some(digits), "{good}");
        }
        for bad in [
            "2024022",
            "202402291260",
            "20240229.1",
            "20240229+2400",
            "20240229+2360",
            "2024022924",
            "20240229120060",
            "20240229120000.",
            "20240229120000.12345",
            "20240229120000.1234-050",
            "20240229120000.1234-05000",
            "20240229120000 ",
            "202402291200000",
            "2024022912000000",
            "202413",
            "202400",
            "20230229",
            "0000",
            "000001",
            "20",
            "",
            "+0000",
            "2024+",
            "2024+00:0",
        ] {
            assert_eq!(time_digits(bad.as_bytes()), None, "{bad}");
        }
    }
}

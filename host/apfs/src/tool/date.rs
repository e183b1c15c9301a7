//! Times in nanoseconds since 1970-01-01 UTC.

const SECOND: u64 = 1_000_000_000;
const DAY: u64 = 86_400;

pub fn date(nanoseconds: u64) -> String {
    let (seconds, rest) = (nanoseconds / SECOND, nanoseconds % SECOND);
    let (y, m, d) = civil(seconds / DAY);
    let s = seconds % DAY;
    format!("{y:04}-{m:02}-{d:02} {:02}:{:02}:{:02}.{rest:09} UTC", s / 3600, s / 60 % 60, s % 60)
}

fn leap(year: u64) -> bool {
    year.is_multiple_of(4) && (!year.is_multiple_of(100) || year.is_multiple_of(400))
}

/// Year, month and day; a time of 64 bits ends in the year 2554.
fn civil(mut days: u64) -> (u64, u64, u64) {
    let mut year = 1970;
    while days >= 365 + u64::from(leap(year)) {
        days -= 365 + u64::from(leap(year));
        year += 1;
    }
    let lengths = [31, 28 + u64::from(leap(year)), 31, 30, 31, 30, 31, 31, 30, 31, 30, 31];
    let mut month = 0;
    while days >= lengths[month] {
        days -= lengths[month];
        month += 1;
    }
    (year, month as u64 + 1, days + 1)
}

#[cfg(test)]
mod tests {
    use super::date;

    #[test]
    fn known_dates() {
        assert_eq!(date(0), "1970-01-01 00:00:00.000000000 UTC");
        assert_eq!(date(951_782_400_000_000_001), "2000-02-29 00:00:00.000000001 UTC");
        assert_eq!(date(1_735_689_599_000_000_000), "2024-12-31 23:59:59.000000000 UTC");
        assert_eq!(date(u64::MAX), "2554-07-21 23:34:33.709551615 UTC");
    }
}

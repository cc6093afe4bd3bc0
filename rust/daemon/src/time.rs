//! Times in milliseconds of UTC since 1970, as the journal has them, and as people write them.

use std::time::{SystemTime, UNIX_EPOCH};

const DAY: i64 = 86_400_000;

pub fn now() -> i64 {
    SystemTime::now().duration_since(UNIX_EPOCH).map_or(0, |since| since.as_millis() as i64)
}

/// As in 2026-11-16T12:00:00.250Z.
pub fn shown(time: i64) -> String {
    let (year, month, day) = date_of(time.div_euclid(DAY));
    let of_day = time.rem_euclid(DAY);
    let (hour, minute, second) = (of_day / 3_600_000, of_day / 60_000 % 60, of_day / 1000 % 60);
    format!("{year:04}-{month:02}-{day:02}T{hour:02}:{minute:02}:{second:02}.{:03}Z", of_day % 1000)
}

/// A date, as in 2026-11-16, or a date and time, as in 2026-11-16T12:00:00Z with or without seconds and their fraction.
pub fn read(text: &str) -> Option<i64> {
    let (date, time) = text.trim_end_matches('Z').split_once('T').unwrap_or((text, "00:00"));
    let date: Vec<i64> = date.split('-').map(|part| part.parse().ok()).collect::<Option<_>>()?;
    let &[year, month, day] = date.as_slice() else { return None };
    let (clock, fraction) = time.split_once('.').unwrap_or((time, "0"));
    let clock: Vec<i64> = clock.split(':').map(|part| part.parse().ok()).collect::<Option<_>>()?;
    let (hour, minute, second) = match *clock.as_slice() {
        [hour, minute] => (hour, minute, 0),
        [hour, minute, second] => (hour, minute, second),
        _ => return None,
    };
    let days = days_before(year, month, day);
    let fits = date_of(days) == (year, month, day) && hour < 24 && minute < 60 && second < 60;
    let thousandths: i64 = format!("{fraction:0<3}").get(..3)?.parse().ok()?;
    fits.then_some(days * DAY + hour * 3_600_000 + minute * 60_000 + second * 1000 + thousandths)
}

/// Days since 1970, with years that begin in March, so that the leap day is the last.
fn days_before(year: i64, month: i64, day: i64) -> i64 {
    let year = if month > 2 { year } else { year - 1 };
    let era = year.div_euclid(400);
    let of_era = year.rem_euclid(400);
    let of_year = (153 * ((month + 9) % 12) + 2) / 5 + day - 1;
    era * 146_097 + of_era * 365 + of_era / 4 - of_era / 100 + of_year - 719_468
}

fn date_of(days: i64) -> (i64, i64, i64) {
    let days = days + 719_468;
    let era = days.div_euclid(146_097);
    let of_era = days.rem_euclid(146_097);
    let year = (of_era - of_era / 1460 + of_era / 36_524 - of_era / 146_096) / 365;
    let of_year = of_era - (365 * year + year / 4 - year / 100);
    let month = (5 * of_year + 2) / 153;
    let day = of_year - (153 * month + 2) / 5 + 1;
    let month = if month < 10 { month + 3 } else { month - 9 };
    (year + era * 400 + i64::from(month <= 2), month, day)
}

#[cfg(test)]
mod tests {
    use super::{read, shown};

    #[test]
    fn there_and_back() {
        for text in [
            "1970-01-01T00:00:00.000Z",
            "2000-02-29T23:59:59.999Z",
            "2026-11-16T12:00:00.250Z",
            "2100-03-01T01:02:03.004Z",
        ] {
            assert_eq!(read(text).map(shown).as_deref(), Some(text));
        }
        assert_eq!(read("2026-11-16"), read("2026-11-16T00:00:00Z"));
        assert_eq!(read("2026-02-30"), None);
        assert_eq!(read("yesterday"), None);
    }
}

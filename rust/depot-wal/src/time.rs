//! Times: milliseconds since 1970 to and from UTC, without leap seconds, as Prometheus has them.

use depot_wal::Time;

const DAY: i64 = 86_400_000;

/// A time in UTC: `2026-11-17T23:38:13.000Z`. Years outside 0 to 9999 have a sign.
pub fn utc(time: Time) -> String {
    let (days, rest) = (time.0.div_euclid(DAY), time.0.rem_euclid(DAY));
    let (year, month, day) = date(days);
    let (hour, minute) = (rest / 3_600_000, rest / 60_000 % 60);
    let (second, millis) = (rest / 1000 % 60, rest % 1000);
    let year = match year {
        0..=9999 => format!("{year:04}"),
        _ => format!("{year:+05}"),
    };
    format!("{year}-{month:02}-{day:02}T{hour:02}:{minute:02}:{second:02}.{millis:03}Z")
}

/// Year, month and day of a day counted from 1970. Years begin in March here, so that the leap day
/// is their last; 400 of them have 146,097 days.
fn date(days: i64) -> (i64, i64, i64) {
    let from_march = days + 719_468;
    let (era, in_era) = (
        from_march.div_euclid(146_097),
        from_march.rem_euclid(146_097),
    );
    let year = (in_era - in_era / 1460 + in_era / 36_524 - in_era / 146_096) / 365;
    let in_year = in_era - (365 * year + year / 4 - year / 100);
    let month_from_march = (5 * in_year + 2) / 153;
    let day = in_year - (153 * month_from_march + 2) / 5 + 1;
    let month = (month_from_march + 2) % 12 + 1;
    (era * 400 + year + i64::from(month <= 2), month, day)
}

/// The day, counted from 1970, of a date.
fn day_of(year: i64, month: i64, day: i64) -> i64 {
    let year = year - i64::from(month <= 2);
    let (era, in_era) = (year.div_euclid(400), year.rem_euclid(400));
    let in_year = (153 * ((month + 9) % 12) + 2) / 5 + day - 1;
    era * 146_097 + in_era * 365 + in_era / 4 - in_era / 100 + in_year - 719_468
}

/// A time as a technician writes it: milliseconds, or a date in UTC with or without the time of
/// day: `2026-11-17`, `2026-11-17T23:38:13Z`, `2026-11-17T23:38:13.250Z`.
pub fn parse(word: &str) -> Option<Time> {
    if let Ok(millis) = word.parse() {
        return Some(Time(millis));
    }
    let (date_part, clock) = match word.split_once('T') {
        Some((date_part, clock)) => (date_part, clock.strip_suffix('Z')?),
        None => (word, "00:00:00"),
    };
    let [year, month, day] = numbers(date_part, '-', [4, 2, 2])?;
    let (clock, millis) = clock.split_once('.').unwrap_or((clock, "000"));
    let [hour, minute, second] = numbers(clock, ':', [2, 2, 2])?;
    let [millis] = numbers(millis, '.', [3])?;
    let days = day_of(year, month, day);
    let is_date = date(days) == (year, month, day);
    let is_clock = hour < 24 && minute < 60 && second < 60;
    let in_day = ((hour * 60 + minute) * 60 + second) * 1000 + millis;
    (is_date && is_clock).then_some(Time(days * DAY + in_day))
}

/// Numbers of so many digits each, with a character between.
fn numbers<const N: usize>(text: &str, between: char, digits: [usize; N]) -> Option<[i64; N]> {
    let parts: Vec<&str> = text.split(between).collect();
    let mut found = [0; N];
    if parts.len() != N {
        return None;
    }
    for ((number, part), digits) in found.iter_mut().zip(parts).zip(digits) {
        let is_number = part.len() == digits && part.bytes().all(|byte| byte.is_ascii_digit());
        *number = is_number.then(|| part.parse().ok())??;
    }
    Some(found)
}

#[cfg(test)]
mod tests {
    use super::*;

    /// Known pairs, by `date -u -d @SECONDS`, and the ends of 64 bits.
    #[test]
    fn known_times() {
        for (millis, text) in [
            (0, "1970-01-01T00:00:00.000Z"),
            (-1, "1969-12-31T23:59:59.999Z"),
            (951_782_400_000, "2000-02-29T00:00:00.000Z"),
            (1_763_422_693_250, "2025-11-17T23:38:13.250Z"),
            (4_107_542_400_000, "2100-03-01T00:00:00.000Z"),
            (253_402_300_799_999, "9999-12-31T23:59:59.999Z"),
            (253_402_300_800_000, "+10000-01-01T00:00:00.000Z"),
            (-62_167_219_200_000, "0000-01-01T00:00:00.000Z"),
            (-62_167_219_200_001, "-0001-12-31T23:59:59.999Z"),
            (i64::MAX, "+292278994-08-17T07:12:55.807Z"),
            (i64::MIN, "-292275055-05-16T16:47:04.192Z"),
        ] {
            assert_eq!(utc(Time(millis)), text);
        }
    }

    #[test]
    fn parsed_times() {
        for (text, millis) in [
            ("1000", Some(1000)),
            ("-5", Some(-5)),
            ("1970-01-02", Some(DAY)),
            ("2000-02-29T00:00:00Z", Some(951_782_400_000)),
            ("2025-11-17T23:38:13.250Z", Some(1_763_422_693_250)),
            ("2100-02-29", None),
            ("2025-13-01", None),
            ("2025-11-17T24:00:00Z", None),
            ("2025-11-17T23:38:13", None),
            ("2025-11-17T23:38:13.25Z", None),
            ("+025-11-17", None),
            ("yesterday", None),
            ("", None),
        ] {
            assert_eq!(parse(text), millis.map(Time), "{text}");
        }
    }
}

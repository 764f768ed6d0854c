//! Times as people write them, 2026-01-01T00:00:00Z, and as the library counts them, in seconds since 1970.

use std::time::{SystemTime, UNIX_EPOCH};

use time::error::{Parse, TryFromParsed};
use time::format_description::well_known::Rfc3339;
use time::OffsetDateTime;

const FORMS: &str = "a time is written 2026-01-01T00:00:00Z, in seconds since 1970, or +30d from now (s, m, h, d, w)";

/// A time by RFC 3339, the seconds themselves, or a span from now on.
pub fn read(value: &str) -> Result<u64, String> {
    if let Some(span) = value.strip_prefix('+') {
        return later(span);
    }
    if !value.is_empty() && value.bytes().all(|digit| digit.is_ascii_digit()) {
        return value.parse().map_err(|_| "seconds since 1970 are at most 18446744073709551615".to_owned());
    }
    let time = OffsetDateTime::parse(value, &Rfc3339).map_err(|error| unread(&error))?;
    if time.nanosecond() != 0 {
        // A second 60 is read as the last part of second 59.
        let leap = !value.contains('.');
        let whole = "times are whole seconds";
        return Err(if leap { "there is no such time: second must be in the range 0 to 59" } else { whole }.to_owned());
    }
    u64::try_from(time.unix_timestamp()).map_err(|_| "times begin with 1970".to_owned())
}

/// A day that no calendar has is another mistake than a text of another form.
fn unread(error: &Parse) -> String {
    match error {
        Parse::TryFromParsed(TryFromParsed::ComponentRange(range)) => {
            let said = range.to_string().replace("..=", " to ");
            format!("there is no such time: {}", said.split(", given").next().unwrap_or_default())
        }
        _ => FORMS.to_owned(),
    }
}

fn later(span: &str) -> Result<u64, String> {
    let split = span.len().saturating_sub(1);
    let (count, unit) = (span.get(..split), span.get(split..));
    let seconds: u64 = match unit {
        Some("s") => 1,
        Some("m") => 60,
        Some("h") => 3_600,
        Some("d") => 86_400,
        Some("w") => 604_800,
        _ => return Err(FORMS.to_owned()),
    };
    let count = count.filter(|count| count.bytes().all(|digit| digit.is_ascii_digit()));
    let count: u64 = count.and_then(|count| count.parse().ok()).ok_or_else(|| FORMS.to_owned())?;
    let sum = count.checked_mul(seconds).and_then(|span| span.checked_add(this_moment().ok()?));
    sum.ok_or_else(|| "that is past the last second that 64 bits count".to_owned())
}

pub fn this_moment() -> Result<u64, String> {
    match SystemTime::now().duration_since(UNIX_EPOCH) {
        Ok(since) => Ok(since.as_secs()),
        Err(_) => Err("this machine's clock stands before 1970; --now says another time".to_owned()),
    }
}

/// The date of a second, up to the year 9999.
pub fn date(seconds: u64) -> Option<String> {
    let seconds = i64::try_from(seconds).ok()?;
    OffsetDateTime::from_unix_timestamp(seconds).ok()?.format(&Rfc3339).ok()
}

/// The seconds, and their date where there is one.
pub fn written(seconds: u64) -> String {
    date(seconds).map_or_else(|| seconds.to_string(), |date| format!("{seconds} ({date})"))
}

#[cfg(test)]
mod tests {
    use super::*;

    #[test]
    fn known_times() {
        for (text, wanted) in [
            ("1970-01-01T00:00:00Z", 0),
            ("2000-02-29T23:59:59Z", 951_868_799),
            ("2026-01-01T00:00:00Z", 1_767_225_600),
            ("2100-03-01T00:00:00Z", 4_107_542_400),
            ("9999-12-31T23:59:59Z", 253_402_300_799),
        ] {
            assert_eq!(read(text), Ok(wanted), "{text}");
            assert_eq!(read(&wanted.to_string()), Ok(wanted));
            assert_eq!(written(wanted), format!("{wanted} ({text})"));
        }
        assert_eq!(read("2026-01-01T01:00:00+01:00"), Ok(1_767_225_600));
        assert_eq!(written(253_402_300_800), "253402300800");
        assert_eq!(written(u64::MAX), u64::MAX.to_string());
    }

    #[test]
    fn spans_from_now_on() {
        let now = this_moment().expect("a clock");
        let spans =
            [("+0s", 0), ("+90s", 90), ("+5m", 300), ("+1h", 3_600), ("+30d", 2_592_000), ("+1w", 604_800)];
        for (text, span) in spans {
            let read = read(text).expect(text);
            assert!((now + span..now + span + 60).contains(&read), "{text}");
        }
        for text in ["+", "+d", "+5", "+-5d", "++5d", "+5y", "+1.5h", "+\u{661}d", "+5\u{661}"] {
            assert_eq!(read(text), Err(FORMS.to_owned()), "{text}");
        }
        for text in ["+18446744073709551615s", "+18446744073709551615w"] {
            assert!(read(text).unwrap_err().starts_with("that is past"), "{text}");
        }
    }

    #[test]
    fn texts_that_are_no_times() {
        for (text, said) in [
            ("", "a time is written"),
            ("2026-01-01", "a time is written"),
            ("2026-01-01T00:00:00", "a time is written"),
            ("2026-01-01 00:00:00Z", "a time is written"),
            ("2026-1-1T00:00:00Z", "a time is written"),
            ("+026-01-01T00:00:00Z", "a time is written"),
            ("\u{661}026-01-01T00:00:00Z", "a time is written"),
            ("2026-02-30T00:00:00Z", "there is no such time: day must be in the range 1 to 28"),
            ("2026-13-01T00:00:00Z", "there is no such time: month"),
            ("2026-01-01T24:00:00Z", "there is no such time: hour"),
            ("2026-01-01T00:60:00Z", "there is no such time: minute"),
            ("2026-01-01T00:00:60Z", "there is no such time: second"),
            ("2016-12-31T23:59:60Z", "there is no such time: second"),
            ("2026-01-01T00:00:00.5Z", "times are whole seconds"),
            ("1969-12-31T23:59:59Z", "times begin with 1970"),
            ("18446744073709551616", "seconds since 1970 are at most"),
        ] {
            let error = read(text).expect_err(text);
            assert!(error.starts_with(said), "{text}: {error}");
        }
    }
}

//! Times in UTC: in the lines of a log, and in the name of a record.

use std::time::{SystemTime, UNIX_EPOCH};

use formats::date::date_text;

/// A time, as `2026-11-17T16:20:57.123Z`.
pub fn time_text(time: SystemTime) -> String {
    let since = time.duration_since(UNIX_EPOCH).unwrap_or_default();
    let text = date_text(since.as_secs());
    format!("{}T{}.{:03}Z", part(&text, 0..10), part(&text, 11..19), since.subsec_millis())
}

/// A name in which `%Y`, `%m`, `%d`, `%H`, `%M`, `%S` stand for the year, month, day, hour, minute and second
/// of a time, and `%%` for `%`. Any other `%` is an error.
pub fn dated(pattern: &str, time: SystemTime) -> Result<String, String> {
    let text = time_text(time);
    let mut name = String::new();
    let mut characters = pattern.chars();
    while let Some(character) = characters.next() {
        if character != '%' {
            name.push(character);
            continue;
        }
        let range = match characters.next() {
            Some('Y') => 0..4,
            Some('m') => 5..7,
            Some('d') => 8..10,
            Some('H') => 11..13,
            Some('M') => 14..16,
            Some('S') => 17..19,
            Some('%') => {
                name.push('%');
                continue;
            }
            _ => return Err(format!("{pattern}: after % comes one of Y m d H M S %")),
        };
        name.push_str(part(&text, range));
    }
    Ok(name)
}

fn part(text: &str, range: std::ops::Range<usize>) -> &str {
    text.get(range).unwrap_or_default()
}

#[cfg(test)]
mod tests {
    use crate::clock::*;
    use std::time::Duration;

    #[test]
    fn times_and_names() {
        let time = UNIX_EPOCH + Duration::from_millis(1_794_932_457_045);
        assert_eq!(time_text(time), "2026-11-17T16:20:57.045Z");
        let cases = [
            ("night.frames", Ok("night.frames".to_string())),
            ("n/%Y-%m-%dT%H%M%SZ", Ok("n/2026-11-17T162057Z".to_string())),
            ("100%%-%d", Ok("100%-17".to_string())),
            ("a%", Err("a%: after % comes one of Y m d H M S %".to_string())),
            ("%y", Err("%y: after % comes one of Y m d H M S %".to_string())),
        ];
        for (pattern, expected) in cases {
            assert_eq!(dated(pattern, time), expected);
        }
    }
}

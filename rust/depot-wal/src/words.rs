//! What is printed for people: texts, labels, times, values.

use crate::labels::Pairs;
use crate::time;
use depot_wal::{Time, Value};

/// Bytes as text that does a terminal no harm: control characters, and what is no UTF-8, as `\x1b`.
pub fn text(bytes: &[u8]) -> String {
    let mut text = String::new();
    for chunk in bytes.utf8_chunks() {
        for character in chunk.valid().chars() {
            match character {
                '\\' => text.push_str("\\\\"),
                '\n' => text.push_str("\\n"),
                c if c.is_control() => text.push_str(&format!("\\x{:02x}", c as u32)),
                c => text.push(c),
            }
        }
        for byte in chunk.invalid() {
            text.push_str(&format!("\\x{byte:02x}"));
        }
    }
    text
}

/// A text in quotes.
pub fn quoted(bytes: &[u8]) -> String {
    let text = text(bytes);
    let escaped = text.replace('"', "\\\"");
    format!("\"{escaped}\"")
}

/// Labels: `{scooter="1", profile="2"}`.
pub fn labels(pairs: &Pairs) -> String {
    let pairs: Vec<String> = pairs
        .iter()
        .map(|(name, value)| format!("{}={}", text(name), quoted(value)))
        .collect();
    format!("{{{}}}", pairs.join(", "))
}

/// A series: its id, and its labels if they are known.
pub fn series(id: u64, pairs: Option<&Pairs>) -> String {
    match pairs {
        Some(pairs) => format!("{id} {}", labels(pairs)),
        None => format!("{id} (not named before)"),
    }
}

/// A time in UTC and as milliseconds.
pub fn moment(time: Time) -> String {
    format!("{} ({})", time::utc(time), time.0)
}

/// A float, as short as it reads back the same.
pub fn float(value: Value) -> String {
    let float = value.float();
    if float.is_nan() {
        return "NaN".to_string();
    }
    if float.is_infinite() {
        return if float > 0.0 { "+Inf" } else { "-Inf" }.to_string();
    }
    let text = format!("{float:?}");
    text.strip_suffix(".0").map(str::to_string).unwrap_or(text)
}

/// A number of things: `1 record`, `2 records`.
pub fn count(number: u64, one: &str, many: &str) -> String {
    format!("{number} {}", if number == 1 { one } else { many })
}

/// A number of records.
pub fn records(number: u64) -> String {
    count(number, "record", "records")
}

/// A number of entries.
pub fn entries(number: u64) -> String {
    count(number, "entry", "entries")
}

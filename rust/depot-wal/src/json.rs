//! Lines of JSON: one object each, written by hand.

use crate::labels::Pairs;
use crate::words;
use depot_wal::{Time, Value};
use std::fmt;

/// An object that is being written; `Display` closes it.
pub struct Object(String);

impl Object {
    /// An empty one.
    pub fn new() -> Object {
        Object(String::new())
    }

    /// One that begins with the file it is about.
    pub fn of(file: &str) -> Object {
        Object::new().text("file", file)
    }

    fn key(&mut self, key: &str) {
        if !self.0.is_empty() {
            self.0.push(',');
        }
        push_text(&mut self.0, key);
        self.0.push(':');
    }

    /// A value that is JSON already.
    pub fn raw(mut self, key: &str, json: impl fmt::Display) -> Object {
        self.key(key);
        self.0.push_str(&json.to_string());
        self
    }

    pub fn number(self, key: &str, number: impl Into<i128>) -> Object {
        self.raw(key, number.into())
    }

    pub fn count(self, key: &str, number: usize) -> Object {
        self.raw(key, number)
    }

    pub fn flag(self, key: &str, flag: bool) -> Object {
        self.raw(key, flag)
    }

    pub fn text(mut self, key: &str, text: &str) -> Object {
        self.key(key);
        push_text(&mut self.0, text);
        self
    }

    /// Pairs of strings as an object.
    pub fn pairs(self, key: &str, pairs: &Pairs) -> Object {
        let object = pairs.iter().fold(Object::new(), |object, (name, text)| {
            object.text(&lossy(name), &lossy(text))
        });
        self.raw(key, object)
    }

    /// A time, as milliseconds and in UTC.
    pub fn time(self, time: Time) -> Object {
        self.number("time", time.0)
            .text("utc", &crate::time::utc(time))
    }

    /// A value: a number, or where JSON has none for it a text; and its bits.
    pub fn value(self, value: Value) -> Object {
        self.float("value", value)
            .text("bits", &format!("{:016x}", value.0))
    }

    /// A float: a number, or where JSON has none for it a text.
    pub fn float(self, key: &str, value: Value) -> Object {
        self.raw(key, float(value))
    }
}

impl fmt::Display for Object {
    fn fmt(&self, f: &mut fmt::Formatter<'_>) -> fmt::Result {
        write!(f, "{{{}}}", self.0)
    }
}

/// A list of values that are JSON already.
pub fn list<T: fmt::Display>(values: impl IntoIterator<Item = T>) -> String {
    let values: Vec<String> = values.into_iter().map(|value| value.to_string()).collect();
    format!("[{}]", values.join(","))
}

/// A float as JSON.
pub fn float(value: Value) -> String {
    let text = words::float(value);
    match value.float().is_finite() {
        true => text,
        false => format!("\"{text}\""),
    }
}

/// Bytes as text; what is no UTF-8 is replaced.
pub fn lossy(bytes: &[u8]) -> String {
    String::from_utf8_lossy(bytes).into_owned()
}

/// A string with its quotes, and all escaped that has to be.
fn push_text(line: &mut String, text: &str) {
    line.push('"');
    for character in text.chars() {
        match character {
            '"' => line.push_str("\\\""),
            '\\' => line.push_str("\\\\"),
            '\n' => line.push_str("\\n"),
            '\r' => line.push_str("\\r"),
            '\t' => line.push_str("\\t"),
            // Also those that a terminal or a parser of lines might take for its own.
            c if c.is_control() || matches!(c, '\u{2028}' | '\u{2029}') => {
                line.push_str(&format!("\\u{:04x}", c as u32));
            }
            c => line.push(c),
        }
    }
    line.push('"');
}

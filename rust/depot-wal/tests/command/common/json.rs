//! A checker of JSON (RFC 8259), as strict as that.

/// A value; numbers stay texts, so that none loses digits.
#[derive(Clone, Debug, PartialEq)]
pub enum Json {
    Null,
    Bool(bool),
    Number(String),
    Text(String),
    List(Vec<Json>),
    Object(Vec<(String, Json)>),
}

impl Json {
    /// The value of a key, which is there once.
    #[track_caller]
    pub fn get(&self, key: &str) -> &Json {
        let Json::Object(pairs) = self else {
            panic!("no object: {self:?}");
        };
        let mut found = pairs.iter().filter(|(name, _)| name == key);
        let value = found.next().unwrap_or_else(|| panic!("no {key}: {self:?}"));
        assert!(found.next().is_none(), "{key} twice: {self:?}");
        &value.1
    }

    pub fn has(&self, key: &str) -> bool {
        matches!(self, Json::Object(pairs) if pairs.iter().any(|(name, _)| name == key))
    }

    /// A number or a text as a text.
    #[track_caller]
    pub fn text(&self, key: &str) -> &str {
        match self.get(key) {
            Json::Text(text) | Json::Number(text) => text,
            other => panic!("{key} is {other:?}"),
        }
    }
}

/// One value, and nothing behind it.
pub fn parse(text: &str) -> Result<Json, String> {
    let mut rest = text;
    let value = value(&mut rest)?;
    match rest {
        "" => Ok(value),
        _ => Err(format!("something is behind it: {rest}")),
    }
}

fn take(rest: &mut &str, start: &str) -> bool {
    let found = rest.strip_prefix(start);
    *rest = found.unwrap_or(rest);
    found.is_some()
}

fn value(rest: &mut &str) -> Result<Json, String> {
    match rest.chars().next() {
        Some('{') => object(rest),
        Some('[') => list(rest),
        Some('"') => string(rest).map(Json::Text),
        Some('-' | '0'..='9') => number(rest),
        _ if take(rest, "null") => Ok(Json::Null),
        _ if take(rest, "true") => Ok(Json::Bool(true)),
        _ if take(rest, "false") => Ok(Json::Bool(false)),
        _ => Err(format!("no value: {rest}")),
    }
}

fn object(rest: &mut &str) -> Result<Json, String> {
    let mut pairs = Vec::new();
    take(rest, "{");
    while !take(rest, "}") {
        if !pairs.is_empty() && !take(rest, ",") {
            return Err(format!("no comma: {rest}"));
        }
        let key = string(rest)?;
        if !take(rest, ":") {
            return Err(format!("no colon: {rest}"));
        }
        pairs.push((key, value(rest)?));
    }
    Ok(Json::Object(pairs))
}

fn list(rest: &mut &str) -> Result<Json, String> {
    let mut values = Vec::new();
    take(rest, "[");
    while !take(rest, "]") {
        if !values.is_empty() && !take(rest, ",") {
            return Err(format!("no comma: {rest}"));
        }
        values.push(value(rest)?);
    }
    Ok(Json::List(values))
}

fn string(rest: &mut &str) -> Result<String, String> {
    if !take(rest, "\"") {
        return Err(format!("no string: {rest}"));
    }
    let mut text = String::new();
    loop {
        let character = rest.chars().next().ok_or("a string without end")?;
        *rest = &rest[character.len_utf8()..];
        match character {
            '"' => return Ok(text),
            '\\' => text.push(escaped(rest)?),
            '\0'..='\x1f' => return Err(format!("a control character: {character:?}")),
            _ => text.push(character),
        }
    }
}

/// What stands behind a backslash; pairs of surrogates are not needed here.
fn escaped(rest: &mut &str) -> Result<char, String> {
    for (name, character) in [
        ("\"", '"'),
        ("\\", '\\'),
        ("/", '/'),
        ("b", '\x08'),
        ("f", '\x0c'),
        ("n", '\n'),
        ("r", '\r'),
        ("t", '\t'),
    ] {
        if take(rest, name) {
            return Ok(character);
        }
    }
    let digits = rest.strip_prefix('u').and_then(|rest| rest.get(..4));
    let code = digits.and_then(|digits| u32::from_str_radix(digits, 16).ok());
    let character = code.and_then(char::from_u32);
    *rest = rest.get(5..).unwrap_or_default();
    character.ok_or("no such escape".to_string())
}

/// `-`? (0 | [1-9][0-9]*) (. [0-9]+)? ([eE] [+-]? [0-9]+)?
fn number(rest: &mut &str) -> Result<Json, String> {
    let is_part = |c: char| c.is_ascii_digit() || "+-.eE".contains(c);
    let end = rest.find(|c| !is_part(c)).unwrap_or(rest.len());
    let (text, behind) = rest.split_at(end);
    *rest = behind;
    let unsigned = text.strip_prefix('-').unwrap_or(text);
    let (mantissa, exponent) = match unsigned.split_once(['e', 'E']) {
        Some((mantissa, exponent)) => (mantissa, exponent),
        None => (unsigned, "0"),
    };
    let (whole, fraction) = mantissa.split_once('.').unwrap_or((mantissa, "0"));
    let exponent = exponent.strip_prefix(['+', '-']).unwrap_or(exponent);
    let digits = |text: &str| !text.is_empty() && text.bytes().all(|b| b.is_ascii_digit());
    let zeros = whole.len() > 1 && whole.starts_with('0');
    match digits(whole) && digits(fraction) && digits(exponent) && !zeros {
        true => Ok(Json::Number(text.to_string())),
        false => Err(format!("no number: {text}")),
    }
}

/// The checker itself refuses what is no JSON.
#[test]
fn refuses() {
    let wrong = [
        "",
        "{",
        "{}x",
        "{\"a\":}",
        "{\"a\" 1}",
        "01",
        "1.",
        ".5",
        "NaN",
        "+1",
        "1e",
        "-",
        "\"a\nb\"",
        "\"\\x\"",
        "\"\\u12\"",
        "\"a",
        "[1 2]",
        "tru",
        "{a:1}",
        "'a'",
    ];
    for text in wrong {
        assert!(parse(text).is_err(), "{text}");
    }
    for text in [
        "{}",
        "[]",
        "0",
        "-0.5e-7",
        "\"\\u001b\\\"\"",
        "{\"a\":[1,null,true]}",
    ] {
        parse(text).unwrap();
    }
}

//! Answers for programs.
use std::fmt;

pub enum Json {
    Null,
    Flag(bool),
    Number(u64),
    Text(String),
    List(Vec<Json>),
    Object(Vec<(String, Json)>),
}

impl Json {
    pub fn text(text: impl Into<String>) -> Json {
        Json::Text(text.into())
    }

    pub fn number(number: impl Into<u64>) -> Json {
        Json::Number(number.into())
    }

    pub fn object<K: Into<String>>(entries: impl IntoIterator<Item = (K, Json)>) -> Json {
        Json::Object(entries.into_iter().map(|(key, value)| (key.into(), value)).collect())
    }

    pub fn list(items: impl IntoIterator<Item = Json>) -> Json {
        Json::List(items.into_iter().collect())
    }
}

fn quoted(out: &mut fmt::Formatter, text: &str) -> fmt::Result {
    write!(out, "\"")?;
    for character in text.chars() {
        match character {
            '"' | '\\' => write!(out, "\\{character}")?,
            control if (control as u32) < 0x20 => write!(out, "\\u{:04x}", control as u32)?,
            other => write!(out, "{other}")?,
        }
    }
    write!(out, "\"")
}

fn separated<T>(out: &mut fmt::Formatter, items: &[T], mut item: impl FnMut(&mut fmt::Formatter, &T) -> fmt::Result) -> fmt::Result {
    for (i, it) in items.iter().enumerate() {
        if i > 0 {
            write!(out, ",")?;
        }
        item(out, it)?;
    }
    Ok(())
}

impl fmt::Display for Json {
    fn fmt(&self, out: &mut fmt::Formatter) -> fmt::Result {
        match self {
            Json::Null => write!(out, "null"),
            Json::Flag(flag) => write!(out, "{flag}"),
            Json::Number(number) => write!(out, "{number}"),
            Json::Text(text) => quoted(out, text),
            Json::List(items) => {
                write!(out, "[")?;
                separated(out, items, |out, it| write!(out, "{it}"))?;
                write!(out, "]")
            }
            Json::Object(entries) => {
                write!(out, "{{")?;
                separated(out, entries, |out, (key, value)| {
                    quoted(out, key)?;
                    write!(out, ":{value}")
                })?;
                write!(out, "}}")
            }
        }
    }
}

#[cfg(test)]
mod tests {
    use super::*;

    #[test]
    fn signs_are_escaped() {
        let json = Json::object([("a", Json::text("q\"\\\n")), ("b", Json::list([Json::number(1u32), Json::Null, Json::Flag(true)]))]);
        assert_eq!(json.to_string(), "{\"a\":\"q\\\"\\\\\\u000a\",\"b\":[1,null,true]}");
    }
}

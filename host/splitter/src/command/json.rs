//! JSON, as far as it is written here.

use std::fmt::{self, Display, Formatter, Write};

/// A value.
#[derive(Clone, Debug, PartialEq, Eq)]
pub enum Json {
    /// There is nothing.
    Null,
    /// Yes or no.
    Bool(bool),
    /// A whole number.
    Number(i64),
    /// A text.
    Text(String),
    /// Values in order.
    List(Vec<Json>),
    /// Values by name, in order.
    Object(Vec<(&'static str, Json)>),
}

impl Json {
    /// An object of these values. Those that are nothing are left out.
    pub fn object(values: impl IntoIterator<Item = (&'static str, Json)>) -> Self {
        let values = values.into_iter().filter(|(_, value)| *value != Self::Null);
        Self::Object(values.collect())
    }

    /// A list of these values.
    pub fn list<T: Into<Json>>(values: impl IntoIterator<Item = T>) -> Self {
        Self::List(values.into_iter().map(T::into).collect())
    }

    /// Writes it: what is at the top, and the entries of its lists, each on a line of its own.
    fn write(&self, f: &mut Formatter, depth: usize) -> fmt::Result {
        match self {
            Self::Null => f.write_str("null"),
            Self::Bool(value) => write!(f, "{value}"),
            Self::Number(number) => write!(f, "{number}"),
            Self::Text(text) => write_text(f, text),
            Self::List(values) => {
                let in_lines = depth == 1 && values.iter().any(|it| matches!(it, Self::Object(_)));
                let depth = if in_lines { depth } else { depth + 1 };
                write_all(f, ['[', ']'], in_lines, depth, values, |f, value| {
                    value.write(f, depth + 1)
                })
            }
            Self::Object(values) => write_all(
                f,
                ['{', '}'],
                depth == 0,
                depth,
                values,
                |f, (name, value)| {
                    write_text(f, name)?;
                    f.write_str(": ")?;
                    value.write(f, depth + 1)
                },
            ),
        }
    }
}

fn write_all<T>(
    f: &mut Formatter,
    [open, close]: [char; 2],
    in_lines: bool,
    depth: usize,
    values: &[T],
    write: impl Fn(&mut Formatter, &T) -> fmt::Result,
) -> fmt::Result {
    f.write_char(open)?;
    for (place, value) in values.iter().enumerate() {
        f.write_str(if place > 0 { "," } else { "" })?;
        match in_lines {
            true => write!(f, "\n{:1$}", "", 2 * depth + 2)?,
            false => f.write_str(if place > 0 { " " } else { "" })?,
        }
        write(f, value)?;
    }
    if in_lines && !values.is_empty() {
        write!(f, "\n{:1$}", "", 2 * depth)?;
    }
    f.write_char(close)
}

fn write_text(f: &mut Formatter, text: &str) -> fmt::Result {
    f.write_char('"')?;
    for letter in text.chars() {
        match letter {
            '"' | '\\' => write!(f, "\\{letter}")?,
            '\n' => f.write_str("\\n")?,
            letter if letter.is_control() => write!(f, "\\u{:04x}", u32::from(letter))?,
            letter => f.write_char(letter)?,
        }
    }
    f.write_char('"')
}

impl Display for Json {
    fn fmt(&self, f: &mut Formatter) -> fmt::Result {
        self.write(f, 0)
    }
}

impl From<bool> for Json {
    fn from(value: bool) -> Self {
        Self::Bool(value)
    }
}

impl From<&str> for Json {
    fn from(text: &str) -> Self {
        Self::Text(text.into())
    }
}

impl From<String> for Json {
    fn from(text: String) -> Self {
        Self::Text(text)
    }
}

impl From<usize> for Json {
    fn from(number: usize) -> Self {
        Self::Number(number as i64)
    }
}

impl From<Vec<Json>> for Json {
    fn from(values: Vec<Json>) -> Self {
        Self::List(values)
    }
}

impl<T: Into<Json>> From<Option<T>> for Json {
    fn from(value: Option<T>) -> Self {
        value.map_or(Self::Null, T::into)
    }
}

macro_rules! from_numbers {
    ($($number:ty),*) => {
        $(impl From<$number> for Json {
            fn from(number: $number) -> Self {
                Self::Number(number.into())
            }
        })*
    };
}

from_numbers!(u16, u32, i16);

#[cfg(test)]
mod tests {
    use super::*;

    #[test]
    fn values() {
        let texts = ["", "a \"b\" \\ c", "\n\t\x1b[31m\x7f", "ß é 文"];
        let list = Json::list(texts);
        let expected = r#"["", "a \"b\" \\ c", "\n\u0009\u001b[31m\u007f", "ß é 文"]"#;
        assert_eq!(list.to_string(), expected);
        assert_eq!(Json::from(-7_i16).to_string(), "-7");
        assert_eq!(Json::list([] as [u16; 0]).to_string(), "[]");
        assert_eq!(Json::object([]).to_string(), "{}");
        let object = Json::object([("a", Json::from(true)), ("b", None::<u16>.into())]);
        assert_eq!(object.to_string(), "{\n  \"a\": true\n}");
    }

    #[test]
    fn lines() {
        let entry = || Json::object([("x", 1_u16.into()), ("y", Json::list([2_u16, 3]))]);
        let object = Json::object([
            ("numbers", Json::list([1_u16, 2])),
            ("one", entry()),
            ("entries", Json::List(vec![entry(), entry()])),
        ]);
        let expected = "\
{
  \"numbers\": [1, 2],
  \"one\": {\"x\": 1, \"y\": [2, 3]},
  \"entries\": [
    {\"x\": 1, \"y\": [2, 3]},
    {\"x\": 1, \"y\": [2, 3]}
  ]
}";
        assert_eq!(object.to_string(), expected);
    }
}

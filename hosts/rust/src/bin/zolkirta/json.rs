//! JSON, as far as it is written here.

use std::ffi::OsStr;
use std::fmt;

pub enum Value {
    Null,
    Truth(bool),
    Number(i128),
    Text(String),
    List(Vec<Value>),
    Object(Vec<(&'static str, Value)>),
}

impl Value {
    pub fn list<T>(items: impl IntoIterator<Item = T>) -> Value
    where
        Value: From<T>,
    {
        Value::List(items.into_iter().map(Value::from).collect())
    }
}

impl fmt::Display for Value {
    fn fmt(&self, out: &mut fmt::Formatter) -> fmt::Result {
        match self {
            Value::Null => out.write_str("null"),
            Value::Truth(truth) => write!(out, "{truth}"),
            Value::Number(number) => write!(out, "{number}"),
            Value::Text(text) => quote(out, text),
            Value::List(values) => parted(out, "[", values, |out, value| value.fmt(out), "]"),
            Value::Object(fields) => parted(out, "{", fields, |out, (name, value)| write!(out, "\"{name}\":{value}"), "}"),
        }
    }
}

/// Items between brackets, parted by commas.
fn parted<T>(
    out: &mut fmt::Formatter,
    open: &str,
    items: &[T],
    item: impl Fn(&mut fmt::Formatter, &T) -> fmt::Result,
    close: &str,
) -> fmt::Result {
    let mut before = open;
    for each in items {
        out.write_str(before)?;
        item(out, each)?;
        before = ",";
    }
    out.write_str(if items.is_empty() { open } else { "" })?;
    out.write_str(close)
}

fn quote(out: &mut fmt::Formatter, text: &str) -> fmt::Result {
    out.write_str("\"")?;
    for letter in text.chars() {
        match letter {
            '"' | '\\' => write!(out, "\\{letter}")?,
            '\n' => out.write_str("\\n")?,
            '\0'..='\x1f' => write!(out, "\\u{:04x}", u32::from(letter))?,
            _ => write!(out, "{letter}")?,
        }
    }
    out.write_str("\"")
}

macro_rules! from_numbers {
    ($($kind:ty)*) => {
        $(impl From<$kind> for Value {
            fn from(number: $kind) -> Value {
                Value::Number(number as i128)
            }
        })*
    };
}

from_numbers!(u8 u16 u32 usize i64);

impl From<bool> for Value {
    fn from(truth: bool) -> Value {
        Value::Truth(truth)
    }
}

impl From<&str> for Value {
    fn from(text: &str) -> Value {
        Value::Text(text.to_owned())
    }
}

/// Bytes of a name that are no UTF-8 become U+FFFD.
impl From<&OsStr> for Value {
    fn from(name: &OsStr) -> Value {
        Value::Text(name.to_string_lossy().into_owned())
    }
}

impl<T> From<Option<T>> for Value
where
    Value: From<T>,
{
    fn from(item: Option<T>) -> Value {
        item.map_or(Value::Null, Value::from)
    }
}

#[cfg(test)]
mod tests {
    use super::Value;

    #[test]
    fn values_are_json() {
        let text = Value::from("a \"b\" \\ \n\t\u{7f}é");
        let lists = [Value::list([1u8, 2]), Value::list([0u32; 0]), Value::Object(Vec::new()), Value::list([Some(true), None])];
        let fields = vec![("none", Value::Null), ("lists", Value::list(lists)), ("text", text), ("low", i64::MIN.into())];
        let expected = "{\"none\":null,\"lists\":[[1,2],[],{},[true,null]],\
                        \"text\":\"a \\\"b\\\" \\\\ \\n\\u0009\u{7f}é\",\"low\":-9223372036854775808}";
        assert_eq!(Value::Object(fields).to_string(), expected);
    }
}

//! JSON for machines.

use std::fmt;

pub enum Value {
    Null,
    Boolean(bool),
    Number(u64),
    Text(String),
    Array(Vec<Value>),
    Object(Vec<(&'static str, Value)>),
}

impl Value {
    pub fn text(text: impl Into<String>) -> Value {
        Value::Text(text.into())
    }

    pub fn number(number: Option<impl Into<u64>>) -> Value {
        number.map_or(Value::Null, |number| Value::Number(number.into()))
    }
}

impl fmt::Display for Value {
    fn fmt(&self, formatter: &mut fmt::Formatter<'_>) -> fmt::Result {
        match self {
            Value::Null => formatter.write_str("null"),
            Value::Boolean(truth) => write!(formatter, "{truth}"),
            Value::Number(number) => write!(formatter, "{number}"),
            Value::Text(text) => write_text(formatter, text),
            Value::Array(values) => write_array(formatter, values),
            Value::Object(members) => write_object(formatter, members),
        }
    }
}

fn write_array(formatter: &mut fmt::Formatter<'_>, values: &[Value]) -> fmt::Result {
    formatter.write_str("[")?;
    for (index, value) in values.iter().enumerate() {
        write!(formatter, "{}{value}", comma(index))?;
    }
    formatter.write_str("]")
}

fn write_object(
    formatter: &mut fmt::Formatter<'_>,
    members: &[(&'static str, Value)],
) -> fmt::Result {
    formatter.write_str("{")?;
    for (index, (name, value)) in members.iter().enumerate() {
        formatter.write_str(comma(index))?;
        write_text(formatter, name)?;
        write!(formatter, ":{value}")?;
    }
    formatter.write_str("}")
}

/// What stands before the value or member of this index.
pub fn comma(index: usize) -> &'static str {
    if index == 0 { "" } else { "," }
}

/// In quotes, with what RFC 8259 wants escaped.
fn write_text(formatter: &mut fmt::Formatter<'_>, text: &str) -> fmt::Result {
    formatter.write_str("\"")?;
    for character in text.chars() {
        match character {
            '"' => formatter.write_str("\\\"")?,
            '\\' => formatter.write_str("\\\\")?,
            // U+007F is a control character too, though it may stand bare.
            control if control.is_control() => {
                write!(formatter, "\\u{:04x}", u32::from(control))?;
            }
            other => write!(formatter, "{other}")?,
        }
    }
    formatter.write_str("\"")
}

#[cfg(test)]
mod tests {
    use super::*;

    #[test]
    fn text_is_escaped() {
        let text = Value::text("a\"b\\c\n\u{1}\u{7f}\u{9b}\u{e9}/");
        let expected = r#""a\"b\\c\u000a\u0001\u007f\u009bé/""#;
        assert_eq!(text.to_string(), expected);
    }

    #[test]
    fn object_holds_values() {
        let inner = Value::Object(vec![]);
        let members = vec![
            ("n", Value::number(Some(7u32))),
            ("none", Value::number(None::<u32>)),
            ("o", inner),
        ];
        let expected = r#"{"n":7,"none":null,"o":{}}"#;
        assert_eq!(Value::Object(members).to_string(), expected);
    }

    #[test]
    fn array_holds_values() {
        let values = vec![
            Value::Boolean(true),
            Value::Boolean(false),
            Value::Array(vec![]),
            Value::Array(vec![Value::Number(7)]),
        ];
        let expected = "[true,false,[],[7]]";
        assert_eq!(Value::Array(values).to_string(), expected);
    }
}

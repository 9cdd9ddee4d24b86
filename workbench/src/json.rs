//! The few forms of JSON that are written here.

use std::fmt::Display;

/// An object that grows field by field.
pub struct Object {
    text: String,
}

impl Object {
    /// An object without fields.
    pub fn new() -> Object {
        Object { text: "{".to_string() }
    }

    /// With a field whose value is a number, a truth value, or JSON already.
    pub fn field(mut self, name: &str, value: impl Display) -> Object {
        let comma = if self.text.len() > 1 { "," } else { "" };
        self.text += &format!("{comma}\"{name}\":{value}");
        self
    }

    /// With a field whose value is a text.
    pub fn text(self, name: &str, value: &str) -> Object {
        self.field(name, string(value))
    }

    /// The whole object.
    pub fn end(mut self) -> String {
        self.text.push('}');
        self.text
    }
}

impl Default for Object {
    /// An object without fields.
    fn default() -> Object {
        Object::new()
    }
}

/// A list of values that are JSON already, or numbers.
pub fn list<T: Display>(values: impl IntoIterator<Item = T>) -> String {
    let values: Vec<String> = values.into_iter().map(|value| value.to_string()).collect();
    format!("[{}]", values.join(","))
}

/// A value, or null.
pub fn optional<T>(value: Option<T>, json: impl Fn(T) -> String) -> String {
    value.map_or("null".to_string(), json)
}

/// A text in quotes.
pub fn string(text: &str) -> String {
    let mut quoted = String::with_capacity(text.len() + 2);
    quoted.push('"');
    for sign in text.chars() {
        match sign {
            '"' | '\\' => quoted.extend(['\\', sign]),
            ' '.. => quoted.push(sign),
            _ => quoted += &format!("\\u{:04x}", u32::from(sign)),
        }
    }
    quoted.push('"');
    quoted
}

#[cfg(test)]
mod tests {
    use super::*;

    #[test]
    fn texts_are_quoted() {
        assert_eq!(string("a \"b\" \\ \n\u{e9}"), "\"a \\\"b\\\" \\\\ \\u000a\u{e9}\"");
    }

    #[test]
    fn objects_and_lists() {
        let object = Object::new().field("a", 1).text("b", "x").field("c", list([1, 2])).end();
        assert_eq!(object, "{\"a\":1,\"b\":\"x\",\"c\":[1,2]}");
        assert_eq!(optional(None::<u8>, |_| String::new()), "null");
    }
}

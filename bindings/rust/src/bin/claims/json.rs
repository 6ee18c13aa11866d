//! JSON objects, written piece by piece.
use std::fmt::{self, Write};

/// An object of which the members are added in turn.
pub struct Object(String);

impl Object {
    pub fn new() -> Object {
        Object(String::from("{"))
    }

    fn key(&mut self, key: &str) -> &mut String {
        if self.0.len() > 1 {
            self.0.push(',');
        }
        put_string(key, &mut self.0);
        self.0.push(':');
        &mut self.0
    }

    /// A number, a truth value, `null`, or an object: what prints as itself.
    pub fn plain(mut self, key: &str, value: impl fmt::Display) -> Object {
        let _ = write!(self.key(key), "{value}");
        self
    }

    pub fn string(mut self, key: &str, value: &str) -> Object {
        put_string(value, self.key(key));
        self
    }

    /// Bytes as a string. Where they are no text, what is none in them is replaced there, and `key_hex` has them all.
    pub fn bytes(self, key: &str, value: &[u8]) -> Object {
        let object = self.string(key, &String::from_utf8_lossy(value));
        if std::str::from_utf8(value).is_ok() {
            return object;
        }
        let hex: String = value.iter().map(|byte| format!("{byte:02x}")).collect();
        object.string(&format!("{key}_hex"), &hex)
    }
}

impl fmt::Display for Object {
    fn fmt(&self, f: &mut fmt::Formatter<'_>) -> fmt::Result {
        write!(f, "{}}}", self.0)
    }
}

// Quotes, backslashes and control characters are escaped; those that a terminal obeys although JSON allows them, too.
fn put_string(text: &str, to: &mut String) {
    to.push('"');
    for c in text.chars() {
        match c {
            '"' | '\\' => {
                to.push('\\');
                to.push(c);
            }
            c if c.is_control() => {
                let _ = write!(to, "\\u{:04x}", c as u32);
            }
            c => to.push(c),
        }
    }
    to.push('"');
}

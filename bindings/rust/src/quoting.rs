//! Pieces of input as they are told: quoted, without control characters, and shortened where they are long.
use std::fmt::{self, Write};
use std::path::Path;

/// Bytes as a quoted text. What is no printable character is escaped, as is a byte that is part of no character; of a long piece only the
/// first 60 characters are told, with `..` after them.
#[derive(Clone, Copy, Debug)]
pub struct Quoted<'a>(pub &'a [u8]);

/// Bytes as a text without quotes, escaped in the same way; of a long piece only the first 1,024 characters are told.
#[derive(Clone, Copy, Debug)]
pub struct Bare<'a>(pub &'a [u8]);

/// The most characters that are told of a quoted text.
pub(crate) const QUOTED: usize = 60;

/// A path as it is told.
pub fn path(path: &Path) -> Bare<'_> {
    Bare(path.as_os_str().as_encoded_bytes())
}

// Writes the first characters, and tells whether there are more.
fn escape(bytes: &[u8], most: usize, bare: &[char], f: &mut fmt::Formatter<'_>) -> Result<bool, fmt::Error> {
    let mut left = most;
    for chunk in bytes.utf8_chunks() {
        for c in chunk.valid().chars() {
            if left == 0 {
                return Ok(true);
            }
            left -= 1;
            if bare.contains(&c) {
                f.write_char(c)?;
            } else {
                write!(f, "{}", c.escape_debug())?;
            }
        }
        for byte in chunk.invalid() {
            if left == 0 {
                return Ok(true);
            }
            left -= 1;
            write!(f, "\\x{byte:02x}")?;
        }
    }
    Ok(false)
}

impl fmt::Display for Quoted<'_> {
    fn fmt(&self, f: &mut fmt::Formatter<'_>) -> fmt::Result {
        f.write_char('"')?;
        let more = escape(self.0, QUOTED, &['\''], f)?;
        f.write_str(if more { "\".." } else { "\"" })
    }
}

impl fmt::Display for Bare<'_> {
    fn fmt(&self, f: &mut fmt::Formatter<'_>) -> fmt::Result {
        let more = escape(self.0, 1024, &['\'', '"'], f)?;
        f.write_str(if more { ".." } else { "" })
    }
}

#[cfg(test)]
mod tests {
    use super::{Bare, Quoted};

    fn told(bytes: &[u8]) -> String {
        Quoted(bytes).to_string()
    }

    #[test]
    fn pieces() {
        assert_eq!(told(b""), "\"\"");
        assert_eq!(told("nädel \"1\" it's".as_bytes()), "\"nädel \\\"1\\\" it's\"");
        assert_eq!(told(b"a\x1b[2J\n\0\x7f"), "\"a\\u{1b}[2J\\n\\0\\u{7f}\"");
        assert_eq!(told("\u{202e}".as_bytes()), "\"\\u{202e}\"");
        assert_eq!(told(b"a\xff\xc3("), "\"a\\xff\\xc3(\"");
        assert_eq!(told(&[b'a'; 60]), format!("\"{}\"", "a".repeat(60)));
        assert_eq!(told(&[b'a'; 61]), format!("\"{}\"..", "a".repeat(60)));
        assert_eq!(told(&[0xff; 61]), format!("\"{}\"..", "\\xff".repeat(60)));
        assert_eq!(Bare(b"it's \"a\"\x1b\xff").to_string(), "it's \"a\"\\u{1b}\\xff");
        assert_eq!(Bare(&[b'a'; 1025]).to_string(), format!("{}..", "a".repeat(1024)));
    }
}

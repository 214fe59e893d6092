//! The Java line of each instruction of a box file, kept in a file beside it, since the box file has no room: `Discount.lines`.
//!
//! ```text
//! java Discount.java
//! of 52 bytes, sum 1A2B3C4D
//! method 0
//! 0 12 return age * rate;
//! ```
//!
//! Behind a point stand the line's number and, where the Java file was at hand, the line itself.

use std::fmt::Write;

/// The lines of a class: the Java file's name, and for each method the points at which a line begins.
#[derive(Clone, Debug, Default, PartialEq, Eq)]
pub struct Lines {
    pub source: String,
    pub methods: Vec<Vec<Line>>,
}

/// From this point on the code comes from this line.
#[derive(Clone, Debug, Default, PartialEq, Eq)]
pub struct Line {
    pub point: u16,
    pub number: u16,
    pub text: String,
}

/// A sum by which a file of lines knows its class file (FNV-1a, 32 bits).
fn sum(bytes: &[u8]) -> u32 {
    bytes.iter().fold(0x811C_9DC5, |sum: u32, &byte| (sum ^ u32::from(byte)).wrapping_mul(0x0100_0193))
}

fn head(bytes: &[u8]) -> String {
    format!("of {} bytes, sum {:08X}", bytes.len(), sum(bytes))
}

impl Lines {
    /// The file beside these bytes.
    pub fn write(&self, bytes: &[u8]) -> String {
        let mut out = format!("java {}\n{}\n", self.source, head(bytes));
        for (place, method) in self.methods.iter().enumerate() {
            let _ = writeln!(out, "method {place}");
            for line in method {
                let _ = writeln!(out, "{}", format!("{} {} {}", line.point, line.number, line.text).trim_end());
            }
        }
        out
    }

    /// The lines of a file that was written for these bytes; nothing if it is another file's.
    pub fn read(text: &str, bytes: &[u8]) -> Option<Lines> {
        let mut rest = text.lines();
        let mut lines = Lines { source: rest.next()?.strip_prefix("java ")?.into(), methods: Vec::new() };
        if rest.next()? != head(bytes) {
            return None;
        }
        for line in rest {
            if line.starts_with("method ") {
                lines.methods.push(Vec::new());
                continue;
            }
            let mut words = line.splitn(3, ' ');
            let (point, number) = (words.next()?.parse().ok()?, words.next()?.parse().ok()?);
            let text = words.next().unwrap_or("").to_string();
            lines.methods.last_mut()?.push(Line { point, number, text });
        }
        Some(lines)
    }

    /// The line that begins at a point of a method, as a comment says it.
    pub fn at(&self, method: usize, point: usize) -> Option<String> {
        let line = self.methods.get(method)?.iter().find(|line| usize::from(line.point) == point)?;
        Some(format!("{}:{}  {}", self.source, line.number, line.text).trim_end().to_string())
    }
}

#[cfg(test)]
mod tests {
    use super::*;

    #[test]
    fn what_is_written_is_read() {
        let line = |point, number, text: &str| Line { point, number, text: text.into() };
        let methods = vec![vec![line(0, 3, "return a;"), line(9, 12, "")], Vec::new()];
        let lines = Lines { source: "A.java".into(), methods };
        let text = lines.write(b"abc");
        assert_eq!(Lines::read(&text, b"abc"), Some(lines.clone()));
        assert_eq!(Lines::read(&text, b"abd"), None);
        assert_eq!(lines.at(0, 9), Some("A.java:12".into()));
        assert_eq!(lines.at(1, 0), None);
    }
}

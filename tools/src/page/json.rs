//! JSON that may stand within a page: no sign in it ends a script or begins a tag.

use std::fmt::Write;

/// A text in quotes.
pub fn string(text: &str) -> String {
    let mut out = String::with_capacity(text.len() + 2);
    out.push('"');
    for c in text.chars() {
        match c {
            '"' | '\\' => {
                out.push('\\');
                out.push(c);
            }
            '<' | '>' | '&' | '\'' | '\u{2028}' | '\u{2029}' => escape(&mut out, c),
            c if c.is_control() => escape(&mut out, c),
            c => out.push(c),
        }
    }
    out.push('"');
    out
}

/// All of these are within the first 65,536 characters.
fn escape(out: &mut String, c: char) {
    let _ = write!(out, "\\u{:04x}", c as u32);
}

pub fn list<T: AsRef<str>>(items: impl IntoIterator<Item = T>) -> String {
    let items: Vec<T> = items.into_iter().collect();
    format!("[{}]", items.iter().map(AsRef::as_ref).collect::<Vec<_>>().join(","))
}

pub fn strings<T: AsRef<str>>(items: impl IntoIterator<Item = T>) -> String {
    list(items.into_iter().map(|item| string(item.as_ref())))
}

pub fn numbers(items: impl IntoIterator<Item = u32>) -> String {
    list(items.into_iter().map(|item| item.to_string()))
}

pub fn object<T: AsRef<str>>(fields: impl IntoIterator<Item = (T, String)>) -> String {
    let fields: Vec<String> = fields.into_iter().map(|(name, value)| format!("{}:{value}", string(name.as_ref()))).collect();
    format!("{{{}}}", fields.join(","))
}

#[cfg(test)]
mod tests {
    #[test]
    fn nothing_ends_a_script() {
        let said = super::string("</script><!-- \"a\\b\" & 'c'\u{2028}\n\u{7f}");
        assert_eq!(said, "\"\\u003c/script\\u003e\\u003c!-- \\\"a\\\\b\\\" \\u0026 \\u0027c\\u0027\\u2028\\u000a\\u007f\"");
    }
}

//! The version of the machine, as include/tariff.h has it: the papers that have landed, the store's layout, the toolchain that proved it.

const HEADER: &str = include_str!("../../include/tariff.h");

/// What the header defines this word as.
fn defined(word: &str) -> &'static str {
    let behind = |line: &'static str| line.strip_prefix("#define ")?.strip_prefix(word)?.strip_prefix(' ');
    HEADER.lines().find_map(behind).map_or("unknown", |value| value.trim().trim_matches('"'))
}

/// The line that `box --version` prints, which is TARIFF_VERSION in C.
pub fn line() -> String {
    let [papers, layout, toolchain] = ["TARIFF_PAPERS", "TARIFF_LAYOUT", "TARIFF_TOOLCHAIN"].map(defined);
    format!("tariff {papers}, layout {layout}, proved by {toolchain}")
}

#[cfg(test)]
mod tests {
    #[test]
    fn it_is_known() {
        let line = super::line();
        assert!(line.starts_with("tariff ") && !line.contains("unknown"), "{line}");
    }
}

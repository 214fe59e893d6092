//! Pieces of SVG: the ages of rows, arrow heads, the fills of classes, text.

use std::fmt::Write;

/// How a row of the store stands in a picture.
#[derive(Clone, Copy, Debug, PartialEq, Eq)]
pub enum Age {
    Old,
    New,
    Refused,
    /// A row of a chain by which a call clashed, with its number.
    Reason(u16),
    /// The same, where the call itself would have posted it.
    Own(u16),
}

/// The heads of the arrows, one for each age, and the patterns of the classes.
pub fn heads() -> String {
    let mut out = String::from("<defs>\n");
    for age in [Age::Old, Age::New, Age::Refused, Age::Reason(0), Age::Own(0)] {
        let _ = writeln!(
            out,
            "<marker id=\"{}\" viewBox=\"0 0 10 10\" refX=\"9\" refY=\"5\" markerUnits=\"userSpaceOnUse\" markerWidth=\"13\" \
             markerHeight=\"13\" orient=\"auto\"><path d=\"M0 0L10 5L0 10z\" fill=\"{}\"/></marker>",
            age.arrow(),
            age.colour()
        );
    }
    for (place, path) in PATTERNS.iter().enumerate() {
        let _ = writeln!(
            out,
            "<pattern id=\"p{place}\" width=\"12\" height=\"12\" patternUnits=\"userSpaceOnUse\"><path d=\"{path}\" \
             stroke=\"#000\" stroke-opacity=\"0.3\" stroke-width=\"1.4\" fill=\"none\"/></pattern>"
        );
    }
    out + "</defs>\n"
}

impl Age {
    pub fn colour(self) -> &'static str {
        match self {
            Age::Old => "#444",
            Age::New => "#d97706",
            Age::Refused | Age::Own(_) => "#c00",
            Age::Reason(_) => "#7c1fa0",
        }
    }

    /// How its lines are drawn.
    pub fn stroke(self) -> String {
        let (width, dashes) = match self {
            Age::Old => ("1.5", ""),
            Age::New | Age::Reason(_) => ("3", ""),
            Age::Refused | Age::Own(_) => ("3", " stroke-dasharray=\"7 4\""),
        };
        format!("stroke=\"{}\" stroke-width=\"{width}\"{dashes}", self.colour())
    }

    pub fn arrow(self) -> &'static str {
        match self {
            Age::Old => "old",
            Age::New => "new",
            Age::Refused => "refused",
            Age::Reason(_) => "reason",
            Age::Own(_) => "own",
        }
    }
}

/// Eight fills that stay apart for every eye, also for those that don't part red and green, or blue and yellow, and from white and grey.
pub const COLOURS: [&str; 8] = ["#8be3ff", "#f3e362", "#f97486", "#b1fcac", "#649ef3", "#e5b35f", "#b99cc6", "#8fc5ae"];

/// Patterns that lie over a fill where a picture has more classes than colours; the first is none.
pub const PATTERNS: [&str; 8] = [
    "",
    "M0 12L12 0M-2 2L2 -2M10 14L14 10",
    "M0 6H12",
    "M6 0V12",
    "M0 0L12 12M-2 10L2 14M10 -2L14 2",
    "M0 6H12M6 0V12",
    "M6 5V7M5 6H7M0 0H1M0 12H1M12 0H11M12 12H11",
    "M0 12L12 0M0 0L12 12",
];

/// How the boxes of a class are filled: a colour and a pattern over it, together unlike those of any other class of a picture.
#[derive(Clone, Copy, Debug, PartialEq, Eq)]
pub struct Fill {
    pub colour: &'static str,
    /// 0 is none.
    pub pattern: usize,
}

impl Fill {
    /// Of a class that is the so-manieth in its pictures: grey for Object, which is class 0, and for up to 64 others one each.
    pub fn of(class: u16, place: usize) -> Fill {
        if class == 0 {
            return Fill { colour: "#e8e8e8", pattern: 0 };
        }
        Fill { colour: COLOURS[place % COLOURS.len()], pattern: place / COLOURS.len() % PATTERNS.len() }
    }
}

pub fn text(out: &mut String, (x, y): (i64, i64), colour: &str, anchor: &str, said: &str) {
    let _ = writeln!(
        out,
        "<text x=\"{x}\" y=\"{y}\" font-size=\"11\" text-anchor=\"{anchor}\" fill=\"{colour}\">{}</text>",
        escaped(said)
    );
}

/// The words of a line, kept apart from other lines behind them.
pub fn label(out: &mut String, (x, y): (i64, i64), colour: &str, anchor: &str, said: &str) {
    let _ = writeln!(
        out,
        "<text x=\"{x}\" y=\"{y}\" font-size=\"11\" text-anchor=\"{anchor}\" fill=\"{colour}\"{}>{}</text>",
        halo("white"),
        escaped(said)
    );
}

/// Keeps a text apart from what is behind it.
pub fn halo(colour: &str) -> String {
    format!(" stroke=\"{colour}\" stroke-width=\"4\" stroke-linejoin=\"round\" paint-order=\"stroke\"")
}

/// A text of so many characters at most; where it is longer, a title has the whole.
pub fn cut(text: &str, most: usize) -> String {
    let short = clipped(text, most);
    if short == text {
        return escaped(text);
    }
    format!("<title>{}</title>{}", escaped(text), escaped(&short))
}

fn clipped(text: &str, most: usize) -> String {
    if text.chars().count() <= most {
        return text.into();
    }
    text.chars().take(most - 2).chain("..".chars()).collect()
}

pub fn escaped(text: &str) -> String {
    let mut out = String::new();
    for c in text.chars() {
        match c {
            '&' => out.push_str("&amp;"),
            '<' => out.push_str("&lt;"),
            '>' => out.push_str("&gt;"),
            '"' => out.push_str("&quot;"),
            c if c.is_control() => out.push(' '),
            c => out.push(c),
        }
    }
    out
}

#[cfg(test)]
mod tests {
    use super::*;

    /// The channels of a colour as light, from 0 to 1.
    fn light(colour: &str) -> [f64; 3] {
        [1, 3, 5].map(|at| {
            let part = f64::from(u8::from_str_radix(&colour[at..at + 2], 16).expect("a colour")) / 255.0;
            if part <= 0.04045 { part / 12.92 } else { ((part + 0.055) / 1.055).powf(2.4) }
        })
    }

    /// Lightness and two hues as eyes part them (CIELAB).
    fn lab([r, g, b]: [f64; 3]) -> [f64; 3] {
        let f = |t: f64| if t > 0.008856 { t.cbrt() } else { 7.787 * t + 16.0 / 116.0 };
        let x = f((0.4124 * r + 0.3576 * g + 0.1805 * b) / 0.95047);
        let y = f(0.2126 * r + 0.7152 * g + 0.0722 * b);
        let z = f((0.0193 * r + 0.1192 * g + 0.9505 * b) / 1.08883);
        [116.0 * y - 16.0, 500.0 * (x - y), 200.0 * (y - z)]
    }

    /// What eyes see that lack one kind of cone, and those that lack none (Machado, Oliveira and Fernandes 2009, severity 1).
    const EYES: [[[f64; 3]; 3]; 4] = [
        [[1.0, 0.0, 0.0], [0.0, 1.0, 0.0], [0.0, 0.0, 1.0]],
        [[0.152286, 1.052583, -0.204868], [0.114503, 0.786281, 0.099216], [-0.003882, -0.048116, 1.051998]],
        [[0.367322, 0.860646, -0.227968], [0.280085, 0.672501, 0.047413], [-0.01182, 0.04294, 0.968881]],
        [[1.255528, -0.076749, -0.178779], [-0.078411, 0.930809, 0.147602], [0.004733, 0.691367, 0.3039]],
    ];

    fn seen(eye: &[[f64; 3]; 3], colour: &str) -> [f64; 3] {
        let light = light(colour);
        lab(eye.map(|row| row.iter().zip(light).map(|(a, b)| a * b).sum::<f64>().clamp(0.0, 1.0)))
    }

    #[test]
    fn colours_stay_apart_for_every_eye() {
        let all: Vec<&str> = COLOURS.into_iter().chain(["#e8e8e8", "#ffffff"]).collect();
        for eye in &EYES {
            for (place, one) in all.iter().enumerate().filter(|(place, _)| *place < COLOURS.len()) {
                for other in &all[place + 1..] {
                    let far = seen(eye, one).iter().zip(seen(eye, other)).map(|(a, b)| (a - b) * (a - b)).sum::<f64>().sqrt();
                    assert!(far > 15.0, "{one} and {other}: {far}");
                }
            }
        }
    }

    #[test]
    fn each_class_has_a_fill_of_its_own() {
        let fills: Vec<Fill> = (0..64).map(|place| Fill::of(1, place)).collect();
        for (place, fill) in fills.iter().enumerate() {
            assert!(!fills[place + 1..].contains(fill), "{fill:?}");
        }
    }
}

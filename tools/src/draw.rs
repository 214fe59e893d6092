//! Constraints and loaded requests as a picture, written by hand as SVG: a column for each loader, a row for each name.
//! A tie between columns that aren't neighbours goes above its row, in a lane of its own.

use std::fmt::Write;

use reference::agree::Constraint;
use reference::broken::unbroken;
use reference::store::count;
use reference::Store;

use crate::names::Names;
use crate::svg::{cut, escaped, halo, heads, label, text, Age, Fill};
use crate::tried::Tried;
use crate::why::Why;

const MOST_PICTURES: usize = 60;
const BOX: (i64, i64) = (172, 40);
const STEP: (i64, i64) = (262, 76);
const LEFT: i64 = 76;
const TOP: i64 = 96;
/// How far the lanes of ties above a row stand apart.
const LANE: i64 = 20;
/// How many characters of a name and of a title are shown.
const NAME: usize = 19;
const TITLE: usize = 100;

/// One picture: the store after a call that changed it, or that was refused for a clash.
struct Picture {
    title: String,
    entries: Vec<Entry>,
    ties: Vec<([u16; 3], Age)>,
    subtypes: Vec<([u16; 3], Age)>,
}

/// A request that is loaded, or would be: loader, name and class, and the loader that defined the class.
#[derive(Clone, Copy)]
struct Entry {
    row: [u16; 3],
    age: Age,
    definer: u16,
}

/// The pictures of a lesson, one below the other.
#[derive(Default)]
pub struct Strip {
    pictures: Vec<Picture>,
    left_out: usize,
    names: Names,
}

impl Strip {
    pub fn count(&self) -> usize {
        self.pictures.len()
    }

    /// Adds a picture, if the call changed the cache or a constraint or would have.
    pub fn add(&mut self, title: &str, before: &Store, after: &Store, tried: Tried, names: &Names) {
        if unbroken(before).is_none() || unbroken(after).is_none() {
            return;
        }
        let rows = aged(before.cache_rows(), after.cache_rows(), tried.entry);
        // a class that isn't there yet would be of the loader that asks for it
        let definer = |[loader, _, class]: Row| match usize::from(class) < after.count(count::CLASSES) {
            true => after.loader_of(class),
            false => loader,
        };
        let entries: Vec<Entry> = rows.into_iter().map(|(row, age)| Entry { row, age, definer: definer(row) }).collect();
        let ties = aged(before.tie_rows(), after.tie_rows(), tried.ties);
        let subtypes = aged(before.subtype_rows(), after.subtype_rows(), tried.subtypes);
        let is_old = entries.iter().all(|entry| entry.age == Age::Old);
        if is_old && [&ties, &subtypes].iter().all(|rows| rows.iter().all(|row| row.1 == Age::Old)) {
            return;
        }
        self.names = names.clone();
        if self.pictures.len() < MOST_PICTURES {
            self.pictures.push(Picture { title: title.into(), entries, ties, subtypes });
        } else {
            self.left_out += 1;
        }
    }

    /// Adds a picture of a chain by which a load clashed: its requests and its rows, with their numbers.
    pub fn add_reason(&mut self, title: &str, why: &Why, names: &Names) {
        let mut picture = Picture { title: title.into(), entries: Vec::new(), ties: Vec::new(), subtypes: Vec::new() };
        for &(request, class) in &why.requests {
            let age = if why.is_newcomer(request) { Age::Refused } else { Age::Old };
            picture.entries.extend(class.map(|class| Entry { row: [request.0, request.1, class], age, definer: why.definer(class) }));
        }
        for &(row, constraint) in &why.rows {
            let age = if why.is_own(row) { Age::Own(row) } else { Age::Reason(row) };
            match constraint {
                Constraint::Tie(cells) => picture.ties.push((cells, age)),
                Constraint::Subtype(cells) => picture.subtypes.push((cells, age)),
            }
        }
        self.names = names.clone();
        if self.pictures.len() < MOST_PICTURES {
            self.pictures.push(picture);
        } else {
            self.left_out += 1;
        }
    }

    /// The classes of all pictures, but for Object, in the order in which they first appear.
    fn classes(&self) -> Vec<u16> {
        let mut all: Vec<u16> = Vec::new();
        for entry in self.pictures.iter().flat_map(|picture| &picture.entries) {
            let class = entry.row[2];
            if class != 0 && entry.age != Age::Refused && !all.contains(&class) {
                all.push(class);
            }
        }
        all
    }

    /// Is a chain drawn in any picture?
    fn has_reasons(&self) -> bool {
        let rows = self.pictures.iter().flat_map(|picture| picture.ties.iter().chain(&picture.subtypes));
        rows.into_iter().any(|row| matches!(row.1, Age::Reason(_) | Age::Own(_)))
    }

    pub fn svg(&self) -> String {
        let width = self.pictures.iter().map(Picture::width).max().unwrap_or(0).max(760);
        let height: i64 = self.pictures.iter().map(Picture::height).sum::<i64>() + 108;
        let mut out = format!(
            "<svg xmlns=\"http://www.w3.org/2000/svg\" width=\"{width}\" height=\"{height}\" viewBox=\"0 0 {width} {height}\" \
             font-family=\"sans-serif\" font-size=\"13\">\n<rect width=\"{width}\" height=\"{height}\" fill=\"white\"/>\n{}",
            heads()
        );
        let mut y = 0;
        for (place, picture) in self.pictures.iter().enumerate() {
            let _ = writeln!(out, "<g transform=\"translate(0 {y})\">");
            picture.draw(place + 1, width, &self.names, &self.classes(), &mut out);
            out.push_str("</g>\n");
            y += picture.height();
        }
        if self.left_out > 0 {
            text(&mut out, (LEFT, y + 20), "#b00", "start", &format!("{} more pictures are left out", self.left_out));
        }
        legend(&mut out, y + 40, self.has_reasons());
        out + "</svg>\n"
    }
}

type Row = [u16; 3];

fn aged(
    before: impl Iterator<Item = Row>,
    after: impl Iterator<Item = Row>,
    tried: impl IntoIterator<Item = Row>,
) -> Vec<(Row, Age)> {
    let before: Vec<Row> = before.collect();
    let age = |row: &Row| if before.contains(row) { Age::Old } else { Age::New };
    let after = after.map(|row| (row, age(&row)));
    after.chain(tried.into_iter().map(|row| (row, Age::Refused))).collect()
}

impl Picture {
    /// Every request that is loaded or that a constraint names.
    fn requests(&self) -> Vec<(u16, u16)> {
        let mut all: Vec<(u16, u16)> = self.entries.iter().map(|entry| (entry.row[0], entry.row[1])).collect();
        all.extend(self.ties.iter().flat_map(|&([one, other, name], _)| [(one, name), (other, name)]));
        all.extend(self.subtypes.iter().flat_map(|&([loader, low, high], _)| [(loader, high), (loader, low)]));
        let mut once = Vec::new();
        for request in all {
            if !once.contains(&request) {
                once.push(request);
            }
        }
        once
    }

    fn loaders(&self) -> Vec<u16> {
        let mut loaders: Vec<u16> = self.requests().into_iter().map(|request| request.0).collect();
        loaders.sort_unstable();
        loaders.dedup();
        loaders
    }

    /// Names from the top: what a subtype constraint puts above stands above, else in the order of the store.
    fn rows(&self) -> Vec<u16> {
        let mut names: Vec<u16> = Vec::new();
        for (_, name) in self.requests() {
            if !names.contains(&name) {
                names.push(name);
            }
        }
        for _ in 0..names.len() {
            for &([_, low, high], _) in &self.subtypes {
                let place = |name: u16| names.iter().position(|&other| other == name);
                if let (Some(low), Some(high)) = (place(low), place(high)) {
                    if low < high {
                        names[low..=high].rotate_right(1);
                    }
                }
            }
        }
        names
    }

    fn width(&self) -> i64 {
        LEFT * 2 + STEP.0 * self.loaders().len() as i64
    }

    fn height(&self) -> i64 {
        self.grid().height()
    }

    fn grid(&self) -> Grid {
        Grid::new(self.loaders(), self.rows(), &self.ties)
    }

    fn draw(&self, number: usize, width: i64, names: &Names, classes: &[u16], out: &mut String) {
        let grid = self.grid();
        let _ = writeln!(out, "<line x1=\"0\" y1=\"4\" x2=\"{width}\" y2=\"4\" stroke=\"#ddd\"/>");
        let title = cut(&format!("{number}. {}", self.title), TITLE);
        let colour = if self.is_refused() { "#c00" } else { "#111" };
        let _ = writeln!(out, "<text x=\"{LEFT}\" y=\"34\" font-size=\"16\" fill=\"{colour}\">{title}</text>");
        for &loader in &grid.loaders {
            text(out, (grid.x(loader) + BOX.0 / 2, 66), "#555", "middle", &names.loader(loader));
        }
        for &(row, age) in &self.ties {
            grid.tie(row, age, out);
        }
        for (place, &(row, age)) in self.subtypes.iter().enumerate() {
            let before = self.subtypes[..place].iter().filter(|other| other.0[0] == row[0] && grid.is_beside(other.0)).count();
            grid.subtype(row, age, before as i64, out);
        }
        for (loader, name) in self.requests() {
            self.request(&grid, (loader, name), names, classes, out);
        }
    }

    fn is_refused(&self) -> bool {
        self.entries.iter().any(|entry| entry.age == Age::Refused)
            || [&self.ties, &self.subtypes].iter().any(|rows| rows.iter().any(|row| row.1 == Age::Refused))
    }

    fn request(&self, grid: &Grid, (loader, name): (u16, u16), names: &Names, classes: &[u16], out: &mut String) {
        let (x, y) = (grid.x(loader), grid.y(name));
        let entry = self.entries.iter().find(|entry| (entry.row[0], entry.row[1]) == (loader, name));
        let white = Fill { colour: "white", pattern: 0 };
        let (fill, stroke, below) = match entry {
            None => (white, "stroke=\"#888\" stroke-width=\"1.2\" stroke-dasharray=\"3 3\"".to_string(), "not loaded".to_string()),
            Some(&Entry { row: [_, _, class], age, definer }) => {
                let of = format!("class {class} of {}", names.loader(definer));
                let place = classes.iter().position(|&other| other == class).unwrap_or(0);
                match age {
                    Age::Refused => (white, age.stroke(), format!("{of}? refused")),
                    Age::New => (Fill::of(class, place), age.stroke(), format!("{of}, new")),
                    _ => (Fill::of(class, place), age.stroke(), of),
                }
            }
        };
        let (wide, high) = BOX;
        let written = names.class(name);
        let under = escaped(&names.loader(loader));
        let below = escaped(&below);
        let _ = writeln!(out, "<g><title>{} under {under}: {below}</title>", escaped(&written));
        let shape = format!("x=\"{x}\" y=\"{y}\" width=\"{wide}\" height=\"{high}\" rx=\"7\"");
        let _ = writeln!(out, "<rect {shape} fill=\"{}\" {stroke}/>", fill.colour);
        if fill.pattern > 0 {
            let _ = writeln!(out, "<rect {shape} fill=\"url(#p{})\"/>", fill.pattern);
        }
        let (middle, halo) = (x + wide / 2, if fill.pattern > 0 { halo(fill.colour) } else { String::new() });
        let bold = cut(&written, NAME);
        let _ = writeln!(out, "<text x=\"{middle}\" y=\"{}\" text-anchor=\"middle\" font-weight=\"bold\"{halo}>{bold}</text>", y + 17);
        let _ = writeln!(out, "<text x=\"{middle}\" y=\"{}\" font-size=\"11\" text-anchor=\"middle\"{halo}>{below}</text>", y + 33);
        out.push_str("</g>\n");
    }
}

/// Where requests stand, and the ties above their rows.
struct Grid {
    loaders: Vec<u16>,
    rows: Vec<u16>,
    /// The ties that go above their row, the shortest first, each with its lane.
    arcs: Vec<(Row, i64)>,
}

impl Grid {
    fn new(loaders: Vec<u16>, rows: Vec<u16>, ties: &[(Row, Age)]) -> Grid {
        let mut grid = Grid { loaders, rows, arcs: Vec::new() };
        let mut far: Vec<Row> = ties.iter().map(|tie| tie.0).filter(|&row| grid.length(row) > 1).collect();
        far.sort_by_key(|&row| grid.length(row));
        for row in far {
            let lane = (0..).find(|&lane| !grid.arcs.iter().any(|&(other, at)| at == lane && grid.do_meet(row, other)));
            grid.arcs.push((row, lane.unwrap_or(0)));
        }
        grid
    }

    fn column(&self, loader: u16) -> i64 {
        self.loaders.iter().position(|&other| other == loader).unwrap_or(0) as i64
    }

    fn row(&self, name: u16) -> i64 {
        self.rows.iter().position(|&other| other == name).unwrap_or(0) as i64
    }

    /// The columns of a tie, the left one first.
    fn columns(&self, [one, other, _]: Row) -> (i64, i64) {
        let (one, other) = (self.column(one), self.column(other));
        (one.min(other), one.max(other))
    }

    /// How many columns a tie goes over.
    fn length(&self, row: Row) -> i64 {
        let (left, right) = self.columns(row);
        right - left
    }

    /// Would two ties of one name run into each other in one lane?
    fn do_meet(&self, row: Row, other: Row) -> bool {
        let ((a, b), (c, d)) = (self.columns(row), self.columns(other));
        row[2] == other[2] && a <= d && c <= b
    }

    /// How many lanes stand above a name's row.
    fn lanes(&self, name: u16) -> i64 {
        self.arcs.iter().filter(|(row, _)| row[2] == name).map(|&(_, lane)| lane + 1).max().unwrap_or(0)
    }

    fn x(&self, loader: u16) -> i64 {
        LEFT + STEP.0 * self.column(loader)
    }

    /// The top of a name's boxes.
    fn y(&self, name: u16) -> i64 {
        let above = self.rows.iter().take(self.row(name) as usize + 1);
        TOP - 10 + STEP.1 * self.row(name) + above.map(|&name| LANE * self.lanes(name)).sum::<i64>()
    }

    fn height(&self) -> i64 {
        TOP + STEP.1 * self.rows.len() as i64 + self.rows.iter().map(|&name| LANE * self.lanes(name)).sum::<i64>()
    }

    /// Where a tie above its row ends at the top of a box: those to the left stand left, and none crosses another.
    fn end(&self, row: Row, loader: u16) -> i64 {
        let here = self.column(loader);
        let side = |other: Row| {
            let (left, right) = self.columns(other);
            if right == here { right - left } else { 1_000 - (right - left) }
        };
        let mut all: Vec<Row> = self.arcs.iter().map(|arc| arc.0).filter(|other| other[2] == row[2]).collect();
        all.retain(|other| other[..2].contains(&loader));
        all.sort_by_key(|&other| side(other));
        let place = all.iter().position(|&other| other == row).unwrap_or(0) as i64;
        self.x(loader) + BOX.0 * (place + 1) / (all.len() as i64 + 1)
    }

    /// A tie joins one name under two loaders: a line between neighbours, else a way above the columns between.
    fn tie(&self, row: Row, age: Age, out: &mut String) {
        let [one, other, name] = row;
        let (left, right) = if self.column(one) <= self.column(other) { (one, other) } else { (other, one) };
        let (begin, end, top) = (self.x(left), self.x(right), self.y(name));
        let lane = self.arcs.iter().find(|arc| arc.0 == row).map(|arc| arc.1);
        let (path, at) = match lane {
            None => {
                let y = top + BOX.1 / 2;
                (format!("M{} {y}H{end}", begin + BOX.0), ((begin + end + BOX.0) / 2, y - 5))
            }
            Some(lane) => {
                let (from, to, y) = (self.end(row, left), self.end(row, right), top - 14 - LANE * lane);
                let path = format!("M{from} {top}V{}Q{from} {y} {} {y}H{}Q{to} {y} {to} {}V{top}", y + 6, from + 6, to - 6, y + 6);
                (path, ((from + to) / 2, y - 4))
            }
        };
        let _ = writeln!(out, "<path d=\"{path}\" fill=\"none\" {}/>", age.stroke());
        label(out, at, age.colour(), "middle", &said(age, "tie"));
    }

    /// Does a subtype constraint go beside the names between its own?
    fn is_beside(&self, [_, low, high]: Row) -> bool {
        self.row(low) - self.row(high) != 1
    }

    /// A subtype constraint goes up within a loader, beside the names between and the others that go there.
    fn subtype(&self, row: Row, age: Age, before: i64, out: &mut String) {
        let [loader, low, high] = row;
        let middle = self.x(loader) + BOX.0 / 2;
        let (from, to) = (self.y(low), self.y(high));
        let is_beside = self.is_beside(row);
        let (path, at) = if is_beside {
            let (x, y1, y2) = (self.x(loader), from + BOX.1 / 2 + 4 * (before % 4), to + BOX.1 / 2 - 4 * (before % 4));
            let out = x - 30 - 14 * (before % 4);
            (format!("M{x} {y1}C{out} {y1} {out} {y2} {x} {y2}"), (x - 10 - 8 * (before % 4), (y1 + y2) / 2 + 4 - 13 * (before % 4)))
        } else {
            (format!("M{middle} {from}L{middle} {}", to + BOX.1), (middle + 6, to + BOX.1 + 20))
        };
        let _ = writeln!(out, "<path d=\"{path}\" fill=\"none\" {} marker-end=\"url(#{})\"/>", age.stroke(), age.arrow());
        label(out, at, age.colour(), if is_beside { "end" } else { "start" }, &said(age, "below"));
    }
}

fn said(age: Age, what: &str) -> String {
    match age {
        Age::Old => what.into(),
        Age::New => format!("{what}, new"),
        Age::Refused => format!("{what}? refused"),
        Age::Reason(row) => format!("{what}, row {row}"),
        Age::Own(row) => format!("{what}, row {row}, its own"),
    }
}

fn legend(out: &mut String, y: i64, has_reasons: bool) {
    let last = if has_reasons {
        "Purple rows are the chain by which a call clashed, with their numbers. Red dashes are what the call would have added."
    } else {
        "Orange is new since the last call. Red dashes are what a refused call would have added."
    };
    let lines = [
        "A box is a request: a loader and a name. It says its class and the loader that defined that. A dashed box isn't loaded.",
        "Boxes of one colour and pattern mean one class.",
        "A line is a tie. An arrow is a subtype constraint and goes from the lower name to the higher.",
        last,
    ];
    for (place, line) in lines.iter().enumerate() {
        text(out, (LEFT, y + 18 * place as i64), "#555", "start", line);
    }
}

#[cfg(test)]
mod tests {
    use super::*;

    /// A star: loader 1 is tied to each of the others on one name, and two others to each other.
    fn star() -> Picture {
        let tie = |one: u16, other: u16| ([one, other, 12], Age::Old);
        let ties = vec![tie(1, 2), tie(1, 3), tie(1, 4), tie(5, 1), tie(2, 4), tie(3, 5)];
        Picture { title: "a star".into(), entries: Vec::new(), ties, subtypes: Vec::new() }
    }

    /// The numbers of a path.
    fn numbers(path: &str) -> Vec<i64> {
        path.split(|c: char| !c.is_ascii_digit() && c != '-').filter_map(|part| part.parse().ok()).collect()
    }

    #[test]
    fn ties_have_ways_of_their_own_below_the_headings() {
        let (picture, mut out) = (star(), String::new());
        let grid = picture.grid();
        picture.ties.iter().for_each(|&(row, age)| grid.tie(row, age, &mut out));
        let paths: Vec<Vec<i64>> = out.lines().filter_map(|line| line.strip_prefix("<path d=\"")?.split('"').next().map(numbers)).collect();
        assert_eq!(paths.len(), picture.ties.len());
        // a way above its row: from, top, the lane's y four times, to
        let arcs: Vec<&Vec<i64>> = paths.iter().filter(|path| path.len() > 4).collect();
        assert_eq!(arcs.len(), 5);
        for (place, arc) in arcs.iter().enumerate() {
            let (lane, [left, right]) = (arc[4], [arc[0], arc[8]]);
            assert!(lane - 15 > 66, "a tie crosses the headings: {arc:?}");
            for other in &arcs[place + 1..] {
                let is_apart = other[4] != lane || right < other[0] || other[8] < left;
                assert!(is_apart, "two ties run into each other: {arc:?} {other:?}");
                assert!(![other[0], other[8]].iter().any(|end| [left, right].contains(end)), "two ties end in one place: {arc:?} {other:?}");
            }
        }
        assert!(grid.height() >= grid.y(12) + BOX.1);
    }

    #[test]
    fn long_names_have_a_title() {
        let long = "AVeryLongNameOfAClassThatNobodyWouldWrite";
        let mut names = Names::default();
        names.declare(long, 12).expect("a free name");
        let mut out = String::new();
        star().draw(1, 900, &names, &[], &mut out);
        assert!(out.contains(&format!("<title>{long}</title>AVeryLong")), "{out}");
    }
}

//! A lesson: names, class texts, and calls in words, each perhaps with the answer that is expected.

use reference::gen::Call;
use reference::store::{LENGTHS, LOADERS, OBJECT, TABLES};

use crate::cursor::{Cursor, Parsed};
use crate::expect::Expected;
use crate::java::translate::Made;
use crate::names::{Names, Taken};
use crate::old::NO_CALL;
use crate::source::{Problem, Problems, Source, Span};
use crate::text::{self, Text};
use crate::tokens::Kind;
use crate::words;

#[derive(Default)]
pub struct Lesson {
    pub names: Names,
    pub texts: Vec<Text>,
    pub acts: Vec<Act>,
    /// May a page ask what the machine will say?
    pub quiz: Quiz,
    /// Machines with a mistake, of the second implementation, whose answers a page shows beside the machine's.
    pub mistakes: Vec<&'static str>,
}

/// At which calls a page asks.
#[derive(Clone, Copy, Debug, Default, PartialEq, Eq)]
pub enum Quiz {
    #[default]
    All,
    /// Those with the word `ask` before them.
    Marked,
    Off,
}

pub enum Act {
    /// Words for the reader.
    Say(String),
    Do(Doing),
    Repeat {
        times: u32,
        acts: Vec<Act>,
    },
    /// Calls in one of several orders; what follows begins from the store before them.
    Order {
        called: String,
        acts: Vec<Act>,
    },
}

impl Lesson {
    /// All that is done, a round of a repeat once, with those of the orders.
    pub fn doings(&self) -> Vec<&Doing> {
        let mut all = Vec::new();
        gather(&self.acts, &mut all);
        all
    }
}

/// The calls of these acts, in order.
pub fn gather<'a>(acts: &'a [Act], all: &mut Vec<&'a Doing>) {
    for act in acts {
        match act {
            Act::Say(_) => {}
            Act::Do(doing) => all.push(doing),
            Act::Repeat { acts, .. } | Act::Order { acts, .. } => gather(acts, all),
        }
    }
}

pub struct Doing {
    pub what: What,
    /// The call as it is shown.
    pub said: String,
    pub span: Span,
    pub expected: Vec<Expected>,
    /// Was it marked by the word `ask`?
    pub asked: bool,
}

pub enum What {
    Call(Call),
    /// Record of the class that another loader's cache has for the name.
    RecordOf {
        loader: u32,
        name: u16,
        of: u32,
    },
    /// A cell of a table is overwritten.
    Damage {
        table: usize,
        cell: usize,
        value: u32,
    },
    /// A load is offered, and not made.
    Offer(Box<What>),
    /// By which of the offered loads would the request be cached?
    How {
        loader: u32,
        name: u16,
    },
    /// The same by the old machine, on the old store.
    Old(Box<What>),
    /// Today's tables are filled from the old store.
    ChangeOver,
}

const MOST_ROUNDS: i64 = 1_000;

/// A statement that makes a call: its first word, how it is written, how the rest is read.
type Statement = (&'static str, &'static str, fn(&mut Reader) -> Parsed<What>);

/// Every call has its words here.
const STATEMENTS: [Statement; 14] = [
    ("boot", "boot", |_| Ok(What::Call(Call::Boot))),
    ("loader", "loader 1 defines Discount, or loader 2 records Discount as 3", |reader| reader.loader()),
    ("quote", "quote starts 1 Policy.rate 7", |reader| reader.starts(0)),
    ("report", "report starts 1 Policy.rate 7", |reader| reader.starts(1)),
    ("task", "task 2 starts 1 Policy.rate 7", |reader| reader.any_task()),
    ("step", "step", |_| Ok(What::Call(Call::Step))),
    ("run", "run 100", |reader| reader.run()),
    ("drop", "drop quote", |reader| reader.drop()),
    ("sweep", "sweep", |_| Ok(What::Call(Call::Sweep))),
    ("take", "take back", |reader| reader.at.keyword("back").map(|_| What::Call(Call::TakeBack))),
    ("change", "change over", |reader| reader.at.keyword("over").map(|_| What::ChangeOver)),
    ("damage", "damage counts 5 300", |reader| reader.damage()),
    ("offer", "offer loader 1 defines Discount", |reader| reader.offer()),
    ("how", "how 1 Discount", |reader| reader.how()),
];

/// What stands in a text besides calls. Those that aren't allowed among the calls of a repeat or an order come first.
const OTHERS: [&str; 12] = ["name", "insurer", "class", "file", "java", "quiz", "mistake", "order", "old", "repeat", "ready", "ask"];
const DECLARING: usize = 7;
const EXPECT: &str = "expect";

/// What the calls stand in that are being read.
#[derive(Clone, Copy, PartialEq, Eq)]
enum Within {
    Lesson,
    Order,
    Old,
    Repeat,
}

/// Every word that begins something: none of them is an insurer's.
pub fn keywords() -> impl Iterator<Item = &'static str> {
    STATEMENTS.iter().map(|statement| statement.0).chain(OTHERS).chain([EXPECT])
}

/// Makes class texts of Java files, by the names of the lesson, which gets new ones.
pub type Javas<'a> = &'a mut dyn FnMut(&[String], &mut Names) -> Result<Vec<Made>, String>;

impl Lesson {
    /// Reads a lesson without Java files.
    pub fn read(source: &Source) -> Result<Lesson, Problems> {
        Lesson::read_with(source, &mut |_, _| Err("Java files are compiled by ./box alone".into()))
    }

    /// Reads a text to its end; the problems of all its statements, if it has any.
    pub fn read_with(source: &Source, javas: Javas) -> Result<Lesson, Problems> {
        let mut reader = Reader { at: Cursor::new(source), lesson: Lesson::default(), javas };
        let given = reader.at.given_numbers();
        reader.at.names.keep(given);
        while !reader.at.is_end() {
            let from = reader.at.mark();
            match reader.statement(Within::Lesson) {
                Ok(act) => reader.lesson.acts.extend(act),
                Err(problem) => {
                    reader.at.note(problem);
                    if text::is_begun(&reader.at, from, &["class"]) {
                        continue;
                    }
                    reader.at.skip(from, true, |_| false);
                    // a brace that closes nothing
                    if reader.at.has_sign('}') {
                        reader.at.take();
                    }
                }
            }
        }
        match reader.at.problems() {
            problems if !problems.is_empty() => Err(Problems(problems)),
            _ => {
                reader.lesson.names = reader.at.names;
                Ok(reader.lesson)
            }
        }
    }
}

struct Reader<'a, 'j> {
    at: Cursor<'a>,
    lesson: Lesson,
    javas: Javas<'j>,
}

impl Reader<'_, '_> {
    /// The next statement; a declaration is no act. A round of a repeat has calls and words alone, an order has repeats too.
    fn statement(&mut self, within: Within) -> Parsed<Vec<Act>> {
        if let Kind::Said(said) = &self.at.peek().kind {
            let said = said.clone();
            self.at.take();
            return Ok(vec![Act::Say(said)]);
        }
        let Some(word) = self.at.word() else {
            return Err(self.at.here(if within == Within::Lesson { "a statement" } else { "a call or '}'" }));
        };
        let is_declaration = OTHERS[..DECLARING].contains(&word);
        match word {
            _ if within != Within::Lesson && (is_declaration || ["order", "old"].contains(&word)) => Err(self.at.here("a call or '}'")),
            "repeat" if within == Within::Repeat => Err(self.at.here("a call or '}'")),
            _ if is_declaration => self.declaration(word).map(|()| Vec::new()),
            "repeat" => self.repeat().map(|act| vec![act]),
            "order" => self.order().map(|act| vec![act]),
            "old" => self.old(),
            "ready" => self.ready(),
            EXPECT => Err(Problem::new(self.at.peek().span, "expect stands behind a call, and there is none")),
            _ => self.doing(word).map(|doing| vec![Act::Do(doing)]),
        }
    }

    fn declaration(&mut self, word: &str) -> Parsed<()> {
        self.at.take();
        match word {
            "name" => self.name(),
            "insurer" => self.insurer(),
            "quiz" => self.quiz(),
            "mistake" => self.mistake(),
            "java" => self.java(),
            "class" => text::class(&mut self.at).and_then(|text| self.add(text)),
            _ => text::file(&mut self.at).and_then(|text| self.add(text)),
        }
    }

    /// `java FILE.. [as WORD]`: the texts of the files' classes; the word is for the class of the first file's name.
    fn java(&mut self) -> Parsed<()> {
        let begin = self.at.last().span;
        let mut files: Vec<String> = Vec::new();
        let mut end = begin.end;
        while self.at.goes_on() && self.at.word() != Some("as") {
            let (span, part) = (self.at.peek().span, self.at.text());
            match files.last_mut() {
                Some(last) if span.start == end => last.push_str(part),
                _ => files.push(part.into()),
            }
            end = self.at.take().end;
        }
        let span = begin.to(self.at.last().span);
        if files.is_empty() {
            return Err(self.at.expected("a Java file").help("as in: java Discount.java"));
        }
        let called = if self.at.took("as") { Some(self.at.fresh("what the text is called")?.0) } else { None };
        self.at.line_ends("the Java files")?;
        let made = (self.javas)(&files, &mut self.at.names).map_err(|said| Problem::new(span, said))?;
        let first = files[0].rsplit('/').next().and_then(|name| name.strip_suffix(".java")).unwrap_or("").to_string();
        for Made { called: own, bytes, lines } in made {
            let called = called.filter(|_| own == first).map_or(own, str::to_string);
            self.add(Text::made(called, span, bytes, lines))?;
        }
        Ok(())
    }

    fn add(&mut self, text: Text) -> Parsed<()> {
        if let Some(there) = self.lesson.texts.iter().find(|there| there.called == text.called) {
            let line = self.at.source.place(there.span.start).0;
            let problem = Problem::new(text.span, format!("line {line} has a text called {} already", text.called));
            return Err(problem.help("call one of them something else: class Discount extends Object as OtherDiscount { .. }"));
        }
        self.lesson.texts.push(text);
        Ok(())
    }

    /// `name WORD NUMBER`, or `name WORD..`, each of which gets a number that no other has.
    fn name(&mut self) -> Parsed<()> {
        let (word, span) = self.at.fresh("a name")?;
        if self.at.has_number() || !(self.at.goes_on() && self.at.word().is_some()) && self.at.goes_on() {
            let number = self.at.number("the name's number", 1, 65_535)? as u16;
            self.declare(word, span, number, self.at.last().span)?;
            return self.at.line_ends("a name");
        }
        self.number_itself(word, span)?;
        while self.at.goes_on() && self.at.word().is_some() {
            let (word, span) = self.at.fresh("a name")?;
            self.number_itself(word, span)?;
        }
        let behind = if self.at.has_number() { "several names, which number themselves" } else { "names" };
        self.at.line_ends(behind)
    }

    /// A name without a number of its own.
    fn number_itself(&mut self, word: &str, span: Span) -> Parsed<()> {
        let number = self.at.names.free().ok_or_else(|| Problem::new(span, "there is no number left for a name"))?;
        self.declare(word, span, number, span)
    }

    fn declare(&mut self, word: &str, span: Span, number: u16, at: Span) -> Parsed<()> {
        self.at.names.declare(word, number).map_err(|taken| match taken {
            Taken::Name(there) => Problem::new(span, format!("{word} is declared already, as {there}")),
            Taken::Number(there) => Problem::new(at, format!("{number} is {there} already")),
            Taken::Word => Problem::new(span, format!("{word} is an insurer already")),
        })
    }

    /// `insurer WORD [LOADER]`: the loader's name; without a number the lowest loader from 1 on that has none.
    fn insurer(&mut self) -> Parsed<()> {
        let (word, span) = self.at.fresh("the insurer's name")?;
        if let Some(word) = keywords().find(|keyword| *keyword == word) {
            return Err(Problem::new(span, format!("{word} begins a statement, so it names no insurer")));
        }
        let loader = match self.at.goes_on() {
            true => self.at.number("the insurer's loader", 0, i64::from(LOADERS) - 1)? as u16,
            false => self.at.names.free_loader().ok_or_else(|| Problem::new(span, "every loader from 1 to 15 has its insurer"))?,
        };
        self.at.names.insure(word, loader).map_err(|taken| match taken {
            Taken::Name(there) => Problem::new(span, format!("{word} is loader {there} already")),
            Taken::Number(there) => Problem::new(self.at.last().span, format!("loader {loader} is {there} already")),
            Taken::Word => Problem::new(span, format!("{word} is a name already")),
        })?;
        self.at.line_ends("an insurer")
    }

    /// `quiz off`: a page of the lesson asks nothing.
    fn quiz(&mut self) -> Parsed<()> {
        self.at.keyword("off").map_err(|problem| problem.or_help("as in: quiz off"))?;
        self.lesson.quiz = Quiz::Off;
        self.at.line_ends("quiz off")
    }

    /// `mistake NAME`: a machine of the second implementation with this fault.
    fn mistake(&mut self) -> Parsed<()> {
        let begin = self.at.peek().span;
        if !self.at.goes_on() {
            return Err(self.at.expected("what a machine does wrongly").help("as in: mistake compares-by-name"));
        }
        while self.at.goes_on() {
            self.at.take();
        }
        let span = begin.to(self.at.last().span);
        let written = self.at.source.of(span);
        let known = || faulty::faults::names();
        let Some(fault) = known().find(|name| *name == written) else {
            return Err(Problem::new(span, "the second implementation has no machine with this fault").near(written, known()));
        };
        self.lesson.mistakes.push(fault);
        Ok(())
    }

    /// `ready LOADER..`: each of the loaders records Object as class 0.
    fn ready(&mut self) -> Parsed<Vec<Act>> {
        let begin = self.at.take();
        let mut acts = Vec::new();
        while self.at.goes_on() && !self.at.has_sign('}') || acts.is_empty() {
            let loader = self.at.loader().map_err(|problem| problem.or_help("as in: ready 1 2 3"))?;
            let call = Call::Record { loader, name: OBJECT.into(), class: 0 };
            let (said, span) = (words::call(&call, &self.at.names), begin.to(self.at.last().span));
            acts.push(Act::Do(Doing { what: What::Call(call), said, span, expected: Vec::new(), asked: false }));
        }
        Ok(acts)
    }

    /// `order WORD { calls }`. A second order has the calls of the first.
    fn order(&mut self) -> Parsed<Act> {
        self.at.take();
        let (called, span) = self.at.fresh("what the order is called").map_err(|problem| problem.help("as in: order A { .. }"))?;
        let acts = self.braced(Within::Order)?;
        let earlier = self.lesson.acts.iter().rev().map_while(|act| match act {
            Act::Order { called, acts } => Some(Some((called, acts))),
            Act::Say(_) => Some(None),
            _ => None,
        });
        for (other, theirs) in earlier.flatten() {
            if other == called {
                return Err(Problem::new(span, format!("there is an order {called} already")));
            }
            if let Some(said) = differs(theirs, &acts) {
                let said = format!("orders {other} and {called} have the same calls, each as often, and they differ in: {said}");
                return Err(Problem::new(span, said));
            }
        }
        Ok(Act::Order { called: called.into(), acts })
    }

    /// `old { calls }`: each is one of the old machine's.
    fn old(&mut self) -> Parsed<Vec<Act>> {
        self.at.take();
        self.braced(Within::Old).map_err(|problem| problem.or_help("as in: old { .. }"))?.into_iter().map(of_old).collect()
    }

    fn repeat(&mut self) -> Parsed<Act> {
        self.at.take();
        let times = self.at.number("how often", 1, MOST_ROUNDS)? as u32;
        Ok(Act::Repeat { times, acts: self.braced(Within::Repeat)? })
    }

    /// `{ calls }`
    fn braced(&mut self, within: Within) -> Parsed<Vec<Act>> {
        self.at.sign('{')?;
        let mut acts = Vec::new();
        while !self.at.has_sign('}') {
            let from = self.at.mark();
            match self.statement(within) {
                Ok(more) => acts.extend(more),
                Err(problem) if self.at.is_end() => return Err(problem),
                Err(problem) => {
                    self.at.note(problem);
                    self.at.skip(from, false, |_| false);
                }
            }
        }
        self.at.take();
        Ok(acts)
    }

    fn doing(&mut self, word: &str) -> Parsed<Doing> {
        let asked = word == "ask";
        if asked {
            self.at.take();
            self.lesson.quiz = if self.lesson.quiz == Quiz::Off { Quiz::Off } else { Quiz::Marked };
        }
        let word = match self.at.word() {
            Some(word) if !asked || self.at.goes_on() => word,
            _ => return Err(self.at.expected("a call")),
        };
        let begin = self.at.peek().span;
        let what = self.what(word)?;
        let span = begin.to(self.at.last().span);
        let mut expected = Vec::new();
        while self.at.word() == Some("expect") {
            expected.push(Expected::read(&mut self.at)?);
        }
        self.at.line_ends("a call").map_err(|problem| problem.near(self.at.text(), ["expect"]))?;
        match (&what, expected.first()) {
            (What::Damage { .. }, Some(first)) => return Err(Problem::new(first.span, "damage is no call and has no answer")),
            (What::Offer(_), Some(first)) => {
                let problem = Problem::new(first.span, "an offer isn't made, and has no answer");
                return Err(problem.help("expect stands behind the question: how 1 Discount expect found 0"));
            }
            _ => {}
        }
        let said = self.at.source.of(span).split_whitespace().collect::<Vec<_>>().join(" ");
        Ok(Doing { what, said, span, expected, asked })
    }

    /// The call that begins with this word: one of its own, or an insurer's.
    fn what(&mut self, word: &str) -> Parsed<What> {
        if let Some(loader) = self.at.names.insurer(word) {
            self.at.take();
            return self.loads(loader.into()).map_err(|problem| problem.or_help(format!("as in: {word} defines Discount")));
        }
        let Some((_, form, read)) = STATEMENTS.iter().find(|statement| statement.0 == word) else {
            let mut known: Vec<&str> = keywords().filter(|known| *known != word).collect();
            known.extend(self.at.names.insurers().iter().map(|insurer| insurer.0.as_str()));
            let problem = Problem::new(self.at.peek().span, format!("'{word}' begins no statement")).near(word, known);
            if ["R", "D", "S", "N", "X"].contains(&word) {
                self.at.give_up();
                return Err(problem.help("a script of such lines has a name that ends in .box"));
            }
            return Err(problem.or_help("docs/LESSONS.md has the words of a lesson"));
        };
        self.at.take();
        read(self).map_err(|problem| problem.or_help(format!("as in: {form}")))
    }

    fn loader(&mut self) -> Parsed<What> {
        let loader = self.at.loader()?;
        self.loads(loader)
    }

    /// What a loader defines or records.
    fn loads(&mut self, loader: u32) -> Parsed<What> {
        if self.at.took("defines") {
            let file = self.text()?.bytes.clone();
            return Ok(What::Call(Call::Define { loader, file }));
        }
        if !self.at.took("records") {
            let problem = self.at.expected("'defines' or 'records'");
            return Err(problem.near(self.at.text(), ["defines", "records"]));
        }
        let name = self.at.name("a class's name")?;
        if self.at.took("of") {
            if self.at.insurer().is_none() {
                self.at.keyword("loader")?;
            }
            return Ok(What::RecordOf { loader, name, of: self.at.loader()? });
        }
        if !self.at.took("as") {
            return Err(self.at.expected("'as' and a class number, or 'of loader' and a loader"));
        }
        let class = self.at.any_number("a class number")?;
        Ok(What::Call(Call::Record { loader, name: name.into(), class }))
    }

    /// `offer LOAD`: a define or a record by a loader or an insurer.
    fn offer(&mut self) -> Parsed<What> {
        if self.at.insurer().is_none() {
            self.at.keyword("loader")?;
        }
        let loader = self.at.loader()?;
        Ok(What::Offer(Box::new(self.loads(loader)?)))
    }

    /// `how LOADER NAME`: the request that is wanted.
    fn how(&mut self) -> Parsed<What> {
        self.at.took("loader");
        Ok(What::How { loader: self.at.loader()?, name: self.at.name("a class's name")? })
    }

    /// The class text that is called so.
    fn text(&mut self) -> Parsed<&Text> {
        let called = match self.at.peek().kind {
            Kind::Number(number) if (0..=65_535).contains(&number) => self.at.names.class(number as u16),
            _ => self.at.word().unwrap_or("").to_string(),
        };
        if !self.at.goes_on() || called.is_empty() {
            return Err(self.at.expected("what a class text is called"));
        }
        let Some(place) = self.lesson.texts.iter().position(|text| text.called == called) else {
            let problem = Problem::new(self.at.peek().span, format!("no class text above is called {called}"));
            return Err(problem.near(&called, self.lesson.texts.iter().map(|text| text.called.as_str())));
        };
        self.at.take();
        Ok(&self.lesson.texts[place])
    }

    fn starts(&mut self, task: u32) -> Parsed<What> {
        self.at.keyword("starts")?;
        self.at.took("loader");
        let loader = self.at.loader()?;
        let [name, method] = text::dotted(&mut self.at, "a method")?;
        let int = self.at.int()?;
        Ok(What::Call(Call::Start { task, loader, name, method, int }))
    }

    fn any_task(&mut self) -> Parsed<What> {
        let task = self.at.any_number("a task, 0 or 1")?;
        self.starts(task)
    }

    fn run(&mut self) -> Parsed<What> {
        Ok(What::Call(Call::Run { n: self.at.any_number("how many steps, 1 to 65535")? }))
    }

    fn drop(&mut self) -> Parsed<What> {
        let task = match self.at.task() {
            Some(task) => task,
            None if self.at.took("task") => self.at.any_number("a task, 0 or 1")?,
            None => return Err(self.at.expected("'quote' or 'report'")),
        };
        Ok(What::Call(Call::Drop { task }))
    }

    fn damage(&mut self) -> Parsed<What> {
        let names = TABLES.map(|table| table.0);
        let Some(table) = names.iter().position(|name| self.at.took(name)) else {
            let problem = self.at.expected("a table").near(self.at.text(), names);
            return Err(problem.or_help(format!("the tables are {}", names.join(", "))));
        };
        let cell = self.at.number("a cell", 0, LENGTHS[table] as i64 - 1)? as usize;
        let value = self.at.number("what the cell gets", 0, TABLES[table].1.into())? as u32;
        Ok(What::Damage { table, cell, value })
    }
}

/// What is done, by the old machine, which has the calls of the first document alone.
fn of_old(act: Act) -> Parsed<Act> {
    Ok(match act {
        Act::Do(Doing { what: What::ChangeOver | What::Offer(_) | What::How { .. } | What::Call(Call::Sweep | Call::TakeBack), span, .. }) => {
            return Err(Problem::new(span, NO_CALL));
        }
        Act::Do(doing) => Act::Do(Doing { what: What::Old(Box::new(doing.what)), said: format!("old: {}", doing.said), ..doing }),
        Act::Repeat { times, acts } => Act::Repeat { times, acts: acts.into_iter().map(of_old).collect::<Parsed<_>>()? },
        act => act,
    })
}

/// A call that one of two orders has more often than the other.
fn differs(one: &[Act], other: &[Act]) -> Option<String> {
    let calls = |acts| {
        let mut all = Vec::new();
        gather(acts, &mut all);
        let mut said: Vec<String> = all.into_iter().map(|doing| doing.said.clone()).collect();
        said.sort_unstable();
        said
    };
    let (one, other) = (calls(one), calls(other));
    let same = one.iter().zip(&other).take_while(|(one, other)| one == other).count();
    // where the sorted lists part, the other has none like the smaller one
    one.get(same).into_iter().chain(other.get(same)).min().cloned()
}

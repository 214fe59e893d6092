//! Carrying out a lesson on the proved machine: each call beside its answer, what changed, and what wasn't as expected.

use std::io::{self, Write};

use reference::answer::word;
use reference::gen::Call;
use reference::host::Told;
use reference::Store;

use crate::advice::advice;
use crate::check::reason;
use crate::draw::Strip;
use crate::expect::Expected;
use crate::how::{next_class, Offers};
use crate::lesson::{Act, Doing, Lesson, What};
use crate::machine;
use crate::old::Old;
use crate::orders::Tried;
use crate::origins::Origins;
use crate::rows;
use crate::source::{visible, Problem, Source};
use crate::tried::tried;
use crate::why::why;
use crate::words;

/// What is shown besides calls and answers.
#[derive(Clone, Copy, Default)]
pub struct Show {
    pub store: bool,
    pub draw: bool,
    /// Of each load that clashes, the chain of constraints; it alone is then drawn.
    pub why: bool,
    /// Of each question how a request could load, the order load by load.
    pub how: bool,
}

/// What came of a lesson.
pub struct Outcome {
    pub store: Store,
    pub calls: usize,
    /// Answers that were as expected.
    pub met: usize,
    pub failed: usize,
    /// Chains that were said.
    pub reasons: usize,
    /// Questions how a request could load.
    pub questions: usize,
    pub strip: Strip,
}

/// What is left of calls that were made, for more to go on from.
#[derive(Clone)]
pub struct Kept {
    pub store: Store,
    /// The old machine's, once a call of its was made.
    old: Option<Old>,
    origins: Origins,
    orders: Vec<Tried>,
    offers: Offers,
    last: Last,
}

impl Kept {
    /// Tables of zeros that are booted, as boxscript does.
    pub fn booted() -> io::Result<Kept> {
        let mut store = Store::zeros();
        machine::make(&Call::Boot, &mut store, &mut []).ok_or_else(|| io::Error::other("this build has no machine; use ./box"))?;
        Ok(Kept { store, old: None, origins: Origins::default(), orders: Vec::new(), offers: Offers::default(), last: Last::Nothing })
    }
}

pub struct Play<'a> {
    source: &'a Source,
    lesson: &'a Lesson,
    show: Show,
    out: &'a mut dyn Write,
    outcome: Outcome,
    old: Option<Old>,
    origins: Origins,
    /// The order that is being carried out, and those before it, to be compared.
    order: Option<Tried>,
    orders: Vec<Tried>,
    offers: Offers,
    last: Last,
}

/// What was written last.
#[derive(Clone, Copy, PartialEq, Eq)]
enum Last {
    Nothing,
    Words,
    Call,
}

/// A call that was made: its answer, and whether that was as expected.
struct Made {
    answer: String,
    problems: Vec<Problem>,
    /// Why a file was refused.
    reason: String,
    changes: Vec<String>,
}

impl<'a> Play<'a> {
    /// Carries out the lesson from a boot.
    pub fn run(source: &'a Source, lesson: &'a Lesson, show: Show, out: &'a mut dyn Write) -> io::Result<Outcome> {
        let mut play = Play::new(source, lesson, show, out, Kept::booted()?);
        play.acts(&lesson.acts)?;
        Ok(play.outcome)
    }

    /// Carries out the acts from this one on, after those that led to what is kept: how many acts there are.
    pub fn go_on(source: &'a Source, lesson: &'a Lesson, show: Show, out: &'a mut dyn Write, kept: &mut Kept, from: usize) -> io::Result<usize> {
        let mut play = Play::new(source, lesson, show, out, kept.clone());
        play.acts(lesson.acts.get(from..).unwrap_or_default())?;
        *kept = Kept { store: play.outcome.store, old: play.old, origins: play.origins, orders: play.orders, offers: play.offers, last: play.last };
        Ok(lesson.acts.len())
    }

    fn new(source: &'a Source, lesson: &'a Lesson, show: Show, out: &'a mut dyn Write, kept: Kept) -> Play<'a> {
        let Kept { store, old, origins, orders, offers, last } = kept;
        let outcome = Outcome { store, calls: 0, met: 0, failed: 0, reasons: 0, questions: 0, strip: Strip::default() };
        Play { source, lesson, show, out, outcome, old, origins, order: None, orders, offers, last }
    }

    fn acts(&mut self, acts: &[Act]) -> io::Result<()> {
        for act in acts {
            match act {
                Act::Say(said) => self.say(said)?,
                Act::Do(doing) => {
                    let made = self.make(doing);
                    self.write(doing, &made)?;
                }
                Act::Repeat { times, acts } => self.repeat(*times, acts)?,
                Act::Order { called, acts } => self.order(called, acts)?,
            }
            if self.order.is_none() && !matches!(act, Act::Order { .. } | Act::Say(_)) {
                self.orders.clear();
            }
        }
        Ok(())
    }

    /// Calls in an order, then where its answers part from those of the order before it; what follows begins from the store before them.
    fn order(&mut self, called: &str, acts: &[Act]) -> io::Result<()> {
        let before = (self.outcome.store.clone(), self.old.clone(), self.origins.clone(), self.offers.clone());
        self.turn_to(Last::Words)?;
        writeln!(self.out, "order {called}{}", if self.orders.is_empty() { "" } else { ", from the same store" })?;
        self.order = Some(Tried::new(called));
        self.acts(acts)?;
        (self.outcome.store, self.old, self.origins, self.offers) = before;
        let Some(tried) = self.order.take() else {
            return Ok(());
        };
        if let Some(other) = self.orders.last() {
            let lines = other.parting(&tried);
            self.turn_to(Last::Words)?;
            lines.iter().try_for_each(|line| writeln!(self.out, "{line}"))?;
        }
        self.orders.push(tried);
        Ok(())
    }

    /// Leaves a line free between words and calls.
    fn turn_to(&mut self, next: Last) -> io::Result<()> {
        let last = std::mem::replace(&mut self.last, next);
        if last != Last::Nothing && last != next {
            writeln!(self.out)?;
        }
        Ok(())
    }

    fn say(&mut self, said: &str) -> io::Result<()> {
        self.turn_to(Last::Words)?;
        writeln!(self.out, "{}", visible(said))
    }

    /// The first round is shown, of the others what is answered otherwise.
    fn repeat(&mut self, times: u32, acts: &[Act]) -> io::Result<()> {
        let mut first: Vec<String> = Vec::new();
        let mut alike = 0;
        for round in 0..times {
            let mut others = 0;
            for (place, act) in acts.iter().enumerate() {
                match act {
                    Act::Say(said) if round == 0 => {
                        first.push(String::new());
                        self.say(said)?;
                    }
                    Act::Do(doing) => {
                        let made = self.make(doing);
                        if round == 0 {
                            first.push(made.answer.clone());
                        }
                        if round == 0 || !made.problems.is_empty() || first.get(place) != Some(&made.answer) {
                            others += usize::from(round > 0);
                            self.write(doing, &made)?;
                        }
                    }
                    _ => {}
                }
            }
            alike += u32::from(round > 0 && others == 0);
        }
        if alike > 0 {
            writeln!(self.out, "    ({alike} more {} with the same answers)", if alike == 1 { "round" } else { "rounds" })?;
        }
        Ok(())
    }

    fn make(&mut self, doing: &Doing) -> Made {
        let before = self.outcome.store.clone();
        let mut made = Made { answer: String::new(), problems: Vec::new(), reason: String::new(), changes: Vec::new() };
        let done = match doing.what {
            What::Old(_) | What::ChangeOver => self.carry(doing, &mut made),
            What::Offer(ref load) => self.offer(doing, load, &mut made),
            What::How { loader, name } => {
                self.ask(doing, loader, name, &mut made);
                Ok(())
            }
            _ => self.call_of(&doing.what).map(|call| match call {
                Some(call) => self.call(doing, &call, &before, &mut made),
                None => made.answer = "damaged".into(),
            }),
        };
        if let Err(said) = done {
            self.outcome.failed += 1;
            made.answer = "not made".into();
            made.problems.push(Problem::new(doing.span, said));
        }
        if self.show.store {
            made.changes = rows::changes(&before, &self.outcome.store, &self.lesson.names);
        }
        made
    }

    /// A call of the old machine, or the changeover from its store.
    fn carry(&mut self, doing: &Doing, made: &mut Made) -> Result<(), String> {
        let old = self.old.get_or_insert_with(Old::booted);
        let done = match &doing.what {
            What::Old(what) => old.make(what, &self.lesson.names)?,
            _ => {
                let before = self.outcome.store.clone();
                let done = old.change_over(&mut self.outcome.store).ok_or("this build has no machine; use ./box")?;
                let is_filled = done.told.as_ref().is_some_and(|told| told.number == 0);
                self.origins.carry(is_filled.then(|| self.outcome.store.constraint_count()));
                if is_filled && self.show.draw && !self.show.why {
                    let title = format!("{}: {}", doing.said, done.answer);
                    self.outcome.strip.add(&title, &before, &self.outcome.store, Default::default(), &self.lesson.names);
                }
                done
            }
        };
        made.answer = done.answer;
        if let Some(told) = done.told {
            self.answered(doing, &told, |expected| expected.is_met(&told), made);
        }
        Ok(())
    }

    /// Counts a call that was made, and says where its answer isn't as expected.
    fn answered(&mut self, doing: &Doing, told: &Told, is_met: impl Fn(&Expected) -> bool, made: &mut Made) {
        self.outcome.calls += 1;
        if let Some(order) = &mut self.order {
            order.add(&doing.said, told, &made.answer);
        }
        for expected in &doing.expected {
            if is_met(expected) {
                self.outcome.met += 1;
                continue;
            }
            self.outcome.failed += 1;
            let wish = self.source.of(expected.span).trim_start_matches("expect").trim_start();
            made.problems.push(Problem::new(expected.span, format!("expected {wish}, but the answer was: {}", made.answer)));
        }
    }

    /// The call, if it is one: damage is done here.
    fn call_of(&mut self, what: &What) -> Result<Option<Call>, String> {
        match *what {
            What::Call(ref call) => Ok(Some(call.clone())),
            What::RecordOf { loader, name, of } => {
                let class = u16::try_from(of).ok().and_then(|of| self.outcome.store.cached(of, name));
                let class = class.ok_or_else(|| format!("{} has no {} yet", self.lesson.names.loader(of), self.lesson.names.class(name)))?;
                Ok(Some(Call::Record { loader, name: name.into(), class: class.into() }))
            }
            What::Damage { table, cell, value } => {
                self.outcome.store.set(table, cell, value);
                Ok(None)
            }
            What::Old(_) | What::ChangeOver | What::Offer(_) | What::How { .. } => Ok(None),
        }
    }

    /// Offers a load to the questions that follow.
    fn offer(&mut self, doing: &Doing, load: &What, made: &mut Made) -> Result<(), String> {
        let next = next_class(&self.outcome.store);
        let load = self.call_of(load).map_err(|said| format!("{said}; an offer names a class by its number, as {next}"))?;
        made.answer = load.map_or(String::new(), |load| self.offers.add(load, doing.said.trim_start_matches("offer ")));
        Ok(())
    }

    /// Asks by which of the offered loads the request would be cached, and says it load by load.
    fn ask(&mut self, doing: &Doing, loader: u32, name: u16, made: &mut Made) {
        let (store, names) = (&self.outcome.store, &self.lesson.names);
        let Some(asked) = self.offers.ask(store, loader, name) else {
            return;
        };
        made.answer.clone_from(&asked.answer);
        self.outcome.questions += 1;
        self.origins.calls += 1;
        if self.show.how {
            match asked.lines(store, names) {
                Ok(lines) => made.reason.extend(lines.into_iter().map(|line| format!("        {line}\n"))),
                Err(said) => {
                    self.outcome.failed += 1;
                    made.problems.push(Problem::new(doing.span, said));
                }
            }
        }
        self.answered(doing, &asked.told(), |expected| expected.is_met_by(&asked.found), made);
    }

    /// Says by which chain a load clashed, and draws it.
    fn say_why(&mut self, doing: &Doing, call: &Call, made: &mut Made) {
        let (names, store) = (&self.lesson.names, &self.outcome.store);
        match why(call, store) {
            None => {}
            Some(Err(said)) => {
                self.outcome.failed += 1;
                made.problems.push(Problem::new(doing.span, said));
            }
            Some(Ok(why)) => {
                self.outcome.reasons += 1;
                let lines = why.lines(names, |row, constraint| self.origins.told(row, why.is_own(row), call, constraint, store, names));
                made.reason.extend(lines.into_iter().chain(advice(call, self.lesson, store)).map(|line| format!("        {line}\n")));
                if self.show.draw {
                    self.outcome.strip.add_reason(&format!("why {} clashes", doing.said), &why, names);
                }
            }
        }
    }

    fn call(&mut self, doing: &Doing, call: &Call, before: &Store, made: &mut Made) {
        let names = &self.lesson.names;
        let Some(told) = machine::make(call, &mut self.outcome.store, &mut []) else {
            return;
        };
        let ran = rows::next_instruction(before, names);
        made.answer = words::answer(call, &told, names, ran.as_deref());
        self.origins.note(call, &told, before, &self.outcome.store, names);
        self.answered(doing, &told, |expected| expected.is_met(&told), made);
        if let (Call::Define { file, .. }, word::FILE | word::UNMAPPED | word::UNVERIFIED) = (call, told.number) {
            let text = self.lesson.texts.iter().find(|text| text.bytes == *file);
            made.reason = reason(file, names, text.map(|text| (text, self.source)));
        }
        match (self.show.why, told.cells[1] == u32::from(word::CLASH)) {
            (true, true) => self.say_why(doing, call, made),
            (false, _) if self.show.draw => self.draw(&doing.said, call, &told, before, &made.answer),
            _ => {}
        }
    }

    fn draw(&mut self, said: &str, call: &Call, told: &Told, before: &Store, answer: &str) {
        let clashed = told.cells[1] == u32::from(word::CLASH);
        let tried = if clashed { tried(call, &self.outcome.store) } else { Default::default() };
        let title = format!("{said}: {answer}");
        self.outcome.strip.add(&title, before, &self.outcome.store, tried, &self.lesson.names);
    }

    fn write(&mut self, doing: &Doing, made: &Made) -> io::Result<()> {
        self.turn_to(Last::Call)?;
        let mark = match (made.problems.is_empty(), doing.expected.is_empty()) {
            (false, _) => "NO",
            (true, false) => "ok",
            (true, true) => "  ",
        };
        writeln!(self.out, "{mark}  {:<42}  {}", doing.said, made.answer)?;
        write!(self.out, "{}", made.reason)?;
        made.changes.iter().try_for_each(|change| writeln!(self.out, "        {change}"))?;
        made.problems.iter().try_for_each(|problem| write!(self.out, "{}", self.source.show(problem)))
    }
}

//! A lesson carried out for a page: each call with what it led to, in the order of the text, two orders beside each other.

use reference::answer::word;
use reference::gen::Call;
use reference::host::{expected, Told};
use reference::Store;

use super::json;
use super::methods::Methods;
use super::quiz;
use super::state::{changes, rows, Rows};
use crate::advice::{advice, resolved};
use crate::check::reason;
use crate::how::Offers;
use crate::lesson::{Act, Doing, Lesson, What};
use crate::machine;
use crate::old::Old;
use crate::orders::Tried;
use crate::origins::Origins;
use crate::rows::next_instruction;
use crate::source::Source;
use crate::tried::tried;
use crate::why::why;
use crate::words;

/// More calls than this aren't shown, and are made all the same.
pub const MOST_SHOWN: usize = 2_000;

/// What the calls so far have led to.
#[derive(Clone)]
struct Time {
    store: Store,
    /// The old machine's, once a call of its was made.
    old: Option<Old>,
    origins: Origins,
    /// The stores of the machines with a mistake.
    wrong: Vec<Store>,
    rows: Rows,
    /// The call before, as a place in the list of all that are shown.
    last: Option<usize>,
}

/// An order: its calls with their answers, where each is shown, and how many are.
struct Order {
    tried: Tried,
    steps: Vec<usize>,
    shown: usize,
}

/// A call as JSON, field by field.
type Step = Vec<(&'static str, String)>;

pub struct Recorder<'a> {
    source: &'a Source,
    lesson: &'a Lesson,
    time: Time,
    pub methods: Methods<'a>,
    /// The boot, and the calls that are shown.
    pub steps: Vec<Step>,
    /// The calls that stand beside each other: one, or one of each order.
    pub slots: Vec<Vec<usize>>,
    /// The words before the first call, and those that no call has followed yet.
    pub intro: Vec<String>,
    pub said: Vec<String>,
    orders: Vec<Order>,
    order: Option<Order>,
    offers: Offers,
    /// Where the first of these orders begins.
    first_slot: usize,
    pub left_out: usize,
    /// Calls whose answer wasn't as expected.
    pub failed: usize,
    pub calls: usize,
}

/// A call that was made.
#[derive(Default)]
struct Made {
    call: Option<(Call, Told)>,
    before: Option<Store>,
    answer: String,
    met: bool,
    unmet: bool,
    /// Was a call of the old machine, or the changeover, refused?
    carry_refused: bool,
    /// What the machines with a mistake say.
    wrong: Vec<String>,
    /// Of a question for an order of offered loads, the order in words.
    how: Vec<String>,
}

impl<'a> Recorder<'a> {
    /// Carries out the lesson from a boot; nothing if this build has no machine.
    pub fn record(source: &'a Source, lesson: &'a Lesson) -> Option<Recorder<'a>> {
        let mut store = Store::zeros();
        machine::make(&Call::Boot, &mut store, &mut [])?;
        let wrong = vec![store.clone(); lesson.mistakes.len()];
        let time = Time { store, old: None, origins: Origins::default(), wrong, rows: Rows::new(), last: None };
        let (methods, steps, slots, orders) = (Methods::new(&lesson.texts), Vec::new(), Vec::new(), Vec::new());
        let (intro, said, order) = (Vec::new(), Vec::new(), None);
        let (offers, first_slot, left_out, failed, calls) = (Offers::default(), 0, 0, 0, 0);
        let mut recorder =
            Recorder { source, lesson, time, methods, steps, slots, intro, said, orders, order, offers, first_slot, left_out, failed, calls };
        recorder.push(vec![("call", json::string("boot")), ("answer", json::string("booted"))]);
        recorder.acts(&lesson.acts);
        if recorder.slots.is_empty() {
            recorder.intro = std::mem::take(&mut recorder.said);
        }
        Some(recorder)
    }

    fn acts(&mut self, acts: &[Act]) {
        for act in acts {
            if self.order.is_none() && !matches!(act, Act::Order { .. } | Act::Say(_)) {
                self.orders.clear();
            }
            match act {
                Act::Say(said) => self.said.push(said.clone()),
                Act::Do(doing) => {
                    let made = self.make(doing);
                    self.show(doing, made);
                }
                Act::Repeat { times, acts } => self.repeat(*times, acts),
                Act::Order { called, acts } => self.order(called, acts),
            }
        }
    }

    /// The first round is shown, of the others what is answered otherwise, and at the end how many were alike.
    fn repeat(&mut self, times: u32, acts: &[Act]) {
        let (mut first, mut alike): (Vec<String>, u32) = (Vec::new(), 0);
        for round in 0..times {
            let mut others = 0;
            for (place, act) in acts.iter().enumerate() {
                let Act::Do(doing) = act else {
                    if let (Act::Say(said), 0) = (act, round) {
                        self.said.push(said.clone());
                    }
                    first.extend((round == 0).then(String::new));
                    continue;
                };
                let made = self.make(doing);
                first.extend((round == 0).then(|| made.answer.clone()));
                if round == 0 || made.unmet || first[place] != made.answer {
                    others += usize::from(round > 0);
                    self.show(doing, made);
                }
            }
            alike += u32::from(round > 0 && others == 0);
        }
        if alike > 0 {
            let said = format!("{alike} more {} with the same answers", if alike == 1 { "round" } else { "rounds" });
            self.add(vec![("call", json::string(&said)), ("answer", json::string("")), ("rounds", "true".into())]);
        }
    }

    /// An order's calls, then back to the store before them. A later order stands beside the first.
    fn order(&mut self, called: &str, acts: &[Act]) {
        let before = (self.time.clone(), self.offers.clone());
        if self.orders.is_empty() {
            self.first_slot = self.slots.len();
        }
        self.order = Some(Order { tried: Tried::new(called), steps: Vec::new(), shown: 0 });
        self.acts(acts);
        (self.time, self.offers) = before;
        let Some(order) = self.order.take() else {
            return;
        };
        if let Some(other) = self.orders.last() {
            for (one, two) in other.tried.parted(&order.tried) {
                let text = json::string(&other.tried.parting_at(&order.tried, one, two));
                for &step in other.steps.get(one).into_iter().chain(order.steps.get(two)) {
                    if let Some(step) = self.steps.get_mut(step) {
                        step.push(("parts", text.clone()));
                    }
                }
            }
        }
        self.orders.push(order);
    }

    fn make(&mut self, doing: &Doing) -> Made {
        let mut made = Made { before: Some(self.time.store.clone()), ..Made::default() };
        match (resolved(&doing.what, &self.time.store), &doing.what) {
            (Some(call), _) => self.call(doing, call, &mut made),
            (None, What::Old(_) | What::ChangeOver) => self.carry(doing, &mut made),
            (None, &What::Damage { table, cell, value }) => {
                self.time.store.set(table, cell, value);
                self.time.wrong.iter_mut().for_each(|store| store.set(table, cell, value));
                made.answer = "damaged".into();
            }
            (None, What::Offer(load)) if resolved(load, &self.time.store).is_some() => {
                let load = resolved(load, &self.time.store);
                let said = doing.said.trim_start_matches("offer ");
                made.answer = load.map_or(String::new(), |load| self.offers.add(load, said));
            }
            (None, &What::How { loader, name }) => self.ask_how(doing, loader, name, &mut made),
            (None, _) => {
                made.answer = "not made".into();
                made.unmet = true;
            }
        }
        self.failed += usize::from(made.unmet);
        made
    }

    /// A call of the old machine, or the changeover from its store, which the machines with a mistake go on from too.
    fn carry(&mut self, doing: &Doing, made: &mut Made) {
        let old = self.time.old.get_or_insert_with(Old::booted);
        let done = match &doing.what {
            What::Old(what) => old.make(what, &self.lesson.names).ok(),
            _ => old.change_over(&mut self.time.store),
        };
        let told = done.as_ref().and_then(|done| done.told);
        made.answer = done.map_or("not made".into(), |done| done.answer);
        made.met = !doing.expected.is_empty() && told.is_some_and(|told| doing.expected.iter().all(|expected| expected.is_met(&told)));
        made.unmet = !doing.expected.is_empty() && !made.met;
        self.calls += usize::from(told.is_some());
        made.carry_refused = told.is_some_and(|told| told.number != 0);
        if let What::ChangeOver = doing.what {
            let is_filled = told.is_some_and(|told| told.number == 0);
            self.time.origins.carry(is_filled.then(|| self.time.store.constraint_count()));
            self.time.wrong.iter_mut().for_each(|store| store.clone_from(&self.time.store));
        }
    }

    fn call(&mut self, doing: &Doing, call: Call, made: &mut Made) {
        let names = &self.lesson.names;
        let (Some(before), Some(told)) = (&made.before, machine::make(&call, &mut self.time.store, &mut [])) else {
            return;
        };
        made.answer = words::answer(&call, &told, names, next_instruction(before, names).as_deref());
        self.time.origins.note(&call, &told, before, &self.time.store, names);
        self.calls += 1;
        made.met = !doing.expected.is_empty() && doing.expected.iter().all(|expected| expected.is_met(&told));
        made.unmet = !doing.expected.is_empty() && !made.met;
        if let Some(order) = &mut self.order {
            order.tried.add(&doing.said, &told, &made.answer);
            order.steps.push(self.steps.len());
        }
        let wrong = self.lesson.mistakes.iter().zip(&mut self.time.wrong);
        made.wrong = wrong.map(|(fault, store)| wrongly(fault, doing, store, names)).collect();
        made.call = Some((call, told));
    }

    /// By which of the offered loads would the request be cached? It is shown and not asked for, and no machine with a mistake answers it.
    fn ask_how(&mut self, doing: &Doing, loader: u32, name: u16, made: &mut Made) {
        let Some(asked) = self.offers.ask(&self.time.store, loader, name) else {
            return;
        };
        made.answer.clone_from(&asked.answer);
        self.calls += 1;
        self.time.origins.calls += 1;
        made.met = !doing.expected.is_empty() && doing.expected.iter().all(|expected| expected.is_met_by(&asked.found));
        made.unmet = !doing.expected.is_empty() && !made.met;
        if let Some(order) = &mut self.order {
            order.tried.add(&doing.said, &asked.told(), &made.answer);
            order.steps.push(self.steps.len());
        }
        match asked.lines(&self.time.store, &self.lesson.names) {
            Ok(lines) => made.how = lines,
            Err(_) => made.unmet = true,
        }
    }

    /// Adds a call that was made to those that are shown.
    fn show(&mut self, doing: &Doing, made: Made) {
        if self.steps.len() > MOST_SHOWN {
            self.left_out += 1;
            return;
        }
        let mark = if made.unmet { "NO" } else if made.met { "ok" } else { "" };
        let mut step: Step = vec![("call", json::string(&doing.said)), ("answer", json::string(&made.answer)), ("mark", json::string(mark))];
        if let (Some((call, told)), Some(before)) = (&made.call, &made.before) {
            let number = told.cells[1].max(told.number.into());
            step.push(("number", self.time.origins.calls.to_string()));
            step.push(("refused", (number != 0).to_string()));
            step.push(("rule", json::string(&quiz::rule(number, call))));
            self.ask(doing, (call, told), before, &made, &mut step);
            self.explain(call, told, &mut step);
        }
        if !made.how.is_empty() {
            step.push(("reason", json::string(&made.how.join("\n"))));
        }
        if made.carry_refused {
            step.push(("refused", "true".into()));
        }
        let wrong = self.lesson.mistakes.iter().zip(&made.wrong);
        step.push(("wrong", json::list(wrong.map(|(fault, answer)| json::strings([*fault, answer])))));
        self.add(step);
    }

    fn ask(&self, doing: &Doing, (call, told): (&Call, &Told), before: &Store, made: &Made, step: &mut Step) {
        if !quiz::is_asked(doing, call, self.lesson.quiz) {
            return;
        }
        let (choices, right) = quiz::choices(call, told, before, &self.lesson.names, &made.answer, &made.wrong);
        step.push(("right", right.to_string()));
        step.push(("choices", json::list(choices.iter().map(|choice| json::strings([&choice.said, &choice.rule])))));
    }

    /// Why the call was refused: the chain, what would be accepted, and what it would have added; or where a file is wrong.
    fn explain(&mut self, call: &Call, told: &Told, step: &mut Step) {
        let (names, store) = (&self.lesson.names, &self.time.store);
        if let (Call::Define { file, .. }, word::FILE | word::UNMAPPED | word::UNVERIFIED) = (call, told.number) {
            let text = self.lesson.texts.iter().find(|text| text.bytes == *file);
            step.push(("reason", json::string(&reason(file, names, text.map(|text| (text, self.source))))));
        }
        if told.cells[1] != u32::from(word::CLASH) {
            return;
        }
        let tried = tried(call, store);
        let three = |rows: &[[u16; 3]]| json::list(rows.iter().map(|row| json::numbers(row.map(u32::from))));
        step.push(("tried", json::list([three(tried.entry.as_slice()), three(&tried.ties), three(&tried.subtypes)])));
        match why(call, store) {
            None => {}
            Some(Err(said)) => {
                self.failed += 1;
                step.push(("chain", json::strings([said])));
            }
            Some(Ok(why)) => {
                let origins = &self.time.origins;
                let lines = why.lines(names, |row, constraint| origins.told(row, why.is_own(row), call, constraint, store, names));
                step.push(("chain", json::strings(lines)));
                step.push(("rows", json::numbers(why.rows.iter().map(|row| row.0.into()))));
                step.push(("stored", store.constraint_count().to_string()));
            }
        }
        step.extend(advice(call, self.lesson, store).map(|said| ("advice", json::string(&said))));
    }

    /// Adds what is shown to its slot, with the words before it.
    fn add(&mut self, mut step: Step) {
        let said = std::mem::take(&mut self.said);
        match self.slots.is_empty() {
            true => self.intro = said,
            false => step.push(("say", json::strings(said))),
        }
        let number = self.steps.len();
        match &mut self.order {
            Some(order) => {
                let slot = self.first_slot + order.shown;
                order.shown += 1;
                step.push(("order", json::string(order.tried.called())));
                match self.slots.get_mut(slot) {
                    Some(slot) => slot.push(number),
                    None => self.slots.push(vec![number]),
                }
            }
            None => self.slots.push(vec![number]),
        }
        self.push(step);
    }

    /// The step with what changed since the last, and the step that this was.
    fn push(&mut self, mut step: Step) {
        let rows = rows(&self.time.store, &self.lesson.names, &mut self.methods);
        step.push(("delta", changes(&self.time.rows, &rows)));
        step.push(("parent", self.time.last.map_or("-1".into(), |last| last.to_string())));
        self.time.rows = rows;
        self.time.last = Some(self.steps.len());
        self.steps.push(step);
    }
}

/// What the machine with this fault says, on its own store.
fn wrongly(fault: &'static str, doing: &Doing, store: &mut Store, names: &crate::names::Names) -> String {
    let Some(call) = resolved(&doing.what, store) else {
        return "not made".into();
    };
    let ran = next_instruction(store, names);
    let turn = u32::from(store.frame_count(0) == 0);
    let told = expected(faulty::faults::being(fault, &call, store), turn);
    words::answer(&call, &told, names, ran.as_deref())
}

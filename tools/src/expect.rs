//! What a lesson expects of an answer, and whether the answer meets it.

use reference::answer::word;
use reference::host::Told;
use reference::how::Found;

use crate::cursor::{Cursor, Parsed};
use crate::source::{Problem, Span};

pub struct Expected {
    pub span: Span,
    pub wish: Wish,
    /// How many steps of a run ran.
    pub after: Option<u32>,
}

#[derive(Clone, Debug, PartialEq, Eq)]
pub enum Wish {
    Accepted,
    Class(u32),
    Freed(Option<u32>),
    Idle,
    Ran(Option<u32>),
    Finished(Option<u32>, Option<u32>),
    Wanted(Option<(u32, u16)>),
    Refused(u8),
    /// An order of offered loads, and which.
    Found(Option<Vec<u8>>),
    /// No order of them.
    None,
}

/// Answers besides the words of refusal.
pub const ANSWERS: [&str; 10] = ["accepted", "class", "freed", "idle", "ran", "finished", "wanted", "found", "cached", "none"];

impl Expected {
    /// `expect ANSWER [after STEPS]`, at its first word.
    pub fn read(at: &mut Cursor) -> Parsed<Expected> {
        let begin = at.take();
        let wish = Wish::read(at)?;
        let after = if at.took("after") { Some(at.any_number("how many steps ran")?) } else { None };
        Ok(Expected { span: begin.to(at.last().span), wish, after })
    }

    pub fn is_met(&self, told: &Told) -> bool {
        let [kind, number, one, two, three, steps] = told.cells;
        let is_step = (kind == 2 || kind == 3) && number == 0;
        let is_or_any = |wanted: Option<u32>, is: u32| wanted.is_none_or(|wanted| wanted == is);
        let meets = match self.wish {
            Wish::Found(_) | Wish::None => false,
            Wish::Accepted => told.number == 0,
            Wish::Class(class) => kind == 1 && told.number == 0 && one == class,
            Wish::Freed(objects) => kind == 5 && told.number == 0 && is_or_any(objects, one),
            Wish::Idle => is_step && one == 0,
            Wish::Ran(task) => is_step && one == 1 && is_or_any(task, two),
            Wish::Finished(task, int) => is_step && one == 2 && is_or_any(task, two) && is_or_any(int, three),
            Wish::Wanted(request) => {
                let is_wanted = number == u32::from(word::WANTED);
                is_wanted && request.is_none_or(|(loader, name)| (loader, u32::from(name)) == (one, two))
            }
            Wish::Refused(wanted) => number == u32::from(wanted),
        };
        meets && self.after.is_none_or(|after| kind == 3 && steps == after)
    }

    /// Is it met by what a question for an order of offered loads finds?
    pub fn is_met_by(&self, found: &Found) -> bool {
        let meets = match (&self.wish, found) {
            (Wish::Accepted, found) => !matches!(found, Found::Denied(_)),
            (Wish::Found(None), Found::Order(_)) | (Wish::None, Found::Nothing) => true,
            (Wish::Found(Some(wanted)), Found::Order(order)) => wanted == order,
            (Wish::Refused(wanted), Found::Denied(number)) => wanted == number,
            _ => false,
        };
        meets && self.after.is_none()
    }
}

impl Wish {
    fn read(at: &mut Cursor) -> Parsed<Wish> {
        let Some(answer) = at.word().filter(|_| at.goes_on()) else {
            return Err(at.expected("an answer"));
        };
        let span = at.take();
        match answer {
            "accepted" => Ok(Wish::Accepted),
            "class" => Ok(Wish::Class(at.any_number("a class number")?)),
            "freed" => Ok(Wish::Freed(if at.has_number() { Some(at.any_number("how many objects")?) } else { None })),
            "idle" => Ok(Wish::Idle),
            "ran" => Ok(Wish::Ran(at.task())),
            "finished" => {
                let task = at.task();
                let int = if at.has_number() { Some(at.int()?) } else { None };
                Ok(Wish::Finished(task, int))
            }
            "wanted" => Wish::wanted(at),
            "found" => Wish::found(at),
            "cached" => Ok(Wish::Found(Some(Vec::new()))),
            "none" => Ok(Wish::None),
            _ => Wish::refused(at, answer, span),
        }
    }

    /// `wanted`, perhaps with a loader and a name.
    fn wanted(at: &mut Cursor) -> Parsed<Wish> {
        if !at.took("loader") && !at.has_number() && at.insurer().is_none() {
            return Ok(Wish::Wanted(None));
        }
        let loader = at.loader()?;
        Ok(Wish::Wanted(Some((loader, at.name("a class's name")?))))
    }

    /// `found`, perhaps with the numbers of the offers in their order.
    fn found(at: &mut Cursor) -> Parsed<Wish> {
        let mut order = Vec::new();
        while at.goes_on() && at.has_number() {
            order.push(at.number("an offer's number", 0, 7)? as u8);
        }
        Ok(Wish::Found(Some(order).filter(|order| !order.is_empty())))
    }

    /// A word of refusal; some are of two words.
    fn refused(at: &mut Cursor, answer: &str, span: Span) -> Parsed<Wish> {
        if let Some(place) = word::NAMES.iter().position(|name| name.split(' ').next() == Some(answer)) {
            word::NAMES[place].split(' ').skip(1).try_for_each(|word| at.keyword(word))?;
            return Ok(Wish::Refused(place as u8 + 1));
        }
        let known = ANSWERS.into_iter().chain(word::NAMES);
        let all = format!("answers are {}, and the words of refusal", ANSWERS.join(", "));
        Err(Problem::new(span, format!("'{answer}' is no answer")).near(answer, known).or_help(all))
    }
}

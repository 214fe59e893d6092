//! Going through tokens: what is expected next, and the problem if something else stands there.

use crate::names::Names;
use crate::source::{Problem, Source, Span};
use crate::tokens::{tokens, Kind, Token};

pub type Parsed<T> = Result<T, Problem>;

/// Where in the tokens a reader is. What belongs to one statement stands on one line.
pub struct Cursor<'a> {
    pub source: &'a Source,
    pub names: Names,
    tokens: Vec<Token>,
    at: usize,
    /// The problems so far; reading goes on behind them.
    problems: Vec<Problem>,
    /// How many of them are strange signs.
    strange: usize,
}

impl<'a> Cursor<'a> {
    pub fn new(source: &'a Source) -> Cursor<'a> {
        let (tokens, problems) = tokens(source);
        Cursor { source, names: Names::default(), tokens, at: 0, strange: problems.len(), problems }
    }

    /// Notes a problem.
    pub fn note(&mut self, problem: Problem) {
        self.problems.push(problem);
    }

    /// The problems in the order of the text. A line with a strange sign has that one alone, and what is said at the end of the text
    /// isn't said if another problem has said it.
    pub fn problems(&self) -> Vec<Problem> {
        let mut all = self.problems.clone();
        all.sort_by_key(|problem| problem.span.start);
        let line = |problem: &Problem| self.source.place(problem.span.start).0;
        let strange: Vec<(usize, Span)> = self.problems[..self.strange].iter().map(|problem| (line(problem), problem.span)).collect();
        all.retain(|problem| strange.iter().all(|&(at, span)| at != line(problem) || span == problem.span));
        if let [before @ .., last] = &all[..] {
            let is_end = last.said.ends_with("the file ends here");
            if is_end && last.help.is_some() && before.iter().any(|other| other.help == last.help) {
                all.pop();
            }
        }
        all
    }

    /// Goes on behind a problem: to the next line, or before it to a closing brace or a word that begins something; what a brace opens is
    /// passed as far as it closes, on this line or, `across_lines`, on any. At least one token is passed since `from`.
    pub fn skip(&mut self, from: usize, across_lines: bool, begins: impl Fn(&str) -> bool) {
        if self.at == from && !self.has_sign('}') && !self.is_end() {
            self.at += 1;
        }
        let mut open = self.open_since(from);
        while !self.is_end() && (self.goes_on() || (across_lines && open > 0)) {
            match self.peek().kind {
                Kind::Sign('{') => open += 1,
                Kind::Sign('}') if open == 0 => return,
                Kind::Sign('}') => open -= 1,
                _ if open == 0 && self.word().is_some_and(&begins) => return,
                _ => {}
            }
            self.at += 1;
        }
    }

    /// How many braces that were opened since this mark aren't closed.
    fn open_since(&self, from: usize) -> usize {
        self.tokens[from.min(self.at)..self.at].iter().fold(0, |open: usize, token| match token.kind {
            Kind::Sign('{') => open + 1,
            Kind::Sign('}') => open.saturating_sub(1),
            _ => open,
        })
    }

    /// Goes to a brace that opens on this line, if there is one.
    pub fn skip_to_brace(&mut self) -> bool {
        while self.goes_on() && !self.has_sign('{') && !self.has_sign('}') {
            self.at += 1;
        }
        self.has_sign('{')
    }

    /// Goes to the end: nothing more is read.
    pub fn give_up(&mut self) {
        self.at = self.tokens.len() - 1;
    }

    /// Where the reader is, for `skip`.
    pub fn mark(&self) -> usize {
        self.at
    }

    /// The next token, on whatever line.
    pub fn peek(&self) -> &Token {
        &self.tokens[self.at.min(self.tokens.len() - 1)]
    }

    /// The token that was taken last.
    pub fn last(&self) -> &Token {
        &self.tokens[self.at.saturating_sub(1)]
    }

    pub fn is_end(&self) -> bool {
        self.peek().kind == Kind::End
    }

    /// Does the next token stand on the line of the last one?
    pub fn goes_on(&self) -> bool {
        !self.is_end() && self.peek().line == self.last().line
    }

    pub fn take(&mut self) -> Span {
        let span = self.peek().span;
        self.at += 1;
        span
    }

    pub fn text(&self) -> &'a str {
        self.source.of(self.peek().span)
    }

    /// The next word, on whatever line.
    pub fn word(&self) -> Option<&'a str> {
        (self.peek().kind == Kind::Word).then(|| self.text())
    }

    /// Takes this word if it is next on the line.
    pub fn took(&mut self, word: &str) -> bool {
        let is = self.goes_on() && self.word() == Some(word);
        if is {
            self.at += 1;
        }
        is
    }

    /// The problem that something else is expected here.
    pub fn expected(&self, what: &str) -> Problem {
        if self.goes_on() || self.at == 0 {
            let found = if self.is_end() { "the end".into() } else { format!("'{}'", clipped(self.text())) };
            return Problem::new(self.peek().span, format!("expected {what}, found {found}"));
        }
        let end = self.last().span.end;
        let place = if self.is_end() { "file" } else { "line" };
        Problem::new(Span { start: end, end }, format!("expected {what}, but the {place} ends here"))
    }

    /// The same, where the line doesn't matter.
    pub fn here(&self, what: &str) -> Problem {
        if self.is_end() {
            return self.expected(what);
        }
        Problem::new(self.peek().span, format!("expected {what}, found '{}'", clipped(self.text())))
    }

    pub fn keyword(&mut self, word: &str) -> Parsed<()> {
        if self.took(word) {
            return Ok(());
        }
        let problem = self.expected(&format!("'{word}'"));
        Err(if self.goes_on() { problem.near(self.text(), [word]) } else { problem })
    }

    pub fn has_sign(&self, sign: char) -> bool {
        self.peek().kind == Kind::Sign(sign)
    }

    /// A sign on the same line, or a brace on any.
    pub fn sign(&mut self, sign: char) -> Parsed<Span> {
        let fits = self.has_sign(sign) && (self.goes_on() || "{}".contains(sign));
        if fits {
            return Ok(self.take());
        }
        Err(self.expected(&format!("'{sign}'")))
    }

    /// Takes this sign if it is next on the line.
    pub fn took_sign(&mut self, sign: char) -> bool {
        let is = self.goes_on() && self.has_sign(sign);
        if is {
            self.at += 1;
        }
        is
    }

    /// Is the next token a word with this sign behind it on its line?
    pub fn has_word_before(&self, sign: char) -> bool {
        let behind = self.tokens.get(self.at + 1);
        self.word().is_some() && behind.is_some_and(|token| token.kind == Kind::Sign(sign) && token.line == self.peek().line)
    }

    /// A number on the same line, from `least` to `most`.
    pub fn number(&mut self, what: &str, least: i64, most: i64) -> Parsed<i64> {
        let range = format!("{what}, {least} to {most}");
        let Kind::Number(number) = self.peek().kind else {
            return Err(self.expected(&range));
        };
        if !self.goes_on() {
            return Err(self.expected(&range));
        }
        if number < least || number > most {
            return Err(Problem::new(self.peek().span, format!("expected {range}, found {}", clipped(self.text()))));
        }
        self.at += 1;
        Ok(number)
    }

    /// A number of a loader, task, class or steps, which needn't be there: the machine says so.
    pub fn any_number(&mut self, what: &str) -> Parsed<u32> {
        if !self.has_number() {
            return Err(self.expected(what));
        }
        Ok(self.number(what, 0, u32::MAX.into())? as u32)
    }

    /// A loader: its number, or its insurer's word.
    pub fn loader(&mut self) -> Parsed<u32> {
        match self.insurer() {
            Some(loader) => {
                self.at += 1;
                Ok(loader.into())
            }
            None => self.any_number("a loader, 0 to 15"),
        }
    }

    /// The loader of the insurer whose word is next on the line.
    pub fn insurer(&self) -> Option<u16> {
        self.names.insurer(self.word().filter(|_| self.goes_on())?)
    }

    /// The numbers that this text gives to names, wherever it does.
    pub fn given_numbers(&self) -> Vec<u16> {
        let is_first = |at: usize| at == 0 || self.tokens[at - 1].line < self.tokens[at].line;
        let number = |(at, three): (usize, &[Token])| match three {
            [name, word, Token { kind: Kind::Number(number), .. }] if self.source.of(name.span) == "name" && word.kind == Kind::Word => {
                u16::try_from(*number).ok().filter(|_| is_first(at))
            }
            _ => None,
        };
        self.tokens.windows(3).enumerate().filter_map(number).collect()
    }

    /// An int, as its 32 bits.
    pub fn int(&mut self) -> Parsed<u32> {
        Ok(self.number("an int", i32::MIN.into(), i32::MAX.into())? as i32 as u32)
    }

    pub fn has_number(&self) -> bool {
        self.goes_on() && matches!(self.peek().kind, Kind::Number(_))
    }

    /// Takes the name of a task, if one is next on the line.
    pub fn task(&mut self) -> Option<u32> {
        ["quote", "report"].iter().position(|task| self.took(task)).map(|task| task as u32)
    }

    /// A name that was declared, or a number, on the same line.
    pub fn name(&mut self, what: &str) -> Parsed<u16> {
        if !self.goes_on() {
            return Err(self.expected(what));
        }
        match self.word() {
            Some(word) => {
                let number = match self.names.number(word) {
                    Some(number) => number,
                    None if is_reserved(word) => return Err(self.expected(what)),
                    None => {
                        // said once: from here on the name counts as declared
                        self.problems.push(self.undeclared(word));
                        self.names.suppose(word)
                    }
                };
                self.at += 1;
                Ok(number)
            }
            None => match self.peek().kind {
                Kind::Number(_) => Ok(self.number("a name's number", 0, u16::MAX.into())? as u16),
                _ => Err(self.expected(what)),
            },
        }
    }

    fn undeclared(&self, word: &str) -> Problem {
        let problem = Problem::new(self.peek().span, format!("the name {} isn't declared", clipped(word)));
        problem.near(word, self.names.iter()).or_help(format!("declare it above, as: name {} 100", clipped(word)))
    }

    /// A fresh word on the same line.
    pub fn fresh(&mut self, what: &str) -> Parsed<(&'a str, Span)> {
        match self.word() {
            Some(word) if self.goes_on() => Ok((word, self.take())),
            _ => Err(self.expected(what)),
        }
    }

    /// Nothing more may stand on this line.
    pub fn line_ends(&self, after: &str) -> Parsed<()> {
        if self.goes_on() && !self.has_sign('}') {
            return Err(self.expected(&format!("the end of the line after {after}")));
        }
        Ok(())
    }

    /// Bytes in hexadecimal, two digits each, as far as they go.
    pub fn bytes(&mut self, across_lines: bool) -> Parsed<Vec<u8>> {
        let mut bytes = Vec::new();
        while (across_lines || self.goes_on()) && !self.is_end() && !self.has_sign('}') {
            let part = reference::script::hexadecimal(self.text().as_bytes());
            bytes.extend(part.ok_or_else(|| self.expected("bytes in hexadecimal, two digits each"))?);
            self.at += 1;
        }
        Ok(bytes)
    }
}

/// Is this the word of an instruction, which stands where a name was forgotten?
fn is_reserved(word: &str) -> bool {
    reference::code::op::NAMES.contains(&word)
}

fn clipped(text: &str) -> String {
    match text.char_indices().nth(40) {
        Some((end, _)) => format!("{}..", &text[..end]),
        None => text.to_string(),
    }
}

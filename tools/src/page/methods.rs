//! The texts of the methods that frames stand in.

use reference::file::Method;
use reference::store::cell;
use reference::Store;

use super::json;
use crate::listing;
use crate::names::Names;
use crate::text::Text;

/// Methods by number, each as JSON, with the labels of the lesson's texts.
pub struct Methods<'a> {
    texts: &'a [Text],
    all: Vec<String>,
}

impl<'a> Methods<'a> {
    pub fn new(texts: &'a [Text]) -> Methods<'a> {
        Methods { texts, all: Vec::new() }
    }

    /// The number of the method that the frame at this cell stands in.
    pub fn number(&mut self, store: &Store, base: usize, names: &Names) -> usize {
        let class = store.frames[base + cell::CLASS] as u16;
        let method = store.file(class).and_then(|file| file.method(store.frames[base + cell::METHOD] as usize));
        let own = names.request(store.loader_of(class), store.name_of(class).into());
        let (title, lines) = match method {
            Some(method) => (format!("{own}, method {}", names.method(method.signature)), self.lines(store, class, method, names)),
            None => (format!("{own}, no method"), Vec::new()),
        };
        let text = json::object([("title", json::string(&title)), ("lines", json::list(lines))]);
        self.all.iter().position(|there| *there == text).unwrap_or_else(|| {
            self.all.push(text);
            self.all.len() - 1
        })
    }

    pub fn json(&self) -> String {
        json::list(&self.all)
    }

    /// Each instruction with its point, and the label before it, with the writer's word for it.
    fn lines(&self, store: &Store, class: u16, method: Method, names: &Names) -> Vec<String> {
        let bytes = store.file_bytes(class).unwrap_or_default();
        let text = self.texts.iter().find(|text| text.bytes == bytes);
        let code = (method.code.as_ptr() as usize).saturating_sub(bytes.as_ptr() as usize);
        let labels = listing::labels(method);
        let (mut lines, mut point) = (Vec::new(), 0);
        while point < method.code.len() {
            let (instruction, next) = listing::instruction_at(method, point, names, &labels);
            let word = text.and_then(|text| text.label(code + point)).map_or(String::new(), |word| format!("  {word}"));
            let label = if labels.contains(&point) { format!("L{point}:{word}") } else { String::new() };
            lines.push(format!("[{point},{},{}]", json::string(&instruction), json::string(&label)));
            point = next;
        }
        lines
    }
}

//! The classes and calls of java/Arguments.java, and what it prints, by any machine: methods with 0 to 4 arguments.

use super::build::{Code, Draft};
use super::Trial;
use crate::answer::{word, Answer, Refusal, Reply};
use crate::file::{LISTED, MAPPED};
use crate::store::{Store, INT, OBJECT};

/// A class of the Java program: its superclass, its loader, the version of its file and the lists of its methods' arguments, with a letter for
/// each: an int or an A.
struct Class {
    superclass: u16,
    loader: u16,
    version: u8,
    lists: &'static [&'static str],
}

/// Its classes A, B, C and D, by their names from A on.
const A: u16 = 10;
const CLASSES: [Class; 4] = [
    Class { superclass: OBJECT, loader: 1, version: LISTED, lists: &["", "i", "a", "ia", "ai", "iai", "aaii", "iiaa"] },
    Class { superclass: A, loader: 2, version: LISTED, lists: &["i", "ai", "aa", "iii", "iiaa"] },
    Class { superclass: A + 1, loader: 2, version: LISTED, lists: &["", "aa", "iai", "aaa", "iaia", "iiaa"] },
    Class { superclass: A, loader: 3, version: MAPPED, lists: &["i", "a"] },
];
const MARK: u16 = 30;
const METHOD: u16 = 21;

/// The classes whose methods have the calls, one method a call, and the class of version 1 that has those with one argument.
const FIRST_CLIENT: u16 = 20;
const OLD_CLIENT: u16 = 19;
const FIRST_CALL: u16 = 40;
const MOST_METHODS: usize = 8;
/// The local that holds the first of the four objects.
const FIRST_OBJECT: u8 = 2;

fn letter(class: u16) -> char {
    char::from(b'A' + (class - A) as u8)
}

fn types(list: &str) -> Vec<u16> {
    list.chars().map(|of| if of == 'i' { INT } else { A }).collect()
}

/// All lists of up to four arguments, the shorter ones first.
fn lists() -> Vec<String> {
    let mut all = vec![String::new()];
    let mut next = 0;
    while all[next].len() < 4 {
        let list = all[next].clone();
        all.extend(["i", "a"].map(|of| list.clone() + of));
        next += 1;
    }
    all
}

/// Tells the object, the class that declares the method and the arguments in their order as digits.
fn telling(declared: i16, list: &str) -> Code {
    let begun = Code::new().aload(0).getfield(A, MARK, INT).int(10).imul().int(declared).iadd();
    let told = (1..).zip(list.chars()).fold(begun, |code, (local, of)| {
        let code = code.int(10).imul();
        if of == 'i' { code.iload(local).iadd() } else { code.aload(local).getfield(A, MARK, INT).iadd() }
    });
    told.ireturn()
}

/// Makes the four objects with their marks and calls the method of one, by this class and list. The n-th argument is n, or the object at n among
/// the four, counted from 0 and around.
fn calling(version: u8, receiver: u16, named: u16, list: &str) -> Code {
    let made = (0..4).fold(Code::of_version(version), |code, at| {
        let local = FIRST_OBJECT + at;
        code.object(A + u16::from(at)).astore(local).aload(local).int(5 + i16::from(at)).putfield(A, MARK, INT)
    });
    let receiving = made.aload(FIRST_OBJECT + (receiver - A) as u8);
    let given = (1..).zip(list.chars()).fold(receiving, |code, (n, of)| {
        if of == 'i' { code.int(n.into()) } else { code.aload(FIRST_OBJECT + n % 4) }
    });
    given.call(named, METHOD, &types(list), INT).ireturn()
}

/// The four classes under their loaders, known to loaders 2 and 3.
fn loaded() -> Trial {
    let mut trial = Trial::ready([1, 2, 3]);
    for (number, class) in (1..).zip(&CLASSES) {
        let name = A + number - 1;
        let draft = Draft { version: class.version, ..Draft::new(name) }.under(class.superclass);
        let draft = if name == A { draft.field(MARK, INT) } else { draft };
        let declared = number as i16;
        trial.define(class.loader, &class.lists.iter().fold(draft, |draft, list| draft.method_of(METHOD, &types(list), INT, &telling(declared, list))));
        trial.record(2, name, number);
        trial.record(3, name, number);
    }
    trial
}

/// What java/Arguments.java prints, by steps that are made in this way.
pub fn printed(mut step: impl FnMut(&mut Store) -> Reply) -> String {
    let mut text = String::new();
    for receiver in A..A + 4 {
        let mut named = receiver;
        while named != OBJECT {
            text += &format!("new {}, {}.m:{}\n", letter(receiver), letter(named), line(receiver, named, &mut step));
            named = CLASSES[usize::from(named - A)].superclass;
        }
    }
    text
}

/// The calls with every list, by one class to one object. Those with one argument are also made from a file of version 1, which must give the same.
fn line(receiver: u16, named: u16, step: &mut dyn FnMut(&mut Store) -> Reply) -> String {
    let mut trial = loaded();
    let lists = lists();
    let methods = |name: u16, version: u8, lists: &[String]| {
        (FIRST_CALL..).zip(lists).fold(Draft { version, ..Draft::new(name) }, |draft, (method, list)| {
            draft.main(method, &calling(version, receiver, named, list))
        })
    };
    for (client, lists) in (FIRST_CLIENT..).zip(lists.chunks(MOST_METHODS)) {
        trial.define(2, &methods(client, LISTED, lists));
    }
    trial.define(2, &methods(OLD_CLIENT, 1, &lists[1..3]));
    let mut text = String::new();
    for (at, list) in lists.iter().enumerate() {
        let told = quote(&mut trial, FIRST_CLIENT + (at / MOST_METHODS) as u16, FIRST_CALL + (at % MOST_METHODS) as u16, step);
        if list.len() == 1 {
            let old = quote(&mut trial, OLD_CLIENT, FIRST_CALL + at as u16 - 1, step);
            assert_eq!(old, told, "a call with one argument from version 1");
        }
        text += &format!(" {told}");
    }
    text
}

/// A quote of that method to its end: its int, or '-' where a method is absent.
fn quote(trial: &mut Trial, client: u16, method: u16, step: &mut dyn FnMut(&mut Store) -> Reply) -> String {
    assert_eq!(trial.start(0, 2, client, method, 0), Reply::Accepted, "a quote of class {client}");
    loop {
        match step(&mut trial.store) {
            Reply::Stepped(Answer::Ran(0)) => {}
            Reply::Stepped(Answer::Finished(0, int)) => return (int as i32).to_string(),
            Reply::Stepped(Answer::Refused(Refusal::Word(word::ABSENT))) => {
                trial.drop_task(0);
                return "-".into();
            }
            reply => panic!("{reply:?}"),
        }
    }
}

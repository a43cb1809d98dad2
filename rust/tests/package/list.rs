//! The list of crates/stamps: questions on words and instants, and the answers that were recorded from the Rust.

use crate::columns::row;
use std::fs;
use std::path::Path;

/// A layout's number, a row of a word or an instant, and the row that it is decoded or encoded to, or the number of its refusal.
pub struct Question<const IN: usize, const OUT: usize> {
    pub layout: u32,
    pub row: [u8; IN],
    pub answer: Result<[u8; OUT], u32>,
}

pub struct List {
    pub words: Vec<Question<8, 12>>,
    pub instants: Vec<Question<12, 8>>,
    /// Lines that can't be asked here: a bad line, and those with a layout number or nanoseconds that are no u32.
    pub left_out: usize,
}

pub fn recorded() -> List {
    let mut list = List {
        words: Vec::new(),
        instants: Vec::new(),
        left_out: 0,
    };
    let (questions, answers) = (text("stdin"), text("stdout"));
    for (question, answer) in questions.lines().zip(answers.lines()) {
        if answer == "bad line" || list.take(question, answer).is_none() {
            list.left_out += 1;
        }
    }
    list
}

impl List {
    /// Takes a line, if it can be asked.
    fn take(&mut self, question: &str, answer: &str) -> Option<()> {
        let (letter, rest) = question.split_once(' ')?;
        match (letter, numbers(rest).as_slice()) {
            ("d", &[layout, word]) => self.words.push(Question {
                layout: layout.try_into().ok()?,
                row: word.to_le_bytes(),
                answer: refused_or(answer, |text| match *numbers(text) {
                    [seconds, nanos] => row(seconds, nanos.try_into().expect("nanoseconds")),
                    _ => panic!("not an instant: {text}"),
                }),
            }),
            ("e", &[layout, seconds, nanos]) => self.instants.push(Question {
                layout: layout.try_into().ok()?,
                row: row(seconds, nanos.try_into().ok()?),
                answer: refused_or(answer, |text| numbers(text)[0].to_le_bytes()),
            }),
            _ => panic!("not a question: {question}"),
        }
        Some(())
    }
}

fn numbers(text: &str) -> Vec<i64> {
    text.split(' ')
        .map(|number| number.parse().expect("a number"))
        .collect()
}

fn text(name: &str) -> String {
    let folder = Path::new(env!("CARGO_MANIFEST_DIR")).join("../crates/stamps");
    fs::read_to_string(folder.join(name)).expect("the list stands in crates/stamps")
}

fn refused_or<Out>(answer: &str, value: impl Fn(&str) -> Out) -> Result<Out, u32> {
    match answer.strip_prefix("refused ") {
        Some(number) => Err(number.parse().expect("a number")),
        None => Ok(value(answer)),
    }
}

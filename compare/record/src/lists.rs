//! What a list is made of: lines in parts.

/// The answer to a line that asks nothing.
pub const BAD_LINE: &str = "bad line";

/// A list, the seeds of its random parts, and whether its last question ends in an LF.
pub struct List {
    pub seeds: Vec<u64>,
    pub parts: Vec<Part>,
    pub ends_in_lf: bool,
}

/// A run of lines made in the same way.
pub struct Part {
    pub name: &'static str,
    pub lines: Vec<Line>,
}

/// A question and the answer to it, each a line without its LF.
pub struct Line {
    pub question: String,
    pub answer: String,
}

/// A line that asks nothing.
pub fn bad_line(question: String) -> Line {
    Line {
        question,
        answer: BAD_LINE.to_string(),
    }
}

pub fn part<Q>(name: &'static str, questions: Vec<Q>, line: impl Fn(&Q) -> Line) -> Part {
    Part {
        name,
        lines: questions.iter().map(line).collect(),
    }
}

/// Document 01's stamps. Stops where the Rust answers something else than the document.
pub fn stamps<Q>(
    name: &'static str,
    stamps: Vec<(Q, &'static str)>,
    line: impl Fn(&Q) -> Line,
) -> Part {
    let (questions, answers): (Vec<_>, Vec<_>) = stamps.into_iter().unzip();
    let part = part(name, questions, line);
    for (line, answer) in part.lines.iter().zip(answers) {
        assert_eq!(line.answer, answer, "document 01 on {}", line.question);
    }
    part
}

/// A good question for the end of a list, where it lacks its LF: the first of document 01's stamps again.
pub fn last_line(mut stamps: Part) -> Part {
    stamps.lines.truncate(1);
    Part {
        name: "a last line without its LF",
        ..stamps
    }
}

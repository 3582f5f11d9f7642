//! Job texts, and what `fieldlist` prints for each.
//!
//! The reader of texts is written from the rules alone. The ledger answers
//! what it reads.

mod accepted;
mod faults;
mod listing;
mod mutations;
mod refused;
mod seeded;
mod text;

#[cfg(test)]
mod tests;

pub use listing::listing;

#[derive(Default)]
pub struct List {
    pub cases: Vec<u8>,
    pub answers: Vec<String>,
}

impl List {
    /// A case is the text's length in bytes as 16 digits, a line end, and the
    /// text. An empty line ends its answer.
    fn push(&mut self, text: &[u8], answer: &str) {
        self.cases.extend(format!("{:016x}\n", text.len()).bytes());
        self.cases.extend(text);
        self.answers.push(format!("{answer}\n"));
    }

    fn add(&mut self, text: impl AsRef<[u8]>) {
        let text = text.as_ref();
        self.push(text, &listing(text));
    }

    /// A text for which the answer's first line is known.
    fn due(&mut self, text: impl AsRef<[u8]>, first: &str) {
        let text = text.as_ref();
        let answer = listing(text);
        assert_eq!(
            answer.lines().next(),
            Some(first),
            "{}",
            text.escape_ascii()
        );
        self.push(text, &answer);
    }

    /// A text for which the whole answer is known.
    fn exactly(&mut self, text: impl AsRef<[u8]>, answer: &str) {
        let text = text.as_ref();
        assert_eq!(listing(text), answer, "{}", text.escape_ascii());
        self.push(text, answer);
    }
}

/// The plane case, with letters for its numbers.
const CASE: [&str; 5] = [
    "(bounds (min Z Z Z) (max T T T))",
    "(cell P)",
    "(blocks 2 2)",
    "(band Q Z)",
    "(plane P Z Z Z)",
];

/// Writes the numbers for their letters.
fn spelled(text: &str) -> String {
    text.replace('Z', "0000000000000000")
        .replace('P', "3ff0000000000000")
        .replace('T', "4000000000000000")
        .replace('Q', "bfd0000000000000")
}

/// A text of lines in which letters stand for numbers.
fn of_lines(lines: &[&str]) -> String {
    let ended = |line: &&str| format!("{}\n", spelled(line));
    lines.iter().map(ended).collect()
}

pub fn list() -> List {
    let mut list = List::default();
    accepted::texts(&mut list);
    refused::texts(&mut list);
    for (text, line) in faults::texts() {
        list.due(text, &format!("(refused 12 {line})"));
    }
    mutations::texts(&mut list);
    seeded::texts(&mut list);
    list
}

//! A list of cases with their answers: a word and numbers of 16 digits, a line
//! each.

use std::fmt::Write;

#[derive(Default)]
pub struct List {
    pub cases: String,
    pub answers: String,
}

impl List {
    /// One case and its answer. The answer's first number is the refusal's, or
    /// 0.
    pub fn add(&mut self, word: &str, case: &[u64], answer: &[u64]) {
        self.case(word, case);
        self.answer(answer);
    }

    /// A line of the cases.
    pub fn case(&mut self, word: &str, numbers: &[u64]) {
        self.cases.push_str(word);
        for number in numbers {
            write!(self.cases, " {number:016x}").unwrap();
        }
        self.cases.push('\n');
    }

    /// A line of the answers.
    pub fn answer(&mut self, numbers: &[u64]) {
        let numbers: Vec<String> = numbers.iter().map(|n| format!("{n:016x}")).collect();
        self.answers.push_str(&numbers.join(" "));
        self.answers.push('\n');
    }
}

//! Answers that are stored as digests, because they are long.

use cases::digest::Digest;

/// A line for each answer: the 16 digits of its digest.
pub fn digests(answers: &[String]) -> String {
    let line = |answer: &String| format!("{:016x}\n", Digest::of(answer));
    answers.iter().map(line).collect()
}

/// All answers, or the one with that number. The first has the number 1.
pub fn whole(answers: &[String], number: Option<&str>) -> Option<String> {
    let Some(number) = number else {
        return Some(answers.concat());
    };
    let place = number.parse::<usize>().ok()?.checked_sub(1)?;
    answers.get(place).cloned()
}

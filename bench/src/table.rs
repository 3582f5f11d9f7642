//! The tables, in markdown.

/// How many times as fast as the original on one thread a row should be. Rows
/// under it are marked.
const AIM: f64 = 1.5;

/// Prints the head of the table of ratios.
pub fn head() {
    println!("| what | ours, ns | theirs, one thread, ns | times as fast | theirs, all threads, ns | times as fast |");
    println!("|---|---|---|---|---|---|");
}

/// A row's times, in nanoseconds for one result.
pub struct Row {
    pub ours: f64,
    /// Theirs on one thread, where the original is built.
    pub one: Option<f64>,
    /// Ours and theirs on all threads, both by the wall's clock, where their call
    /// has a parallel part.
    pub all: Option<[f64; 2]>,
}

impl Row {
    pub fn print(&self, name: &str) {
        let ours = shown(self.ours);
        let Some(one) = self.one else {
            println!("| {name} | {ours} | not built | | | |");
            return;
        };
        // The mark goes by the digits that are shown.
        let ratio = (one / self.ours * 100.0).round() / 100.0;
        let mark = if ratio < AIM { "*" } else { "" };
        let all = match self.all {
            None => "- | -".to_string(),
            Some([ours, theirs]) => format!("{} | {:.2}", shown(theirs), theirs / ours),
        };
        let one = shown(one);
        println!("| {name} | {ours} | {one} | {ratio:.2}{mark} | {all} |");
    }
}

/// Prints the head of a table of our times alone.
pub fn head_alone() {
    println!("\n| what | ours, ns |");
    println!("|---|---|");
}

/// Prints a row of our time alone.
pub fn alone(name: &str, time: f64) {
    println!("| {name} | {} |", shown(time));
}

/// A time: two digits at least, and commas in a long one.
fn shown(time: f64) -> String {
    match time {
        t if t < 0.95 => format!("{t:.2}"),
        t if t < 1000.0 => format!("{t:.1}"),
        t => grouped(t.round() as u64),
    }
}

/// A whole number with commas.
pub fn grouped(n: u64) -> String {
    match n / 1000 {
        0 => n.to_string(),
        above => format!("{},{:03}", grouped(above), n % 1000),
    }
}

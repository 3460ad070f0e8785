//! A table of exact counts, before and after a change; no clock.

pub struct Counts {
    /// Of the names and of both counts.
    pub titles: [&'static str; 3],
    pub lines: Vec<Counted>,
}

pub struct Counted {
    pub name: String,
    pub before: usize,
    pub after: usize,
    /// How many calls the counts are of: they are shown by call then.
    pub calls: Option<usize>,
}

impl Counts {
    /// Prints the counts and what part the second is of the first; nothing where
    /// there are no lines.
    pub fn print(&self) {
        if let Some(line) = self.lines.first() {
            let [name, before, after] = self.titles;
            let calls = line.calls.map(|_| "calls".to_string());
            print_columns([name, before, after, "ratio"], calls);
            self.lines.iter().for_each(Counted::print);
            println!();
        }
    }
}

impl Counted {
    fn print(&self) {
        let [before, after] = [self.before, self.after].map(|count| match self.calls {
            Some(calls) => format!("{:.2}", count as f64 / calls as f64),
            None => count.to_string(),
        });
        let ratio = match self.before {
            0 => "-".to_string(),
            before => format!("{:.4}", self.after as f64 / before as f64),
        };
        let calls = self.calls.map(|calls| calls.to_string());
        print_columns([&self.name, &before, &after, &ratio], calls);
    }
}

fn print_columns([name, before, after, ratio]: [&str; 4], calls: Option<String>) {
    let calls = calls.unwrap_or_default();
    let line = format!("{name:42} {before:>15} {after:>15} {ratio:>7} {calls:>7}");
    println!("{}", line.trim_end());
}

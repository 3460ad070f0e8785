//! A table of comparisons: times, their ratio, and how far the second side is from
//! itself.

use crate::timing::{take_times, Comparison};

pub struct Table {
    /// Of the names and of both sides' times.
    pub titles: [&'static str; 3],
    /// Of the counts that stand behind the ratio.
    pub counts: &'static [&'static str],
    /// What the second side against itself is called.
    pub noise: &'static str,
    pub lines: Vec<Line>,
}

pub struct Line {
    pub name: String,
    pub comparison: Comparison,
    /// What the time of a go is divided by.
    pub parts: usize,
    pub counts: Vec<usize>,
}

impl Table {
    /// Takes the times and prints them; nothing where there are no lines.
    pub fn print(mut self) {
        let lines = self.lines.iter_mut();
        take_times(lines.map(|line| &mut line.comparison).collect());
        let noise = self.lines.iter().map(|line| line.comparison.noise());
        let mut noise: Vec<f64> = noise.collect();
        noise.sort_by(f64::total_cmp);
        if let [least, .., most] | [least @ most] = noise[..] {
            let [name, first, second] = self.titles;
            print_columns([name, first, second, "ratio", "self"], self.counts);
            self.lines.iter().for_each(Line::print);
            println!("self, {}: {least:.2} to {most:.2}\n", self.noise);
        }
    }
}

impl Line {
    fn print(&self) {
        let (times, parts) = (&self.comparison, self.parts as f64);
        let shown = |number: Option<f64>, digits| match number {
            Some(number) => format!("{number:.digits$}"),
            None => "-".to_string(),
        };
        let first = shown(times.first().map(|time| time / parts), 0);
        let second = shown(Some(times.second() / parts), 0);
        let ratio = shown(times.ratio(), 2);
        let noise = shown(Some(times.noise()), 2);
        print_columns([&self.name, &first, &second, &ratio, &noise], &self.counts);
    }
}

fn print_columns(columns: [&str; 5], counts: &[impl ToString]) {
    let [name, first, second, ratio, noise] = columns;
    print!("{name:42} {first:>14} {second:>15} {ratio:>7} {noise:>6}");
    for count in counts {
        print!(" {:>7}", count.to_string());
    }
    println!();
}

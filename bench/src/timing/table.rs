//! Candidates timed in turn, and the table of their best times.

use std::hint::black_box;
use std::time::{Duration, Instant};

/// One round of a candidate: sets up what is not timed, and answers what the rest took.
pub type Round<'a> = Box<dyn FnMut() -> Duration + 'a>;

/// How long `work` takes. What it answers is dropped after the clock has stopped.
pub fn timed<T>(work: impl FnOnce() -> T) -> Duration {
    let start = Instant::now();
    let answer = black_box(work());
    let took = start.elapsed();
    drop(answer);
    took
}

pub struct Row<'a> {
    pub name: String,
    /// How many of the row's units one round has.
    pub units: usize,
    pub theirs: Round<'a>,
    pub ours: Round<'a>,
    /// The ratio that is wanted at most.
    pub goal: Option<f64>,
}

pub struct Table {
    /// How long the rounds of a row go on.
    long: Duration,
    lines: Vec<String>,
    missed: usize,
}

fn nanoseconds(best: Duration, units: usize) -> f64 {
    best.as_nanos() as f64 / units as f64
}

/// Three figures that matter.
fn shown(ns: f64) -> String {
    match ns {
        ns if ns < 10.0 => format!("{ns:.2}"),
        ns if ns < 100.0 => format!("{ns:.1}"),
        ns => format!("{ns:.0}"),
    }
}

fn shown_ratio(ratio: f64) -> String {
    match ratio {
        ratio if ratio < 0.005 => "< 0.01".into(),
        ratio => format!("{ratio:.2}"),
    }
}

impl Table {
    pub fn new(long: Duration) -> Self {
        Table {
            long,
            lines: Vec::new(),
            missed: 0,
        }
    }

    /// A line that opens a group of rows.
    pub fn group(&mut self, name: &str) {
        self.push(format!("| **{name}** | | | | | |"));
    }

    /// Runs the candidates in turn, and answers each one's best round for a unit: theirs and ours.
    fn best(&self, row: &mut Row) -> [f64; 2] {
        let (mut theirs, mut ours) = (Duration::MAX, Duration::MAX);
        let start = Instant::now();
        while start.elapsed() < self.long {
            theirs = theirs.min((row.theirs)());
            ours = ours.min((row.ours)());
        }
        [theirs, ours].map(|best| nanoseconds(best, row.units))
    }

    /// The last three cells of a line: the ratio, its goal, and whether that is met.
    fn judged(&mut self, ratio: f64, goal: Option<f64>) -> String {
        let ratio_shown = shown_ratio(ratio);
        let Some(goal) = goal else {
            return format!("{ratio_shown} |  |  |");
        };
        let is_met = ratio <= goal;
        self.missed += usize::from(!is_met);
        format!(
            "{ratio_shown} | {goal:?} | {} |",
            if is_met { "yes" } else { "no" }
        )
    }

    fn push(&mut self, line: String) {
        eprintln!("{line}");
        self.lines.push(line);
    }

    pub fn row(&mut self, mut row: Row) {
        let [theirs, ours] = self.best(&mut row);
        let judged = self.judged(ours / theirs, row.goal);
        let (name, theirs, ours) = (row.name, shown(theirs), shown(ours));
        self.push(format!("| {name} | {theirs} | {ours} | {judged}"));
    }

    /// A row that the original has no counterpart of: `theirs` is its floor, which the ratio is of and which the next line names.
    pub fn over_floor(&mut self, mut row: Row, floor_name: &str) {
        let [floor, ours] = self.best(&mut row);
        let judged = self.judged(ours / floor, row.goal);
        let (name, ours) = (row.name, shown(ours));
        self.push(format!("| {name} | | {ours} | {judged}"));
        self.push(format!("| {floor_name} | | {} | | | |", shown(floor)));
    }

    /// A candidate alone: what a row is to be held against.
    pub fn alone(&mut self, name: &str, units: usize, mut round: Round) {
        let mut best = Duration::MAX;
        let start = Instant::now();
        while start.elapsed() < self.long {
            best = best.min(round());
        }
        let best = shown(nanoseconds(best, units));
        self.push(format!("| {name} | | {best} | | | |"));
    }

    pub fn print(&self) {
        println!("| row | the original, ns | here, ns | ratio | goal | met |");
        println!("|---|---:|---:|---:|---:|---|");
        for line in &self.lines {
            println!("{line}");
        }
        println!("\nGoals missed: {}.", self.missed);
    }
}

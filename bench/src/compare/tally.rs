//! Both sides are asked, and what they answer is counted.

use oracle::record::{Component, Question, Xorshift};
use std::panic::{catch_unwind, AssertUnwindSafe};
use std::process;
use std::time::Instant;

/// This library's side of a component of the oracle: the same questions, and answers in the same words.
pub trait Ours: Default {
    type Theirs: Component;

    /// Whether the library has the call that this question asks.
    fn has(_question: &Question) -> bool {
        true
    }

    /// The answer, and the state or the lent memory after it; of a refusal its number comes first.
    fn answer(&mut self, question: &Question) -> Vec<u64>;

    /// Whether a question that is not compared is refused with 4 or 9 to 13. It leaves the state as it was.
    fn refuses(&mut self, question: &Question) -> bool {
        not_compared(self.answer(question)[0])
    }
}

/// Refusals that are not compared: 4, and 9 to 13.
pub fn not_compared(refusal: u64) -> bool {
    refusal == 4 || (9..=13).contains(&refusal)
}

/// How many commands in all, and what the random ones come from.
pub struct Plan {
    pub commands: u64,
    pub seed: u64,
}

pub struct Tally {
    name: &'static str,
    pub compared: u64,
    pub left_out: u64,
    pub differences: u64,
    since: Instant,
}

/// The differences of a component that are printed.
const PRINTED: u64 = 5;

impl Tally {
    pub fn named(name: &'static str) -> Self {
        Tally {
            name,
            compared: 0,
            left_out: 0,
            differences: 0,
            since: Instant::now(),
        }
    }

    pub fn add(&mut self, other: &Tally) {
        self.compared += other.compared;
        self.left_out += other.left_out;
        self.differences += other.differences;
        self.since = self.since.min(other.since);
    }

    pub fn print(&self) {
        println!(
            "{}: {} commands compared, {} left out, {} differences, {} s",
            self.name,
            self.compared,
            self.left_out,
            self.differences,
            self.since.elapsed().as_secs()
        );
    }

    /// Counts a difference, and prints the first ones.
    pub fn differs(&mut self, what: &str) {
        self.differences += 1;
        if self.differences <= PRINTED {
            println!("{}: difference: {:.2000}", self.name, what);
        }
    }
}

impl Plan {
    /// The commands of a component that has so many parts of a thousand.
    pub fn share(&self, thousandths: u64) -> u64 {
        self.commands * thousandths / 1000
    }

    /// Asks both sides the component's cases and random questions, with a new state every 250 questions.
    pub fn compare<O: Ours>(&self, thousandths: u64) -> Tally {
        let mut rng = Xorshift::seeded(self.seed);
        let mut pair = Pair::<O>::new();
        for question in O::Theirs::cases() {
            pair.ask(question);
        }
        let mut turn = 0;
        while pair.tally.compared < self.share(thousandths) {
            if turn % 250 == 0 {
                match O::Theirs::start(&mut rng) {
                    Some(question) => pair.ask(question),
                    None => pair.since_start.clear(),
                }
            }
            turn += 1;
            let question = pair.theirs.random(&mut rng);
            pair.ask(question);
        }
        pair.tally.print();
        pair.tally
    }
}

struct Pair<O: Ours> {
    theirs: O::Theirs,
    ours: O,
    since_start: Vec<Question>,
    tally: Tally,
}

impl<O: Ours> Pair<O> {
    fn new() -> Self {
        Pair {
            theirs: O::Theirs::default(),
            ours: O::default(),
            since_start: Vec::new(),
            tally: Tally::named(O::Theirs::NAME),
        }
    }

    fn ask(&mut self, question: Question) {
        if !O::has(&question) {
            return;
        }
        if question.op == 0 {
            self.since_start.clear();
        }
        let told = catch_unwind(AssertUnwindSafe(|| self.theirs.answer(&question)));
        let panicked = told.is_err();
        let Ok(Some(theirs)) = told else {
            self.leave_out(&question, panicked);
            return;
        };
        let ours = self.ours.answer(&question);
        self.tally.compared += 1;
        if ours != theirs {
            self.tally.differs(&format!(
                "on {question:?} the Rust says {theirs:?}, this library {ours:?}"
            ));
        }
        self.since_start.push(question);
    }

    /// An input at which the Rust panics, or that is refused with 4 or 9 to 13: this library has to refuse it.
    fn leave_out(&mut self, question: &Question, panicked: bool) {
        self.tally.left_out += 1;
        if !self.ours.refuses(question) {
            let what = format!("on {question:?}, which the Rust does not answer, no refusal");
            self.tally.differs(&what);
        }
        if panicked {
            self.theirs = O::Theirs::default();
            for asked in &self.since_start {
                self.theirs.answer(asked);
            }
        }
    }
}

/// A panic of the published files is an answer of theirs, without a message. One of any other file ends the comparison.
pub fn panics_end_it_but_of_the_published_files() {
    std::panic::set_hook(Box::new(|panic| {
        let file = panic.location().map_or("", |at| at.file());
        let ours =
            file.contains("oracle/src/") || file.contains("bench/src/") || file.starts_with("src/");
        if ours {
            eprintln!("{panic}");
            process::abort();
        }
    }));
}

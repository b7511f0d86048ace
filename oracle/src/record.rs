//! Questions, answers, and the two files that keep them.

use std::fmt::Write as _;
use std::panic::{catch_unwind, AssertUnwindSafe};

/// A command: its number, the words that it takes, and bytes if it takes any.
#[derive(Clone, Debug, Default)]
pub struct Question {
    pub op: u64,
    pub words: Vec<u64>,
    pub bytes: Option<Vec<u8>>,
}

pub fn ask(op: u64, words: &[u64]) -> Question {
    Question {
        op,
        words: words.to_vec(),
        bytes: None,
    }
}

pub fn ask_with(op: u64, words: &[u64], bytes: &[u8]) -> Question {
    Question {
        op,
        words: words.to_vec(),
        bytes: Some(bytes.to_vec()),
    }
}

impl Question {
    pub fn bytes(&self) -> &[u8] {
        self.bytes.as_deref().unwrap_or_default()
    }

    /// Words with the highest byte first; bytes as their length and themselves, filled up with zeros to whole words.
    fn write(&self, to: &mut Vec<u8>) {
        to.extend(self.op.to_be_bytes());
        for word in &self.words {
            to.extend(word.to_be_bytes());
        }
        if let Some(bytes) = &self.bytes {
            to.extend((bytes.len() as u64).to_be_bytes());
            to.extend(bytes);
            to.resize((to.len() + 7) / 8 * 8, 0);
        }
    }
}

/// What is asked of one component, and how the Rust answers it.
pub trait Component: Default {
    const NAME: &'static str;

    /// The program that replays it, and its record, are in this folder, whose name ends in NAME: in Rattle, or in C over the archive.
    const FOLDER: &'static str = "crates/replay_";

    /// How many random questions follow the cases.
    const RANDOM: usize;

    /// The boundary cases of every rule, made by hand.
    fn cases() -> Vec<Question>;

    /// The question that starts a new state, where there is state; asked every 250 random questions.
    fn start(_rng: &mut Xorshift) -> Option<Question> {
        None
    }

    /// A random question; `self` is the state that it will meet.
    fn random(&self, rng: &mut Xorshift) -> Question;

    /// The Rust's answer and the state after it; nothing for an input that is not compared.
    fn answer(&mut self, question: &Question) -> Option<Vec<u64>>;
}

/// The questions kept, with their answers.
#[derive(Default)]
pub struct Record {
    questions: Vec<u8>,
    answers: String,
    pub kept: u64,
    pub left_out: u64,
}

impl Record {
    fn keep(&mut self, question: &Question, answer: &[u64]) {
        question.write(&mut self.questions);
        for (i, number) in answer.iter().enumerate() {
            let space = if i == 0 { "" } else { " " };
            write!(self.answers, "{space}{number}").unwrap();
        }
        self.answers.push('\n');
        self.kept += 1;
    }

    /// The number of commands, then the commands.
    pub fn stdin(&self) -> Vec<u8> {
        let mut all = self.kept.to_be_bytes().to_vec();
        all.extend(&self.questions);
        all
    }

    /// A line for each command.
    pub fn stdout(&self) -> &[u8] {
        self.answers.as_bytes()
    }
}

/// Asks a component everything. An input at which the Rust panics is left out, and the state of before it is made again.
pub fn record<C: Component>() -> Record {
    let mut record = Record::default();
    let mut rust = C::default();
    let mut since_start = Vec::new();
    let mut put = |rust: &mut C, question: Question| {
        if question.op == 0 {
            since_start.clear();
        }
        match catch_unwind(AssertUnwindSafe(|| rust.answer(&question))) {
            Ok(Some(answer)) => {
                record.keep(&question, &answer);
                since_start.push(question);
            }
            Ok(None) => record.left_out += 1,
            Err(_) => {
                record.left_out += 1;
                *rust = C::default();
                for asked in &since_start {
                    rust.answer(asked);
                }
            }
        }
    };
    for question in C::cases() {
        put(&mut rust, question);
    }
    let mut rng = Xorshift::default();
    for turn in 0..C::RANDOM {
        if turn % 250 == 0 {
            if let Some(question) = C::start(&mut rng) {
                put(&mut rust, question);
            }
        }
        let question = rust.random(&mut rng);
        put(&mut rust, question);
    }
    record
}

/// What stands for bytes that are too many to print: each of them, and where it stands, counts.
pub fn sum(bytes: &[u8]) -> u64 {
    bytes
        .iter()
        .fold(0, |sum, &b| sum % 1_000_000_007 * 257 + u64::from(b) + 1)
}

/// Marsaglia's xorshift64*, from a fixed seed: the records are the same at every run.
pub struct Xorshift(u64);

impl Default for Xorshift {
    fn default() -> Self {
        Xorshift(0x9e37_79b9_7f4a_7c15)
    }
}

impl Xorshift {
    /// From another seed.
    pub fn seeded(seed: u64) -> Self {
        let mut rng = Self::default();
        rng.0 ^= seed.wrapping_mul(0xbf58_476d_1ce4_e5b9);
        rng.0 = rng.0.max(1);
        rng
    }

    pub fn next(&mut self) -> u64 {
        self.0 ^= self.0 >> 12;
        self.0 ^= self.0 << 25;
        self.0 ^= self.0 >> 27;
        self.0.wrapping_mul(0x2545_f491_4f6c_dd1d)
    }

    /// A number below `n`.
    pub fn below(&mut self, n: u64) -> u64 {
        (self.next() >> 16) % n
    }

    /// Yes once in `n` times.
    pub fn one_in(&mut self, n: u64) -> bool {
        self.below(n) == 0
    }

    pub fn pick<T: Copy>(&mut self, from: &[T]) -> T {
        from[self.below(from.len() as u64) as usize]
    }

    pub fn bytes(&mut self, n: u64) -> Vec<u8> {
        (0..n).map(|_| self.next() as u8).collect()
    }

    /// A number to start from: small, anywhere, or, once in five times, within `reach` of 2^64.
    pub fn start_number(&mut self, reach: u64) -> u64 {
        match self.below(5) {
            0 => u64::MAX - self.below(reach),
            1 | 2 => self.below(1000),
            _ => self.next() >> 1,
        }
    }
}

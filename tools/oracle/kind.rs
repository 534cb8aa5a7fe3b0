//! A kind of line: its form, what the Rust answers, and which arguments are asked.
//! A new kind is one more `Kind` in a list that `main.rs` joins.

use crate::random::Random;
use std::io::Write;
use std::panic;
use std::process;
use std::sync::atomic::{AtomicBool, Ordering};

pub struct Kind {
    pub number: u64,
    pub name: &'static str,
    /// The arguments and the answers, for the comments at the file's head.
    pub form: &'static str,
    /// From a line's arguments to its answers.
    pub answer: fn(&[u64]) -> Vec<u64>,
    /// The answers where the Rust halts; nothing where it must not.
    pub halted: Option<&'static [u64]>,
    /// Asks everything that this kind is asked.
    pub ask: fn(&mut Asker),
    /// `sample` keeps one in so many of the lines that are no edges.
    pub one_in: u64,
}

/// A line has at most so many numbers.
const LONGEST: usize = 256;

/// Takes a kind's arguments and writes their lines.
pub struct Asker<'a> {
    pub random: Random,
    kind: &'a Kind,
    /// In `sample`, what chooses among the lines that are no edges.
    chooser: Option<Random>,
    out: &'a mut dyn Write,
}

impl<'a> Asker<'a> {
    pub fn new(kind: &'a Kind, seed: u64, sample: bool, out: &'a mut dyn Write) -> Self {
        Asker {
            random: Random::new(seed, kind.number, 0),
            kind,
            chooser: sample.then(|| Random::new(seed, kind.number, 1)),
            out,
        }
    }

    /// Asks these arguments; an edge is always in the sample.
    pub fn ask(&mut self, edge: bool, arguments: &[u64]) {
        if let Some(chooser) = &mut self.chooser
            && !edge
            && chooser.below(self.kind.one_in) != 0
        {
            return;
        }
        let answers = self.answers(arguments);
        if 1 + arguments.len() + answers.len() > LONGEST {
            stop(&format!("{}: a line is too long", self.kind.name));
        }
        let mut line = self.kind.number.to_string();
        for number in arguments.iter().chain(&answers) {
            line.push(' ');
            line.push_str(&number.to_string());
        }
        self.write(&line);
    }

    /// Asks arguments whose answer was worked out by hand, below a comment that tells it.
    pub fn by_hand(&mut self, words: &str, arguments: &[u64]) {
        self.write(&format!("# By hand: {words}"));
        self.ask(true, arguments);
    }

    fn write(&mut self, line: &str) {
        if let Err(error) = writeln!(self.out, "{line}") {
            stop(&format!("cannot write: {error}"));
        }
    }

    fn answers(&self, arguments: &[u64]) -> Vec<u64> {
        ASKING.store(true, Ordering::Relaxed);
        let reply = panic::catch_unwind(|| (self.kind.answer)(arguments));
        ASKING.store(false, Ordering::Relaxed);
        match (reply, self.kind.halted) {
            (Ok(answers), _) => answers,
            (Err(_), Some(halted)) => halted.to_vec(),
            (Err(_), None) => stop(&format!("{} halts at {arguments:?}", self.kind.name)),
        }
    }
}

/// Whether the Rust is being asked; its halts are answers, so they print nothing.
static ASKING: AtomicBool = AtomicBool::new(false);

/// Silences the Rust's halts, not this program's own.
pub fn silence_halts() {
    let usual = panic::take_hook();
    panic::set_hook(Box::new(move |info| {
        if !ASKING.load(Ordering::Relaxed) {
            usual(info);
        }
    }));
}

pub fn stop(message: &str) -> ! {
    eprintln!("oracle: {message}");
    process::exit(1)
}

/// Found with the value, or 0 0 for nothing.
pub fn found<T: Into<u64>>(value: Option<T>) -> Vec<u64> {
    match value {
        Some(value) => vec![1, value.into()],
        None => vec![0, 0],
    }
}

pub fn sorted(mut numbers: Vec<u64>) -> Vec<u64> {
    numbers.sort_unstable();
    numbers.dedup();
    numbers
}

//! Goes through the cases of a seed until one differs.

use crate::case::{Case, Function};
use crate::judge::{Break, judge};
use crate::report::{self, Counts, grouped};
use crate::shrink::shrink;
use questions::random::Random;
use std::panic;
use std::sync::atomic::{AtomicU64, Ordering};
use std::time::{Duration, Instant};

pub struct Cases {
    pub seed: u64,
    /// The number of the first case.
    pub first: u64,
    pub count: u64,
}

/// A case that differs.
pub struct Found {
    pub function: usize,
    pub number: u64,
    pub case: Case,
    pub differences: Vec<&'static str>,
}

const BETWEEN_LINES: Duration = Duration::from_secs(5);

/// The case that is being asked.
static ASKED: AtomicU64 = AtomicU64::new(0);

/// Where the Rust halts without being expected to, the case is told.
pub fn tell_halts() {
    let usual = panic::take_hook();
    panic::set_hook(Box::new(move |info| {
        eprintln!("halted at case {}", ASKED.load(Ordering::Relaxed));
        usual(info);
    }));
}

/// Which function each case of a hundred asks, mixed.
fn schedule(functions: &[Function]) -> Vec<usize> {
    let mut turns: Vec<usize> = Vec::new();
    for (at, function) in functions.iter().enumerate() {
        turns.extend(vec![at; function.share]);
    }
    assert_eq!(turns.len(), 100, "the shares are of a hundred");
    (0..100).map(|at| turns[37 * at % 100]).collect()
}

/// Draws the case of this number: it follows from the seed and the number alone.
fn draw(function: &Function, seed: u64, number: u64, case: &mut Case) {
    let mut random = Random::new(seed, 0, number);
    function.draw_case(case, &mut random);
}

/// Asks every case, or only those of some functions; stops at the first that differs.
pub fn go(
    functions: &[Function],
    cases: &Cases,
    only: &[usize],
    broken: Option<&Break>,
) -> Result<Vec<Counts>, Found> {
    let turns = schedule(functions);
    let mut counts: Vec<Counts> = functions.iter().map(|_| Counts::default()).collect();
    let mut case = Case::default();
    let mut progress = Progress::new();
    for number in cases.first..cases.first + cases.count {
        let at = turns[(number % 100) as usize];
        if !only.is_empty() && !only.contains(&at) {
            continue;
        }
        ASKED.store(number, Ordering::Relaxed);
        draw(&functions[at], cases.seed, number, &mut case);
        let verdict = judge(&functions[at], &case, broken);
        if !verdict.differences.is_empty() {
            let differences = verdict.differences;
            return Err(Found {
                function: at,
                number,
                case,
                differences,
            });
        }
        counts[at].note(&functions[at], verdict.expected.number);
        progress.note(number - cases.first + 1, cases.count);
    }
    Ok(counts)
}

/// The found case with a simpler input on which this difference stays.
pub fn shrunk(function: &Function, found: &Found, kept: &str, broken: Option<&Break>) -> Case {
    let stays = |case: &Case| judge(function, case, broken).differences.contains(&kept);
    shrink(function, found.case.clone(), &stays)
}

/// Writes a line every few seconds.
struct Progress {
    start: Instant,
    last: Instant,
}

impl Progress {
    fn new() -> Self {
        let start = Instant::now();
        Progress { start, last: start }
    }

    fn note(&mut self, done: u64, count: u64) {
        if done % 1024 != 0 || self.last.elapsed() < BETWEEN_LINES {
            return;
        }
        self.last = Instant::now();
        let rate = done as f64 / self.start.elapsed().as_secs_f64();
        let (done, count, rate) = (grouped(done), grouped(count), grouped(rate as u64));
        eprintln!("{done} of {count} cases, {rate} a second");
    }
}

/// The whole comparison; false where a case differs.
pub fn compare(
    functions: &[Function],
    cases: &Cases,
    only: &[usize],
    broken: Option<&Break>,
) -> bool {
    match go(functions, cases, only, broken) {
        Ok(counts) => {
            print!("{}", report::table(functions, &counts));
            println!("seed {}: no difference", cases.seed);
            true
        }
        Err(found) => {
            let function = &functions[found.function];
            let kept = found.differences[found.differences.len() - 1];
            let small = shrunk(function, &found, kept, broken);
            print!("{}", report::difference(function, &small, broken));
            println!("seed {}, case {}", cases.seed, found.number);
            false
        }
    }
}

//! Times the library beside another build of it, by turns in one process: what a change costs. Each is a shared object, linked four
//! times with its code a little further on each time, since where code lies moves its time by some per cent; the stack is moved
//! in each round for the same reason.

use crate::bench_inputs::{HEADS, ratio_sets};
use crate::header_functions::call_with_head;
use crate::report::grouped;
use questions::allocation_kinds::ratios_of;
use questions::heads::Head;
use questions::kind::stop;
use questions::random::Random;
use questions::ratios::SLOTS;
use reference::encoder_bit_allocator::SmrTable;
use std::ffi::{CString, c_char, c_int, c_void};
use std::hint::black_box;
use std::time::{Duration, Instant, SystemTime};

/// A time is the least of so many, each of about so long where the inputs are few.
const ROUNDS: usize = 250;
const RUN: Duration = Duration::from_micros(60);
/// Frames that are drawn anew in each round for a demand, and used once by each build; a tenth of them for an allocation.
const FRESH: usize = 60;

unsafe extern "C" {
    fn dlopen(path: *const c_char, flags: c_int) -> *mut c_void;
    fn dlsym(object: *mut c_void, name: *const c_char) -> *mut c_void;
}
const RESOLVE_NOW: c_int = 2;

type Demand =
    unsafe extern "C" fn(u8, u32, u32, u8, u8, u8, u8, *const f64, usize, *mut u64, usize) -> u32;
type Allocate = unsafe extern "C" fn(
    u8,
    u32,
    u32,
    u8,
    u8,
    u8,
    u8,
    u32,
    *const f64,
    usize,
    *mut u32,
    usize,
    *mut u32,
    usize,
) -> u32;

/// The functions of a shared object.
struct Build {
    demand: Demand,
    allocate: Allocate,
}

impl Build {
    fn open(path: &str) -> Build {
        let name = |text: &str| CString::new(text).expect("a name without a zero");
        // SAFETY: the names end in a zero; the object stays open.
        let object = unsafe { dlopen(name(path).as_ptr(), RESOLVE_NOW) };
        if object.is_null() {
            stop(&format!("{path} cannot be opened"));
        }
        let function = |text: &str| {
            // SAFETY: as above.
            let found = unsafe { dlsym(object, name(text).as_ptr()) };
            if found.is_null() {
                stop(&format!("{path} has no {text}"));
            }
            found
        };
        // SAFETY: the functions have these types in every version of the library so far.
        unsafe {
            Build {
                demand: std::mem::transmute::<*mut c_void, Demand>(function(
                    "folgrist_demand_bits",
                )),
                allocate: std::mem::transmute::<*mut c_void, Allocate>(function(
                    "folgrist_allocate_bits",
                )),
            }
        }
    }

    /// What the two functions answer: their numbers, the demand, the steps and the bits left.
    fn answers(&self, head: &Head, ratios: &SmrTable) -> ([u32; 2], u64, [u32; SLOTS], [u32; 4]) {
        let (mut steps, mut left, mut bits) = ([0u32; SLOTS], [0u32; 4], [0u64; 1]);
        let smr: *const f64 = ratios.as_ptr().cast();
        let (demand, allocate) = (self.demand, self.allocate);
        let (to_steps, to_left) = (steps.as_mut_ptr(), left.as_mut_ptr());
        let asked = call_with_head!(demand, head, smr, SLOTS, bits.as_mut_ptr(), 1);
        let given = call_with_head!(allocate, head, 0, smr, SLOTS, to_steps, SLOTS, to_left, 4);
        ([asked, given], bits[0], steps, left)
    }

    /// The nanoseconds of a call, over all these inputs so many times.
    fn time(&self, allocates: bool, head: &Head, inputs: &[SmrTable], passes: usize) -> f64 {
        let (mut steps, mut left, mut bits) = ([0u32; SLOTS], [0u32; 4], [0u64; 1]);
        let start = Instant::now();
        for _ in 0..passes {
            for ratios in inputs {
                let smr: *const f64 = black_box(ratios.as_ptr()).cast();
                if allocates {
                    let (function, steps, left) =
                        (self.allocate, steps.as_mut_ptr(), left.as_mut_ptr());
                    black_box(call_with_head!(
                        function, head, 0, smr, SLOTS, steps, SLOTS, left, 4
                    ));
                } else {
                    let (function, bits) = (self.demand, bits.as_mut_ptr());
                    black_box(call_with_head!(function, head, smr, SLOTS, bits, 1));
                }
            }
        }
        start.elapsed().as_secs_f64() * 1e9 / (passes * inputs.len()) as f64
    }
}

/// Stops where a build refuses an input, or answers otherwise than the first: its time would tell nothing.
fn held_together(builds: &[Build], head: &Head, inputs: &[SmrTable]) {
    for ratios in inputs {
        let answers: Vec<_> = builds.iter().map(|b| b.answers(head, ratios)).collect();
        if answers[0].0 != [0, 0] || answers.iter().any(|other| *other != answers[0]) {
            stop(&format!(
                "the builds refuse {head:?}, or answer differently"
            ));
        }
    }
}

/// Does the work with the stack some way further down.
fn lowered(levels: u64, work: &mut dyn FnMut()) {
    let room = black_box([0u8; 16]);
    if levels == 0 {
        work();
    } else {
        lowered(levels - 1, work);
    }
    black_box(room);
}

/// The least times of each build, the two archives by turns; `draw` makes the inputs of a round, which are gone through so many times.
fn least(
    builds: &[Build],
    allocates: bool,
    head: &Head,
    passes: usize,
    random: &mut Random,
    draw: &dyn Fn(&mut Random) -> Vec<SmrTable>,
) -> Vec<f64> {
    held_together(builds, head, &draw(random));
    let (count, mut least) = (builds.len(), vec![f64::INFINITY; builds.len()]);
    for _ in 0..ROUNDS {
        let (inputs, levels, first) = (draw(random), random.below(64), random.next() as usize);
        for turn in 0..count {
            let place = (first % count + turn) % count;
            let at = place % 2 * (count / 2) + place / 2;
            lowered(levels, &mut || {
                let taken = builds[at].time(allocates, head, &inputs, passes);
                least[at] = least[at].min(taken);
            });
        }
    }
    least
}

fn geometric(values: impl Iterator<Item = f64>) -> f64 {
    let (mut sum, mut count) = (0.0, 0.0);
    for value in values {
        sum += value.ln();
        count += 1.0;
    }
    f64::exp(sum / count)
}

/// The mean time of each build over the sets of inputs that `bench` has, each gone through over and over.
fn on_few(builds: &[Build], allocates: bool, head: &Head, random: &mut Random) -> Vec<f64> {
    let sets = ratio_sets();
    let mut means = vec![0.0; builds.len()];
    for set in &sets {
        let inputs = vec![ratios_of(set)];
        let once = builds[0].time(allocates, head, &inputs, 8);
        let passes = ((RUN.as_secs_f64() * 1e9 / once) as usize).max(1);
        let times = least(builds, allocates, head, passes, random, &|_| inputs.clone());
        for (mean, time) in means.iter_mut().zip(times) {
            *mean += time / sets.len() as f64;
        }
    }
    means
}

/// The same on frames that are drawn anew in each round.
fn on_fresh(builds: &[Build], allocates: bool, head: &Head, random: &mut Random) -> Vec<f64> {
    let frame = |random: &mut Random| {
        let slots: Vec<u64> = (0..SLOTS)
            .map(|_| random.between(-20.0, 40.0).to_bits())
            .collect();
        ratios_of(&slots)
    };
    let count = if allocates { FRESH / 10 } else { FRESH };
    let draw = |random: &mut Random| (0..count).map(|_| frame(random)).collect();
    least(builds, allocates, head, 1, random, &draw)
}

type Timing = fn(&[Build], bool, &Head, &mut Random) -> Vec<f64>;

/// How far each place is from the mean of the places, averaged over the headers: the least and the most.
fn spread(rows: &[Vec<f64>]) -> String {
    let places = rows[0].len();
    let to_mean = |row: &Vec<f64>, at: usize| row[at] / geometric(row.iter().copied());
    let means: Vec<f64> = (0..places)
        .map(|at| geometric(rows.iter().map(|row| to_mean(row, at))))
        .collect();
    let least = means.iter().copied().fold(f64::INFINITY, f64::min);
    let most = means.iter().copied().fold(0.0, f64::max);
    format!("{least:.3} to {most:.3}")
}

/// One table: the other build's times, the library's, and their ratio, each the mean over the places.
fn table(title: String, builds: &[Build], allocates: bool, timing: Timing, random: &mut Random) {
    println!("| `{title}` | other, ns | library, ns | library / other |\n|---|--:|--:|--:|");
    let (mut others, mut libraries, mut ratios) = (Vec::new(), Vec::new(), Vec::new());
    for (label, head) in &HEADS {
        let mut times = timing(builds, allocates, head, random);
        let library = times.split_off(builds.len() / 2);
        let means = [&times, &library].map(|times| geometric(times.iter().copied()));
        let [other_shown, library_shown] = means.map(|mean| grouped(mean.round() as u64));
        let ratio = means[1] / means[0];
        println!("| {label} | {other_shown} | {library_shown} | {ratio:.3} |");
        others.push(times);
        libraries.push(library);
        ratios.push(ratio);
    }
    println!(
        "| geometric mean | | | {:.3} |",
        geometric(ratios.into_iter())
    );
    let (other, library) = (spread(&others), spread(&libraries));
    println!("| one place / mean of the places | {other} | {library} | |\n");
}

/// The words: the shared objects, those of the other build first, as many of each.
pub fn beside(words: &[String]) -> bool {
    if words.is_empty() || words.len() % 2 == 1 {
        return false;
    }
    let builds: Vec<Build> = words.iter().map(|path| Build::open(path)).collect();
    let clock = SystemTime::now().duration_since(SystemTime::UNIX_EPOCH);
    let seed = clock.map_or(1, |since| since.as_secs());
    println!("seed {seed}\n");
    let mut random = Random::new(seed, 7, 0);
    for (allocates, name) in [(false, "demand_bits"), (true, "allocate_bits")] {
        let few = format!("{name}, few inputs over and over");
        table(few, &builds, allocates, on_few, &mut random);
        let fresh = format!("{name}, fresh inputs");
        table(fresh, &builds, allocates, on_fresh, &mut random);
    }
    true
}

//! Sample codes and triplets of them.

use crate::doubles::{about, specials};
use crate::kind::{Asker, Kind};
use crate::random::Random;
use crate::steps;
use oxideav_core::bits::BitWriter;
use reference::bitalloc::{QuantClass, class_of_quantization};
use reference::encoder_samples::{quantize_sample, write_triplet};

pub const KINDS: [Kind; 2] = [
    Kind {
        number: 22,
        name: "quantize_sample",
        form: "steps bits -> number code (5 and 0 for steps of no class, which the Rust cannot be \
               asked, else number 0)",
        answer: answer_sample,
        halted: None,
        ask: ask_samples,
        one_in: 1500,
    },
    Kind {
        number: 23,
        name: "write_triplet",
        form: "steps a b c, three doubles -> number count width c0 c1 c2 (the codewords written, \
               unused places 0; 5 and zeros for steps of no class)",
        answer: answer_triplet,
        halted: None,
        ask: ask_triplets,
        one_in: 60,
    },
];

/// The number of step counts that are no class.
const NO_CLASS: u64 = 5;

const RANDOM_SAMPLES: usize = 2_000;
const RANDOM_TRIPLETS: usize = 1_000;

fn answer_sample(a: &[u64]) -> Vec<u64> {
    match class_of_quantization(a[0] as u32) {
        None => vec![NO_CLASS, 0],
        Some(class) => vec![0, quantize_sample(&class, f64::from_bits(a[1])).into()],
    }
}

pub fn answer_triplet(a: &[u64]) -> Vec<u64> {
    let Some(class) = class_of_quantization(a[0] as u32) else {
        return vec![NO_CLASS, 0, 0, 0, 0, 0];
    };
    let samples = [a[1], a[2], a[3]].map(f64::from_bits);
    let mut writer = BitWriter::new();
    write_triplet(&class, &samples, &mut writer);
    let (_, width) = writer.fields[0];
    let mut answers = vec![0, writer.fields.len() as u64, width.into(), 0, 0, 0];
    for (at, &(code, own_width)) in writer.fields.iter().enumerate() {
        assert_eq!(own_width, width, "codewords of one width");
        answers[3 + at] = code.into();
    }
    answers
}

fn classes() -> impl Iterator<Item = QuantClass> {
    let class = |&steps: &u64| class_of_quantization(steps as u32);
    steps::CLASSES.iter().filter_map(class)
}

/// Step counts that are no class, some of them beside one.
fn other_steps() -> Vec<u64> {
    let mut counts = steps::near_classes();
    counts.retain(|count| !steps::CLASSES.contains(count));
    counts
}

/// Half as many as the codes that the class's bits could hold.
pub fn half(class: &QuantClass) -> i64 {
    1 << (class.bits_per_sample() - 1)
}

/// The sample that a code, or a place between two, stands for.
pub fn sample_at(class: &QuantClass, code: f64) -> f64 {
    let half = half(class) as f64;
    class.c * ((code - half) / half + class.d)
}

/// How far from the computed sample a code may change, in units in the last place.
fn reach(class: &QuantClass) -> usize {
    if class.grouping { 8 } else { 3 }
}

/// A spread for the classes of many codes: both ends, the middle, sixteenths.
fn is_edge_code(class: &QuantClass, code: i64) -> bool {
    let half = half(class);
    let near = |other: i64| (code - other).abs() <= 1;
    half <= 32 || near(0) || near(half) || near(2 * half - 2) || code % (half / 8) == 0
}

pub fn random_sample(class: &QuantClass, random: &mut Random) -> u64 {
    let code = random.below(2 * half(class) as u64) as f64;
    match random.below(6) {
        0 => random.next(),
        1 => random.pick(&specials()),
        2 => sample_at(class, code).to_bits(),
        3 => sample_at(class, code + 0.5).to_bits(),
        _ => random.between(-1.3, 1.3).to_bits(),
    }
}

fn ask_samples(asker: &mut Asker) {
    let known = [
        (3, -1.0, 0),
        (3, 0.0, 1),
        (3, 1.0, 2),
        (7, 1.0, 6),
        (7, 2.0, 7),
        (15, 1.0, 15),
    ];
    for (count, sample, code) in known {
        let words = format!("with {count} steps the sample {sample:.1} has code {code}");
        asker.by_hand(&words, &[count, f64::to_bits(sample)]);
    }
    for class in classes() {
        for bits in specials() {
            asker.ask(true, &[class.nb_steps.into(), bits]);
        }
        ask_boundaries(asker, &class);
        for _ in 0..RANDOM_SAMPLES {
            let bits = random_sample(&class, &mut asker.random);
            asker.ask(false, &[class.nb_steps.into(), bits]);
        }
    }
    for count in other_steps() {
        for bits in [0, 1f64.to_bits(), asker.random.next()] {
            asker.ask(true, &[count, bits]);
        }
    }
}

/// About every place where the code changes, and where it would but for the clamp.
fn ask_boundaries(asker: &mut Asker, class: &QuantClass) {
    for code in -1..2 * half(class) {
        let edge = is_edge_code(class, code);
        for bits in about(sample_at(class, code as f64 + 0.5), reach(class)) {
            asker.ask(edge, &[class.nb_steps.into(), bits]);
        }
    }
}

fn ask_triplets(asker: &mut Asker) {
    let one = 1f64.to_bits();
    asker.by_hand(
        "with 3 steps three samples 1.0 make one codeword, 26",
        &[3, one, one, one],
    );
    for class in classes() {
        ask_grid(asker, &class, true, &[-1.0, 0.0, 1.0]);
        if class.grouping {
            let codes = 0..class.nb_steps;
            let samples: Vec<f64> = codes.map(|code| sample_at(&class, code.into())).collect();
            ask_grid(asker, &class, class.nb_steps == 3, &samples);
        }
        for _ in 0..RANDOM_TRIPLETS {
            let [a, b, c] = [0; 3].map(|_| random_sample(&class, &mut asker.random));
            asker.ask(false, &[class.nb_steps.into(), a, b, c]);
        }
    }
    for count in other_steps() {
        let [a, b] = [0; 2].map(|_| asker.random.next());
        asker.ask(true, &[count, a, one, b]);
    }
}

/// Every triplet of these samples.
fn ask_grid(asker: &mut Asker, class: &QuantClass, edge: bool, samples: &[f64]) {
    for a in samples {
        for b in samples {
            for c in samples {
                let [a, b, c] = [a, b, c].map(|sample| sample.to_bits());
                asker.ask(edge, &[class.nb_steps.into(), a, b, c]);
            }
        }
    }
}

//! Sample codes and triplets of them.

use crate::case::{Argument, Case, Function, Out, Sort};
use crate::library::*;
use crate::scalefactor_functions::SPECIALS;
use crate::table_functions::{NO_CLASS, STEPS, draw_steps};
use questions::random::Random;
use questions::sample_kinds::{answer_triplet, half, random_sample, sample_at};
use reference::bitalloc::{QuantClass, class_of_quantization};
use reference::encoder_samples::quantize_sample;

const fn double(name: &'static str) -> Argument {
    Argument {
        name,
        sort: Sort::Double,
    }
}

pub const FUNCTIONS: [Function; 2] = [
    Function {
        name: "quantize_sample",
        share: 3,
        arguments: &[STEPS, double("sample")],
        ins: &[],
        outs: &[Out {
            name: "code",
            width: 4,
            count: 1,
        }],
        draw: |case, random| draw_samples(case, 1, random),
        library: |case, [out, ..]| unsafe {
            let (steps, sample) = (case.numbers[0] as u32, f64::from_bits(case.numbers[1]));
            folgrist_quantize_sample(steps, sample, out.pointer(), case.lengths[0])
        },
        rust: |case, [out, ..]| {
            let class = class_of_quantization(case.numbers[0] as u32);
            let sample = f64::from_bits(case.numbers[1]);
            let code = class.map_or(0, |class| quantize_sample(&class, sample));
            out.put(4, 0, code.into());
            if class.is_some() { 0 } else { NO_CLASS }
        },
    },
    Function {
        name: "write_triplet",
        share: 3,
        arguments: &[STEPS, double("a"), double("b"), double("c")],
        ins: &[],
        outs: &[Out {
            name: "count width codewords",
            width: 4,
            count: 5,
        }],
        draw: |case, random| draw_samples(case, 3, random),
        library: |case, [out, ..]| unsafe {
            let steps = case.numbers[0] as u32;
            let [a, b, c] = [1, 2, 3].map(|at| f64::from_bits(case.numbers[at]));
            folgrist_write_triplet(steps, a, b, c, out.pointer(), case.lengths[0])
        },
        rust: |case, [out, ..]| {
            let answers = answer_triplet(&case.numbers);
            (0..5).for_each(|at| out.put(4, at, answers[1 + at]));
            answers[0] as u32
        },
    },
];

fn draw_samples(case: &mut Case, count: usize, random: &mut Random) {
    case.numbers[0] = draw_steps(random);
    let class = class_of_quantization(case.numbers[0] as u32);
    for number in &mut case.numbers[1..=count] {
        *number = match &class {
            Some(class) if random.one_in(3) => about_boundary(class, random),
            Some(class) => random_sample(class, random),
            None => random.pick(&SPECIALS),
        };
    }
}

/// Within some units in the last place of where the code changes, often in the middle or at an end.
fn about_boundary(class: &QuantClass, random: &mut Random) -> u64 {
    let half = half(class) as u64;
    let code = match random.below(4) {
        0 => half - 2 + random.below(5),
        1 => random.below(3),
        2 => 2 * half - random.below(3),
        _ => random.below(2 * half + 1),
    };
    let sample = sample_at(class, code as f64 - 0.5);
    let reach = if class.grouping { 8 } else { 3 };
    let near = sample.to_bits() + random.below(2 * reach + 1);
    near.wrapping_sub(reach)
}

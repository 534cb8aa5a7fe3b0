//! Scalefactor indices and the selection of scfsi.

use crate::case::{Argument, Case, Function, Out, Sort, doubles};
use crate::library::*;
use questions::doubles::{INFINITIES, NANS, ZEROS, either_sign, specials};
use questions::random::Random;
use questions::scalefactor_kinds::{magnitude, near_multipliers, sample};
use questions::scfsi_kinds::selection;
use reference::encoder_scalefactors::*;
use std::sync::LazyLock;

const FRAME_LEN: usize = 32 * SUBBAND_SAMPLES_PER_FRAME;

const fn bytes(count: usize) -> Out {
    Out {
        name: "out",
        width: 1,
        count,
    }
}

/// A byte has no value out of range.
const fn byte(name: &'static str) -> Argument {
    Argument {
        name,
        sort: Sort::Whole,
    }
}

pub const FUNCTIONS: [Function; 4] = [
    Function {
        name: "pick_scalefactor_index",
        share: 3,
        arguments: &[Argument {
            name: "max_abs",
            sort: Sort::Double,
        }],
        ins: &[],
        outs: &[],
        draw: |case, random| case.numbers[0] = draw_magnitude(random),
        library: |case, _| unsafe {
            folgrist_pick_scalefactor_index(f64::from_bits(case.numbers[0])).into()
        },
        rust: |case, _| pick_scalefactor_index(f64::from_bits(case.numbers[0])).into(),
    },
    Function {
        name: "extract_scalefactor_index",
        share: 3,
        arguments: &[],
        ins: &[doubles(GRANULE_LEN)],
        outs: &[bytes(1)],
        draw: |case, random| draw_granule(&mut case.ins[0], random),
        library: |case, [out, ..]| unsafe {
            let samples = case.ins[0].as_ptr().cast();
            let count = case.ins[0].len();
            folgrist_extract_scalefactor_index(samples, count, out.pointer(), case.lengths[0])
        },
        rust: |case, [out, ..]| {
            let samples = std::array::from_fn(|at| f64::from_bits(case.ins[0][at]));
            out.put(1, 0, extract_scalefactor_index(&samples).into());
            0
        },
    },
    Function {
        name: "compute_scalefactors",
        share: 3,
        arguments: &[Argument {
            name: "limit",
            sort: Sort::Whole,
        }],
        ins: &[doubles(FRAME_LEN)],
        outs: &[bytes(96)],
        draw: draw_frame,
        library: |case, [out, ..]| unsafe {
            let (samples, limit) = (case.ins[0].as_ptr().cast(), case.numbers[0]);
            let count = case.ins[0].len();
            folgrist_compute_scalefactors(samples, count, limit, out.pointer(), case.lengths[0])
        },
        rust: |case, [out, ..]| {
            let samples = frame_of(&case.ins[0]);
            let indices = compute_scalefactors(&samples, case.numbers[0] as usize);
            for (at, &index) in indices.iter().flatten().enumerate() {
                out.put(1, at, index.into());
            }
            0
        },
    },
    Function {
        name: "select_scfsi",
        share: 3,
        arguments: &[byte("a"), byte("b"), byte("c")],
        ins: &[],
        outs: &[bytes(9)],
        draw: draw_indices,
        library: |case, [out, ..]| unsafe {
            let [a, b, c, ..] = case.numbers.map(|number| number as u8);
            folgrist_select_scfsi(a, b, c, out.pointer(), case.lengths[0])
        },
        rust: |case, [out, ..]| {
            let [a, b, c, ..] = case.numbers.map(|number| number as u8);
            for (at, value) in selection([a, b, c]).into_iter().enumerate() {
                out.put(1, at, value);
            }
            0
        },
    },
];

pub fn frame_of(doubles: &[u64]) -> [[f64; SUBBAND_SAMPLES_PER_FRAME]; 32] {
    std::array::from_fn(|sb| {
        std::array::from_fn(|at| f64::from_bits(doubles[SUBBAND_SAMPLES_PER_FRAME * sb + at]))
    })
}

static MULTIPLIERS: LazyLock<Vec<u64>> = LazyLock::new(near_multipliers);
pub static SPECIALS: LazyLock<Vec<u64>> = LazyLock::new(specials);

/// A multiplier or its neighbour, a special double, any bits, or a likely magnitude.
fn draw_magnitude(random: &mut Random) -> u64 {
    match random.below(8) {
        0 => random.pick(&SPECIALS),
        1 => random.next(),
        2 => random.pick(&MULTIPLIERS) ^ random.pick(&ZEROS),
        3..=5 => random.pick(&MULTIPLIERS),
        _ => magnitude(random).to_bits(),
    }
}

/// Adds twelve samples: of one magnitude, one unlike the others, all special, or any.
fn draw_granule(samples: &mut Vec<u64>, random: &mut Random) {
    let (start, base) = (samples.len(), draw_magnitude(random));
    let turn = random.below(8);
    for _ in 0..GRANULE_LEN {
        samples.push(match turn {
            0 => base,
            1 => either_sign(base, random),
            2 | 3 => random.pick(&[0, base & 0x800f_ffff_ffff_ffff, ZEROS[1]]),
            4 => random.pick([&ZEROS[..], &NANS, &INFINITIES][(base % 3) as usize]),
            _ => sample(random, &SPECIALS),
        });
    }
    if matches!(turn, 2..=4) {
        let lone = start + random.below(GRANULE_LEN as u64) as usize;
        samples[lone] = draw_magnitude(random);
    }
}

/// Granules of every kind; in half of the frames most are zeros.
fn draw_frame(case: &mut Case, random: &mut Random) {
    case.numbers[0] = match random.below(8) {
        0 => random.pick(&[0, 1, 31, 33, 256, 1 << 32, (1 << 32) + 5, u64::MAX]),
        1 => random.next() >> random.below(64),
        2..=4 => random.below(34),
        _ => 32,
    };
    let sparse = random.one_in(2);
    while case.ins[0].len() < FRAME_LEN {
        if sparse && !random.one_in(8) {
            case.ins[0].extend([0; GRANULE_LEN]);
        } else {
            draw_granule(&mut case.ins[0], random);
        }
    }
}

/// Indices near one another, at either end, or any bytes.
fn draw_indices(case: &mut Case, random: &mut Random) {
    let first = match random.below(4) {
        0 => random.below(256),
        1 => random.pick(&[0, 1, 2, 3, 60, 61, 62, 63, 252, 253, 254, 255]),
        _ => random.below(63),
    };
    let near = !random.one_in(3);
    case.numbers[0] = first;
    for at in 1..3 {
        let before = case.numbers[at - 1];
        case.numbers[at] = if near {
            (before + random.below(9)).saturating_sub(4).min(255)
        } else {
            random.below(256)
        };
    }
}

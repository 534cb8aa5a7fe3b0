//! Scalefactor indices: of a magnitude, of a granule, of a frame.

use crate::doubles::{INFINITIES, NANS, SIGN, ZEROS, about, either_sign, specials};
use crate::kind::{Asker, Kind};
use crate::random::Random;
use reference::encoder_scalefactors::{
    GRANULE_LEN, compute_scalefactors, extract_scalefactor_index, pick_scalefactor_index,
};
use reference::tables::SCALEFACTORS;

pub const KINDS: [Kind; 3] = [
    Kind {
        number: 17,
        name: "pick_scalefactor_index",
        form: "bits -> index",
        answer: |a| vec![pick_scalefactor_index(f64::from_bits(a[0])).into()],
        halted: None,
        ask: ask_magnitudes,
        one_in: 500,
    },
    Kind {
        number: 18,
        name: "extract_scalefactor_index",
        form: "12 doubles -> index",
        answer: answer_granule,
        halted: None,
        ask: ask_granules,
        one_in: 200,
    },
    Kind {
        number: 19,
        name: "compute_scalefactors",
        form: "limit m, m times position and bits -> 96 indices, those of granule 0 first \
               (position 36 * subband + sample; other samples are 0.0)",
        answer: answer_frame,
        halted: None,
        ask: ask_frames,
        one_in: 60,
    },
];

const SUBBANDS: usize = 32;
const SUBBAND_LEN: usize = 3 * GRANULE_LEN;

/// At most so many positions of a frame are given.
const MOST_POSITIONS: u64 = 70;

const RANDOM_MAGNITUDES: usize = 100_000;
const RANDOM_GRANULES: usize = 20_000;
const RANDOM_FRAMES: usize = 3_000;

fn answer_granule(a: &[u64]) -> Vec<u64> {
    let samples: [f64; GRANULE_LEN] = std::array::from_fn(|i| f64::from_bits(a[i]));
    vec![extract_scalefactor_index(&samples).into()]
}

fn answer_frame(a: &[u64]) -> Vec<u64> {
    let mut samples = [[0.0; SUBBAND_LEN]; SUBBANDS];
    for place in a[2..].chunks(2) {
        let position = place[0] as usize;
        samples[position / SUBBAND_LEN][position % SUBBAND_LEN] = f64::from_bits(place[1]);
    }
    let indices = compute_scalefactors(&samples, a[0] as usize);
    indices
        .iter()
        .flatten()
        .map(|&index| index.into())
        .collect()
}

/// The multipliers with their neighbours, and what lies halfway between two.
pub fn near_multipliers() -> Vec<u64> {
    let mut doubles: Vec<u64> = SCALEFACTORS.iter().flat_map(|&m| about(m, 1)).collect();
    for pair in SCALEFACTORS.windows(2) {
        doubles.push(((pair[0] + pair[1]) / 2.0).to_bits());
    }
    doubles
}

/// Magnitudes about the table's, from far below its end to above its start.
pub fn magnitude(random: &mut Random) -> f64 {
    match random.below(4) {
        0 => random.between(0.0, 2.2),
        1 => SCALEFACTORS[random.below(63) as usize] * random.between(0.999, 1.001),
        _ => {
            let exponent = 1023 - 24 + random.below(26);
            f64::from_bits(exponent << 52 | random.next() >> 12)
        }
    }
}

/// A sample of a granule or a frame; NaN, infinities and the like are rare.
pub fn sample(random: &mut Random, nasty: &[u64]) -> u64 {
    if random.one_in(24) {
        return random.pick(nasty);
    }
    let magnitude = magnitude(random).to_bits();
    either_sign(magnitude, random)
}

fn ask_magnitudes(asker: &mut Asker) {
    for (magnitude, index) in [(1.0, 3), (0.0, 62), (2.0, 0), (3.0, 0)] {
        let words = format!("a maximum of {magnitude:.1} has index {index}");
        asker.by_hand(&words, &[f64::to_bits(magnitude)]);
    }
    for bits in near_multipliers().into_iter().chain(specials()) {
        asker.ask(true, &[bits]);
    }
    for multiplier in SCALEFACTORS {
        asker.ask(false, &[multiplier.to_bits() | SIGN]);
    }
    for at in 0..RANDOM_MAGNITUDES {
        let bits = match at % 8 {
            0 => asker.random.next(),
            _ => magnitude(&mut asker.random).to_bits(),
        };
        asker.ask(false, &[bits]);
    }
}

fn ask_granules(asker: &mut Asker) {
    ask_even_granules(asker);
    ask_lone_samples(asker);
    let nasty = specials();
    for _ in 0..RANDOM_GRANULES {
        let samples: [u64; GRANULE_LEN] =
            std::array::from_fn(|_| sample(&mut asker.random, &nasty));
        asker.ask(false, &samples);
    }
}

/// Granules of one magnitude in both signs, and of nothing but zeros, NaN or infinities.
fn ask_even_granules(asker: &mut Asker) {
    for bits in near_multipliers().into_iter().chain(specials()) {
        let samples = [bits; GRANULE_LEN].map(|bits| either_sign(bits, &mut asker.random));
        asker.ask(true, &samples);
        asker.ask(false, &[bits; GRANULE_LEN]);
    }
    for of in [&ZEROS[..], &NANS, &INFINITIES] {
        for _ in 0..3 {
            let samples = [0; GRANULE_LEN].map(|_| asker.random.pick(of));
            asker.ask(true, &samples);
        }
    }
}

/// At each place in turn, one sample that is unlike the others.
fn ask_lone_samples(asker: &mut Asker) {
    let near = near_multipliers();
    for at in 0..GRANULE_LEN {
        for rest in [
            0,
            NANS[at % NANS.len()],
            INFINITIES[at % 2],
            1e-3f64.to_bits(),
        ] {
            let random = &mut asker.random;
            let largest = random.pick(&near);
            let lone = [
                either_sign(largest, random),
                random.pick(&NANS),
                random.pick(&INFINITIES),
                random.pick(&specials()),
            ];
            for bits in lone {
                let mut samples = [rest; GRANULE_LEN];
                samples[at] = bits;
                asker.ask(true, &samples);
            }
        }
    }
}

fn ask_frames(asker: &mut Asker) {
    let limits = [0, 1, 8, 12, 27, 30, 32, 33, 1 << 32, u64::MAX];
    let nasty = specials();
    for limit in limits {
        for count in [0, 1, 7, MOST_POSITIONS] {
            let arguments = frame(limit, count, &nasty, &mut asker.random);
            asker.ask(true, &arguments);
        }
        let arguments = corners(limit, &mut asker.random);
        asker.ask(true, &arguments);
    }
    for _ in 0..RANDOM_FRAMES {
        let random = &mut asker.random;
        let limit = match random.below(3) {
            0 => random.pick(&limits),
            1 => 32,
            _ => random.below(40),
        };
        let count = random.below(MOST_POSITIONS + 1);
        let arguments = frame(limit, count, &nasty, random);
        asker.ask(false, &arguments);
    }
}

/// A frame with `count` samples, no two at the same place.
fn frame(limit: u64, count: u64, nasty: &[u64], random: &mut Random) -> Vec<u64> {
    let mut positions: Vec<u64> = (0..(SUBBANDS * SUBBAND_LEN) as u64).collect();
    let mut arguments = vec![limit, count];
    for _ in 0..count {
        let at = random.below(positions.len() as u64) as usize;
        arguments.extend([positions.swap_remove(at), sample(random, nasty)]);
    }
    arguments
}

/// The first and the last sample of each granule in the subbands about the limits.
fn corners(limit: u64, random: &mut Random) -> Vec<u64> {
    let mut arguments = vec![limit, 0];
    for subband in [0, 1, 7, 8, 11, 12, 26, 27, 29, 30, 31] {
        for sample in [0, 11, 12, 23, 24, 35] {
            arguments.extend([36 * subband + sample, magnitude(random).to_bits()]);
        }
    }
    arguments[1] = (arguments.len() as u64 - 2) / 2;
    arguments
}

//! Headers that reach an allocation, beside some that do not.

use crate::heads::*;
use crate::ladder::*;
use crate::random::Random;
use crate::ratios::{PATTERNS, Ratios, disturb};
use reference::encoder_bit_allocator::{FixedBitBudget, fixed_bit_budget};

/// lsf, kilobits (with LSF of the frame, else of a channel) and sample rate: B2a, B2b, B2c, B2d and
/// B1Lsf in turn.
const RATES: [[u64; 3]; 12] = [
    [0, 56, 48_000],
    [0, 192, 48_000],
    [0, 80, 44_100],
    [0, 96, 44_100],
    [0, 192, 32_000],
    [0, 32, 48_000],
    [0, 48, 44_100],
    [0, 32, 32_000],
    [0, 48, 32_000],
    [1, 8, 22_050],
    [1, 64, 24_000],
    [1, 160, 16_000],
];

/// The kilobits per channel that have tables at every rate of ISO/IEC 11172-3.
const KILOBITS: [u64; 10] = [32, 48, 56, 64, 80, 96, 112, 128, 160, 192];

/// The largest bit rate with LSF.
const FASTEST: u64 = 160_000;

const TOP: u64 = u32::MAX as u64;

pub const JOINT: u64 = 1;
pub const SINGLE: u64 = 3;

/// The budget, or nothing off the ladder and where the Rust refuses or halts.
pub fn budget_of(head: &[u64]) -> Option<FixedBitBudget> {
    let header = header_of(head);
    if !on_ladder(head) || header.sample_rate == 0 {
        return None;
    }
    fixed_bit_budget(&header).ok()
}

/// So many kilobits, with LSF of the frame, else of each channel.
fn bits_per_second(lsf: u64, kilobits: u64, mode: u64) -> u64 {
    let channels = if lsf == 1 || mode == SINGLE { 1 } else { 2 };
    1000 * kilobits * channels
}

/// The sample rate at which a frame has so many bytes without padding, or nearly so many.
fn sample_rate_for(bit_rate: u64, bytes: u64) -> u64 {
    let bytes_at_1 = 144 * bit_rate;
    match bytes {
        0 => bytes_at_1 + 1,
        _ => (bytes_at_1 / bytes).max(1),
    }
}

fn with_flags(head: Head, random: &mut Random) -> Head {
    let mut head = head;
    head[PADDING] = random.pick(&FLAGS);
    head[PROTECTION_BIT] = random.pick(&FLAGS);
    head
}

/// Every table in every mode, joint stereo with every extension.
pub fn layouts(random: &mut Random) -> Vec<Head> {
    let mut heads = Vec::new();
    for [lsf, kilobits, sample_rate] in RATES {
        for mode in MODES {
            let bit_rate = bits_per_second(lsf, kilobits, mode);
            let extensions = match mode {
                JOINT => EXTENSIONS.to_vec(),
                _ => vec![random.pick(&EXTENSIONS)],
            };
            for extension in extensions {
                let head = [lsf, bit_rate, sample_rate, 0, 0, mode, extension];
                heads.push(with_flags(head, random));
            }
        }
    }
    heads
}

/// lsf, bit rate and sample rate in every mode.
fn in_every_mode(rates: &[[u64; 3]], random: &mut Random) -> Vec<Head> {
    let mut heads = Vec::new();
    for &[lsf, bit_rate, sample_rate] in rates {
        for mode in MODES {
            let extension = random.pick(&EXTENSIONS);
            let head = [lsf, bit_rate, sample_rate, 0, 0, mode, extension];
            heads.push(with_flags(head, random));
        }
    }
    heads
}

/// Frames that no standard has, from empty ones to the largest, by sample rates that none has.
pub fn absurd(random: &mut Random) -> Vec<Head> {
    let bytes = [0, 1, 12, 25, 43, 144, 2_000, 14_400, 19_999];
    let sample_rates = bytes.map(|bytes| sample_rate_for(FASTEST, bytes));
    let sample_rates = sample_rates.into_iter().chain([1, 2, 3]);
    let mut rates: Vec<[u64; 3]> = sample_rates.map(|rate| [1, FASTEST, rate]).collect();
    rates.extend([[1, 8_000, 1], [1, 32_000, TOP]]);
    in_every_mode(&rates, random)
}

/// Free format, rates of no table, and sample rate 0; all on the ladder.
pub fn unserved(random: &mut Random) -> Vec<Head> {
    let mut rates: Vec<[u64; 3]> = HIGH_SAMPLE_RATES.map(|rate| [0, 0, rate]).to_vec();
    rates.extend([[0, 0, 22_050], [1, 0, 24_000], [0, 0, 0], [1, 0, 0]]);
    rates.extend([[0, 32_000, 48_000], [0, 32_000, 0], [1, 32_000, 0]]);
    rates.push([0, 384_000, 1]);
    in_every_mode(&rates, random)
}

/// Every rate of `BESIDE` once, and frames whose bits would not fit 32 bits.
pub fn off_ladder(random: &mut Random) -> Vec<Head> {
    let mut heads = vec![[1, 3_728_271, 1, 0, 1, 0, 0], [1, TOP, 1, 0, 1, SINGLE, 0]];
    for lsf in FLAGS {
        for &bit_rate in &BESIDE[lsf as usize] {
            let mut head = any_head(random);
            head[LSF] = lsf;
            head[BIT_RATE] = bit_rate;
            heads.push(at_refused_rates(head, random));
        }
    }
    heads
}

/// At times a sample rate at which there is no table or no frame: 16 comes before 1 and 2.
fn at_refused_rates(head: Head, random: &mut Random) -> Head {
    let mut head = head;
    if random.one_in(3) {
        head[SAMPLE_RATE] = random.pick(&[0, 0, 1, 22_050, 96_000]);
    }
    head
}

/// lsf, a bit rate on the ladder and a sample rate, for a frame of so many bytes or nearly.
fn of_bytes(bytes: u64, random: &mut Random) -> [u64; 3] {
    let bit_rate = random.pick(ladder(1));
    [1, bit_rate, sample_rate_for(bit_rate, bytes)]
}

/// On the ladder: mostly served, often with a frame that no standard has.
fn draw_named(random: &mut Random) -> Head {
    let mode = random.pick(&MODES);
    let [lsf, bit_rate, sample_rate] = match random.below(20) {
        0..=8 => {
            let bit_rate = bits_per_second(0, random.pick(&KILOBITS), mode);
            [0, bit_rate, random.pick(&HIGH_SAMPLE_RATES)]
        }
        9..=12 => [1, random.pick(ladder(1)), random.pick(&LOW_SAMPLE_RATES)],
        // About the fixed bits, which are 107 to 198.
        13 => of_bytes(10 + random.below(40), random),
        14..=16 => of_bytes(random.below(3_000), random),
        17 => of_bytes(random.below(20_000), random),
        // From empty frames to the largest.
        18 => [1, random.pick(ladder(1)), random.word().max(1)],
        _ => {
            let head = any_head(random);
            let bit_rate = draw_on_ladder(head[LSF], random);
            [head[LSF], bit_rate, head[SAMPLE_RATE]]
        }
    };
    let extension = random.pick(&EXTENSIONS);
    with_flags([lsf, bit_rate, sample_rate, 0, 0, mode, extension], random)
}

/// One header: four of five are on the ladder, and mostly served.
pub fn draw(random: &mut Random) -> Head {
    let mut head = draw_named(random);
    if random.one_in(5) {
        head[BIT_RATE] = draw_off_ladder(head[LSF], random);
        head = at_refused_rates(head, random);
    }
    head
}

/// Any header: three of four are on the ladder, served or not.
pub fn draw_any(random: &mut Random) -> Head {
    let mut head = any_head(random);
    head[BIT_RATE] = match random.below(4) {
        0 => draw_off_ladder(head[LSF], random),
        _ => draw_on_ladder(head[LSF], random),
    };
    head
}

/// Ratios for this header; what it must not read is at times disturbed.
pub fn ratios_for(head: &Head, pattern: usize, random: &mut Random) -> Ratios {
    let mut ratios = PATTERNS[pattern % PATTERNS.len()](random);
    if let Some(budget) = budget_of(head) {
        disturb(&mut ratios, budget.sblimit, budget.channels, random);
    }
    ratios
}

pub fn any_pattern(random: &mut Random) -> usize {
    random.below(PATTERNS.len() as u64) as usize
}

//! The bit rates that a header can name, the Rust's answers at them, and rates off them.

use crate::heads::{BIT_RATE, LSF, bit_rates};
use crate::kind::stop;
use crate::random::Random;
use reference::header::{HeaderError, decode_bitrate, decode_bitrate_lsf};
use std::sync::LazyLock;

/// The number that answers a bit rate off the header's ladder.
pub const OFF_LADDER: u32 = 16;

type Reader = fn(u8) -> Result<u32, HeaderError>;

/// How the Rust reads a header's bit rate, without LSF and with it.
const READERS: [Reader; 2] = [decode_bitrate, decode_bitrate_lsf];

/// What it has to read, in kbit/s: ISO/IEC 11172-3 2.4.2.3, Layer II, and ISO/IEC 13818-3 2.4.2.3.
const STANDARDS: [[u64; 14]; 2] = [
    [
        32, 48, 56, 64, 80, 96, 112, 128, 160, 192, 224, 256, 320, 384,
    ],
    [8, 16, 24, 32, 40, 48, 56, 64, 80, 96, 112, 128, 144, 160],
];

/// The ladders without LSF and with it, in bit/s: what the Rust reads of the indices 1 to 14.
static LADDERS: LazyLock<[Vec<u64>; 2]> = LazyLock::new(|| {
    let ladders = READERS.map(|read| {
        let rates = (1..=14).filter_map(|index| read(index).ok());
        rates.map(u64::from).collect::<Vec<u64>>()
    });
    if ladders != STANDARDS.map(|kilobits| kilobits.map(|rate| 1000 * rate).to_vec()) {
        stop(&format!(
            "the Rust's bit rates are not the standards': {ladders:?}"
        ));
    }
    ladders
});

/// In bit/s, by the LSF flag.
pub fn ladder(lsf: u64) -> &'static [u64] {
    &LADDERS[lsf as usize]
}

/// Whether the header can name its bit rate: one of its ladder, or 0 for free format.
pub fn on_ladder(head: &[u64]) -> bool {
    is_named(head[LSF], head[BIT_RATE])
}

fn is_named(lsf: u64, bit_rate: u64) -> bool {
    bit_rate == 0 || ladder(lsf).contains(&bit_rate)
}

/// So many answers: the Rust's on the ladder; off it the Rust is not asked, and they are 16 and zeros.
pub fn asked_on_ladder(a: &[u64], count: usize, rust: fn(&[u64]) -> Vec<u64>) -> Vec<u64> {
    if on_ladder(a) {
        return rust(a);
    }
    let mut answers = vec![0; count];
    answers[0] = OFF_LADDER.into();
    answers
}

/// A rate of the ladder, now and then free format.
pub fn draw_on_ladder(lsf: u64, random: &mut Random) -> u64 {
    match random.below(16) {
        0 => 0,
        _ => random.pick(ladder(lsf)),
    }
}

/// By the LSF flag, the rates off the ladder that are on the other, beside either, or odd.
pub static BESIDE: LazyLock<[Vec<u64>; 2]> = LazyLock::new(|| {
    [0, 1].map(|lsf| {
        let mut rates = bit_rates();
        rates.retain(|&rate| !is_named(lsf, rate));
        rates
    })
});

/// A rate off the ladder: beside it, of the other one, whole thousands, or any.
pub fn draw_off_ladder(lsf: u64, random: &mut Random) -> u64 {
    let rate = match random.below(8) {
        0..=2 => random.pick(&BESIDE[lsf as usize]),
        3 => random.pick(ladder(1 - lsf)),
        4 => random.pick(ladder(lsf)) + 1000,
        5 => 1000 * random.below(400),
        6 => random.below(400_000),
        _ => random.word(),
    };
    // One more than a rate of the ladder is off it.
    rate + u64::from(is_named(lsf, rate))
}

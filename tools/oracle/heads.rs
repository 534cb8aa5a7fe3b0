//! H, the seven numbers of a header, and the headers that several kinds are asked.

use crate::kind::sorted;
use crate::ladder::ladder;
use crate::random::Random;
use reference::header::{Emphasis, FrameHeader, Mode, ModeExtension};
use std::sync::LazyLock;

/// The places of H.
pub const LSF: usize = 0;
pub const BIT_RATE: usize = 1;
pub const SAMPLE_RATE: usize = 2;
pub const PADDING: usize = 3;
pub const PROTECTION_BIT: usize = 4;
pub const MODE: usize = 5;
pub const EXTENSION: usize = 6;

pub type Head = [u64; 7];

pub const FLAGS: [u64; 2] = [0, 1];
pub const MODES: [u64; 4] = [0, 1, 2, 3];
pub const EXTENSIONS: [u64; 4] = [0, 1, 2, 3];

/// The sample rates of ISO/IEC 11172-3, then those of 13818-3.
pub const HIGH_SAMPLE_RATES: [u64; 3] = [32_000, 44_100, 48_000];
pub const LOW_SAMPLE_RATES: [u64; 3] = [16_000, 22_050, 24_000];

const TOP: u64 = u32::MAX as u64;

/// Free format, and bit rates off the ladders.
const ODD_BIT_RATES: [u64; 9] = [0, 1, 500, 999, 1000, 64_999, 193_000, 1 << 31, TOP];

pub fn mode_of(number: u64) -> Mode {
    match number {
        0 => Mode::Stereo,
        1 => Mode::JointStereo,
        2 => Mode::DualChannel,
        3 => Mode::SingleChannel,
        _ => unreachable!("a mode is 0 to 3"),
    }
}

pub fn extension_of(number: u64) -> ModeExtension {
    match number {
        0 => ModeExtension::Bound4,
        1 => ModeExtension::Bound8,
        2 => ModeExtension::Bound12,
        3 => ModeExtension::Bound16,
        _ => unreachable!("an extension is 0 to 3"),
    }
}

/// The header of the seven numbers at the front; what H leaves out is constant.
pub fn header_of(a: &[u64]) -> FrameHeader {
    FrameHeader {
        lsf: a[LSF] == 1,
        bit_rate: a[BIT_RATE] as u32,
        sample_rate: a[SAMPLE_RATE] as u32,
        padding: a[PADDING] == 1,
        private_bit: false,
        mode: mode_of(a[MODE]),
        mode_extension: extension_of(a[EXTENSION]),
        copyright: false,
        original: false,
        emphasis: Emphasis::None,
        protection_bit: a[PROTECTION_BIT] == 1,
    }
}

/// The rates of both ladders.
static BOTH_LADDERS: LazyLock<Vec<u64>> = LazyLock::new(|| sorted(FLAGS.map(ladder).concat()));

/// The ladders with what lies about each rate, and the odd ones.
pub fn bit_rates() -> Vec<u64> {
    let mut rates = ODD_BIT_RATES.to_vec();
    for &rate in BOTH_LADDERS.iter() {
        rates.extend([rate, rate - 1, rate + 1, rate - 999, rate + 999]);
        rates.extend([rate + 1000, 2 * rate]);
    }
    sorted(rates)
}

/// The ladders, the odd ones, and what lies about a rate or two.
pub fn edge_bit_rates() -> Vec<u64> {
    let mut rates = ODD_BIT_RATES.to_vec();
    rates.extend(BOTH_LADDERS.iter());
    rates.extend([31_999, 32_001, 63_001, 65_000, 192_999, 384_999, 768_000]);
    sorted(rates)
}

pub fn sample_rates() -> Vec<u64> {
    let mut bases = vec![0, 1, 2, 3, 7, 144, 1000];
    bases.extend(LOW_SAMPLE_RATES);
    bases.extend(HIGH_SAMPLE_RATES);
    let mut rates = vec![96_000, TOP];
    for base in bases {
        rates.extend([base.saturating_sub(1), base, base + 1]);
    }
    sorted(rates)
}

/// The values of each field of H; an empty list stands for a random one.
#[derive(Default)]
pub struct Choice([Vec<u64>; 7]);

impl Choice {
    pub fn with(mut self, field: usize, values: &[u64]) -> Self {
        self.0[field] = values.to_vec();
        self
    }

    /// Every combination of the listed values.
    pub fn heads(&self, random: &mut Random) -> Vec<Head> {
        let count: usize = self.0.iter().map(|values| values.len().max(1)).product();
        let mut draws = Drawing::new(random);
        (0..count)
            .map(|mut rest| {
                let mut head = draws.head();
                for (field, values) in self.0.iter().enumerate().rev() {
                    if !values.is_empty() {
                        head[field] = values[rest % values.len()];
                        rest /= values.len();
                    }
                }
                head
            })
            .collect()
    }
}

pub fn random_heads(count: usize, random: &mut Random) -> Vec<Head> {
    (0..count).map(|_| any_head(random)).collect()
}

pub fn any_head(random: &mut Random) -> Head {
    Drawing::new(random).head()
}

static BIT_RATES: LazyLock<Vec<u64>> = LazyLock::new(bit_rates);
static SAMPLE_RATES: LazyLock<Vec<u64>> = LazyLock::new(sample_rates);

/// Draws headers: likely rates most often, then those about them, then any.
struct Drawing<'a> {
    random: &'a mut Random,
}

impl<'a> Drawing<'a> {
    fn new(random: &'a mut Random) -> Self {
        Drawing { random }
    }

    fn bit_rate(&mut self) -> u64 {
        match self.random.below(6) {
            0 | 1 => self.random.pick(&BOTH_LADDERS),
            2 => self.random.pick(&BIT_RATES),
            3 => self.random.below(400_000),
            4 => 1000 * self.random.below(400),
            _ => self.random.word(),
        }
    }

    fn sample_rate(&mut self) -> u64 {
        match self.random.below(6) {
            0..=2 => self.random.pick(&HIGH_SAMPLE_RATES),
            3 => self.random.pick(&LOW_SAMPLE_RATES),
            4 => self.random.pick(&SAMPLE_RATES),
            _ => self.random.word(),
        }
    }

    fn head(&mut self) -> Head {
        let mut head = [0; 7];
        head[LSF] = u64::from(self.random.below(4) == 0);
        head[BIT_RATE] = self.bit_rate();
        head[SAMPLE_RATE] = self.sample_rate();
        head[PADDING] = self.random.pick(&FLAGS);
        head[PROTECTION_BIT] = self.random.pick(&FLAGS);
        head[MODE] = self.random.pick(&MODES);
        head[EXTENSION] = self.random.pick(&EXTENSIONS);
        head
    }
}

//! Doubles that several kinds are asked, as their 64 bits.

use crate::random::Random;

pub const SIGN: u64 = 1 << 63;

/// Quiet and signalling ones of both signs, with several payloads.
pub const NANS: [u64; 8] = [
    0x7ff8_0000_0000_0000,
    0xfff8_0000_0000_0000,
    0x7ff0_0000_0000_0001,
    0xfff0_0000_0000_0001,
    0x7ff7_ffff_ffff_ffff,
    0x7fff_ffff_ffff_ffff,
    0xffff_ffff_ffff_ffff,
    0x7ff8_0000_1234_5678,
];

pub const ZEROS: [u64; 2] = [0, SIGN];

pub const INFINITIES: [u64; 2] = [0x7ff0_0000_0000_0000, 0xfff0_0000_0000_0000];

/// The least and the largest subnormal, the least normal.
const TINY: [u64; 3] = [1, 0x000f_ffff_ffff_ffff, 0x0010_0000_0000_0000];

/// Magnitudes at which a conversion to a whole number may go wrong, and beyond.
const LARGE: [f64; 10] = [
    1.5,
    2.0,
    3.0,
    65_536.0,
    2_147_483_648.0,
    4_294_967_296.0,
    9_223_372_036_854_775_808.0,
    18_446_744_073_709_551_616.0,
    1e300,
    f64::MAX,
];

/// Zeros, tiny and large ones, ones, infinities, all with both signs, and the NaN.
pub fn specials() -> Vec<u64> {
    let mut magnitudes = vec![0, 1f64.to_bits(), INFINITIES[0]];
    magnitudes.extend(TINY);
    magnitudes.extend(LARGE.map(f64::to_bits));
    let mut doubles: Vec<u64> = magnitudes.iter().flat_map(|&m| [m, m | SIGN]).collect();
    doubles.extend(NANS);
    doubles
}

/// The double with its neighbours on both sides, as far as `reach` units in the last place.
pub fn about(double: f64, reach: usize) -> Vec<u64> {
    let mut first = double;
    for _ in 0..reach {
        first = first.next_down();
    }
    let mut doubles = vec![first];
    for at in 0..2 * reach {
        doubles.push(doubles[at].next_up());
    }
    doubles.iter().map(|double| double.to_bits()).collect()
}

/// The double or the same with the other sign.
pub fn either_sign(bits: u64, random: &mut Random) -> u64 {
    bits ^ random.pick(&ZEROS)
}

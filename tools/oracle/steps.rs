//! Step counts that several kinds are asked.

use crate::kind::sorted;

/// The seventeen of Table 3-B.4, and so every place of every row.
pub const CLASSES: [u64; 17] = [
    3, 5, 7, 9, 15, 31, 63, 127, 255, 511, 1023, 2047, 4095, 8191, 16383, 32767, 65535,
];

/// The classes with their neighbours, 0 to 20 and the largest number.
pub fn near_classes() -> Vec<u64> {
    let mut steps: Vec<u64> = (0..=20).collect();
    for class in CLASSES {
        steps.extend([class - 1, class, class + 1]);
    }
    steps.push(u32::MAX.into());
    sorted(steps)
}

/// Every power of 2 of 32 bits with its neighbours.
pub fn near_powers() -> Vec<u64> {
    let powers = (0..=32).flat_map(|k| [(1 << k) - 1, 1 << k, (1 << k) + 1]);
    sorted(powers.filter(|&steps| steps <= u32::MAX.into()).collect())
}

/// The whole numbers up to 70,000, every class among them.
pub fn all_low() -> Vec<u64> {
    (0..=70_000).collect()
}

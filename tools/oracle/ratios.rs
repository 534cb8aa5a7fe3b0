//! Signal-to-mask ratios: 64 doubles, channel 0 first, that try an allocation in various ways.

use crate::doubles::{INFINITIES, NANS, SIGN, ZEROS, about, either_sign, specials};
use crate::random::Random;
use crate::steps;
use reference::encoder_bit_allocator::snr_db;

pub const SLOTS: usize = 64;
pub const SUBBANDS: usize = 32;

/// As bits.
pub type Ratios = [u64; SLOTS];

type Pattern = fn(&mut Random) -> Ratios;

pub const PATTERNS: [Pattern; 19] = [
    wide,
    equal,
    two_groups,
    of_table,
    beside_table,
    tiny,
    huge,
    nearly_equal,
    coarse,
    falling,
    zeros,
    all_nan,
    some_nan,
    channel_nan,
    infinite,
    special,
    lone,
    quiet,
    any,
];

/// The ratios of Table C.5, that of no steps left out.
pub fn table_ratios() -> [f64; 17] {
    steps::CLASSES.map(|count| snr_db(count as u32).unwrap_or(0.0))
}

fn decibels(random: &mut Random) -> f64 {
    random.between(-20.0, 100.0)
}

/// A ratio of the table, at times with the other sign.
fn table_ratio(random: &mut Random) -> f64 {
    let ratio = table_ratios()[random.below(17) as usize];
    if random.one_in(5) { -ratio } else { ratio }
}

/// A value for slots that have the same.
fn shared_value(random: &mut Random) -> u64 {
    match random.below(4) {
        0 => 0,
        1 => table_ratio(random).to_bits(),
        2 => (random.below(100) as f64).to_bits(),
        _ => decibels(random).to_bits(),
    }
}

fn wide(random: &mut Random) -> Ratios {
    [0; SLOTS].map(|_| decibels(random).to_bits())
}

fn equal(random: &mut Random) -> Ratios {
    [shared_value(random); SLOTS]
}

/// Split by subband, by channel, by turns or at random.
fn two_groups(random: &mut Random) -> Ratios {
    let values = [shared_value(random), shared_value(random)];
    let (split, at) = (random.below(4), random.below(30) as usize);
    std::array::from_fn(|slot| {
        let second = match split {
            0 => slot % SUBBANDS > at,
            1 => slot >= SUBBANDS,
            2 => slot % 2 == 1,
            _ => random.one_in(2),
        };
        values[usize::from(second)]
    })
}

/// Ratios of Table C.5 and their neighbours.
fn of_table(random: &mut Random) -> Ratios {
    [0; SLOTS].map(|_| {
        let ratio = table_ratio(random);
        let near = about(ratio, 2);
        if random.one_in(2) {
            ratio.to_bits()
        } else {
            random.pick(&near)
        }
    })
}

/// Ratios of Table C.5 moved by the same: rounding parts what is equal on paper.
fn beside_table(random: &mut Random) -> Ratios {
    let moved = random.between(-20.0, 20.0);
    [0; SLOTS].map(|_| (table_ratio(random) + moved).to_bits())
}

/// So small that a ratio of the table swallows most of them.
fn tiny(random: &mut Random) -> Ratios {
    [0; SLOTS].map(|_| {
        let exponent = 1023 - 60 + random.below(16);
        either_sign(exponent << 52 | random.next() >> 12, random)
    })
}

/// So large that a difference is rounded to whole decibels or several.
fn huge(random: &mut Random) -> Ratios {
    let base = (1u64 << (50 + random.below(7))) as f64;
    [0; SLOTS].map(|_| {
        let ratio = base + random.below(80) as f64;
        if random.one_in(4) { -ratio } else { ratio }.to_bits()
    })
}

fn nearly_equal(random: &mut Random) -> Ratios {
    let near = about(decibels(random), 1);
    [0; SLOTS].map(|_| random.pick(&near))
}

/// Few values, so that many are equal.
fn coarse(random: &mut Random) -> Ratios {
    let (count, step) = (2 + random.below(6), 1 + random.below(12));
    [0; SLOTS].map(|_| ((step * random.below(count)) as f64).to_bits())
}

/// As of music: less and less towards the high subbands.
fn falling(random: &mut Random) -> Ratios {
    let slope = random.between(1.0, 4.0);
    std::array::from_fn(|slot| {
        let noise = random.between(-6.0, 6.0);
        (60.0 + noise - slope * (slot % SUBBANDS) as f64).to_bits()
    })
}

fn zeros(random: &mut Random) -> Ratios {
    [0; SLOTS].map(|_| random.pick(&ZEROS))
}

fn all_nan(random: &mut Random) -> Ratios {
    [0; SLOTS].map(|_| random.pick(&NANS))
}

/// Replaces one in so many by these.
fn sprinkle(ratios: Ratios, one_in: u64, with: &[u64], random: &mut Random) -> Ratios {
    ratios.map(|bits| {
        if random.one_in(one_in) {
            random.pick(with)
        } else {
            bits
        }
    })
}

fn some_nan(random: &mut Random) -> Ratios {
    let (ratios, one_in) = (wide(random), random.pick(&[2, 4, 16, 64]));
    sprinkle(ratios, one_in, &NANS, random)
}

/// NaN in one channel, all of it or half; the other has numbers.
fn channel_nan(random: &mut Random) -> Ratios {
    let mut ratios = wide(random);
    let (first, one_in) = (random.pick(&[0, 32]) as usize, 1 + random.below(2));
    for bits in &mut ratios[first..first + SUBBANDS] {
        if random.one_in(one_in) {
            *bits = random.pick(&NANS);
        }
    }
    ratios
}

fn infinite(random: &mut Random) -> Ratios {
    let (ratios, one_in) = (wide(random), random.pick(&[1, 2, 8]));
    sprinkle(ratios, one_in, &INFINITIES, random)
}

fn special(random: &mut Random) -> Ratios {
    let (ratios, one_in) = (coarse(random), random.pick(&[1, 2, 8]));
    sprinkle(ratios, one_in, &specials(), random)
}

/// One slot unlike all others.
fn lone(random: &mut Random) -> Ratios {
    let rest = [
        0,
        SIGN,
        INFINITIES[0],
        INFINITIES[1],
        NANS[0],
        shared_value(random),
    ];
    let mut ratios = [random.pick(&rest); SLOTS];
    let bits = if random.one_in(2) {
        random.pick(&specials())
    } else {
        shared_value(random)
    };
    ratios[random.below(SLOTS as u64) as usize] = bits;
    ratios
}

/// Hardly any above 0.
fn quiet(random: &mut Random) -> Ratios {
    [0; SLOTS].map(|_| random.between(-40.0, 2.0).to_bits())
}

/// Any bits at all, or doubles from 1/128 to 256 in size.
fn any(random: &mut Random) -> Ratios {
    let wild = random.one_in(2);
    [0; SLOTS].map(|_| {
        let exponent = 1016 + random.below(15);
        let bits = exponent << 52 | random.next() >> 12;
        if wild {
            random.next()
        } else {
            either_sign(bits, random)
        }
    })
}

/// What is in slots that must not be read: at times zeros, at times anything.
pub fn disturb(ratios: &mut Ratios, sblimit: usize, channels: usize, random: &mut Random) {
    let with = match random.below(3) {
        0 => return,
        1 => vec![0],
        _ => specials(),
    };
    for (slot, bits) in ratios.iter_mut().enumerate() {
        if slot / SUBBANDS >= channels || slot % SUBBANDS >= sblimit {
            *bits = random.pick(&with);
        }
    }
}

//! The headers, ratios, samples and records that are timed.

use questions::allocation_kinds::ratios_of;
use questions::heads::{Head, header_of};
use questions::random::Random;
use questions::ratios::{SLOTS, SUBBANDS};
use questions::records::accepted;
use questions::scfsi_kinds::selection;
use questions::served::budget_of;
use questions::side_info::Record;
use reference::encoder_bit_allocator::allocate_bits;

pub const FRAME_LEN: usize = 1152;

pub const HEADS: [(&str, Head); 6] = [
    ("48000 Hz mono, 32 kbit/s", [0, 32_000, 48_000, 0, 1, 3, 0]),
    ("48000 Hz mono, 96 kbit/s", [0, 96_000, 48_000, 0, 1, 3, 0]),
    (
        "44100 Hz stereo, 192 kbit/s",
        [0, 192_000, 44_100, 0, 1, 0, 0],
    ),
    (
        "48000 Hz joint, bound 8, 192 kbit/s",
        [0, 192_000, 48_000, 0, 1, 1, 1],
    ),
    (
        "48000 Hz stereo, 384 kbit/s",
        [0, 384_000, 48_000, 0, 1, 0, 0],
    ),
    (
        "24000 Hz (LSF) stereo, 160 kbit/s",
        [1, 160_000, 24_000, 0, 1, 0, 0],
    ),
];

/// Four random sets from -20 to 40 dB, one of zeros, one of a tone in subband 3.
pub fn ratio_sets() -> Vec<Vec<u64>> {
    let mut random = Random::new(1, 1, 0);
    let likely = |_| {
        (0..SLOTS)
            .map(|_| random.between(-20.0, 40.0).to_bits())
            .collect()
    };
    let mut sets: Vec<Vec<u64>> = (0..4).map(likely).collect();
    let tone = |slot: usize| 40.0 - 15.0 * (slot % SUBBANDS).abs_diff(3) as f64;
    sets.push(vec![0; SLOTS]);
    sets.push(
        (0..SLOTS)
            .map(|slot| tone(slot).max(-20.0).to_bits())
            .collect(),
    );
    sets
}

/// Two random frames that fall towards the high subbands, one of zeros, one of a tone.
pub fn frames() -> Vec<Vec<u64>> {
    let mut random = Random::new(1, 2, 0);
    let mut sample = |at: usize| {
        let loudest = 0.9 * 0.8f64.powi((at / 36) as i32);
        random.between(-loudest, loudest).to_bits()
    };
    let mut frames: Vec<Vec<u64>> = (0..2)
        .map(|_| (0..FRAME_LEN).map(&mut sample).collect())
        .collect();
    let tone = |at: usize| match at / 36 {
        3 => 0.7 * (at as f64).sin(),
        2 | 4 => 0.01 * (at as f64).cos(),
        _ => 0.0,
    };
    frames.push(vec![0; FRAME_LEN]);
    frames.push((0..FRAME_LEN).map(|at| tone(at).to_bits()).collect());
    frames
}

/// So many that a branch predictor does not learn them: with 16 times as many a call takes hardly
/// longer, with 16 in all the Rust's takes a third of the time to write and half of it to read.
const RECORDS: usize = 1024;

pub const SIDE_INFO_HEADS: [(&str, Head); 4] = [
    (
        "44100 Hz stereo, 192 kbit/s",
        [0, 192_000, 44_100, 0, 1, 0, 0],
    ),
    ("48000 Hz mono, 64 kbit/s", [0, 64_000, 48_000, 0, 1, 3, 0]),
    (
        "48000 Hz joint, bound 4, 192 kbit/s",
        [0, 192_000, 48_000, 0, 1, 1, 0],
    ),
    (
        "24000 Hz (LSF) stereo, 160 kbit/s",
        [1, 160_000, 24_000, 0, 1, 0, 0],
    ),
];

/// As an encoder makes them.
pub fn encoded_records(head: &Head) -> Vec<Record> {
    let mut random = Random::new(1, 5, 0);
    (0..RECORDS).map(|_| encoded(head, &mut random)).collect()
}

/// Steps by ratios that fall towards the high subbands, scfsi by indices near one another.
fn encoded(head: &Head, random: &mut Random) -> Record {
    let (loudest, slope) = (random.between(10.0, 40.0), random.between(0.5, 3.0));
    let ratios: Vec<u64> = (0..SLOTS)
        .map(|slot| loudest - slope * (slot % SUBBANDS) as f64 + random.between(-15.0, 15.0))
        .map(f64::to_bits)
        .collect();
    let data = allocate_bits(&header_of(head), &ratios_of(&ratios), 0).expect("a frame that fits");
    let mut record = Record::EMPTY;
    for (slot, &steps) in data.nb_steps.iter().flatten().enumerate() {
        let first = 10 + random.below(40);
        let (second, third) = (first + random.below(9) - 4, first + random.below(13) - 6);
        let chosen = selection([first, second, third].map(|index| index as u8));
        record.steps[slot] = steps.into();
        record.scfsi[slot] = chosen[6];
        record.indices(slot).copy_from_slice(&chosen[..3]);
    }
    record
}

/// Three of four fields with any steps of their rows, any scfsi and any indices.
pub fn any_records(head: &Head) -> Vec<Record> {
    let mut random = Random::new(1, 6, 0);
    let budget = budget_of(head).expect("a header that is served");
    (0..RECORDS)
        .map(|_| accepted(&budget, 3, &mut random))
        .collect()
}

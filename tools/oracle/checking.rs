//! Whether a record of side information hangs together. The Rust has no such check: this one is the
//! oracle's own, by the layout of the Rust's budget.

use crate::ratios::SUBBANDS;
use crate::side_info::{APART, GRANULES, Record};
use reference::encoder_bit_allocator::FixedBitBudget;

/// Steps in a slot that the layout does not carry.
pub const OUTSIDE: u32 = 17;

/// Indices that differ, in a slot with steps whose scfsi says that they are shared.
pub const CONTRADICTED: u32 = 18;

/// A number, and the place that it is about; the place is 0 0 where the number has none.
#[derive(Clone, Copy, PartialEq, Eq)]
pub struct Checked {
    pub number: u32,
    pub subband: usize,
    pub channel: usize,
}

pub const PASSED: Checked = Checked {
    number: 0,
    subband: 0,
    channel: 0,
};

/// Asked of a subband and a channel.
pub type Question = fn(&FixedBitBudget, &Record, usize, usize) -> bool;

/// In the order in which they are asked of a slot.
pub const QUESTIONS: [(u32, Question); 3] = [
    (OUTSIDE, is_outside),
    (APART, is_apart),
    (CONTRADICTED, is_contradicted),
];

/// By rising subband, channel 0 before channel 1; the first question that is met decides.
pub fn check(budget: &FixedBitBudget, record: &Record) -> Checked {
    for subband in 0..SUBBANDS {
        for channel in 0..2 {
            for (number, is_met) in QUESTIONS {
                if is_met(budget, record, subband, channel) {
                    return Checked {
                        number,
                        subband,
                        channel,
                    };
                }
            }
        }
    }
    PASSED
}

fn steps_of(record: &Record, subband: usize, channel: usize) -> u64 {
    record.steps[SUBBANDS * channel + subband]
}

fn is_carried(budget: &FixedBitBudget, subband: usize, channel: usize) -> bool {
    subband < budget.sblimit && channel < budget.channels
}

fn is_outside(budget: &FixedBitBudget, record: &Record, subband: usize, channel: usize) -> bool {
    steps_of(record, subband, channel) != 0 && !is_carried(budget, subband, channel)
}

/// Of channel 0 alone, for both.
fn is_apart(budget: &FixedBitBudget, record: &Record, subband: usize, channel: usize) -> bool {
    let shared = budget.channels == 2 && budget.bound <= subband && subband < budget.sblimit;
    shared && channel == 0 && steps_of(record, subband, 0) != steps_of(record, subband, 1)
}

fn is_contradicted(
    budget: &FixedBitBudget,
    record: &Record,
    subband: usize,
    channel: usize,
) -> bool {
    let active = is_carried(budget, subband, channel) && steps_of(record, subband, channel) != 0;
    let slot = SUBBANDS * channel + subband;
    let [a, b, c] = [0, 1, 2].map(|granule| record.index[GRANULES * slot + granule]);
    let agree = match record.scfsi[slot] {
        0 => true,
        1 => a == b,
        2 => a == b && b == c,
        3 => b == c,
        _ => unreachable!("an scfsi is 0 to 3"),
    };
    active && !agree
}

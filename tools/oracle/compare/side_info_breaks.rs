//! Wrong side information on purpose.

use crate::breaks::{Change, renumber};
use crate::case::{Case, Function, OUT_OF_RANGE, Reply, SHORT_SLICE};
use crate::judge::{ANSWER, Break};
use crate::side_info_functions::{SIDE_INFO, record_of};
use questions::ladder::OFF_LADDER;
use questions::ratios::{SLOTS, SUBBANDS};
use questions::served::budget_of;
use questions::side_info::*;
use reference::encoder_bit_allocator::FixedBitBudget;

pub const BREAKS: [Break; 16] = [
    wrong("side_bit", flip_last_bit),
    wrong("side_count", |_, _, reply| {
        if reply.number == 0 {
            reply.memories[1].put(4, 0, bits(reply) + 1);
        }
    }),
    wrong("side_tail", write_tail),
    wrong("side_behind", |_, _, reply| flip(reply, BYTES)),
    wrong("side_granule", send_second_granule),
    wrong("side_apart", |_, _, reply| renumber(reply, APART, LACKING)),
    wrong("side_row", |_, _, reply| renumber(reply, LACKING, RESERVED)),
    wrong("side_unsent", look_at_sent_alone),
    wrong("side_idle", look_at_idle),
    wrong("side_apart_first", ask_apart_first),
    wrong("side_row_first", ask_rows_first),
    wrong("side_reserved_first", ask_reserved_first),
    wrong("side_filler", |_, _, reply| {
        if [APART, LACKING, RESERVED].contains(&reply.number) {
            flip(reply, 0);
        }
    }),
    wrong("side_short", |_, _, reply| {
        if reply.number == SHORT_SLICE {
            flip(reply, 0);
        }
    }),
    wrong("side_range", cut_codes),
    wrong("side_ladder", |_, _, reply| renumber(reply, OFF_LADDER, 1)),
];

const fn wrong(name: &'static str, change: Change) -> Break {
    Break {
        name,
        function: SIDE_INFO,
        difference: ANSWER,
        change,
    }
}

/// The granules that each scfsi does not send.
const UNSENT: [&[usize]; 4] = [&[], &[1], &[1, 2], &[1]];

const SHARE_0_THEN_12: u64 = 3;

pub fn bits(reply: &Reply) -> u64 {
    reply.memories[1].get(4, 0)
}

pub fn flip(reply: &mut Reply, at: usize) {
    let byte = reply.memories[0].get(1, at);
    reply.memories[0].put(1, at, !byte);
}

pub fn flip_last_bit(_: &Function, _: &Case, reply: &mut Reply) {
    if reply.number == 0 {
        let last = bits(reply) as usize - 1;
        let byte = reply.memories[0].get(1, last / 8);
        reply.memories[0].put(1, last / 8, byte ^ 0x80 >> (last % 8));
    }
}

/// Something in the first byte that is not used.
pub fn write_tail(_: &Function, _: &Case, reply: &mut Reply) {
    let at = bits(reply).div_ceil(8) as usize;
    if reply.number == 0 && at < BYTES {
        reply.memories[0].put(1, at, 1);
    }
}

/// Replies as to another case.
fn answer_as_to(
    function: &Function,
    case: &Case,
    reply: &mut Reply,
    change: impl Fn(&mut Case, usize),
) {
    let mut other = case.clone();
    (0..SLOTS).for_each(|slot| change(&mut other, slot));
    *reply = function.expected(&other);
}

/// Granule 1 in place of 2, where these two share.
fn send_second_granule(function: &Function, case: &Case, reply: &mut Reply) {
    if reply.number == 0 {
        answer_as_to(function, case, reply, |other, slot| {
            if other.ins[1][slot] == SHARE_0_THEN_12 {
                other.ins[2][GRANULES * slot + 2] = other.ins[2][GRANULES * slot + 1];
            }
        });
    }
}

/// As if only the indices that are sent were looked at.
fn look_at_sent_alone(function: &Function, case: &Case, reply: &mut Reply) {
    if reply.number == RESERVED {
        answer_as_to(function, case, reply, |other, slot| {
            for granule in UNSENT[other.ins[1][slot] as usize] {
                other.ins[2][GRANULES * slot + granule] = 0;
            }
        });
    }
}

/// As if a code above 3 were cut to its two bits.
pub fn cut_codes(function: &Function, case: &Case, reply: &mut Reply) {
    if reply.number == OUT_OF_RANGE {
        answer_as_to(function, case, reply, |other, slot| {
            other.ins[1][slot] &= 3;
        });
    }
}

/// Whether some slot, active or idle, has a reserved index.
pub fn has_reserved(record: &Record, budget: &FixedBitBudget, active: bool) -> bool {
    let triple = |slot: usize| record.index[GRANULES * slot..][..GRANULES].iter();
    let mut slots = (0..SLOTS).filter(|&slot| record.is_active(budget, slot) == active);
    slots.any(|slot| triple(slot).any(|&index| index > LAST_INDEX))
}

/// As if the indices of idle slots were looked at.
pub fn look_at_idle(_: &Function, case: &Case, reply: &mut Reply) {
    if reply.number == 0
        && let Some(budget) = budget_of(&case.numbers)
        && has_reserved(&record_of(case), &budget, false)
    {
        reply.number = RESERVED;
        (0..BYTES).for_each(|at| reply.memories[0].put(1, at, 0));
        reply.memories[1].put(4, 0, 0);
    }
}

/// The number, where the record has such a field.
pub fn renumber_by_field(
    case: &Case,
    reply: &mut Reply,
    number: u32,
    is_met: fn(&Record, &FixedBitBudget, &[usize]) -> bool,
) {
    if let Some(budget) = budget_of(&case.numbers) {
        let (record, fields) = (record_of(case), fields_of(&budget));
        if fields.iter().any(|field| is_met(&record, &budget, field)) {
            reply.number = number;
        }
    }
}

/// 6 of a higher field before 7 of a lower one.
fn ask_apart_first(_: &Function, case: &Case, reply: &mut Reply) {
    if reply.number == LACKING {
        renumber_by_field(case, reply, APART, |record, _, field| {
            record.steps[field[0]] != record.steps[field[field.len() - 1]]
        });
    }
}

/// 7 of a higher field, or of the same, before 6.
fn ask_rows_first(_: &Function, case: &Case, reply: &mut Reply) {
    if reply.number == APART {
        renumber_by_field(case, reply, LACKING, is_lacking);
    }
}

/// Whether the row lacks the steps of the field's first slot.
pub fn is_lacking(record: &Record, budget: &FixedBitBudget, field: &[usize]) -> bool {
    let (sb, steps) = (field[0] % SUBBANDS, record.steps[field[0]] as u32);
    budget.table.allocation_index(sb, steps).is_none()
}

fn ask_reserved_first(_: &Function, case: &Case, reply: &mut Reply) {
    if [APART, LACKING].contains(&reply.number)
        && let Some(budget) = budget_of(&case.numbers)
        && has_reserved(&record_of(case), &budget, true)
    {
        reply.number = RESERVED;
    }
}

//! Wrong answers on purpose to side information that is read.

use crate::breaks::{Change, renumber};
use crate::case::{Case, Function, OUT_OF_RANGE, Reply, SHORT_SLICE};
use crate::judge::{ANSWER, Break};
use crate::read_functions::READ_SIDE_INFO;
use crate::side_info_functions::bytes_of;
use questions::heads::*;
use questions::ladder::OFF_LADDER;
use questions::ratios::{SLOTS, SUBBANDS};
use questions::reading::*;
use questions::records::row;
use questions::served::{JOINT, budget_of};
use questions::side_info::{GRANULES, INDICES, LAST_INDEX};
use questions::slices::{Place, is_planted, places};

pub const BREAKS: [Break; 30] = [
    wrong("read_end", |_, _, reply| {
        renumber(reply, ENDED, READ_RESERVED)
    }),
    wrong("read_reserved", |_, _, reply| {
        renumber(reply, READ_RESERVED, ENDED)
    }),
    wrong("read_bytes", |_, _, reply| {
        let bits = get(reply, BITS, 0);
        put(reply, BITS, 0, bits.next_multiple_of(8));
    }),
    wrong("read_step", take_other_place),
    wrong("read_codes", exchange_codes),
    wrong("read_fill", |_, _, reply| {
        change_shared(reply, |code, [a, _, c]| {
            [a, if code == SHARE_01 { c } else { a }, c]
        })
    }),
    wrong("read_second", |_, _, reply| {
        change_shared(reply, |_, [a, _, _]| [a; GRANULES])
    }),
    wrong("read_shared", part_shared_fields),
    wrong("read_channels", exchange_channels),
    wrong("read_bound", read_by_next_bound),
    wrong("read_idle", |_, _, reply| {
        if reply.number == 0 {
            put(reply, SCFSI, SUBBANDS - 1, 1);
        }
    }),
    wrong("read_exact", refuse_exact),
    wrong("read_exact_reserved", |_, case, reply| {
        end_instead(case, reply, |bytes, places| {
            let first = places.iter().find(|&&place| is_planted(bytes, place));
            first.is_some_and(|place| place.end() == 8 * bytes.len())
        });
    }),
    wrong("read_end_first", |_, case, reply| {
        end_instead(case, reply, |bytes, places| {
            places.iter().any(|place| place.end() > 8 * bytes.len())
        });
    }),
    wrong("read_padded", |function, case, reply| {
        if reply.number == ENDED {
            *reply = padded(function, case);
        }
    }),
    wrong("read_kept", |function, case, reply| {
        if reply.number == ENDED {
            reply.memories[STEPS] = padded(function, case).memories[STEPS].clone();
        }
    }),
    wrong("read_last_index", refuse_last_index),
    wrong("read_filler_steps", write_beside::<STEPS>),
    wrong("read_filler_scfsi", write_beside::<SCFSI>),
    wrong("read_filler_index", write_beside::<INDEX>),
    wrong("read_filler_bits", write_beside::<BITS>),
    wrong("read_behind_steps", write_behind::<STEPS>),
    wrong("read_behind_scfsi", write_behind::<SCFSI>),
    wrong("read_behind_index", write_behind::<INDEX>),
    wrong("read_behind_bits", write_behind::<BITS>),
    wrong("read_short", |_, _, reply| {
        if reply.number == SHORT_SLICE {
            flip(reply, INDEX, 0);
        }
    }),
    wrong("read_range", cut_flags),
    wrong("read_empty", |_, case, reply| {
        if case.ins[0].is_empty() {
            renumber(reply, ENDED, SHORT_SLICE);
        }
    }),
    wrong("read_long", |function, case, reply| {
        if reply.number == 0 && case.ins[0].len() > LINE_BYTES {
            refuse(function, reply, ENDED);
        }
    }),
    wrong("read_ladder", |_, _, reply| renumber(reply, OFF_LADDER, 1)),
];

const fn wrong(name: &'static str, change: Change) -> Break {
    Break {
        name,
        function: READ_SIDE_INFO,
        difference: ANSWER,
        change,
    }
}

/// The slices that are written, and the bytes of their elements.
const STEPS: usize = 0;
const SCFSI: usize = 1;
const INDEX: usize = 2;
const BITS: usize = 3;
const WIDTHS: [usize; 4] = [4, 1, 1, 4];

const SHARE_01: u64 = 1;
const SHARE_12: u64 = 3;

fn get(reply: &Reply, slice: usize, at: usize) -> u64 {
    reply.memories[slice].get(WIDTHS[slice], at)
}

fn put(reply: &mut Reply, slice: usize, at: usize, value: u64) {
    reply.memories[slice].put(WIDTHS[slice], at, value);
}

fn flip(reply: &mut Reply, slice: usize, at: usize) {
    let value = get(reply, slice, at);
    put(reply, slice, at, !value);
}

/// This number, and zeros.
fn refuse(function: &Function, reply: &mut Reply, number: u32) {
    reply.number = number;
    for (slice, out) in function.outs.iter().enumerate() {
        (0..out.count).for_each(|at| put(reply, slice, at, 0));
    }
}

/// Something beside 9 or 10, where a 0 belongs.
fn write_beside<const SLICE: usize>(_: &Function, _: &Case, reply: &mut Reply) {
    if [ENDED, READ_RESERVED].contains(&reply.number) {
        put(reply, SLICE, 0, 1);
    }
}

/// One element more than there must be.
fn write_behind<const SLICE: usize>(function: &Function, _: &Case, reply: &mut Reply) {
    flip(reply, SLICE, function.outs[SLICE].count);
}

/// The first steps are those of a place beside.
fn take_other_place(_: &Function, case: &Case, reply: &mut Reply) {
    let slot = (0..SLOTS).find(|&slot| get(reply, STEPS, slot) != 0);
    if reply.number == 0
        && let (Some(budget), Some(slot)) = (budget_of(&case.numbers), slot)
    {
        let (row, steps) = (row(budget.table, slot % SUBBANDS), get(reply, STEPS, slot));
        let next = row.iter().find(|&&other| other > steps);
        put(reply, STEPS, slot, *next.unwrap_or(&row[1]));
    }
}

fn exchange_codes(_: &Function, _: &Case, reply: &mut Reply) {
    if reply.number == 0 {
        for slot in 0..SLOTS {
            let code = get(reply, SCFSI, slot);
            if [SHARE_01, SHARE_12].contains(&code) {
                put(reply, SCFSI, slot, SHARE_01 + SHARE_12 - code);
            }
        }
    }
}

/// Other indices in the slots that send two.
fn change_shared(reply: &mut Reply, change: fn(u64, [u64; GRANULES]) -> [u64; GRANULES]) {
    if reply.number == 0 {
        for slot in 0..SLOTS {
            let code = get(reply, SCFSI, slot);
            if [SHARE_01, SHARE_12].contains(&code) {
                put_triple(reply, slot, change(code, triple(reply, slot)));
            }
        }
    }
}

fn triple(reply: &Reply, slot: usize) -> [u64; GRANULES] {
    std::array::from_fn(|granule| get(reply, INDEX, GRANULES * slot + granule))
}

fn put_triple(reply: &mut Reply, slot: usize, triple: [u64; GRANULES]) {
    for (granule, index) in triple.into_iter().enumerate() {
        put(reply, INDEX, GRANULES * slot + granule, index);
    }
}

/// The second channel of shared fields has no steps.
fn part_shared_fields(_: &Function, case: &Case, reply: &mut Reply) {
    if reply.number == 0
        && case.numbers[MODE] == JOINT
        && let Some(budget) = budget_of(&case.numbers)
    {
        for sb in budget.bound..budget.sblimit {
            put(reply, STEPS, SUBBANDS + sb, 0);
        }
    }
}

/// The indices of channel 1 before those of channel 0, where both have steps.
fn exchange_channels(_: &Function, _: &Case, reply: &mut Reply) {
    for sb in 0..SUBBANDS {
        let slots = [sb, SUBBANDS + sb];
        if reply.number == 0 && slots.iter().all(|&slot| get(reply, STEPS, slot) != 0) {
            let [first, second] = slots.map(|slot| triple(reply, slot));
            put_triple(reply, slots[0], second);
            put_triple(reply, slots[1], first);
        }
    }
}

fn read_by_next_bound(function: &Function, case: &Case, reply: &mut Reply) {
    if reply.number == 0 && case.numbers[MODE] == JOINT {
        let mut other = case.clone();
        other.numbers[EXTENSION] = (case.numbers[EXTENSION] + 1) % 4;
        *reply = function.expected(&other);
    }
}

/// 9 where the last bit of the slice is the last that is read.
fn refuse_exact(function: &Function, case: &Case, reply: &mut Reply) {
    if reply.number == 0 && get(reply, BITS, 0) == 8 * case.ins[0].len() as u64 {
        refuse(function, reply, ENDED);
    }
}

/// 9 for 10, where the slice and the places of its indices are such.
fn end_instead(case: &Case, reply: &mut Reply, is_met: fn(&[u8], &[Place]) -> bool) {
    let bytes = bytes_of(&case.ins[0]);
    if reply.number == READ_RESERVED
        && let Some(budget) = budget_of(&case.numbers)
        && let Some(places) = places(&budget, &bytes)
        && is_met(&bytes, &places)
    {
        reply.number = ENDED;
    }
}

/// The answer as if zeros lay behind the slice.
fn padded(function: &Function, case: &Case) -> Reply {
    let mut other = case.clone();
    other.ins[0].resize(case.ins[0].len() + LINE_BYTES, 0);
    function.expected(&other)
}

fn refuse_last_index(function: &Function, _: &Case, reply: &mut Reply) {
    if reply.number == 0 && (0..INDICES).any(|at| get(reply, INDEX, at) == LAST_INDEX) {
        refuse(function, reply, READ_RESERVED);
    }
}

/// As if only the bits were looked at that flags, mode and extension have.
pub fn cut_flags(function: &Function, case: &Case, reply: &mut Reply) {
    if reply.number == OUT_OF_RANGE {
        let mut other = case.clone();
        [LSF, PADDING, PROTECTION_BIT]
            .into_iter()
            .for_each(|at| other.numbers[at] &= 1);
        [MODE, EXTENSION]
            .into_iter()
            .for_each(|at| other.numbers[at] &= 3);
        *reply = function.expected(&other);
    }
}

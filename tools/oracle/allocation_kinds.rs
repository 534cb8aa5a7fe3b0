//! Allocations, and the bits that would be enough for one.

use crate::budget_kinds::{
    critical_bancs, draw_banc, largest_banc, offered, some_off_ladder, with_banc,
};
use crate::doubles::about;
use crate::heads::{Head, MODE, PROTECTION_BIT, header_of};
use crate::kind::{Asker, Kind, stop};
use crate::ladder::asked_on_ladder;
use crate::ratios::{SLOTS, SUBBANDS, table_ratios};
use crate::served::{SINGLE, absurd, any_pattern, budget_of, draw, layouts, ratios_for, unserved};
use crate::worked::{FREE, REFUSED, SMALL};
use reference::audio_data::AudioData;
use reference::encoder_bit_allocator::{
    BitAllocError, FixedBitBudget, SmrTable, allocate_bits, demand_bits, sample_bits_for,
};

pub const KINDS: [Kind; 2] = [
    Kind {
        number: 28,
        name: "demand_bits",
        form: "H and 64 doubles, channel 0 first -> number bits (0 when refused; as kind 26)",
        answer: |a| asked_on_ladder(a, 2, answer_demand),
        halted: Some(&[2, 0]),
        ask: ask_demands,
        one_in: 375,
    },
    Kind {
        number: 29,
        name: "allocate_bits",
        form: "H banc and 64 doubles -> number left cb fixed banc and 64 steps, channel 0 first \
               (4: InsufficientFrameSize with cb, fixed, banc; the other numbers as kind 26; left \
               is computed from the steps; not asked where fixed + banc wraps)",
        answer: |a| asked_on_ladder(a, ANSWERS, answer_allocation),
        halted: Some(&HALTED),
        ask: ask_allocations,
        one_in: 300,
    },
];

/// number, left, cb, fixed, banc and the steps.
const ANSWERS: usize = 5 + SLOTS;

const HALTED: [u64; ANSWERS] = {
    let mut answers = [0; ANSWERS];
    answers[0] = 2;
    answers
};

/// What a first step costs for each channel that it serves, besides its samples.
const FIRST_STEP_BITS: u64 = 20;

const RANDOM_LINES: usize = 36_000;

pub fn ratios_of(a: &[u64]) -> SmrTable {
    std::array::from_fn(|ch| std::array::from_fn(|sb| f64::from_bits(a[SUBBANDS * ch + sb])))
}

fn answer_demand(a: &[u64]) -> Vec<u64> {
    match demand_bits(&header_of(a), &ratios_of(&a[7..])) {
        Err(_) => vec![1, 0],
        Ok(bits) => vec![0, bits],
    }
}

fn answer_allocation(a: &[u64]) -> Vec<u64> {
    let reply = allocate_bits(&header_of(a), &ratios_of(&a[8..]), a[7] as u32);
    let mut answers = vec![0; ANSWERS];
    match reply {
        Err(BitAllocError::NoBitallocTable) => answers[0] = 1,
        Err(BitAllocError::InsufficientFrameSize { cb, fixed, banc }) => {
            answers[0] = 4;
            answers[2..5].copy_from_slice(&[cb, fixed, banc].map(u64::from));
        }
        Ok(data) => {
            answers[1] = bits_left(a, &data);
            for (at, &steps) in data.nb_steps.iter().flatten().enumerate() {
                answers[5 + at] = steps.into();
            }
        }
    }
    answers
}

/// The offered bits without what the steps cost.
fn bits_left(a: &[u64], data: &AudioData) -> u64 {
    let Some(budget) = budget_of(a) else {
        stop("an allocation without a budget");
    };
    let spent = u64::from(budget.fixed()) + a[7] + charged(&budget, data);
    match u64::from(budget.cb).checked_sub(spent) {
        Some(left) => left,
        None => stop(&format!("more bits are charged than offered: {a:?}")),
    }
}

/// For each field with steps, its samples once and the rest for each channel.
pub fn charged(budget: &FixedBitBudget, data: &AudioData) -> u64 {
    let mut bits = 0;
    for sb in 0..budget.sblimit {
        let shared = sb >= budget.bound;
        let (fields, serves) = if shared {
            (1, budget.channels)
        } else {
            (budget.channels, 1)
        };
        for steps in data.nb_steps[..fields].iter().map(|row| row[sb]) {
            if steps != 0 {
                bits += u64::from(sample_bits_for(steps)) + FIRST_STEP_BITS * serves as u64;
            }
        }
    }
    bits
}

fn ask_demand(asker: &mut Asker, edge: bool, head: &Head, pattern: usize) {
    let ratios = ratios_for(head, pattern, &mut asker.random);
    asker.ask(edge, &[&head[..], &ratios].concat());
}

fn note_demands(asker: &mut Asker) {
    for (smr, bits) in [(0.0, 0), (7.0, 80), (7.5, 104)] {
        let mut ratios = [0; SLOTS];
        ratios[0] = f64::to_bits(smr);
        let words = format!("B2c, SMR {smr:.1} in the first subband, the rest 0: {bits} bits");
        asker.by_hand(&words, &[&SMALL[..], &ratios].concat());
    }
    for (words, head) in REFUSED {
        asker.by_hand(words, &[&head[..], &[0; SLOTS]].concat());
    }
}

fn ask_demands(asker: &mut Asker) {
    note_demands(asker);
    for (at, head) in layouts(&mut asker.random).iter().enumerate() {
        for turn in 0..7 {
            ask_demand(asker, true, head, 7 * at + turn);
        }
    }
    ask_table_demands(asker);
    let random = &mut asker.random;
    let heads = [absurd(random), unserved(random), some_off_ladder(random)];
    for head in heads.concat() {
        let pattern = any_pattern(&mut asker.random);
        ask_demand(asker, true, &head, pattern);
    }
    for _ in 0..RANDOM_LINES {
        let (head, pattern) = (draw(&mut asker.random), any_pattern(&mut asker.random));
        ask_demand(asker, false, &head, pattern);
    }
}

/// In each table, every ratio of Table C.5 with its neighbours, the same in a whole channel.
fn ask_table_demands(asker: &mut Asker) {
    let mut heads = layouts(&mut asker.random);
    heads.retain(|head| head[MODE] == SINGLE);
    heads.dedup_by_key(|head| budget_of(&head[..]).map(|budget| budget.table));
    for head in heads {
        for bits in table_ratios().map(|ratio| about(ratio, 1)).concat() {
            asker.ask(
                true,
                &[&head[..], &[bits; SUBBANDS], &[0; SUBBANDS]].concat(),
            );
        }
    }
}

/// Asks at banc, or at the largest that the domain allows.
fn ask_allocation(asker: &mut Asker, edge: bool, head: &Head, banc: u64, pattern: usize) {
    let ratios = ratios_for(head, pattern, &mut asker.random);
    let mut arguments = with_banc(head, banc.min(largest_banc(head)));
    arguments.extend(ratios);
    asker.ask(edge, &arguments);
}

fn note_allocations(asker: &mut Asker) {
    let mut open = SMALL;
    open[PROTECTION_BIT] = 1;
    let known = [
        (
            "48000 Hz, single, 32000 bit/s, CRC, banc 694: accepted, all steps 0",
            SMALL,
            694,
        ),
        (
            "the same with banc 695: answer 4 with 768, 74, 695",
            SMALL,
            695,
        ),
        (
            "the same without CRC, banc 630: subband 0 has 3 steps, the rest 0",
            open,
            630,
        ),
        ("the same without CRC, banc 631: all steps 0", open, 631),
        (
            "48000 Hz, single, free format: answer 4 with 0, 120, 0",
            FREE,
            0,
        ),
    ];
    let refused = REFUSED.map(|(words, head)| (words, head, 0));
    for (words, head, banc) in known.into_iter().chain(refused) {
        let mut arguments = with_banc(&head, banc);
        arguments.extend([0; SLOTS]);
        asker.by_hand(&format!("every SMR 0, {words}"), &arguments);
    }
}

/// Each pattern in turn, then about the bits offered, then with few bits.
fn ask_layouts(asker: &mut Asker) {
    for (at, head) in layouts(&mut asker.random).iter().enumerate() {
        for turn in 0..9 {
            let banc = draw_banc(head, &mut asker.random);
            ask_allocation(asker, true, head, banc, 9 * at + turn);
        }
        for banc in critical_bancs(head) {
            let pattern = any_pattern(&mut asker.random);
            ask_allocation(asker, true, head, banc, pattern);
        }
        for end in [130, 1_000, 3_000] {
            let banc = offered(head).saturating_sub(asker.random.below(end));
            let pattern = any_pattern(&mut asker.random);
            ask_allocation(asker, true, head, banc, pattern);
        }
    }
}

fn ask_allocations(asker: &mut Asker) {
    note_allocations(asker);
    ask_layouts(asker);
    for head in absurd(&mut asker.random) {
        for banc in [0, draw_banc(&head, &mut asker.random), u32::MAX.into()] {
            let pattern = any_pattern(&mut asker.random);
            ask_allocation(asker, true, &head, banc, pattern);
        }
    }
    let random = &mut asker.random;
    for head in [unserved(random), some_off_ladder(random)].concat() {
        let banc = draw_banc(&head, &mut asker.random);
        let pattern = any_pattern(&mut asker.random);
        ask_allocation(asker, true, &head, banc, pattern);
    }
    for _ in 0..RANDOM_LINES {
        let (head, pattern) = (draw(&mut asker.random), any_pattern(&mut asker.random));
        let banc = draw_banc(&head, &mut asker.random);
        ask_allocation(asker, false, &head, banc, pattern);
    }
}

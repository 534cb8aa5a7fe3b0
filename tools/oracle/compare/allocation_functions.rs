//! Allocations and demands.

use crate::case::{Case, Function, Memories, Out, doubles};
use crate::header_functions::*;
use crate::library::*;
use questions::allocation_kinds::{charged, ratios_of};
use questions::heads::{Head, header_of};
use questions::random::Random;
use questions::ratios::SLOTS;
use questions::served::{any_pattern, budget_of, draw, ratios_for};
use reference::encoder_bit_allocator::{allocate_bits, demand_bits};

pub const FUNCTIONS: [Function; 2] = [
    Function {
        name: "demand_bits",
        share: 6,
        arguments: HEAD,
        ins: &[doubles(SLOTS)],
        outs: &[Out {
            name: "out",
            width: 8,
            count: 1,
        }],
        draw: draw_demand,
        library: |case, [out, ..]| {
            let ratios = case.ins[0].as_ptr().cast();
            call_with_head!(
                folgrist_demand_bits,
                case.numbers,
                ratios,
                case.ins[0].len(),
                out.pointer(),
                case.lengths[0]
            )
        },
        rust: answer_demand,
    },
    Function {
        name: ALLOCATE,
        share: 15,
        arguments: &HEAD_AND_BANC,
        ins: &[doubles(SLOTS)],
        outs: &[
            Out {
                name: "steps",
                width: 4,
                count: SLOTS,
            },
            Out {
                name: "left cb fixed banc",
                width: 4,
                count: 4,
            },
        ],
        draw: draw_allocation,
        library: |case, [steps, out, ..]| {
            let ratios = case.ins[0].as_ptr().cast();
            call_with_head!(
                folgrist_allocate_bits,
                case.numbers,
                case.numbers[BANC] as u32,
                ratios,
                case.ins[0].len(),
                steps.pointer(),
                case.lengths[0],
                out.pointer(),
                case.lengths[1]
            )
        },
        rust: answer_allocation,
    },
];

pub const ALLOCATE: &str = "allocate_bits";

const TOO_SMALL: u32 = 4;

fn draw_ratios(case: &mut Case, random: &mut Random) {
    let mut head: Head = [0; 7];
    head.copy_from_slice(&case.numbers[..7]);
    let pattern = any_pattern(random);
    case.ins[0].extend(ratios_for(&head, pattern, random));
}

fn draw_demand(case: &mut Case, random: &mut Random) {
    draw_head(case, random);
    draw_ratios(case, random);
}

/// Mostly a header that is served.
fn draw_allocation(case: &mut Case, random: &mut Random) {
    if random.one_in(16) {
        draw_head(case, random);
    } else {
        case.numbers[..7].copy_from_slice(&draw(random));
    }
    draw_any_banc(case, random);
    draw_ratios(case, random);
}

fn answer_demand(case: &Case, [out, ..]: &mut Memories) -> u32 {
    let number = refusal(&case.numbers);
    let bits = match number {
        0 => demand_bits(&header_of(&case.numbers), &ratios_of(&case.ins[0])),
        _ => Ok(0),
    };
    out.put(8, 0, bits.unwrap_or(0));
    number
}

/// The steps are the Rust's; it answers no bits left, so they are counted from the steps.
fn answer_allocation(case: &Case, [steps, out, ..]: &mut Memories) -> u32 {
    for slot in 0..SLOTS {
        steps.put(4, slot, 0);
    }
    (0..4).for_each(|at| out.put(4, at, 0));
    let (number, banc) = (refusal(&case.numbers), case.numbers[BANC]);
    let Some(budget) = budget_of(&case.numbers).filter(|_| number == 0) else {
        return number;
    };
    let (cb, fixed) = (u64::from(budget.cb), u64::from(budget.fixed()));
    if fixed + banc > cb {
        [0, cb, fixed, banc]
            .iter()
            .enumerate()
            .for_each(|(at, &value)| out.put(4, at, value));
        return TOO_SMALL;
    }
    let ratios = ratios_of(&case.ins[0]);
    let Ok(data) = allocate_bits(&header_of(&case.numbers), &ratios, banc as u32) else {
        panic!("the Rust refuses an allocation that fits");
    };
    for (slot, &count) in data.nb_steps.iter().flatten().enumerate() {
        steps.put(4, slot, count.into());
    }
    out.put(4, 0, cb - fixed - banc - charged(&budget, &data));
    0
}

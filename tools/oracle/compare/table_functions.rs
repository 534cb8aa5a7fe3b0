//! Lookups: rows of the tables, classes of quantization, signal-to-noise ratios.

use crate::case::{Argument, Case, Function, Memories, NOTHING_THERE, Out, Sort};
use crate::library::*;
use questions::random::Random;
use questions::steps;
use questions::table_kinds::table_of;
use reference::bitalloc::class_of_quantization;
use reference::encoder_bit_allocator::{sample_bits_for, snr_db};
use std::sync::LazyLock;

const TABLE: Argument = Argument {
    name: "table",
    sort: Sort::UpTo(4),
};

pub const STEPS: Argument = Argument {
    name: "steps",
    sort: Sort::Whole,
};

const fn whole(name: &'static str) -> Argument {
    Argument {
        name,
        sort: Sort::Whole,
    }
}

const fn out(count: usize) -> Out {
    Out {
        name: "out",
        width: 4,
        count,
    }
}

pub const FUNCTIONS: [Function; 6] = [
    Function {
        name: "table_limits",
        share: 2,
        arguments: &[TABLE, whole("sb")],
        ins: &[],
        outs: &[out(2)],
        draw: draw_place,
        library: |case, [out, ..]| unsafe {
            let [table, sb, ..] = case.numbers;
            folgrist_table_limits(table as u8, sb, out.pointer(), case.lengths[0])
        },
        rust: |case, [out, ..]| {
            let table = table_of(case.numbers[0]);
            out.put(4, 0, table.sblimit() as u64);
            out.put(4, 1, table.nbal(case.numbers[1] as usize).into());
            0
        },
    },
    Function {
        name: "nb_steps",
        share: 3,
        arguments: &[TABLE, whole("sb"), whole("index")],
        ins: &[],
        outs: &[out(1)],
        draw: draw_index,
        library: |case, [out, ..]| unsafe {
            let [table, sb, index, ..] = case.numbers;
            folgrist_nb_steps(
                table as u8,
                sb,
                index as u32,
                out.pointer(),
                case.lengths[0],
            )
        },
        rust: |case, memories| {
            let [table, sb, index, ..] = case.numbers;
            put_found(
                table_of(table).nb_steps(sb as usize, index as u32),
                memories,
            )
        },
    },
    Function {
        name: "allocation_index",
        share: 3,
        arguments: &[TABLE, whole("sb"), STEPS],
        ins: &[],
        outs: &[out(1)],
        draw: draw_row_steps,
        library: |case, [out, ..]| unsafe {
            let [table, sb, steps, ..] = case.numbers;
            folgrist_allocation_index(
                table as u8,
                sb,
                steps as u32,
                out.pointer(),
                case.lengths[0],
            )
        },
        rust: |case, memories| {
            let [table, sb, steps, ..] = case.numbers;
            put_found(
                table_of(table).allocation_index(sb as usize, steps as u32),
                memories,
            )
        },
    },
    Function {
        name: "class_of_quantization",
        share: 3,
        arguments: &[STEPS],
        ins: &[],
        outs: &[
            Out {
                name: "cd",
                width: 8,
                count: 2,
            },
            out(4),
        ],
        draw: |case, random| case.numbers[0] = draw_steps(random),
        library: |case, [cd, out, ..]| unsafe {
            let [cd_length, length, ..] = case.lengths;
            let steps = case.numbers[0] as u32;
            folgrist_class_of_quantization(steps, cd.pointer(), cd_length, out.pointer(), length)
        },
        rust: answer_class,
    },
    Function {
        name: "sample_bits_for",
        share: 2,
        arguments: &[STEPS],
        ins: &[],
        outs: &[],
        draw: |case, random| case.numbers[0] = draw_steps(random),
        library: |case, _| unsafe { folgrist_sample_bits_for(case.numbers[0] as u32) },
        rust: |case, _| sample_bits_for(case.numbers[0] as u32),
    },
    Function {
        name: "snr_db",
        share: 2,
        arguments: &[STEPS],
        ins: &[],
        outs: &[Out {
            name: "out",
            width: 8,
            count: 1,
        }],
        draw: |case, random| case.numbers[0] = draw_listed(random),
        library: |case, [out, ..]| unsafe {
            folgrist_snr_db(case.numbers[0] as u32, out.pointer(), case.lengths[0])
        },
        rust: |case, [out, ..]| {
            let ratio = snr_db(case.numbers[0] as u32);
            out.put(8, 0, ratio.unwrap_or(0.0).to_bits());
            if ratio.is_some() { 0 } else { NO_CLASS }
        },
    },
];

pub const NO_CLASS: u32 = 5;

/// Subbands that a narrower number would cut short to a low one, and far ones.
const FAR: [u64; 9] = [
    31,
    32,
    256,
    65_536,
    u32::MAX as u64,
    1 << 32,
    (1 << 32) + 3,
    1 << 63,
    u64::MAX,
];

fn put_found(value: Option<u32>, [out, ..]: &mut Memories) -> u32 {
    match value {
        None => NOTHING_THERE,
        Some(value) => {
            out.put(4, 0, value.into());
            0
        }
    }
}

fn answer_class(case: &Case, [cd, out, ..]: &mut Memories) -> u32 {
    let class = class_of_quantization(case.numbers[0] as u32);
    let values = class.map_or([0; 6], |class| {
        [
            class.c.to_bits(),
            class.d.to_bits(),
            class.grouping.into(),
            class.samples_per_codeword.into(),
            class.bits_per_codeword.into(),
            class.bits_per_sample().into(),
        ]
    });
    (0..2).for_each(|at| cd.put(8, at, values[at]));
    (0..4).for_each(|at| out.put(4, at, values[2 + at]));
    if class.is_some() { 0 } else { NO_CLASS }
}

fn draw_place(case: &mut Case, random: &mut Random) {
    case.numbers[0] = random.below(5);
    case.numbers[1] = match random.below(12) {
        0 => random.pick(&FAR),
        1 => random.next() >> random.below(64),
        2 | 3 => random.below(34),
        _ => random.below(table_of(case.numbers[0]).sblimit() as u64),
    };
}

fn draw_index(case: &mut Case, random: &mut Random) {
    draw_place(case, random);
    case.numbers[2] = match random.below(8) {
        0 => random.pick(&[15, 16, 17, 32, 256, 65_536, 1 << 31, u32::MAX.into()]),
        1 => random.word(),
        2 => random.below(18),
        _ => random.below(row_width(case)),
    };
}

/// The steps of a place of the row, or any.
fn draw_row_steps(case: &mut Case, random: &mut Random) {
    draw_place(case, random);
    let [table, sb, ..] = case.numbers;
    let index = random.below(row_width(case)) as u32;
    case.numbers[2] = match table_of(table).nb_steps(sb as usize, index) {
        Some(steps) if !random.one_in(3) => steps.into(),
        _ => draw_steps(random),
    };
}

fn row_width(case: &Case) -> u64 {
    1 << table_of(case.numbers[0]).nbal(case.numbers[1] as usize)
}

static NEAR: LazyLock<Vec<u64>> =
    LazyLock::new(|| [steps::near_classes(), steps::near_powers()].concat());

/// Mostly a class, often a number beside one.
pub fn draw_steps(random: &mut Random) -> u64 {
    match random.below(8) {
        0..=4 => random.pick(&steps::CLASSES),
        5 | 6 => random.pick(&NEAR),
        _ => random.word(),
    }
}

/// The same, and 0, which Table C.5 lists.
fn draw_listed(random: &mut Random) -> u64 {
    if random.one_in(12) {
        0
    } else {
        draw_steps(random)
    }
}

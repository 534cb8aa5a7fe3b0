//! What is asked of a header: table, frame, budget, offer.

use crate::case::{Argument, Case, Function, Memories, Out, Sort};
use crate::library::*;
use questions::budget_kinds::{answer_budget, draw_banc, offered};
use questions::heads::*;
use questions::ladder::{OFF_LADDER, draw_on_ladder, on_ladder};
use questions::random::Random;
use questions::served::{absurd, draw, draw_any, off_ladder, unserved};
use questions::table_kinds::number_of;
use reference::bitalloc::select_table;
use reference::encoder_bit_allocator::available_data_bits;
use std::sync::LazyLock;

/// Calls a function of the library with H first.
macro_rules! call_with_head {
    ($function:ident, $numbers:expr $(, $rest:expr)*) => {{
        let n = $numbers;
        // SAFETY: each pointer comes with the length of a slice that lies in live memory.
        unsafe {
            $function(
                n[0] as u8, n[1] as u32, n[2] as u32, n[3] as u8, n[4] as u8, n[5] as u8,
                n[6] as u8 $(, $rest)*
            )
        }
    }};
}
pub(crate) use call_with_head;

const fn argument(name: &'static str, sort: Sort) -> Argument {
    Argument { name, sort }
}

pub const HEAD_AND_BANC: [Argument; 8] = [
    argument("lsf", Sort::UpTo(1)),
    argument("bit_rate", Sort::BitRate),
    argument("sample_rate", Sort::SampleRate),
    argument("padding", Sort::UpTo(1)),
    argument("protection_bit", Sort::UpTo(1)),
    argument("mode", Sort::UpTo(3)),
    argument("mode_extension", Sort::UpTo(3)),
    argument("banc", Sort::Whole),
];

pub const HEAD: &[Argument] = HEAD_AND_BANC.split_at(7).0;

const fn out(width: usize, count: usize) -> Out {
    Out {
        name: "out",
        width,
        count,
    }
}

pub const FUNCTIONS: [Function; 4] = [
    Function {
        name: "select_table",
        share: 3,
        arguments: HEAD,
        ins: &[],
        outs: &[out(4, 1)],
        draw: draw_any_rates,
        library: |case, [out, ..]| {
            call_with_head!(
                folgrist_select_table,
                case.numbers,
                out.pointer(),
                case.lengths[0]
            )
        },
        rust: |case, [out, ..]| {
            let table = select_table(&header_of(&case.numbers)).map(number_of);
            out.put(4, 0, table.unwrap_or(0));
            u32::from(table.is_none())
        },
    },
    Function {
        name: "frame_size_bytes",
        share: 3,
        arguments: HEAD,
        ins: &[],
        outs: &[out(8, 1)],
        draw: draw_any_rates,
        library: |case, [out, ..]| {
            call_with_head!(
                folgrist_frame_size_bytes,
                case.numbers,
                out.pointer(),
                case.lengths[0]
            )
        },
        rust: |case, [out, ..]| {
            let halts = case.numbers[SAMPLE_RATE] == 0;
            let bytes = if halts {
                0
            } else {
                header_of(&case.numbers).frame_size_bytes()
            };
            out.put(8, 0, bytes as u64);
            if halts { ZERO_SAMPLE_RATE } else { 0 }
        },
    },
    Function {
        name: "fixed_bit_budget",
        share: 4,
        arguments: HEAD,
        ins: &[],
        outs: &[out(4, 8)],
        draw: draw_head,
        library: |case, [out, ..]| {
            call_with_head!(
                folgrist_fixed_bit_budget,
                case.numbers,
                out.pointer(),
                case.lengths[0]
            )
        },
        rust: answer_fixed,
    },
    Function {
        name: "available_data_bits",
        share: 4,
        arguments: &HEAD_AND_BANC,
        ins: &[],
        outs: &[out(8, 1)],
        draw: draw_offer_case,
        library: |case, [out, ..]| {
            let banc = case.numbers[BANC] as u32;
            call_with_head!(
                folgrist_available_data_bits,
                case.numbers,
                banc,
                out.pointer(),
                case.lengths[0]
            )
        },
        rust: answer_available,
    },
];

/// The place of banc behind H.
pub const BANC: usize = 7;

const NO_TABLE: u32 = 1;
const ZERO_SAMPLE_RATE: u32 = 2;

/// The number of the first question that the header fails, 0 for none.
pub fn refusal(head: &[u64]) -> u32 {
    if on_ladder(head) {
        refusal_on_ladder(head)
    } else {
        OFF_LADDER
    }
}

/// The same without the question of the ladder.
pub fn refusal_on_ladder(head: &[u64]) -> u32 {
    if select_table(&header_of(head)).is_none() {
        NO_TABLE
    } else if head[SAMPLE_RATE] == 0 {
        ZERO_SAMPLE_RATE
    } else {
        0
    }
}

pub fn frame_bytes(head: &[u64]) -> u64 {
    144 * head[BIT_RATE] / head[SAMPLE_RATE] + head[PADDING]
}

fn answer_fixed(case: &Case, [out, ..]: &mut Memories) -> u32 {
    let number = refusal(&case.numbers);
    let answers = if number == 0 {
        answer_budget(&case.numbers)
    } else {
        vec![0; 9]
    };
    for (at, &value) in answers[1..].iter().enumerate() {
        out.put(4, at, value);
    }
    number
}

fn answer_available(case: &Case, [out, ..]: &mut Memories) -> u32 {
    let number = refusal(&case.numbers);
    let bits = match number {
        0 => available_data_bits(&header_of(&case.numbers), case.numbers[BANC] as u32),
        _ => Ok(0),
    };
    out.put(8, 0, bits.unwrap_or(0) as u64);
    number
}

/// The odd headers of the lists.
static ODD_HEADS: LazyLock<Vec<Head>> = LazyLock::new(|| {
    let random = &mut Random::new(1, 0, 0);
    [absurd(random), unserved(random), off_ladder(random)].concat()
});

fn odd_head(random: &mut Random) -> Head {
    ODD_HEADS[random.below(ODD_HEADS.len() as u64) as usize]
}

/// For what does not ask for the ladder: half of them with rates of all sorts.
fn draw_any_rates(case: &mut Case, random: &mut Random) {
    let head = match random.below(12) {
        0..=3 => draw(random),
        4..=9 => any_head(random),
        10 => odd_head(random),
        _ => largest(random),
    };
    case.numbers[..7].copy_from_slice(&head);
}

/// Some three of four on the ladder: mostly one that is served, often any other.
pub fn draw_head(case: &mut Case, random: &mut Random) {
    let head = match random.below(24) {
        0..=12 => draw(random),
        13..=20 => draw_any(random),
        21 => odd_head(random),
        _ => largest(random),
    };
    case.numbers[..7].copy_from_slice(&head);
}

/// The largest frames of rates on the ladder, larger ones off it, and sample rate 0.
fn largest(random: &mut Random) -> Head {
    let mut head = any_head(random);
    head[LSF] = random.pick(&[0, 1, 1, 1]);
    head[SAMPLE_RATE] = random.pick(&[0, 1, 2, 3, 144]);
    head[BIT_RATE] = match random.below(5) {
        // About the first frame whose bits do not fit 32 bits.
        0 => 3_728_270 * head[SAMPLE_RATE] + random.below(2),
        _ => draw_on_ladder(head[LSF], random),
    };
    head
}

/// About what is offered, near 2^32, or any; past what the Rust's sum holds too.
pub fn draw_any_banc(case: &mut Case, random: &mut Random) {
    let head = &case.numbers[..7];
    case.numbers[BANC] = match random.below(16) {
        0 => u64::from(u32::MAX) - random.below(400),
        1 => random.word(),
        2 => (offered(head) + random.below(3))
            .saturating_sub(1)
            .min(u32::MAX.into()),
        _ => draw_banc(head, random),
    };
}

fn draw_offer_case(case: &mut Case, random: &mut Random) {
    draw_head(case, random);
    draw_any_banc(case, random);
}

//! The budget of a frame, the bits of it that are fixed, and those that it offers.

use crate::heads::*;
use crate::kind::{Asker, Kind, sorted};
use crate::ladder::{asked_on_ladder, ladder};
use crate::random::Random;
use crate::served::{absurd, budget_of, draw, draw_any, layouts, off_ladder, unserved};
use crate::table_kinds::{number_of, table_of};
use crate::worked::{ACCEPTED, FREE, REFUSED, SMALL, STEREO};
use reference::encoder_bit_allocator::{FixedBitBudget, available_data_bits, fixed_bit_budget};

pub const KINDS: [Kind; 3] = [
    Kind {
        number: 26,
        name: "fixed_bit_budget",
        form: "H -> number cb bhdr bcrc bbal sblimit bound channels table (16: the bit rate is \
               neither 0 nor on the header's ladder, and the Rust is not asked; 1: \
               NoBitallocTable; 2: the Rust halts; with each of them all else is 0)",
        answer: |a| asked_on_ladder(a, 9, answer_budget),
        halted: Some(&[2, 0, 0, 0, 0, 0, 0, 0, 0]),
        ask: ask_budgets,
        one_in: 2000,
    },
    Kind {
        number: 27,
        name: "available_data_bits",
        form: "H banc -> number bits (64 bits in two's complement, 0 when refused; as kind 26)",
        answer: |a| asked_on_ladder(a, 2, answer_available),
        halted: Some(&[2, 0]),
        ask: ask_available,
        one_in: 1000,
    },
    Kind {
        number: 32,
        name: "fixed",
        form: "cb bhdr bcrc bbal sblimit bound channels table -> bits (not asked where the sum of \
               bhdr, bcrc and bbal wraps)",
        answer: |a| vec![made_up(a).fixed().into()],
        halted: None,
        ask: ask_fixed,
        one_in: 500,
    },
];

const RANDOM_HEADERS: usize = 100_000;

/// The Rust's answers, where the bit rate is on the ladder.
pub fn answer_budget(a: &[u64]) -> Vec<u64> {
    match fixed_bit_budget(&header_of(a)) {
        Err(_) => vec![1, 0, 0, 0, 0, 0, 0, 0, 0],
        Ok(budget) => vec![
            0,
            budget.cb.into(),
            budget.bhdr.into(),
            budget.bcrc.into(),
            budget.bbal.into(),
            budget.sblimit as u64,
            budget.bound as u64,
            budget.channels as u64,
            number_of(budget.table),
        ],
    }
}

fn answer_available(a: &[u64]) -> Vec<u64> {
    match available_data_bits(&header_of(a), a[7] as u32) {
        Err(_) => vec![1, 0],
        Ok(bits) => vec![0, bits as u64],
    }
}

/// The bits offered at banc 0; 0 where there are none.
pub fn offered(head: &[u64]) -> u64 {
    budget_of(head).map_or(0, |budget| budget.cb.saturating_sub(budget.fixed()).into())
}

/// The largest banc with which the Rust's sum of fixed and banc does not wrap.
pub fn largest_banc(head: &[u64]) -> u64 {
    budget_of(head)
        .map_or(u32::MAX, |budget| u32::MAX - budget.fixed())
        .into()
}

/// The banc about which the answer changes.
pub fn critical_bancs(head: &[u64]) -> Vec<u64> {
    let all = offered(head);
    sorted(vec![all.saturating_sub(1), all, all + 1])
}

/// None, all that is offered, nearly all, too much, or any; within the domain of an allocation.
pub fn draw_banc(head: &[u64], random: &mut Random) -> u64 {
    if budget_of(head).is_none() {
        return random.word();
    }
    let banc = match random.below(10) {
        0..=2 => 0,
        3 => random.pick(&critical_bancs(head)),
        4..=6 => random.below(offered(head) + 1),
        7 | 8 => offered(head).saturating_sub(random.below(700)),
        _ => largest_banc(head) - random.below(9),
    };
    banc.min(largest_banc(head))
}

fn note_budgets(asker: &mut Asker) {
    for (words, head) in ACCEPTED.into_iter().chain(REFUSED) {
        asker.by_hand(words, &head);
    }
}

fn ask_budgets(asker: &mut Asker) {
    note_budgets(asker);
    let random = &mut asker.random;
    let choice = |lsf: &[u64], bits: &[u64], samples: &[u64]| {
        let modes = Choice::default().with(LSF, lsf).with(MODE, &MODES);
        modes.with(BIT_RATE, bits).with(SAMPLE_RATE, samples)
    };
    let named = |lsf: u64| [&[0], ladder(lsf)].concat();
    let mut edges = choice(&[0], &named(0), &HIGH_SAMPLE_RATES).heads(random);
    edges.extend(choice(&[1], &named(1), &[16_000, 24_000]).heads(random));
    edges.extend(layouts(random).into_iter().flat_map(every_flag));
    edges.extend([absurd(random), unserved(random), off_ladder(random)].concat());
    let mut others = choice(&FLAGS, &bit_rates(), &sample_rates()).heads(random);
    others.extend((0..RANDOM_HEADERS).map(|_| draw_any(random)));
    others.extend((0..RANDOM_HEADERS).map(|_| draw(random)));
    edges.iter().for_each(|head| asker.ask(true, head));
    others.iter().for_each(|head| asker.ask(false, head));
}

/// The header with padding and CRC both ways.
fn every_flag(head: Head) -> [Head; 4] {
    [[0, 0], [0, 1], [1, 0], [1, 1]].map(|[padding, protection]| {
        let mut head = head;
        head[PADDING] = padding;
        head[PROTECTION_BIT] = protection;
        head
    })
}

fn note_available(asker: &mut Asker) {
    let known = [
        (
            "44100 Hz, stereo, 192000 bit/s, no CRC or padding, banc 0: 4788 bits",
            STEREO,
            0,
        ),
        (
            "48000 Hz, single, 32000 bit/s, CRC, banc 694: 0 bits",
            SMALL,
            694,
        ),
        ("the same with banc 695: one bit too few", SMALL, 695),
        (
            "48000 Hz, single, free format, banc 0: 120 bits too few",
            FREE,
            0,
        ),
    ];
    let refused = REFUSED.map(|(words, head)| (words, head, 0));
    for (words, head, banc) in known.into_iter().chain(refused) {
        asker.by_hand(words, &with_banc(&head, banc));
    }
}

pub fn with_banc(head: &Head, banc: u64) -> Vec<u64> {
    head.iter().copied().chain([banc]).collect()
}

fn ask_available(asker: &mut Asker) {
    note_available(asker);
    let random = &mut asker.random;
    for head in [layouts(random), absurd(random), unserved(random)].concat() {
        let mut bancs = critical_bancs(&head);
        let largest = largest_banc(&head);
        bancs.extend([0, 1, largest, 1 << 31, u32::MAX.into()]);
        bancs.extend((largest < u32::MAX.into()).then_some(largest + 1));
        for banc in sorted(bancs) {
            asker.ask(true, &with_banc(&head, banc));
        }
    }
    for head in some_off_ladder(&mut asker.random) {
        let banc = asker.random.word();
        asker.ask(true, &with_banc(&head, banc));
    }
    for at in 0..2 * RANDOM_HEADERS {
        let random = &mut asker.random;
        let head = match at % 2 {
            0 => draw(random),
            _ => draw_any(random),
        };
        let banc = match random.below(4) {
            0 => random.word(),
            _ => draw_banc(&head, random),
        };
        asker.ask(false, &with_banc(&head, banc));
    }
}

/// One in four of the headers off the ladder.
pub fn some_off_ladder(random: &mut Random) -> Vec<Head> {
    off_ladder(random).into_iter().step_by(4).collect()
}

/// The budget of the eight numbers of kind 32.
fn made_up(a: &[u64]) -> FixedBitBudget {
    FixedBitBudget {
        cb: a[0] as u32,
        bhdr: a[1] as u32,
        bcrc: a[2] as u32,
        bbal: a[3] as u32,
        sblimit: a[4] as usize,
        bound: a[5] as usize,
        channels: a[6] as usize,
        table: table_of(a[7]),
    }
}

/// Three numbers whose sum fits 32 bits, any of them the largest.
fn three_parts(random: &mut Random) -> [u64; 3] {
    let top = u64::from(u32::MAX);
    let a = random.word();
    let b = random.word().min(top - a);
    let c = if random.one_in(4) {
        top - a - b
    } else {
        random.word().min(top - a - b)
    };
    match random.below(3) {
        0 => [a, b, c],
        1 => [b, c, a],
        _ => [c, a, b],
    }
}

/// Budgets of headers, then budgets that no header has.
fn ask_fixed(asker: &mut Asker) {
    let words = "header 32, CRC 16 and allocation fields 26: 74 bits";
    asker.by_hand(words, &[768, 32, 16, 26, 8, 8, 1, 2]);
    for head in layouts(&mut asker.random) {
        if budget_of(&head).is_some() {
            asker.ask(true, &answer_budget(&head)[1..]);
        }
    }
    let top = u32::MAX.into();
    for parts in [
        [0; 3],
        [top, 0, 0],
        [0, top, 0],
        [0, 0, top],
        [top - 2, 1, 1],
    ] {
        let budget = with_parts(parts, &mut asker.random);
        asker.ask(true, &budget);
    }
    for _ in 0..RANDOM_HEADERS {
        let parts = three_parts(&mut asker.random);
        let budget = with_parts(parts, &mut asker.random);
        asker.ask(false, &budget);
    }
}

/// A made-up budget with these parts and any other numbers.
fn with_parts([bhdr, bcrc, bbal]: [u64; 3], random: &mut Random) -> [u64; 8] {
    let [cb, sblimit, bound, channels] = [0; 4].map(|_| random.word());
    [
        cb,
        bhdr,
        bcrc,
        bbal,
        sblimit,
        bound,
        channels,
        random.below(5),
    ]
}

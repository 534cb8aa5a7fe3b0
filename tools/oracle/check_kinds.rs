//! The check of a record of side information, which the Rust does not have.

use crate::budget_kinds::some_off_ladder;
use crate::checked_records::*;
use crate::checking::{CONTRADICTED, Checked, OUTSIDE, PASSED, check};
use crate::heads::{Head, MODES, header_of};
use crate::kind::{Asker, Kind, stop};
use crate::ladder::asked_on_ladder;
use crate::random::Random;
use crate::ratios::{SLOTS, SUBBANDS};
use crate::records::{any_record, draw_layout};
use crate::served::{JOINT, SINGLE, budget_of, layouts, unserved};
use crate::side_info::{APART, Record, arguments, record_of_line};
use crate::side_info_kinds::{given, of_each_table};
use crate::worked::{CHECKED, REFUSED};
use reference::encoder_bit_allocator::{FixedBitBudget, fixed_bit_budget};

pub const KINDS: [Kind; 1] = [Kind {
    number: 35,
    name: "check_record",
    form: "H and a record, as in kind 33 -> number subband channel (the oracle's own check, by the \
           layout of the Rust's budget: by rising subband, channel 0 first, and at a slot in this \
           order, 17: steps outside the layout, 6: steps of a shared field differ, at channel 0, \
           18: indices of a slot with steps differ where scfsi says that they are shared; the \
           other numbers as kind 26; with these and with 0 all else is 0)",
    answer: |a| asked_on_ladder(a, HALTED.len(), answer_check),
    halted: Some(&HALTED),
    ask: ask_check,
    one_in: 1200,
}];

const HALTED: [u64; 3] = [2, 0, 0];

const RANDOM_LINES: usize = 60_000;

/// The budget, whose layout is meant, halts at sample rate 0.
fn answer_check(a: &[u64]) -> Vec<u64> {
    let checked = match fixed_bit_budget(&header_of(a)) {
        Ok(budget) => check(&budget, &record_of_line(a)),
        Err(_) => Checked {
            number: 1,
            ..PASSED
        },
    };
    let place = [checked.subband, checked.channel].map(|at| at as u64);
    [&[checked.number.into()], &place[..]].concat()
}

fn ask_check(asker: &mut Asker) {
    note_check(asker);
    ask_layouts(asker);
    ask_unasked(asker);
    ask_each_change(asker);
    ask_orders(asker);
    ask_pairs(asker);
    ask_unserved(asker);
    for _ in 0..RANDOM_LINES {
        let head = draw_layout(&mut asker.random);
        let record = draw_checked(&head, &mut asker.random);
        asker.ask(false, &arguments(&head, &record));
    }
}

fn note_check(asker: &mut Asker) {
    for worked in CHECKED {
        asker.by_hand(worked.words, &arguments(&worked.head, &given(&worked)));
    }
    let mut stray = Record::EMPTY;
    stray.steps[SLOTS - 1] = 3;
    for (words, head) in REFUSED {
        let words = format!("3 steps in slot 63, {words}");
        asker.by_hand(&words, &arguments(&head, &stray));
    }
}

/// Every table in every mode and with every bound: a fault of each number at each end, and a record
/// that passes with other steps in the channels below the bound.
fn ask_layouts(asker: &mut Asker) {
    let mut turn = 0;
    for (at, head) in layouts(&mut asker.random).iter().enumerate() {
        let Some(budget) = budget_of(head) else {
            continue;
        };
        for (slot, number) in ends(&budget) {
            let random = &mut asker.random;
            let mut record = agreeing(&budget, [4, 2, 4, 1][at % 4], random);
            let fault = (slot, draw_fault(number, random));
            make_all(&[fault], &mut record, &budget, random);
            if turn % 2 == 1 {
                litter_all(&mut record, &budget, random);
            }
            let first_shared = number == APART && slot == budget.bound;
            let edge = turn % 7 == 0 || first_shared && at % 3 == 0;
            asker.ask(edge, &arguments(head, &record));
            turn += 1;
        }
    }
}

/// The first and last slots of what each channel has for itself, of what both share, and of what is
/// not carried, with each number that is possible there.
fn ends(budget: &FixedBitBudget) -> Vec<(usize, u32)> {
    let [bound, sblimit] = [budget.bound, budget.sblimit];
    let mut subbands = vec![0, bound - 1, bound, sblimit - 1, sblimit, SUBBANDS - 1];
    subbands.sort_unstable();
    subbands.dedup();
    let slots = subbands.iter().flat_map(|sb| [*sb, SUBBANDS + sb]);
    let each = slots.flat_map(|slot| NUMBERS.map(|number| (slot, number)));
    let mut ends: Vec<_> = each
        .filter(|&(slot, number)| can_have(budget, slot, number))
        .collect();
    if budget.channels == 2 {
        ends.push((bound - 1, APART));
    }
    ends
}

/// Records that pass though steps are in no row, indices are above 62 and idle slots hold anything.
fn ask_unasked(asker: &mut Asker) {
    for mode in MODES {
        for (at, (head, budget)) in of_each_table(mode, &mut asker.random).iter().enumerate() {
            let random = &mut asker.random;
            let mut record = agreeing(budget, [2, 0, 3, 1][at % 4], random);
            if at % 2 == 0 {
                exceed(&mut record, budget, random);
            }
            litter_all(&mut record, budget, random);
            asker.ask(true, &arguments(head, &record));
        }
    }
}

/// One record of each table in each mode, with each change at each slot.
fn ask_each_change(asker: &mut Asker) {
    for mode in MODES {
        for (head, budget) in of_each_table(mode, &mut asker.random) {
            let good = agreeing(&budget, 3, &mut asker.random);
            for slot in 0..SLOTS {
                for change in changes_at(&budget, slot) {
                    let mut record = good.clone();
                    make_all(&[(slot, change)], &mut record, &budget, &mut asker.random);
                    if check(&budget, &record) != change.answer(&budget, slot) {
                        stop("the check does not find what was changed");
                    }
                    asker.ask(false, &arguments(&head, &record));
                }
            }
        }
    }
}

/// Faults beside one another, by number, subband and channel, for these subbands: the first, the last
/// that is not shared, the first and the last shared one, and the first that is not carried.
pub const FIRST: usize = 0;
pub const LAST_OWN: usize = 1;
pub const FIRST_SHARED: usize = 2;
pub const LAST_SHARED: usize = 3;
pub const BEYOND: usize = 4;

pub fn subbands_of(budget: &FixedBitBudget) -> [usize; 5] {
    let [bound, sblimit] = [budget.bound, budget.sblimit];
    [0, bound - 1, bound, sblimit - 1, sblimit]
}

const JOINT_ORDERS: [[(u32, usize, usize); 2]; 8] = [
    [(CONTRADICTED, LAST_OWN, 1), (APART, FIRST_SHARED, 0)],
    [(APART, FIRST_SHARED, 0), (CONTRADICTED, LAST_SHARED, 0)],
    [(CONTRADICTED, FIRST_SHARED, 1), (APART, LAST_SHARED, 0)],
    [(CONTRADICTED, FIRST_SHARED, 0), (APART, FIRST_SHARED, 0)],
    [(CONTRADICTED, LAST_SHARED, 1), (APART, LAST_SHARED, 0)],
    [(CONTRADICTED, LAST_SHARED, 1), (OUTSIDE, BEYOND, 0)],
    [(APART, LAST_SHARED, 0), (OUTSIDE, BEYOND, 0)],
    [(CONTRADICTED, FIRST, 1), (OUTSIDE, BEYOND, 0)],
];

const SINGLE_ORDERS: [[(u32, usize, usize); 2]; 3] = [
    [(CONTRADICTED, FIRST, 0), (OUTSIDE, FIRST, 1)],
    [(OUTSIDE, FIRST, 1), (CONTRADICTED, LAST_OWN, 0)],
    [(CONTRADICTED, LAST_OWN, 0), (OUTSIDE, BEYOND, 0)],
];

fn ask_orders(asker: &mut Asker) {
    for (mode, orders) in [(JOINT, &JOINT_ORDERS[..]), (SINGLE, &SINGLE_ORDERS[..])] {
        for (head, budget) in of_each_table(mode, &mut asker.random) {
            let subbands = subbands_of(&budget);
            for order in orders {
                let random = &mut asker.random;
                let faults = order.map(|(number, subband, channel)| {
                    let slot = SUBBANDS * channel + subbands[subband];
                    (slot, draw_fault(number, random))
                });
                let mut record = agreeing(&budget, 2, random);
                make_all(&faults, &mut record, &budget, random);
                asker.ask(true, &arguments(&head, &record));
            }
        }
    }
}

/// Faults at one slot, at a slot and the next that is asked, and at a slot and any later one: each
/// number that the one can have with each that the other can.
fn ask_pairs(asker: &mut Asker) {
    for mode in MODES {
        for (head, budget) in of_each_table(mode, &mut asker.random) {
            let good = agreeing(&budget, 3, &mut asker.random);
            for first in 0..SLOTS {
                let later = first + asker.random.below((SLOTS - first) as u64) as usize;
                for second in [first, (first + 1).min(SLOTS - 1), later] {
                    let slots = [first, second].map(|at| SUBBANDS * (at % 2) + at / 2);
                    for faults in pairs(&budget, slots, &mut asker.random) {
                        let mut record = good.clone();
                        make_all(&faults, &mut record, &budget, &mut asker.random);
                        asker.ask(false, &arguments(&head, &record));
                    }
                }
            }
        }
    }
}

/// A fault of each number at the one slot beside one of each number at the other.
fn pairs(
    budget: &FixedBitBudget,
    [first, second]: [usize; 2],
    random: &mut Random,
) -> Vec<[(usize, Change); 2]> {
    let numbers = NUMBERS.iter().flat_map(|&a| NUMBERS.map(|b| (a, b)));
    let possible = numbers.filter(|&(a, b)| {
        let apart = first != second || a < b;
        apart && can_have(budget, first, a) && can_have(budget, second, b)
    });
    possible
        .map(|(a, b)| {
            [
                (first, draw_fault(a, random)),
                (second, draw_fault(b, random)),
            ]
        })
        .collect()
}

/// Headers answered 16, 1 and 2, with any record; and free format, with one that passes.
fn ask_unserved(asker: &mut Asker) {
    let random = &mut asker.random;
    let mut heads: Vec<Head> = unserved(random).into_iter().step_by(3).collect();
    heads.extend(some_off_ladder(random).into_iter().step_by(8));
    for head in heads {
        let record = match budget_of(&head) {
            Some(budget) => agreeing(&budget, 4, &mut asker.random),
            None => any_record(&mut asker.random),
        };
        asker.ask(true, &arguments(&head, &record));
    }
}

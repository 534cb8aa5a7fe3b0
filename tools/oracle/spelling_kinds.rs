//! Side information in one form, which the Rust does not have.

use crate::budget_kinds::some_off_ladder;
use crate::check_kinds::{BEYOND, FIRST, FIRST_SHARED, LAST_OWN, LAST_SHARED, subbands_of};
use crate::checked_records::{PATTERNS, agree, draw_fault, litter_all, make_all};
use crate::checking::{CONTRADICTED, OUTSIDE};
use crate::heads::{Head, MODES};
use crate::kind::{Asker, Kind, stop};
use crate::ladder::asked_on_ladder;
use crate::random::Random;
use crate::ratios::{SLOTS, SUBBANDS};
use crate::records::{any_record, draw_layout, lack, reserved_index, row};
use crate::served::{JOINT, SINGLE, budget_of, layouts, unserved};
use crate::side_info::*;
use crate::side_info_kinds::{ANSWERS, HALTED, STEREO_MODE, answer_by, given, of_each_table};
use crate::spelled_records::*;
use crate::spelling::{carries, same_bytes, spell};
use crate::worked::{REFUSED, SPELLED};
use reference::encoder_bit_allocator::FixedBitBudget;

pub const KINDS: [Kind; 1] = [Kind {
    number: 36,
    name: "write_side_info_canonical",
    form: "H and a record, as in kind 33 -> number bits and 22 numbers with 174 bytes, as there \
           (the numbers of kind 35 first, then 7 and 8 as kind 33 has them; the scfsi that is sent \
           is the oracle's choice: of those that carry the three indices of a slot with steps the \
           one that sends the fewest; with each number but 0 all else is 0)",
    answer: |a| asked_on_ladder(a, ANSWERS, |a| answer_by(a, spell)),
    halted: Some(&HALTED),
    ask: ask_spelling,
    one_in: 1200,
}];

const RANDOM_PAIRS: usize = 30_000;

fn ask_spelling(asker: &mut Asker) {
    note_spelling(asker);
    ask_layouts(asker);
    ask_patterns(asker);
    ask_reserved(asker);
    ask_twins(asker);
    ask_orders(asker);
    ask_unserved(asker);
    for _ in 0..RANDOM_PAIRS {
        ask_pair(asker);
    }
}

fn note_spelling(asker: &mut Asker) {
    for worked in SPELLED {
        asker.by_hand(worked.words, &arguments(&worked.head, &given(&worked)));
    }
    let mut stray = Record::EMPTY;
    stray.steps[SLOTS - 1] = 3;
    for (words, head) in REFUSED {
        let words = format!("3 steps in slot 63, {words}");
        asker.by_hand(&words, &arguments(&head, &stray));
    }
}

/// Every table in every mode and with every bound, by turns with anything in idle slots.
fn ask_layouts(asker: &mut Asker) {
    for (at, head) in layouts(&mut asker.random).iter().enumerate() {
        let Some(budget) = budget_of(head) else {
            continue;
        };
        let random = &mut asker.random;
        let mut record = in_any_spelling(&budget, [4, 2, 4, 1][at % 4], random);
        if at % 2 == 1 {
            litter_all(&mut record, &budget, random);
        }
        asker.ask(true, &arguments(head, &record));
    }
}

/// In each table indices that are the same in every way, with every scfsi that carries them, in all
/// slots at once, each field at its highest place.
fn ask_patterns(asker: &mut Asker) {
    let mut turn = 0;
    for (head, budget) in of_each_table(STEREO_MODE, &mut asker.random) {
        for pattern in PATTERNS {
            let mut record = in_any_spelling(&budget, 4, &mut asker.random);
            for slot in (0..SLOTS).filter(|&slot| is_carried(&budget, slot)) {
                let row = row(budget.table, slot % SUBBANDS);
                record.steps[slot] = row[row.len() - 1];
                draw_triple(&mut record, slot, pattern, &mut asker.random);
            }
            let alike = pattern.map(|at| at as u64);
            for code in (0..4).filter(|&code| carries(code, &alike)) {
                record.scfsi.fill(code);
                asker.ask(turn % 2 == 0, &arguments(&head, &record));
                turn += 1;
            }
        }
        // The edges of the next table are the others.
        turn += 1;
    }
}

/// Reserved indices in each granule with each scfsi, and wherever that says that it is shared.
fn ask_reserved(asker: &mut Asker) {
    let heads = of_each_table(STEREO_MODE, &mut asker.random);
    for at in 0..24 {
        let (head, budget) = &heads[at % heads.len()];
        let mut record = in_any_spelling(budget, 4, &mut asker.random);
        let slot = [0, SUBBANDS + budget.sblimit - 1][at % 2];
        record.scfsi[slot] = at as u64 / 6;
        agree(&mut record, slot);
        let index = [LAST_INDEX + 1, 255][at / 3 % 2];
        put_index(&mut record, slot, at % 3, index);
        asker.ask(at % 2 == 0, &arguments(head, &record));
    }
}

/// One record of each table in each mode, and with each change at each slot; of two slots, one with
/// steps and one without, a change is an edge.
fn ask_twins(asker: &mut Asker) {
    let mut turn = 0;
    for mode in MODES {
        for (head, budget) in of_each_table(mode, &mut asker.random) {
            let mut good = in_any_spelling(&budget, 3, &mut asker.random);
            if turn % 2 == 1 {
                litter_all(&mut good, &budget, &mut asker.random);
            }
            asker.ask(true, &arguments(&head, &good));
            let first = |active| (0..SLOTS).find(|&slot| good.is_active(&budget, slot) == active);
            let firsts = [true, false].map(first);
            for slot in 0..SLOTS {
                let twins = twins_at(&budget, &good, slot, &mut asker.random);
                let edge = turn % twins.len();
                for (at, twin) in twins.iter().enumerate() {
                    hold_twin(&head, &budget, &good, twin);
                    let edge = firsts.contains(&Some(slot)) && at == edge;
                    asker.ask(edge, &arguments(&head, &twin.0));
                }
            }
            turn += 1;
        }
    }
}

/// Stops where something else comes of a change.
fn hold_twin(head: &Head, budget: &FixedBitBudget, good: &Record, (twin, comes): &Twin) {
    let came = match same_bytes(head, budget, good, twin) {
        Ok(true) => Comes::SameBytes,
        Ok(false) => Comes::OtherBytes,
        Err(number) => Comes::Refusal(number),
    };
    if came != *comes {
        stop("something else comes of a record that is changed");
    }
}

/// What is answered, and faults beside one another, by number, subband and channel, in the order in
/// which they are made; 7 and 8 at a slot are in all that it shares.
type Order = (u32, &'static [(u32, usize, usize)]);

const JOINT_ORDERS: [Order; 20] = [
    (LACKING, &[(LACKING, FIRST, 0)]),
    (LACKING, &[(LACKING, LAST_SHARED, 0)]),
    (RESERVED, &[(RESERVED, FIRST, 0)]),
    (RESERVED, &[(RESERVED, LAST_SHARED, 1)]),
    (LACKING, &[(LACKING, FIRST, 0), (RESERVED, LAST_SHARED, 1)]),
    (LACKING, &[(LACKING, LAST_SHARED, 0), (RESERVED, FIRST, 0)]),
    (LACKING, &[(LACKING, LAST_OWN, 1), (RESERVED, LAST_OWN, 1)]),
    (OUTSIDE, &[(LACKING, FIRST, 0), (OUTSIDE, BEYOND, 0)]),
    (OUTSIDE, &[(RESERVED, FIRST, 0), (OUTSIDE, BEYOND, 1)]),
    (APART, &[(LACKING, FIRST, 0), (APART, LAST_SHARED, 0)]),
    (
        APART,
        &[(LACKING, LAST_SHARED, 0), (APART, FIRST_SHARED, 0)],
    ),
    (APART, &[(LACKING, LAST_SHARED, 0), (APART, LAST_SHARED, 0)]),
    (APART, &[(RESERVED, FIRST, 0), (APART, LAST_SHARED, 0)]),
    (
        APART,
        &[(RESERVED, LAST_SHARED, 0), (APART, FIRST_SHARED, 0)],
    ),
    (
        CONTRADICTED,
        &[(LACKING, FIRST, 0), (CONTRADICTED, LAST_SHARED, 1)],
    ),
    (
        CONTRADICTED,
        &[(LACKING, LAST_SHARED, 0), (CONTRADICTED, FIRST, 1)],
    ),
    (
        CONTRADICTED,
        &[(LACKING, LAST_OWN, 0), (CONTRADICTED, LAST_OWN, 0)],
    ),
    (
        CONTRADICTED,
        &[(RESERVED, FIRST, 0), (CONTRADICTED, LAST_SHARED, 1)],
    ),
    (
        CONTRADICTED,
        &[(RESERVED, LAST_SHARED, 1), (CONTRADICTED, FIRST, 0)],
    ),
    (
        CONTRADICTED,
        &[
            (LACKING, FIRST, 0),
            (RESERVED, LAST_OWN, 1),
            (CONTRADICTED, LAST_SHARED, 0),
            (OUTSIDE, BEYOND, 0),
        ],
    ),
];

const SINGLE_ORDERS: [Order; 4] = [
    (OUTSIDE, &[(LACKING, FIRST, 0), (OUTSIDE, FIRST, 1)]),
    (OUTSIDE, &[(RESERVED, FIRST, 0), (OUTSIDE, LAST_OWN, 1)]),
    (
        CONTRADICTED,
        &[(LACKING, FIRST, 0), (CONTRADICTED, LAST_OWN, 0)],
    ),
    (LACKING, &[(LACKING, LAST_OWN, 0), (RESERVED, FIRST, 0)]),
];

fn ask_orders(asker: &mut Asker) {
    let mut turn = 0;
    for (mode, orders) in [(JOINT, &JOINT_ORDERS[..]), (SINGLE, &SINGLE_ORDERS[..])] {
        for (head, budget) in of_each_table(mode, &mut asker.random) {
            for &(number, faults) in orders {
                let mut record = in_any_spelling(&budget, 4, &mut asker.random);
                for &fault in faults {
                    make(fault, &mut record, &budget, &mut asker.random);
                }
                if spell(&head, &budget, &record).err() != Some(number) {
                    stop("faults beside one another are not answered in their order");
                }
                asker.ask(turn % 2 == 0, &arguments(&head, &record));
                turn += 1;
            }
            // The edges of the next table are the others.
            turn += 1;
        }
    }
}

/// Makes a fault at a subband, named as in an order, and a channel.
fn make(
    (number, subband, channel): (u32, usize, usize),
    record: &mut Record,
    budget: &FixedBitBudget,
    random: &mut Random,
) {
    let slot = SUBBANDS * channel + subbands_of(budget)[subband];
    match number {
        LACKING => {
            let mut fields = fields_of(budget).into_iter();
            let field = fields.find(|field| field.contains(&slot));
            field
                .iter()
                .for_each(|field| lack(record, budget.table, field, random));
        }
        RESERVED => {
            let granule = random.below(GRANULES as u64) as usize;
            put_index(record, slot, granule, reserved_index(random));
        }
        _ => make_all(
            &[(slot, draw_fault(number, random))],
            record,
            budget,
            random,
        ),
    }
}

/// Headers answered 16, 1 and 2, with any record; and free format, with one that is accepted.
fn ask_unserved(asker: &mut Asker) {
    let random = &mut asker.random;
    let mut heads: Vec<Head> = unserved(random).into_iter().step_by(3).collect();
    heads.extend(some_off_ladder(random).into_iter().step_by(8));
    for head in heads {
        let record = match budget_of(&head) {
            Some(budget) => in_any_spelling(&budget, 4, &mut asker.random),
            None => any_record(&mut asker.random),
        };
        asker.ask(true, &arguments(&head, &record));
    }
}

/// A random record, and one beside it.
fn ask_pair(asker: &mut Asker) {
    let head = draw_layout(&mut asker.random);
    let one = draw_spelled(&head, &mut asker.random);
    let mut other = draw_spelled(&head, &mut asker.random);
    if let Some(budget) = budget_of(&head) {
        other = draw_twin(&budget, &one, &mut asker.random);
        // Refusals need not be held against each other.
        let _ = same_bytes(&head, &budget, &one, &other);
    }
    asker.ask(false, &arguments(&head, &one));
    asker.ask(false, &arguments(&head, &other));
}

//! Side information: the bits of the allocation fields, of scfsi and of scalefactor indices.

use crate::budget_kinds::some_off_ladder;
use crate::heads::{EXTENSION, Head, MODE, header_of};
use crate::kind::{Asker, Kind};
use crate::ladder::asked_on_ladder;
use crate::random::Random;
use crate::ratios::{SLOTS, SUBBANDS};
use crate::records::*;
use crate::served::{JOINT, SINGLE, budget_of, layouts, unserved};
use crate::side_info::*;
use crate::worked::{REFUSED, STEREO, WRITTEN, Worked};
use reference::encoder_bit_allocator::{FixedBitBudget, fixed_bit_budget};

pub const KINDS: [Kind; 1] = [Kind {
    number: 33,
    name: "write_side_info",
    form: "H, 64 steps, 2 numbers with 64 scfsi of 2 bits and 24 with 192 indices of 8 bits -> \
           number bits and 22 numbers with 174 bytes (slots those of channel 0 first, indices at \
           3 * slot + granule; what is packed has its first in the lowest bits of a number; 6: \
           IntensityStereoAllocationMismatch, 7: UnencodableNbSteps, 8: \
           ReservedScalefactorIndex; the other numbers as kind 26; with each all else is 0)",
    answer: |a| asked_on_ladder(a, ANSWERS, |a| answer_by(a, written)),
    halted: Some(&HALTED),
    ask: ask_side_info,
    one_in: 1200,
}];

/// number, bits, and the bytes, eight a number.
pub const ANSWERS: usize = 2 + BYTES.div_ceil(8);

pub const HALTED: [u64; ANSWERS] = refused(2);

const RANDOM_LINES: usize = 60_000;

pub const STEREO_MODE: u64 = 0;

const fn refused(number: u32) -> [u64; ANSWERS] {
    let mut answers = [0; ANSWERS];
    answers[0] = number as u64;
    answers
}

/// What is written, as a line has it. The budget, whose layout the record gets, halts at sample rate 0;
/// the writers would not.
pub fn answer_by(a: &[u64], write: Write) -> Vec<u64> {
    let Ok(budget) = fixed_bit_budget(&header_of(a)) else {
        return refused(1).to_vec();
    };
    let writer = match write(a, &budget, &record_of_line(a)) {
        Ok(writer) => writer,
        Err(number) => return refused(number).to_vec(),
    };
    let mut answers = refused(0);
    answers[1] = writer.bit_position();
    let bytes: Vec<u64> = writer.bytes().into_iter().map(u64::from).collect();
    let packed = pack(&bytes, BYTE_BITS);
    answers[2..][..packed.len()].copy_from_slice(&packed);
    answers.to_vec()
}

fn ask_side_info(asker: &mut Asker) {
    note_side_info(asker);
    ask_layouts(asker);
    ask_codes(asker);
    ask_reserved(asker);
    ask_unread(asker);
    ask_orders(asker);
    ask_unserved(asker);
    for _ in 0..RANDOM_LINES {
        let head = draw_layout(&mut asker.random);
        let record = draw_record(&head, &mut asker.random);
        asker.ask(false, &arguments(&head, &record));
    }
}

fn note_side_info(asker: &mut Asker) {
    let mut full = Record::EMPTY;
    asker.by_hand(
        "44100 Hz, stereo, 192000 bit/s, no steps: 188 bits, all 0",
        &arguments(&STEREO, &full),
    );
    full.steps.fill(3);
    full.index.fill(LAST_INDEX);
    asker.by_hand(
        "the same with 3 steps in every slot and every index 62: 1388 bits, the first byte 17",
        &arguments(&STEREO, &full),
    );
    for worked in WRITTEN {
        asker.by_hand(worked.words, &arguments(&worked.head, &given(&worked)));
    }
    for (words, head) in REFUSED {
        asker.by_hand(words, &arguments(&head, &Record::EMPTY));
    }
}

/// The record, with zeros in all that is not named.
pub fn given(worked: &Worked) -> Record {
    let mut record = Record::EMPTY;
    worked
        .steps
        .iter()
        .for_each(|&(slot, steps)| record.steps[slot] = steps);
    for &(slot, code, triple) in worked.parts {
        record.scfsi[slot] = code;
        record.indices(slot).copy_from_slice(&triple);
    }
    record
}

/// Every table in every mode and with every bound, by turns with what must not be looked at.
fn ask_layouts(asker: &mut Asker) {
    for (at, head) in layouts(&mut asker.random).iter().enumerate() {
        let Some(budget) = budget_of(head) else {
            continue;
        };
        let random = &mut asker.random;
        let mut record = accepted(&budget, [4, 2, 4, 1][at % 4], random);
        if at % 2 == 1 {
            litter(&mut record, &budget, random);
        }
        asker.ask(true, &arguments(head, &record));
    }
}

/// A header of each table in one mode, in joint stereo with bound 4.
pub fn of_each_table(mode: u64, random: &mut Random) -> Vec<(Head, FixedBitBudget)> {
    let mut heads = layouts(random);
    heads.retain(|head| head[MODE] == mode && (mode != JOINT || head[EXTENSION] == 0));
    let with_budget = |head: Head| budget_of(&head).map(|budget| (head, budget));
    let mut found: Vec<_> = heads.into_iter().filter_map(with_budget).collect();
    found.dedup_by_key(|(_, budget)| budget.table);
    found
}

/// In each table every scfsi in all slots, each field at its highest place.
pub fn full_records(random: &mut Random) -> Vec<(Head, FixedBitBudget, Record)> {
    let mut records = Vec::new();
    for (head, budget) in of_each_table(STEREO_MODE, random) {
        for code in 0..4 {
            let mut record = accepted(&budget, 4, random);
            record.scfsi.fill(code);
            for slot in (0..SLOTS).filter(|&slot| is_carried(&budget, slot)) {
                let row = row(budget.table, slot % SUBBANDS);
                record.steps[slot] = row[row.len() - 1];
            }
            records.push((head, budget, record));
        }
    }
    records
}

fn ask_codes(asker: &mut Asker) {
    for (head, _, record) in full_records(&mut asker.random) {
        asker.ask(true, &arguments(&head, &record));
    }
}

/// Reserved indices in each granule with each scfsi, which sends it or not.
fn ask_reserved(asker: &mut Asker) {
    let heads = of_each_table(STEREO_MODE, &mut asker.random);
    for at in 0..24 {
        let (head, budget) = &heads[at % heads.len()];
        let mut record = accepted(budget, 4, &mut asker.random);
        record.scfsi.fill(at as u64 / 6);
        let ends = [0, SUBBANDS + budget.sblimit - 1];
        let index = [LAST_INDEX + 1, 255][at / 3 % 2];
        record.indices(ends[at % 2])[at % 3] = index;
        asker.ask(true, &arguments(head, &record));
    }
}

/// The same indices wherever nothing looks.
fn ask_unread(asker: &mut Asker) {
    for mode in [STEREO_MODE, SINGLE] {
        let heads = of_each_table(mode, &mut asker.random);
        for (at, (head, budget)) in heads.iter().enumerate() {
            let mut record = accepted(budget, 2, &mut asker.random);
            for slot in 0..SLOTS {
                if !record.is_active(budget, slot) {
                    record.indices(slot).fill([LAST_INDEX + 1, 255][at % 2]);
                }
            }
            asker.ask(true, &arguments(head, &record));
        }
    }
}

#[derive(Clone, Copy)]
enum Fault {
    Apart,
    Lacking,
    Reserved,
}
use Fault::*;

/// The places of fields in joint stereo.
const FIRST: usize = 0;
const LAST_OWN: usize = 1;
const FIRST_SHARED: usize = 2;
const LAST_SHARED: usize = 3;

/// Faults beside one another, in the order in which they are made.
const ORDERS: [&[(usize, Fault)]; 13] = [
    &[(FIRST, Lacking)],
    &[(LAST_SHARED, Lacking)],
    &[(LAST_SHARED, Apart)],
    &[(LAST_SHARED, Reserved)],
    &[(FIRST, Lacking), (FIRST_SHARED, Apart)],
    &[(LAST_OWN, Lacking), (LAST_SHARED, Apart)],
    &[(FIRST_SHARED, Lacking), (LAST_SHARED, Apart)],
    &[(FIRST_SHARED, Apart), (LAST_SHARED, Lacking)],
    &[(FIRST_SHARED, Lacking), (FIRST_SHARED, Apart)],
    &[(LAST_SHARED, Lacking), (LAST_SHARED, Apart)],
    &[(FIRST, Reserved), (LAST_SHARED, Apart)],
    &[(FIRST, Reserved), (LAST_SHARED, Lacking)],
    &[(FIRST, Reserved), (FIRST, Lacking)],
];

fn ask_orders(asker: &mut Asker) {
    for (head, budget) in of_each_table(JOINT, &mut asker.random) {
        let fields = fields_of(&budget);
        let own = 2 * budget.bound;
        let places = [0, own - 1, own, fields.len() - 1];
        for faults in ORDERS {
            let random = &mut asker.random;
            let mut record = accepted(&budget, 4, random);
            for &(place, fault) in faults {
                let field = &fields[places[place]];
                match fault {
                    Apart => part(&mut record, budget.table, field, random),
                    Lacking => lack(&mut record, budget.table, field, random),
                    Reserved => reserve(&mut record, field[0], random),
                }
            }
            asker.ask(true, &arguments(&head, &record));
        }
    }
}

/// Headers answered 16, 1 and 2, with records that would be refused besides; and free format.
fn ask_unserved(asker: &mut Asker) {
    let random = &mut asker.random;
    let mut heads: Vec<Head> = unserved(random).into_iter().step_by(3).collect();
    heads.extend(some_off_ladder(random).into_iter().step_by(8));
    for head in heads {
        let record = match budget_of(&head) {
            Some(budget) => accepted(&budget, 4, &mut asker.random),
            None => any_record(&mut asker.random),
        };
        asker.ask(true, &arguments(&head, &record));
    }
}

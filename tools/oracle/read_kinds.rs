//! Side information read back from bytes.

use crate::budget_kinds::some_off_ladder;
use crate::heads::{Head, MODES, header_of};
use crate::kind::{Asker, Kind};
use crate::ladder::asked_on_ladder;
use crate::random::Random;
use crate::ratios::SLOTS;
use crate::reading::*;
use crate::records::{accepted, draw_layout, one_of};
use crate::served::{JOINT, budget_of, layouts, unserved};
use crate::side_info::{INDICES, Record, packed};
use crate::side_info_kinds::{STEREO_MODE, full_records, of_each_table};
use crate::slices::*;
use crate::worked::{READ, REFUSED};
use reference::encoder_bit_allocator::{FixedBitBudget, fixed_bit_budget};

pub const KINDS: [Kind; 1] = [Kind {
    number: 34,
    name: "read_side_info",
    form: "H, the length of a slice, 0 to 176, and 22 numbers with its bytes, 0 behind its end -> \
           number bits, 64 steps, 2 numbers with 64 scfsi of 2 bits and 24 with 192 indices of \
           8 bits (bits: how many were read; slots and packing as in kind 33; 9: UnexpectedEnd, \
           10: ReservedScalefactorIndex; the other numbers as kind 26; with each all else is 0)",
    answer: |a| asked_on_ladder(a, ANSWERS, answer_read),
    halted: Some(&HALTED),
    ask: ask_read,
    one_in: 1200,
}];

/// number, bits, 64 steps, 2 numbers with scfsi, 24 with indices.
const ANSWERS: usize = 2 + SLOTS + 2 + INDICES / 8;

const HALTED: [u64; ANSWERS] = {
    let mut answers = [0; ANSWERS];
    answers[0] = 2;
    answers
};

const RANDOM_LINES: usize = 60_000;

/// The budget halts at sample rate 0; the readers would not.
fn answer_read(a: &[u64]) -> Vec<u64> {
    let read = match fixed_bit_budget(&header_of(a)) {
        Ok(budget) => read(a, &budget, &slice_of_line(a)),
        Err(_) => Err(1),
    };
    let (number, (record, bits)) = match read {
        Ok(accepted) => (0, accepted),
        Err(number) => (number.into(), (Record::EMPTY, 0)),
    };
    [&[number, bits], &packed(&record)[..]].concat()
}

fn ask_read(asker: &mut Asker) {
    note_read(asker);
    ask_layouts(asker);
    ask_codes(asker);
    ask_ends(asker);
    ask_reserved(asker);
    ask_orders(asker);
    ask_unserved(asker);
    for _ in 0..RANDOM_LINES {
        let head = draw_layout(&mut asker.random);
        let bytes = draw_slice(&head, LINE_BYTES, &mut asker.random);
        asker.ask(false, &slice_arguments(&head, &bytes));
    }
}

fn note_read(asker: &mut Asker) {
    for (words, head, bytes) in READ {
        asker.by_hand(words, &slice_arguments(&head, bytes));
    }
    for (words, head) in REFUSED {
        let words = format!("the empty slice, {words}");
        asker.by_hand(&words, &slice_arguments(&head, &[]));
    }
}

/// Every table in every mode and with every bound, by turns with bytes behind the last one.
fn ask_layouts(asker: &mut Asker) {
    for (at, head) in layouts(&mut asker.random).iter().enumerate() {
        let Some(budget) = budget_of(head) else {
            continue;
        };
        let random = &mut asker.random;
        let record = accepted(&budget, [4, 2, 4, 1][at % 4], random);
        let bytes = sent(head, &budget, &record, [LINE_BYTES, 0][at % 2], random);
        asker.ask(true, &slice_arguments(head, &bytes));
    }
}

/// The longest records of each table with every scfsi, up to the end of the last byte.
fn ask_codes(asker: &mut Asker) {
    for (head, budget, record) in full_records(&mut asker.random) {
        let bytes = sent(&head, &budget, &record, 0, &mut asker.random);
        asker.ask(true, &slice_arguments(&head, &bytes));
    }
}

/// A record of each table in each mode, cut to every length; the last two are edges, in stereo also
/// those about the ends of allocation and scfsi.
fn ask_ends(asker: &mut Asker) {
    for mode in MODES {
        for (head, budget) in of_each_table(mode, &mut asker.random) {
            let record = accepted(&budget, 3, &mut asker.random);
            let bytes = sent(&head, &budget, &record, 0, &mut asker.random);
            let mut edges = vec![bytes.len() - 1, bytes.len()];
            if mode == STEREO_MODE {
                edges.extend(section_ends(&budget, &bytes));
            }
            for length in 0..=bytes.len() {
                let edge = edges.contains(&length);
                asker.ask(edge, &slice_arguments(&head, &bytes[..length]));
            }
        }
    }
}

/// The bytes that the allocation fills, and scfsi with it.
fn section_ends(budget: &FixedBitBudget, bytes: &[u8]) -> [usize; 2] {
    let first = places(budget, bytes).and_then(|places| places.first().copied());
    let scfsi_end = first.map_or(0, |place| place.start);
    [budget.bbal as usize / 8, scfsi_end / 8]
}

/// Where a slice with an index 63 ends: far behind it, within it, right behind it, a byte later.
#[derive(Clone, Copy)]
enum End {
    Open,
    Within,
    Behind,
    Later,
}
use End::*;

const ENDS: [End; 4] = [Open, Within, Behind, Later];

impl End {
    /// Whether a slice can end so by such an index.
    fn suits(self, place: Place) -> bool {
        match self {
            Open => true,
            Behind | Later => place.end() % 8 == 0,
            Within => place.start / 8 < place.end() / 8 && place.end() % 8 != 0,
        }
    }

    fn bytes(self, place: Place) -> usize {
        match self {
            Open => LINE_BYTES,
            Behind | Within => place.end() / 8,
            Later => place.end() / 8 + 1,
        }
    }
}

/// The last index of the frame; lower numbers are the parts of a slot.
const LAST: usize = 3;

/// Index 63 as first, second and third of a slot and as the last of the frame, with every end.
fn ask_reserved(asker: &mut Asker) {
    for mode in [STEREO_MODE, JOINT] {
        for (head, budget) in of_each_table(mode, &mut asker.random) {
            // Behind an allocation of odd width no index ends with a byte.
            let ends = if budget.bbal % 2 == 0 {
                &ENDS[..]
            } else {
                &ENDS[..2]
            };
            for (at, &end) in (0..=LAST).flat_map(|at| ends.iter().map(move |end| (at, end))) {
                let bytes = reserved(&head, &budget, at, end, &mut asker.random);
                asker.ask(mode == STEREO_MODE, &slice_arguments(&head, &bytes));
            }
        }
    }
}

/// Draws records until one has an index at such a place, where a slice can end so.
fn reserved(
    head: &Head,
    budget: &FixedBitBudget,
    at: usize,
    end: End,
    random: &mut Random,
) -> Vec<u8> {
    loop {
        let record = accepted(budget, 4, random);
        let mut bytes = sent(head, budget, &record, LINE_BYTES, random);
        let mut places = places(budget, &bytes).unwrap_or_default();
        if at == LAST {
            places.drain(..places.len() - 1);
        } else {
            places.retain(|place| place.part == at);
        }
        places.retain(|&place| end.suits(place));
        if let Some(&place) = one_of(&places, random) {
            plant(&mut bytes, place);
            bytes.truncate(end.bytes(place));
            return bytes;
        }
    }
}

/// Index 63 first and the slice's end near the last index, and the other way round.
fn ask_orders(asker: &mut Asker) {
    for (head, budget) in of_each_table(JOINT, &mut asker.random) {
        for turn in 0..2 {
            let record = accepted(&budget, 4, &mut asker.random);
            let mut bytes = sent(&head, &budget, &record, 0, &mut asker.random);
            let mut ends = places(&budget, &bytes).unwrap_or_default();
            if turn == 1 {
                ends.reverse();
            }
            let (planted, cut) = (ends[0], ends[ends.len() - 1]);
            plant(&mut bytes, planted);
            bytes.truncate(cut.end() / 8);
            asker.ask(true, &slice_arguments(&head, &bytes));
        }
    }
}

/// Headers answered 16, 1 and 2, and free format, by turns with slices that would be refused.
fn ask_unserved(asker: &mut Asker) {
    let random = &mut asker.random;
    let mut heads: Vec<Head> = unserved(random).into_iter().step_by(3).collect();
    heads.extend(some_off_ladder(random).into_iter().step_by(8));
    for (at, head) in heads.iter().enumerate() {
        let random = &mut asker.random;
        let bytes = match budget_of(head) {
            Some(budget) => {
                let record = accepted(&budget, 4, random);
                sent(head, &budget, &record, LINE_BYTES, random)
            }
            None => draw_slice(head, [LINE_BYTES, 8][at % 2], random),
        };
        asker.ask(true, &slice_arguments(head, &bytes));
    }
}

//! Wrong answers on purpose to the check of a record.

use crate::breaks::{Change, renumber};
use crate::case::{Case, Function, Memory, OUT_OF_RANGE, Reply, SHORT_SLICE, Sort};
use crate::check_functions::CHECK_RECORD;
use crate::judge::{ANSWER, Break};
use crate::read_breaks::cut_flags;
use crate::side_info_breaks::cut_codes;
use crate::side_info_functions::record_of;
use questions::checked_records::NUMBERS;
use questions::checking::*;
use questions::heads::{EXTENSION, SAMPLE_RATE};
use questions::ladder::OFF_LADDER;
use questions::ratios::{SLOTS, SUBBANDS};
use questions::records::row;
use questions::served::budget_of;
use questions::side_info::*;
use reference::encoder_bit_allocator::FixedBitBudget;

pub const BREAKS: [Break; 46] = [
    wrong("check_outside", |_, _, reply| {
        renumber(reply, OUTSIDE, CONTRADICTED)
    }),
    wrong("check_apart", |_, _, reply| renumber(reply, APART, OUTSIDE)),
    wrong("check_contradicted", |_, _, reply| {
        renumber(reply, CONTRADICTED, APART)
    }),
    wrong("check_subband", |_, _, reply| {
        move_place(reply, &NUMBERS, |[subband, channel]| [subband + 1, channel])
    }),
    wrong("check_channel", |_, _, reply| {
        move_place(reply, &NUMBERS, |[subband, channel]| [subband, 1 - channel])
    }),
    wrong("check_exchanged", |_, _, reply| {
        move_place(reply, &NUMBERS, |[subband, channel]| [channel, subband])
    }),
    wrong("check_apart_second", |_, _, reply| {
        move_place(reply, &[APART], |[subband, _]| [subband, 1])
    }),
    wrong("check_channel_order", |_, case, reply| {
        let slots = || (0..SUBBANDS).flat_map(|sb| [SUBBANDS + sb, sb]);
        instead(case, reply, |budget, record| {
            first_met(budget, record, slots(), &QUESTIONS)
        });
    }),
    wrong("check_slot_order", |_, case, reply| {
        instead(case, reply, |budget, record| {
            first_met(budget, record, 0..SLOTS, &QUESTIONS)
        });
    }),
    wrong("check_falling", |_, case, reply| {
        let slots = || (0..SUBBANDS).rev().flat_map(|sb| [sb, SUBBANDS + sb]);
        instead(case, reply, |budget, record| {
            first_met(budget, record, slots(), &QUESTIONS)
        });
    }),
    wrong("check_within_slot", |_, case, reply| {
        let [outside, apart, contradicted] = QUESTIONS;
        instead(case, reply, |budget, record| {
            let questions = [outside, contradicted, apart];
            first_met(budget, record, slots(), &questions)
        });
    }),
    wrong("check_outside_first", |_, case, reply| {
        ask_first(case, reply, OUTSIDE)
    }),
    wrong("check_apart_first", |_, case, reply| {
        ask_first(case, reply, APART)
    }),
    wrong("check_contradicted_first", |_, case, reply| {
        ask_first(case, reply, CONTRADICTED)
    }),
    wrong("check_idle", |_, case, reply| {
        of_other(case, reply, |budget, record, slot| {
            if is_carried(budget, slot) {
                record.steps[slot] = record.steps[slot].max(1);
            }
        });
    }),
    wrong("check_idle_outside", look_outside),
    wrong("check_three", |_, case, reply| recode(case, reply, 0, 2)),
    wrong("check_first_two", |_, case, reply| {
        recode(case, reply, 1, 3)
    }),
    wrong("check_last_two", |_, case, reply| recode(case, reply, 3, 1)),
    wrong("check_all_first", |_, case, reply| {
        recode(case, reply, 2, 1)
    }),
    wrong("check_all_last", |_, case, reply| recode(case, reply, 2, 3)),
    wrong("check_all_ends", |_, case, reply| {
        of_other(case, reply, |_, record, slot| {
            let all = record.scfsi[slot] == 2;
            let triple = record.indices(slot);
            if all && triple[0] == triple[2] {
                triple[1] = triple[0];
            }
        });
    }),
    wrong("check_single", |_, case, reply| {
        of_other(case, reply, |budget, record, slot| {
            if slot / SUBBANDS >= budget.channels {
                record.steps[slot] = 0;
            }
        });
    }),
    wrong("check_above", |_, case, reply| {
        of_other(case, reply, |budget, record, slot| {
            if slot % SUBBANDS >= budget.sblimit {
                record.steps[slot] = 0;
            }
        });
    }),
    wrong("check_limit", |_, case, reply| {
        by_other(case, reply, |budget| {
            budget.bound += usize::from(budget.bound == budget.sblimit);
            budget.sblimit += 1;
        });
    }),
    wrong("check_last_subband", |_, case, reply| {
        of_other(case, reply, |_, record, slot| {
            if slot % SUBBANDS == SUBBANDS - 1 {
                record.steps[slot] = 0;
            }
        });
    }),
    wrong("check_bound", |_, case, reply| {
        by_other(case, reply, |budget| budget.bound += 1);
    }),
    wrong("check_bound_below", |_, case, reply| {
        by_other(case, reply, |budget| budget.bound -= 1);
    }),
    wrong("check_extension", |_, case, reply| {
        instead(case, reply, |budget, record| {
            let bound = budget.bound.min(4 * (case.numbers[EXTENSION] as usize + 1));
            check(&FixedBitBudget { bound, ..*budget }, record)
        });
    }),
    wrong("check_idle_apart", |_, case, reply| {
        of_other(case, reply, pass_beside_idle)
    }),
    wrong("check_first_idle", |_, case, reply| {
        of_other(case, reply, |budget, record, slot| {
            if slot < SUBBANDS {
                pass_beside_idle(budget, record, slot);
            }
        });
    }),
    wrong("check_row", |_, case, reply| {
        refuse_where(case, reply, LACKING, |budget, record, slot| {
            !row(budget.table, slot % SUBBANDS).contains(&record.steps[slot])
        });
    }),
    wrong("check_reserved", |_, case, reply| {
        refuse_where(case, reply, RESERVED, |_, record, slot| {
            let mut triple = record.index[GRANULES * slot..][..GRANULES].iter();
            triple.any(|&index| index > LAST_INDEX)
        });
    }),
    wrong("check_steps_cut", |_, case, reply| {
        of_other(case, reply, |_, record, slot| record.steps[slot] &= 0xffff)
    }),
    wrong("check_index_cut", |_, case, reply| {
        of_other(case, reply, |_, record, slot| {
            record
                .indices(slot)
                .iter_mut()
                .for_each(|index| *index &= 63);
        });
    }),
    wrong("check_place", |_, _, reply| {
        move_place(reply, &[0], |[subband, _]| [subband, 1])
    }),
    wrong("check_place_refused", |_, _, reply| {
        move_place(reply, &[1, 2, OFF_LADDER], |[_, channel]| [1, channel])
    }),
    wrong("check_unwritten", |_, case, reply| {
        if reply.number == 0 {
            reply.memories[0] = Memory::filled(case.fill);
        }
    }),
    wrong("check_behind", |function, _, reply| {
        let end = function.outs[0].count;
        let value = reply.memories[0].get(4, end);
        reply.memories[0].put(4, end, !value);
    }),
    wrong("check_short", |_, _, reply| {
        move_place(reply, &[SHORT_SLICE], |_| [0, 0])
    }),
    wrong("check_range", cut_codes),
    wrong("check_flags", cut_flags),
    wrong("check_range_first", ask_range_first),
    wrong("check_spare", |_, case, reply| {
        let mut spare = case.ins[1].iter().skip(SLOTS);
        if reply.number != SHORT_SLICE && spare.any(|&code| code > 3) {
            reply.number = OUT_OF_RANGE;
            reply.memories[0] = Memory::filled(case.fill);
        }
    }),
    wrong("check_rate_first", |_, case, reply| {
        if case.numbers[SAMPLE_RATE] == 0 {
            renumber(reply, 1, 2);
        }
    }),
    wrong("check_ladder", |_, _, reply| renumber(reply, OFF_LADDER, 1)),
];

const fn wrong(name: &'static str, change: Change) -> Break {
    Break {
        name,
        function: CHECK_RECORD,
        difference: ANSWER,
        change,
    }
}

fn put_place(reply: &mut Reply, place: [u64; 2]) {
    (0..2).for_each(|at| reply.memories[0].put(4, at, place[at]));
}

/// Another place beside these numbers.
fn move_place(reply: &mut Reply, numbers: &[u32], other: fn([u64; 2]) -> [u64; 2]) {
    if numbers.contains(&reply.number) {
        let place = [0, 1].map(|at| reply.memories[0].get(4, at));
        put_place(reply, other(place));
    }
}

/// What another check answers, where the header is not refused.
fn instead(case: &Case, reply: &mut Reply, other: impl Fn(&FixedBitBudget, &Record) -> Checked) {
    if (reply.number == 0 || NUMBERS.contains(&reply.number))
        && let Some(budget) = budget_of(&case.numbers)
    {
        let checked = other(&budget, &record_of(case));
        reply.number = checked.number;
        put_place(
            reply,
            [checked.subband, checked.channel].map(|at| at as u64),
        );
    }
}

/// As to a record that is changed at each slot.
fn of_other(case: &Case, reply: &mut Reply, change: fn(&FixedBitBudget, &mut Record, usize)) {
    instead(case, reply, |budget, record| {
        let mut other = record.clone();
        (0..SLOTS).for_each(|slot| change(budget, &mut other, slot));
        check(budget, &other)
    });
}

/// As by a layout that is changed.
fn by_other(case: &Case, reply: &mut Reply, change: fn(&mut FixedBitBudget)) {
    instead(case, reply, |budget, record| {
        let mut other = *budget;
        change(&mut other);
        check(&other, record)
    });
}

/// As if one scfsi were another.
fn recode(case: &Case, reply: &mut Reply, from: u64, to: u64) {
    instead(case, reply, |budget, record| {
        let mut other = record.clone();
        let codes = other.scfsi.iter_mut();
        codes
            .filter(|code| **code == from)
            .for_each(|code| *code = to);
        check(budget, &other)
    });
}

/// The slots, in the order in which they are asked.
pub fn slots() -> impl Iterator<Item = usize> {
    (0..SUBBANDS).flat_map(|sb| [sb, SUBBANDS + sb])
}

/// The check with slots and questions in another order.
pub fn first_met(
    budget: &FixedBitBudget,
    record: &Record,
    slots: impl Iterator<Item = usize>,
    questions: &[(u32, Question)],
) -> Checked {
    let places = slots.map(|slot| (slot % SUBBANDS, slot / SUBBANDS));
    let mut asked = places.flat_map(|place| questions.iter().map(move |asked| (place, asked)));
    let met =
        asked.find(|((subband, channel), (_, is_met))| is_met(budget, record, *subband, *channel));
    met.map_or(PASSED, |((subband, channel), &(number, _))| Checked {
        number,
        subband,
        channel,
    })
}

/// One question of all slots before the others.
fn ask_first(case: &Case, reply: &mut Reply, number: u32) {
    instead(case, reply, |budget, record| {
        let mut questions = QUESTIONS.to_vec();
        questions.retain(|question| question.0 == number);
        match first_met(budget, record, slots(), &questions) {
            PASSED => check(budget, record),
            met => met,
        }
    });
}

/// As if the scfsi and indices of slots outside the layout were looked at.
fn look_outside(_: &Function, case: &Case, reply: &mut Reply) {
    if reply.number == 0 {
        instead(case, reply, |budget, record| {
            let mut other = record.clone();
            let outside = (0..SLOTS).filter(|&slot| !is_carried(budget, slot));
            outside.for_each(|slot| other.steps[slot] = 1);
            let all = FixedBitBudget {
                sblimit: SUBBANDS,
                bound: SUBBANDS,
                channels: 2,
                ..*budget
            };
            check(&all, &other)
        });
    }
}

/// Steps beside none in a shared subband pass.
fn pass_beside_idle(budget: &FixedBitBudget, record: &mut Record, slot: usize) {
    let other = (slot + SUBBANDS) % SLOTS;
    let shared = (budget.bound..budget.sblimit).contains(&(slot % SUBBANDS));
    if shared && record.steps[slot] == 0 {
        record.steps[slot] = record.steps[other];
        record.scfsi[slot] = 0;
    }
}

/// This number, where the record passes and some active slot is such.
fn refuse_where(
    case: &Case,
    reply: &mut Reply,
    number: u32,
    is_met: fn(&FixedBitBudget, &Record, usize) -> bool,
) {
    if reply.number == 0
        && let Some(budget) = budget_of(&case.numbers)
    {
        let record = record_of(case);
        let mut active = (0..SLOTS).filter(|&slot| record.is_active(&budget, slot));
        if active.any(|slot| is_met(&budget, &record, slot)) {
            reply.number = number;
        }
    }
}

/// 14 before 98.
pub fn ask_range_first(function: &Function, case: &Case, reply: &mut Reply) {
    let above = |sort, number| matches!(sort, Sort::UpTo(last) if number > last);
    let mut numbers = function.arguments.iter().zip(case.numbers);
    if numbers.any(|(argument, number)| above(argument.sort, number)) {
        renumber(reply, SHORT_SLICE, OUT_OF_RANGE);
    }
}

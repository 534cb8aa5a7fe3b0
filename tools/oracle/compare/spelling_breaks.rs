//! Side information in a wrong spelling on purpose, and wrong answers beside it.

use crate::breaks::{Change, renumber};
use crate::case::{Case, Function, OUT_OF_RANGE, Reply, SHORT_SLICE, untouched};
use crate::check_breaks::{ask_range_first, first_met, slots};
use crate::judge::{ANSWER, Break};
use crate::read_breaks::cut_flags;
use crate::side_info_breaks::*;
use crate::side_info_functions::{put_written, record_of};
use crate::spelling_functions::SPELLING;
use crate::twins::{BESIDE, OTHER_BYTES, SAME_BYTES, says_as_much, twin_of};
use oxideav_core::bits::BitWriter;
use questions::checked_records::NUMBERS;
use questions::checking::*;
use questions::heads::{EXTENSION, SAMPLE_RATE};
use questions::ladder::OFF_LADDER;
use questions::ratios::{SLOTS, SUBBANDS};
use questions::scfsi_kinds::selection;
use questions::served::budget_of;
use questions::side_info::*;
use questions::spelling::{SENT_FOR, fewest, spelled};
use reference::encoder_bit_allocator::FixedBitBudget;

pub const BREAKS: [Break; 55] = [
    wrong("spell_given", |_, case, reply| {
        choose(case, reply, |_, given| given)
    }),
    wrong("spell_three", |_, case, reply| {
        choose(case, reply, |_, _| THREE)
    }),
    wrong("spell_all_as_first", |_, case, reply| {
        recode(case, reply, ALL, FIRST_TWO)
    }),
    wrong("spell_all_as_last", |_, case, reply| {
        recode(case, reply, ALL, LAST_TWO)
    }),
    wrong("spell_first_as_all", |_, case, reply| {
        recode(case, reply, FIRST_TWO, ALL)
    }),
    wrong("spell_first_as_last", |_, case, reply| {
        recode(case, reply, FIRST_TWO, LAST_TWO)
    }),
    wrong("spell_first_as_three", |_, case, reply| {
        recode(case, reply, FIRST_TWO, THREE)
    }),
    wrong("spell_last_as_all", |_, case, reply| {
        recode(case, reply, LAST_TWO, ALL)
    }),
    wrong("spell_last_as_first", |_, case, reply| {
        recode(case, reply, LAST_TWO, FIRST_TWO)
    }),
    wrong("spell_last_as_three", |_, case, reply| {
        recode(case, reply, LAST_TWO, THREE)
    }),
    wrong("spell_exchanged", |_, case, reply| {
        choose(case, reply, |triple, _| match fewest(triple) {
            FIRST_TWO => LAST_TWO,
            LAST_TWO => FIRST_TWO,
            code => code,
        });
    }),
    wrong("spell_ends", |_, case, reply| {
        choose(case, reply, |triple, _| {
            let ends_agree = triple[0] == triple[2];
            if ends_agree { ALL } else { fewest(triple) }
        });
    }),
    wrong("spell_only_three", |_, case, reply| {
        choose(case, reply, |triple, given| match given {
            THREE => fewest(triple),
            _ => given,
        });
    }),
    wrong("spell_only_shared", |_, case, reply| {
        choose(case, reply, |triple, given| match given {
            THREE => THREE,
            _ => fewest(triple),
        });
    }),
    wrong("spell_near", spell_near),
    wrong("spell_channel", |_, case, reply| {
        keep_given(case, reply, |_, slot| slot >= SUBBANDS)
    }),
    wrong("spell_first_subband", |_, case, reply| {
        keep_given(case, reply, |_, slot| slot % SUBBANDS == 0)
    }),
    wrong("spell_last_subband", |_, case, reply| {
        keep_given(case, reply, |budget, slot| {
            slot % SUBBANDS == budget.sblimit - 1
        })
    }),
    wrong("spell_shared_given", |_, case, reply| {
        keep_given(case, reply, |budget, slot| slot % SUBBANDS >= budget.bound)
    }),
    wrong("spell_shared_alike", spell_shared_alike),
    wrong("spell_idle", |_, case, reply| {
        instead(case, reply, spell_idle)
    }),
    wrong("spell_bound", spell_by_next_bound),
    wrong("spell_count", |_, _, reply| {
        if reply.number == 0 {
            reply.memories[1].put(4, 0, bits(reply) + 1);
        }
    }),
    wrong("spell_count_given", |_, case, reply| {
        beside_given(case, reply, |reply, own| {
            reply.memories[1].put(4, 0, own.bit_position());
        });
    }),
    wrong("spell_bit", flip_last_bit),
    wrong("spell_tail", write_tail),
    wrong("spell_tail_given", |_, case, reply| {
        beside_given(case, reply, |reply, own| {
            let end = bits(reply).div_ceil(8) as usize;
            for (at, byte) in own.bytes().into_iter().enumerate().skip(end) {
                reply.memories[0].put(1, at, byte.into());
            }
        });
    }),
    wrong("spell_uncleared", |_, case, reply| {
        let end = bits(reply).div_ceil(8) as usize;
        if reply.number == 0 {
            let [before, ..] = untouched(case);
            (end..BYTES).for_each(|at| reply.memories[0].put(1, at, before.get(1, at)));
        }
    }),
    wrong("spell_behind", |_, _, reply| flip(reply, BYTES)),
    wrong("spell_behind_count", |_, _, reply| {
        let value = reply.memories[1].get(4, 1);
        reply.memories[1].put(4, 1, !value);
    }),
    wrong("spell_filler_checked", |_, _, reply| {
        if NUMBERS.contains(&reply.number) {
            flip(reply, 0);
        }
    }),
    wrong("spell_filler_written", |_, case, reply| {
        if [LACKING, RESERVED].contains(&reply.number) {
            reply.memories[0] = untouched(case)[0].clone();
        }
    }),
    wrong("spell_filler_count", |_, _, reply| {
        if NUMBERS.contains(&reply.number) {
            reply.memories[1].put(4, 0, 1);
        }
    }),
    wrong("spell_outside", |_, _, reply| {
        renumber(reply, OUTSIDE, CONTRADICTED)
    }),
    wrong("spell_apart", |_, _, reply| renumber(reply, APART, LACKING)),
    wrong("spell_contradicted", |_, _, reply| {
        renumber(reply, CONTRADICTED, RESERVED)
    }),
    wrong("spell_row", |_, _, reply| {
        renumber(reply, LACKING, RESERVED)
    }),
    wrong("spell_reserved", |_, _, reply| {
        renumber(reply, RESERVED, LACKING)
    }),
    wrong("spell_row_first", |_, case, reply| {
        if NUMBERS.contains(&reply.number) {
            renumber_by_field(case, reply, LACKING, is_lacking);
        }
    }),
    wrong("spell_reserved_before_row", |_, case, reply| {
        reserved_before(case, reply, &[LACKING])
    }),
    wrong("spell_reserved_before_check", |_, case, reply| {
        reserved_before(case, reply, &NUMBERS)
    }),
    wrong("spell_writer_first", |_, case, reply| {
        instead(case, reply, |head, budget, record| {
            let writer = written(head, budget, &spelled(budget, record))?;
            refused(check(budget, record)).map_or(Ok(writer), Err)
        });
    }),
    wrong("spell_apart_late", |_, case, reply| {
        let questions = [QUESTIONS[0], QUESTIONS[2]];
        ask_other(case, reply, |budget, record| {
            first_met(budget, record, slots(), &questions)
        });
    }),
    wrong("spell_unchecked", |_, case, reply| {
        ask_other(case, reply, |_, _| PASSED)
    }),
    wrong("spell_outside_passed", |_, case, reply| {
        ask_other(case, reply, |budget, record| {
            first_met(budget, record, slots(), &QUESTIONS[1..])
        });
    }),
    wrong("spell_contradicted_passed", |_, case, reply| {
        ask_other(case, reply, |budget, record| {
            first_met(budget, record, slots(), &QUESTIONS[..2])
        });
    }),
    wrong("spell_idle_checked", |_, case, reply| {
        ask_other(case, reply, |budget, record| {
            let mut other = record.clone();
            let carried = (0..SLOTS).filter(|&slot| is_carried(budget, slot));
            carried.for_each(|slot| other.steps[slot] = record.steps[slot].max(1));
            check(budget, &other)
        });
    }),
    wrong("spell_idle_reserved", look_at_idle),
    wrong("spell_short", |_, _, reply| {
        if reply.number == SHORT_SLICE {
            flip(reply, 0);
        }
    }),
    wrong("spell_range", cut_codes),
    wrong("spell_flags", cut_flags),
    wrong("spell_range_first", ask_range_first),
    wrong("spell_spare", |_, case, reply| {
        let mut spare = case.ins[1].iter().skip(SLOTS);
        if reply.number != SHORT_SLICE && spare.any(|&code| code > 3) {
            reply.number = OUT_OF_RANGE;
            reply.memories = untouched(case);
        }
    }),
    wrong("spell_rate_first", |_, case, reply| {
        if case.numbers[SAMPLE_RATE] == 0 {
            renumber(reply, 1, 2);
        }
    }),
    wrong("spell_ladder", |_, _, reply| renumber(reply, OFF_LADDER, 1)),
];

/// What two records are for: a wrong bit of the one beside the case, bits of its own for a record that
/// says what that one says, and the bits of that one for a record that says something else.
pub const OF_TWO: [Break; 3] = [
    Break {
        difference: BESIDE,
        ..wrong("spell_beside", flip_last_bit)
    },
    Break {
        difference: OTHER_BYTES,
        ..wrong("spell_apart_from_twin", |function, case, reply| {
            if accepted_twin(function, case).is_some_and(|twin| says_as_much(case, &twin)) {
                flip_last_bit(function, case, reply);
            }
        })
    },
    Break {
        difference: SAME_BYTES,
        ..wrong("spell_as_twin", |function, case, reply| {
            let other = accepted_twin(function, case).filter(|twin| !says_as_much(case, twin));
            if let (0, Some(twin)) = (reply.number, other) {
                reply.memories = function.expected(&twin).memories;
            }
        })
    },
];

const fn wrong(name: &'static str, change: Change) -> Break {
    Break {
        name,
        function: SPELLING,
        difference: ANSWER,
        change,
    }
}

const THREE: u64 = 0;
const FIRST_TWO: u64 = 1;
const ALL: u64 = 2;
const LAST_TWO: u64 = 3;

fn accepted_twin(function: &Function, case: &Case) -> Option<Case> {
    twin_of(function, case).filter(|twin| function.expected(twin).number == 0)
}

/// What another writer leaves, where the header is not refused.
fn instead(
    case: &Case,
    reply: &mut Reply,
    write: impl Fn(&[u64], &FixedBitBudget, &Record) -> Result<BitWriter, u32>,
) {
    let asked = [0, OUTSIDE, APART, CONTRADICTED, LACKING, RESERVED];
    if asked.contains(&reply.number)
        && let Some(budget) = budget_of(&case.numbers)
    {
        let calls = write(&case.numbers, &budget, &record_of(case));
        reply.number = put_written(calls, &mut reply.memories);
    }
}

fn refused(checked: Checked) -> Option<u32> {
    Some(checked.number).filter(|&number| number != 0)
}

/// As behind another check.
fn ask_other(case: &Case, reply: &mut Reply, other: impl Fn(&FixedBitBudget, &Record) -> Checked) {
    instead(case, reply, |head, budget, record| {
        match refused(other(budget, record)) {
            Some(number) => Err(number),
            None => written(head, budget, &spelled(budget, record)),
        }
    });
}

/// As with another spelling of a record that passes.
fn respell(case: &Case, reply: &mut Reply, other: impl Fn(&FixedBitBudget, &Record) -> Record) {
    instead(case, reply, |head, budget, record| {
        match refused(check(budget, record)) {
            Some(number) => Err(number),
            None => written(head, budget, &other(budget, record)),
        }
    });
}

/// Another choice, from the three indices of a slot and the scfsi given.
fn choose(case: &Case, reply: &mut Reply, choice: impl Fn(&[u64], u64) -> u64) {
    respell(case, reply, |_, record| {
        let mut other = record.clone();
        for (slot, code) in other.scfsi.iter_mut().enumerate() {
            *code = choice(record.triple(slot), *code);
        }
        other
    });
}

/// One scfsi sent in place of another.
fn recode(case: &Case, reply: &mut Reply, from: u64, to: u64) {
    choose(case, reply, |triple, _| match fewest(triple) {
        code if code == from => to,
        code => code,
    });
}

/// The scfsi given in such slots.
fn keep_given(case: &Case, reply: &mut Reply, is_kept: fn(&FixedBitBudget, usize) -> bool) {
    respell(case, reply, |budget, record| {
        let mut other = spelled(budget, record);
        let kept = (0..SLOTS).filter(|&slot| is_kept(budget, slot));
        kept.for_each(|slot| other.scfsi[slot] = record.scfsi[slot]);
        other
    });
}

/// As if indices near one another were sent as one, by Table C.4.
fn spell_near(_: &Function, case: &Case, reply: &mut Reply) {
    respell(case, reply, |_, record| {
        let mut other = record.clone();
        for slot in 0..SLOTS {
            let triple = record.triple(slot);
            let chosen = selection([0, 1, 2].map(|granule| triple[granule] as u8));
            other.scfsi[slot] = chosen[6];
            other.indices(slot).copy_from_slice(&chosen[..GRANULES]);
        }
        other
    });
}

/// The scfsi of channel 0 for both, where they share their steps.
fn spell_shared_alike(_: &Function, case: &Case, reply: &mut Reply) {
    respell(case, reply, |budget, record| {
        let mut other = spelled(budget, record);
        let shared = budget.bound..budget.sblimit;
        shared.for_each(|sb| other.scfsi[SUBBANDS + sb] = other.scfsi[sb]);
        other
    });
}

/// As if scfsi and indices of slots without steps were sent too.
fn spell_idle(head: &[u64], budget: &FixedBitBudget, record: &Record) -> Result<BitWriter, u32> {
    if let Some(number) = refused(check(budget, record)) {
        return Err(number);
    }
    let mut writer = written(head, budget, record)?;
    writer.fields.truncate(fields_of(budget).len());
    let sent: Vec<usize> = slots().filter(|&slot| is_carried(budget, slot)).collect();
    for &slot in &sent {
        writer.write_u32(fewest(record.triple(slot)) as u32, 2);
    }
    for slot in sent {
        let triple = record.triple(slot);
        let sent_for = SENT_FOR[fewest(triple) as usize];
        for granule in (0..GRANULES).filter(|&granule| sent_for[granule] == granule) {
            writer.write_u32(triple[granule] as u32 & 63, 6);
        }
    }
    Ok(writer)
}

fn spell_by_next_bound(function: &Function, case: &Case, reply: &mut Reply) {
    if reply.number == 0 {
        let mut other = case.clone();
        other.numbers[EXTENSION] = (case.numbers[EXTENSION] + 1) % 4;
        *reply = function.expected(&other);
    }
}

/// Something of the given spelling beside the bits.
fn beside_given(case: &Case, reply: &mut Reply, put: fn(&mut Reply, BitWriter)) {
    if reply.number == 0
        && let Some(budget) = budget_of(&case.numbers)
        && let Ok(own) = written(&case.numbers, &budget, &record_of(case))
    {
        put(reply, own);
    }
}

/// 8 before these.
fn reserved_before(case: &Case, reply: &mut Reply, numbers: &[u32]) {
    if numbers.contains(&reply.number)
        && let Some(budget) = budget_of(&case.numbers)
        && has_reserved(&record_of(case), &budget, true)
    {
        reply.number = RESERVED;
    }
}

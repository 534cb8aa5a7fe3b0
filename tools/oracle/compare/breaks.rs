//! Wrong answers on purpose: one for each function, some about the ladder, one for each rule of an
//! allocation, and those about side information, written, read, checked and written in one form.

use crate::allocation_functions::ALLOCATE;
use crate::case::{Case, Function, OUT_OF_RANGE, Reply, SHORT_SLICE};
use crate::check_breaks;
use crate::header_functions::{BANC, refusal_on_ladder};
use crate::judge::{ANSWER, Break};
use crate::layout::Field;
use crate::read_breaks;
use crate::rules::{Held, LAYOUT, PART_2, PART_3, PART_4, ROW, SHARED};
use crate::side_info_breaks;
use crate::spelling_breaks;
use questions::heads::{BIT_RATE, LSF};
use questions::ladder::{OFF_LADDER, ladder};
use questions::ratios::{SLOTS, SUBBANDS};

/// Where a slice is read, the answer of a function is spoilt only if this element of it is not 0.
pub const READ: usize = 5;

pub fn breaks(functions: &[Function]) -> Vec<Break> {
    let of_function = |function: &Function| Break {
        name: function.name,
        function: function.name,
        difference: ANSWER,
        change: spoil,
    };
    let mut breaks: Vec<Break> = functions.iter().map(of_function).collect();
    breaks.extend(LADDER);
    breaks.extend(side_info_breaks::BREAKS);
    breaks.extend(read_breaks::BREAKS);
    breaks.extend(check_breaks::BREAKS);
    breaks.extend(spelling_breaks::BREAKS);
    breaks.extend(spelling_breaks::OF_TWO);
    breaks.extend(of_allocations());
    breaks
}

fn of_allocations() -> [Break; 9] {
    [
        answer("short", |_, _, reply| {
            renumber(reply, SHORT_SLICE, OUT_OF_RANGE)
        }),
        answer("range", |_, _, reply| renumber(reply, OUT_OF_RANGE, 1)),
        answer("behind", write_behind),
        rule("layout", LAYOUT, |_, _, reply| {
            if reply.number == 0 {
                reply.memories[0].put(4, SUBBANDS - 1, 3);
            }
        }),
        rule("shared", SHARED, |_, case, reply| {
            change_held(case, reply, part_channels)
        }),
        rule("row", ROW, |_, case, reply| {
            change_held(case, reply, |held, reply, _| {
                set_steps(&held.layout.fields[0], 4, reply)
            });
        }),
        rule("part2", PART_2, |_, case, reply| {
            change_held(case, reply, |held, reply, _| set_left(held.left + 1, reply));
        }),
        rule("part3", PART_3, |_, case, reply| {
            change_held(case, reply, take_step_back)
        }),
        rule("part4", PART_4, |_, case, reply| {
            change_held(case, reply, exchange_steps)
        }),
    ]
}

pub type Change = fn(&Function, &Case, &mut Reply);

/// 1 for 16 in each function that asks for the ladder; 16 for a rate on it, behind 1 and 2, and with
/// something beside it.
const LADDER: [Break; 7] = [
    ladder_of("budget_ladder", "fixed_bit_budget", no_table_instead),
    ladder_of("offer_ladder", "available_data_bits", no_table_instead),
    ladder_of("demand_ladder", "demand_bits", no_table_instead),
    ladder_of("ladder", ALLOCATE, no_table_instead),
    ladder_of("ladder_top", ALLOCATE, refuse_top),
    ladder_of("ladder_late", ALLOCATE, ask_ladder_last),
    ladder_of("ladder_filler", ALLOCATE, write_beside),
];

const fn ladder_of(name: &'static str, function: &'static str, change: Change) -> Break {
    Break {
        name,
        function,
        difference: ANSWER,
        change,
    }
}

fn no_table_instead(_: &Function, _: &Case, reply: &mut Reply) {
    renumber(reply, OFF_LADDER, 1);
}

/// Refuses the largest rate of the ladder as if it were off it.
fn refuse_top(_: &Function, case: &Case, reply: &mut Reply) {
    let [lsf, bit_rate] = [LSF, BIT_RATE].map(|at| case.numbers[at]);
    if reply.number == 0 && ladder(lsf).last() == Some(&bit_rate) {
        reply.number = OFF_LADDER;
        (0..SLOTS).for_each(|slot| reply.memories[0].put(4, slot, 0));
        set_left(0, reply);
    }
}

/// As if the ladder were asked for behind table and sample rate.
fn ask_ladder_last(_: &Function, case: &Case, reply: &mut Reply) {
    if reply.number == OFF_LADDER {
        let other = refusal_on_ladder(&case.numbers);
        reply.number = if other == 0 { OFF_LADDER } else { other };
    }
}

/// The banc beside 16, where a 0 belongs.
fn write_beside(_: &Function, case: &Case, reply: &mut Reply) {
    if reply.number == OFF_LADDER {
        reply.memories[1].put(4, 3, case.numbers[BANC]);
    }
}

fn answer(name: &'static str, change: Change) -> Break {
    rule(name, ANSWER, change)
}

fn rule(name: &'static str, difference: &'static str, change: Change) -> Break {
    Break {
        name,
        function: ALLOCATE,
        difference,
        change,
    }
}

fn spoil(function: &Function, case: &Case, reply: &mut Reply) {
    if !function.ins.is_empty() && case.ins[0].get(READ).is_none_or(|&element| element == 0) {
        return;
    }
    if function.outs.is_empty() {
        reply.number ^= 1;
    } else if reply.number == 0 {
        let value = reply.memories[0].get(1, 0);
        reply.memories[0].put(1, 0, value ^ 1);
    }
}

pub fn renumber(reply: &mut Reply, from: u32, to: u32) {
    if reply.number == from {
        reply.number = to;
    }
}

fn write_behind(function: &Function, case: &Case, reply: &mut Reply) {
    let (out, end) = (&function.outs[1], case.lengths[1]);
    let value = reply.memories[1].get(out.width, end);
    reply.memories[1].put(out.width, end, !value);
}

fn set_steps(field: &Field, steps: u64, reply: &mut Reply) {
    reply.memories[0].put(4, field.slot, steps);
    if field.serves == 2 {
        reply.memories[0].put(4, field.slot + SUBBANDS, steps);
    }
}

fn set_left(left: u64, reply: &mut Reply) {
    reply.memories[1].put(4, 0, left);
}

/// Changes an accepted allocation, given by its fields and the ratios.
fn change_held(case: &Case, reply: &mut Reply, change: fn(&Held, &mut Reply, &[u64])) {
    if reply.number == 0
        && let Ok(held) = Held::read(case, reply)
    {
        change(&held, reply, &case.ins[0]);
    }
}

/// Gives the channels of a shared field different steps.
fn part_channels(held: &Held, reply: &mut Reply, _: &[u64]) {
    let shared = held
        .layout
        .fields
        .iter()
        .position(|field| field.serves == 2);
    if let Some(at) = shared {
        let field = &held.layout.fields[at];
        let other = if held.places[at] == 0 { 1 } else { 0 };
        reply.memories[0].put(4, field.slot, field.row[other].steps.into());
    }
}

/// The first field with steps loses the last one, and what it cost is left.
fn take_step_back(held: &Held, reply: &mut Reply, _: &[u64]) {
    if let Some(at) = held.places.iter().position(|&place| place > 0) {
        let (field, place) = (&held.layout.fields[at], held.places[at]);
        set_steps(field, field.row[place - 1].steps.into(), reply);
        set_left(held.left + field.price(place), reply);
    }
}

/// A field's last step goes to another that had less need of it, at the same price; not where a NaN
/// is read, since the rule is not asked there.
fn exchange_steps(held: &Held, reply: &mut Reply, ratios: &[u64]) {
    let fields = &held.layout.fields;
    let pairs = (0..fields.len()).flat_map(|from| (0..fields.len()).map(move |to| (from, to)));
    let asked = !held.reads_nan(ratios);
    for (from, to) in pairs.filter(|(from, to)| asked && from != to) {
        let (own, other) = (&fields[from], &fields[to]);
        let (last, next) = (held.places[from], held.places[to] + 1);
        if last > 0
            && next <= other.top()
            && own.price(last) == other.price(next)
            && own.mnr(last - 1, ratios) < other.mnr(next - 1, ratios)
        {
            set_steps(own, own.row[last - 1].steps.into(), reply);
            set_steps(other, other.row[next].steps.into(), reply);
            return;
        }
    }
}

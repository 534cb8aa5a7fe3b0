//! What is timed: nine functions, on the headers and inputs of an encoder.

use crate::bench_inputs::{FRAME_LEN, HEADS, frames, ratio_sets};
use crate::case::Memory;
use crate::check_bench::time_checks;
use crate::check_functions::CHECK_RECORD;
use crate::header_functions::call_with_head;
use crate::library::*;
use crate::read_bench::time_reading;
use crate::read_functions::READ_SIDE_INFO;
use crate::scalefactor_functions::frame_of;
use crate::side_info_bench::time_side_info;
use crate::side_info_functions::SIDE_INFO;
use crate::spelling_bench::time_spelling;
use crate::spelling_functions::SPELLING;
use crate::timing::{Row, Times, measure, table};
use questions::allocation_kinds::ratios_of;
use questions::heads::{Head, header_of};
use questions::ladder::on_ladder;
use questions::random::Random;
use questions::ratios::SLOTS;
use reference::bitalloc::{class_of_quantization, select_table};
use reference::encoder_bit_allocator::{SmrTable, allocate_bits, demand_bits};
use reference::encoder_samples::quantize_sample;
use reference::encoder_scalefactors::compute_scalefactors;
use reference::encoder_scfsi::select_scfsi;
use std::hint::black_box;

/// Inputs of one pass where a call is short.
const BATCH: usize = 256;

type Timed = (&'static str, fn() -> Vec<Row>);

const TIMED: [Timed; 10] = [
    ("allocate_bits", || by_header(ratio_sets(), time_allocation)),
    ("demand_bits", || by_header(ratio_sets(), time_demand)),
    ("compute_scalefactors", || {
        by_header(frames(), time_scalefactors)
    }),
    ("quantize_sample", || by_steps(false)),
    (
        "quantize_sample, the Rust's class looked up beforehand",
        || by_steps(true),
    ),
    ("select_scfsi", time_selections),
    (SIDE_INFO, time_side_info),
    (READ_SIDE_INFO, time_reading),
    (CHECK_RECORD, time_checks),
    (SPELLING, time_spelling),
];

/// All, or those whose names begin with one of the words; false where a word names none.
pub fn bench(words: &[String]) -> bool {
    let named = |word: &String| {
        TIMED
            .iter()
            .any(|(name, _)| name.starts_with(word.as_str()))
    };
    if !words.iter().all(named) {
        return false;
    }
    for (name, rows) in TIMED {
        if words.is_empty() || words.iter().any(|word| name.starts_with(word.as_str())) {
            println!("{}", table(name, beside(name), &rows()));
        }
    }
    true
}

/// What is timed beside the library: the Rust has no check of a record, and spells none.
fn beside(name: &str) -> &str {
    match name {
        CHECK_RECORD => "the oracle's own check",
        SPELLING => "check, choice and the Rust's writer",
        _ => "Rust",
    }
}

fn by_header(sets: Vec<Vec<u64>>, time: fn(&Head, &[u64]) -> Times) -> Vec<Row> {
    assert!(
        HEADS.iter().all(|(_, head)| on_ladder(head)),
        "a header that is timed is refused"
    );
    let row = |(label, head): &(&str, Head)| Row {
        label: label.to_string(),
        sets: sets.iter().map(|set| time(head, set)).collect(),
    };
    HEADS.iter().map(row).collect()
}

fn time_allocation(head: &Head, set: &[u64]) -> Times {
    let (header, ratios): (_, SmrTable) = (header_of(head), ratios_of(set));
    let (mut steps, mut out) = (Memory::filled(0), Memory::filled(0));
    let rust = || {
        let _ = black_box(&allocate_bits(
            black_box(&header),
            black_box(&ratios),
            black_box(0),
        ));
    };
    let library = || {
        let (numbers, smr) = (black_box(head), black_box(ratios.as_ptr()).cast());
        black_box(call_with_head!(
            folgrist_allocate_bits,
            numbers,
            black_box(0),
            smr,
            SLOTS,
            steps.pointer(),
            SLOTS,
            out.pointer(),
            4
        ));
        black_box((&steps, &out));
    };
    measure(1, rust, library)
}

fn time_demand(head: &Head, set: &[u64]) -> Times {
    let (header, ratios): (_, SmrTable) = (header_of(head), ratios_of(set));
    let mut out = Memory::filled(0);
    let rust = || {
        let _ = black_box(&demand_bits(black_box(&header), black_box(&ratios)));
    };
    let library = || {
        let (numbers, smr) = (black_box(head), black_box(ratios.as_ptr()).cast());
        black_box(call_with_head!(
            folgrist_demand_bits,
            numbers,
            smr,
            SLOTS,
            out.pointer(),
            1
        ));
        black_box(&out);
    };
    measure(1, rust, library)
}

/// Up to the sblimit of the header.
fn time_scalefactors(head: &Head, set: &[u64]) -> Times {
    let samples = frame_of(set);
    let limit = select_table(&header_of(head)).map_or(0, |table| table.sblimit());
    let mut out = Memory::filled(0);
    let rust = || {
        black_box(&compute_scalefactors(black_box(&samples), black_box(limit)));
    };
    let library = || {
        let (frame, limit) = (black_box(samples.as_ptr()).cast(), black_box(limit) as u64);
        // SAFETY: both slices are as long as said.
        black_box(unsafe {
            folgrist_compute_scalefactors(frame, FRAME_LEN, limit, out.pointer(), 96)
        });
        black_box(&out);
    };
    measure(1, rust, library)
}

/// The library looks the class up by its steps in each call; the Rust does so or has it.
fn by_steps(held: bool) -> Vec<Row> {
    let row = |steps: u32| Row {
        label: format!("{steps} steps"),
        sets: vec![time_codes(steps, held)],
    };
    [3, 7, 9, 15, 255, 65_535].map(row).into()
}

fn time_codes(steps: u32, held: bool) -> Times {
    let mut random = Random::new(1, 3, steps.into());
    let samples: Vec<f64> = (0..BATCH).map(|_| random.between(-1.1, 1.1)).collect();
    let mut out = Memory::filled(0);
    let library = || {
        for &sample in &samples {
            let (steps, sample) = (black_box(steps), black_box(sample));
            // SAFETY: the slice has one element.
            black_box(unsafe { folgrist_quantize_sample(steps, sample, out.pointer(), 1) });
            black_box(&out);
        }
    };
    let class_of = |steps| class_of_quantization(steps).expect("a class");
    let class = class_of(steps);
    let with_class = || {
        for &sample in &samples {
            black_box(quantize_sample(black_box(&class), black_box(sample)));
        }
    };
    let by_count = || {
        for &sample in &samples {
            black_box(quantize_sample(
                &class_of(black_box(steps)),
                black_box(sample),
            ));
        }
    };
    if held {
        measure(BATCH, with_class, library)
    } else {
        measure(BATCH, by_count, library)
    }
}

fn time_selections() -> Vec<Row> {
    let mut random = Random::new(1, 4, 0);
    let mut row = |label: &str, spread: u64| {
        let triples: Vec<[u8; 3]> = (0..BATCH)
            .map(|_| [0; 3].map(|_| (31 - spread / 2 + random.below(spread)) as u8))
            .collect();
        Row {
            label: label.to_string(),
            sets: vec![time_triples(&triples)],
        }
    };
    vec![
        row("indices near one another", 5),
        row("indices 0 to 61", 62),
    ]
}

fn time_triples(triples: &[[u8; 3]]) -> Times {
    let mut out = Memory::filled(0);
    let rust = || {
        for &triple in triples {
            black_box(&select_scfsi(black_box(triple)));
        }
    };
    let library = || {
        for &triple in triples {
            let [a, b, c] = black_box(triple);
            // SAFETY: the slice has nine elements.
            black_box(unsafe { folgrist_select_scfsi(a, b, c, out.pointer(), 9) });
            black_box(&out);
        }
    };
    measure(triples.len(), rust, library)
}

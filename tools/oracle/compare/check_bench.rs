//! Times the check of a record, on records that pass. The Rust has no such check: beside the library
//! stands the oracle's own.

use crate::case::Memory;
use crate::header_functions::call_with_head;
use crate::library::*;
use crate::side_info_bench::{Slices, by_records, slices_of};
use crate::timing::{Row, Times, measure};
use questions::checked_records::agree;
use questions::checking::{Checked, PASSED, check};
use questions::heads::Head;
use questions::ratios::SLOTS;
use questions::served::budget_of;
use questions::side_info::Record;
use std::hint::black_box;

pub fn time_checks() -> Vec<Row> {
    by_records(time_records)
}

fn call_library(head: &Head, slices: &Slices, out: &mut Memory) -> u32 {
    call_with_head!(
        folgrist_check_record,
        head,
        slices.steps.as_ptr(),
        slices.steps.len(),
        slices.scfsi.as_ptr(),
        slices.scfsi.len(),
        slices.index.as_ptr(),
        slices.index.len(),
        out.pointer(),
        2
    )
}

/// Asks for the ladder and finds the layout in each call, as the library does.
fn call_own(head: &Head, record: &Record) -> Option<Checked> {
    budget_of(head).map(|budget| check(&budget, record))
}

/// The same records, with indices that agree with their scfsi.
pub fn agreeing(records: &[Record]) -> Vec<Record> {
    let mut records = records.to_vec();
    for record in &mut records {
        (0..SLOTS).for_each(|slot| agree(record, slot));
    }
    records
}

fn time_records(head: &Head, records: &[Record]) -> Times {
    let records = agreeing(records);
    let slices: Vec<Slices> = records.iter().map(slices_of).collect();
    let mut out = Memory::filled(0);
    for (record, slices) in records.iter().zip(&slices) {
        let number = call_library(head, slices, &mut out);
        let passed = call_own(head, record) == Some(PASSED);
        assert!(number == 0 && passed, "what is timed does not pass");
    }
    let own = || {
        for record in &records {
            black_box(call_own(black_box(head), black_box(record)));
        }
    };
    let library = || {
        for slices in &slices {
            black_box(call_library(black_box(head), black_box(slices), &mut out));
            black_box(&out);
        }
    };
    measure(records.len(), own, library)
}

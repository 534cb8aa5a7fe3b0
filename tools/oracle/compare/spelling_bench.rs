//! Times the writing of side information in one form, on records that pass the check. The Rust has
//! no such writer: beside the library stand the oracle's own check, a choice of scfsi that is quick,
//! and behind them the Rust's writer.

use crate::check_bench::agreeing;
use crate::library::folgrist_write_side_info_canonical;
use crate::side_info_bench::{by_records, read_back, time_writer, write};
use crate::timing::{Row, Times};
use packed::audio_data::{AudioData, Scfsi};
use questions::checking::{PASSED, check};
use questions::heads::Head;
use questions::ratios::{SLOTS, SUBBANDS};
use questions::served::budget_of;
use questions::side_info::Record;
use questions::spelling::fewest;
use std::hint::black_box;

pub fn time_spelling() -> Vec<Row> {
    by_records(time_records)
}

fn time_records(head: &Head, records: &[Record]) -> Times {
    let records = agreeing(records);
    let slots = records
        .iter()
        .flat_map(|record| (0..SLOTS).map(|slot| record.triple(slot)));
    for triple in slots {
        let same = choice(triple) as u64 == fewest(triple);
        assert!(same, "the choice that is timed differs");
    }
    let (header, mut data) = read_back(head, &records);
    let library = folgrist_write_side_info_canonical;
    time_writer(library, head, &records, |at, writer| {
        choose(black_box(head), black_box(&records[at]), &mut data[at]);
        write(&header, &data[at], writer);
    })
}

/// Asks for the ladder and finds the layout in each call, as the library does; what passes the check
/// gets its scfsi chosen.
fn choose(head: &Head, record: &Record, data: &mut AudioData) {
    let budget = budget_of(head).filter(|budget| check(budget, record) == PASSED);
    let Some(budget) = budget else {
        return;
    };
    for slot in (0..SLOTS).filter(|&slot| record.is_active(&budget, slot)) {
        data.scfsi[slot / SUBBANDS][slot % SUBBANDS] = choice(record.triple(slot));
    }
}

fn choice(triple: &[u64]) -> Scfsi {
    match (triple[0] == triple[1], triple[1] == triple[2]) {
        (true, true) => Scfsi::ShareAll,
        (true, false) => Scfsi::Share01Then2,
        (false, true) => Scfsi::Share0Then12,
        (false, false) => Scfsi::ThreePerGranule,
    }
}

//! Side information.

use crate::case::{Case, Function, In, Memories, Out, Sort};
use crate::header_functions::*;
use crate::library::*;
use oxideav_core::bits::BitWriter;
use questions::random::Random;
use questions::ratios::SLOTS;
use questions::records::{draw_layout, draw_record};
use questions::served::budget_of;
use questions::side_info::{BYTES, INDICES, Record, Write, written};

const fn read(name: &'static str, sort: Sort, width: usize, count: usize) -> In {
    In {
        name,
        sort,
        width,
        count,
    }
}

/// The slices of a record.
pub const RECORD: [In; 3] = [
    read("steps", Sort::Whole, 4, SLOTS),
    read("scfsi", Sort::UpTo(3), 1, SLOTS),
    read("indices", Sort::Whole, 1, INDICES),
];

/// The slices that a writer fills.
pub const WRITTEN: [Out; 2] = [
    Out {
        name: "bytes",
        width: 1,
        count: BYTES,
    },
    Out {
        name: "bits",
        width: 4,
        count: 1,
    },
];

pub const SIDE_INFO: &str = "write_side_info";

pub const FUNCTIONS: [Function; 1] = [Function {
    name: SIDE_INFO,
    share: 8,
    arguments: HEAD,
    ins: &RECORD,
    outs: &WRITTEN,
    draw: draw_side_info,
    library: |case, memories| call_writer(folgrist_write_side_info, case, memories),
    rust: |case, memories| answer_by(written, case, memories),
}];

pub fn call_writer(writer: Writer, case: &Case, [bytes, out, ..]: &mut Memories) -> u32 {
    let steps: Vec<u32> = case.ins[0].iter().map(|&count| count as u32).collect();
    let [scfsi, index] = [1, 2].map(|at| bytes_of(&case.ins[at]));
    call_with_head!(
        writer,
        case.numbers,
        steps.as_ptr(),
        steps.len(),
        scfsi.as_ptr(),
        scfsi.len(),
        index.as_ptr(),
        index.len(),
        bytes.pointer(),
        case.lengths[0],
        out.pointer(),
        case.lengths[1]
    )
}

pub fn bytes_of(numbers: &[u64]) -> Vec<u8> {
    numbers.iter().map(|&number| number as u8).collect()
}

/// The record that the slices hold at least.
pub fn record_of(case: &Case) -> Record {
    Record {
        steps: std::array::from_fn(|slot| case.ins[0][slot]),
        scfsi: std::array::from_fn(|slot| case.ins[1][slot]),
        index: std::array::from_fn(|at| case.ins[2][at]),
    }
}

/// Mostly a header that has a layout.
pub fn draw_side_head(case: &mut Case, random: &mut Random) {
    if random.one_in(8) {
        draw_head(case, random);
    } else {
        case.numbers[..7].copy_from_slice(&draw_layout(random));
    }
}

fn draw_side_info(case: &mut Case, random: &mut Random) {
    draw_side_head(case, random);
    let record = draw_record(&case.numbers[..7], random);
    put_record(case, &record);
}

pub fn put_record(case: &mut Case, record: &Record) {
    case.ins[0].extend(record.steps);
    case.ins[1].extend(record.scfsi);
    case.ins[2].extend(record.index);
}

pub fn answer_by(write: Write, case: &Case, memories: &mut Memories) -> u32 {
    let number = refusal(&case.numbers);
    let calls = match budget_of(&case.numbers).filter(|_| number == 0) {
        Some(budget) => write(&case.numbers, &budget, &record_of(case)),
        None => Err(number),
    };
    put_written(calls, memories)
}

/// The bits are the Rust's calls, packed by the stand-in.
pub fn put_written(calls: Result<BitWriter, u32>, [bytes, out, ..]: &mut Memories) -> u32 {
    (0..BYTES).for_each(|at| bytes.put(1, at, 0));
    out.put(4, 0, 0);
    match calls {
        Err(number) => number,
        Ok(writer) => {
            for (at, byte) in writer.bytes().into_iter().enumerate() {
                bytes.put(1, at, byte.into());
            }
            out.put(4, 0, writer.bit_position());
            0
        }
    }
}

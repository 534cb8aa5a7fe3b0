//! Side information that is read back.

use crate::case::{Case, Function, In, Memories, Memory, Out, Sort};
use crate::header_functions::*;
use crate::library::*;
use crate::side_info_functions::{bytes_of, draw_side_head};
use questions::random::Random;
use questions::ratios::SLOTS;
use questions::reading::{LINE_BYTES, read};
use questions::served::budget_of;
use questions::side_info::{INDICES, Record};
use questions::slices::draw_slice;

pub const READ_SIDE_INFO: &str = "read_side_info";

/// In bytes: 384000 bit/s at 32000 Hz, with padding.
const LONGEST_FRAME: usize = 1729;

const fn out(name: &'static str, width: usize, count: usize) -> Out {
    Out { name, width, count }
}

pub const FUNCTIONS: [Function; 1] = [Function {
    name: READ_SIDE_INFO,
    share: 8,
    arguments: HEAD,
    ins: &[In {
        name: "bytes",
        sort: Sort::Whole,
        width: 1,
        count: 0,
    }],
    outs: &[
        out("steps", 4, SLOTS),
        out("scfsi", 1, SLOTS),
        out("indices", 1, INDICES),
        out("bits", 4, 1),
    ],
    draw: draw_read,
    library: call_library,
    rust: answer_read,
}];

/// Behind the slice lies more than it says.
fn call_library(case: &Case, [steps, scfsi, index, out]: &mut Memories) -> u32 {
    let mut bytes = bytes_of(&case.ins[0]);
    bytes.extend(case.fill.to_le_bytes());
    call_with_head!(
        folgrist_read_side_info,
        case.numbers,
        bytes.as_ptr(),
        case.ins[0].len(),
        steps.pointer(),
        case.lengths[0],
        scfsi.pointer(),
        case.lengths[1],
        index.pointer(),
        case.lengths[2],
        out.pointer(),
        case.lengths[3]
    )
}

/// Slices as in a line, somewhat longer ones, and some as long as a frame.
fn draw_read(case: &mut Case, random: &mut Random) {
    draw_side_head(case, random);
    let most = match random.below(8) {
        0 => LONGEST_FRAME,
        1 | 2 => LINE_BYTES + 32,
        _ => LINE_BYTES,
    };
    let bytes = draw_slice(&case.numbers[..7], most, random);
    case.ins[0].extend(bytes.into_iter().map(u64::from));
}

/// The bits are unpacked by the stand-in.
fn answer_read(case: &Case, [steps, scfsi, index, out]: &mut Memories) -> u32 {
    let (number, (record, bits)) = match read_by_rust(case) {
        Ok(accepted) => (0, accepted),
        Err(number) => (number, (Record::EMPTY, 0)),
    };
    let put = |memory: &mut Memory, width: usize, values: &[u64]| {
        for (at, &value) in values.iter().enumerate() {
            memory.put(width, at, value);
        }
    };
    put(steps, 4, &record.steps);
    put(scfsi, 1, &record.scfsi);
    put(index, 1, &record.index);
    put(out, 4, &[bits]);
    number
}

fn read_by_rust(case: &Case) -> Result<(Record, u64), u32> {
    let number = refusal(&case.numbers);
    let budget = budget_of(&case.numbers).filter(|_| number == 0);
    let budget = budget.ok_or(number)?;
    read(&case.numbers, &budget, &bytes_of(&case.ins[0]))
}

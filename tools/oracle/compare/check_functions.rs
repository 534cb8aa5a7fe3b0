//! The check of a record; what is right is the oracle's own check, since the Rust has none.

use crate::case::{Case, Function, Memories, Out};
use crate::header_functions::*;
use crate::library::*;
use crate::side_info_functions::{RECORD, bytes_of, draw_side_head, put_record, record_of};
use questions::checked_records::draw_checked;
use questions::checking::{Checked, PASSED, check};
use questions::random::Random;
use questions::served::budget_of;

pub const CHECK_RECORD: &str = "check_record";

pub const FUNCTIONS: [Function; 1] = [Function {
    name: CHECK_RECORD,
    share: 8,
    arguments: HEAD,
    ins: &RECORD,
    outs: &[Out {
        name: "place",
        width: 4,
        count: 2,
    }],
    draw: draw_check,
    library: |case, [out, ..]| {
        let steps: Vec<u32> = case.ins[0].iter().map(|&count| count as u32).collect();
        let [scfsi, index] = [1, 2].map(|at| bytes_of(&case.ins[at]));
        call_with_head!(
            folgrist_check_record,
            case.numbers,
            steps.as_ptr(),
            steps.len(),
            scfsi.as_ptr(),
            scfsi.len(),
            index.as_ptr(),
            index.len(),
            out.pointer(),
            case.lengths[0]
        )
    },
    rust: answer_check,
}];

fn draw_check(case: &mut Case, random: &mut Random) {
    draw_side_head(case, random);
    let record = draw_checked(&case.numbers[..7], random);
    put_record(case, &record);
}

fn answer_check(case: &Case, [out, ..]: &mut Memories) -> u32 {
    let number = refusal(&case.numbers);
    let checked = match budget_of(&case.numbers).filter(|_| number == 0) {
        Some(budget) => check(&budget, &record_of(case)),
        None => Checked { number, ..PASSED },
    };
    out.put(4, 0, checked.subband as u64);
    out.put(4, 1, checked.channel as u64);
    checked.number
}

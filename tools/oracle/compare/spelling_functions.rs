//! Side information in one form; what is right is the Rust's bits with the oracle's own check and
//! choice of scfsi, since the Rust has neither.

use crate::case::{Case, Function};
use crate::header_functions::HEAD;
use crate::library::folgrist_write_side_info_canonical;
use crate::side_info_functions::*;
use questions::random::Random;
use questions::spelled_records::draw_spelled;
use questions::spelling::spell;

pub const SPELLING: &str = "write_side_info_canonical";

pub const FUNCTIONS: [Function; 1] = [Function {
    name: SPELLING,
    share: 8,
    arguments: HEAD,
    ins: &RECORD,
    outs: &WRITTEN,
    draw: draw_spelling,
    library: |case, memories| call_writer(folgrist_write_side_info_canonical, case, memories),
    rust: |case, memories| answer_by(spell, case, memories),
}];

fn draw_spelling(case: &mut Case, random: &mut Random) {
    draw_side_head(case, random);
    let record = draw_spelled(&case.numbers[..7], random);
    put_record(case, &record);
}

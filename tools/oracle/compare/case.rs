//! A call of the library: its arguments, the memory that it may write, and what it answers.

use questions::random::Random;

/// The most numbers that a function takes: H and banc.
const NUMBERS: usize = 8;

/// Holds the longest slice that is written, with more behind it than a longer one may have.
const MEMORY_BYTES: usize = 384;

/// So many elements more than needed a longer slice has at most.
const MOST_SPARE: u64 = 8;

pub const SHORT_SLICE: u32 = 98;
pub const OUT_OF_RANGE: u32 = 14;
pub const NOTHING_THERE: u32 = 97;

/// The most slices that a function reads, and that it writes.
const READ_SLICES: usize = 3;
const WRITTEN_SLICES: usize = 4;

/// The arguments of one call.
#[derive(Clone, Default)]
pub struct Case {
    /// In the order of the function's arguments; a double is its bits.
    pub numbers: [u64; NUMBERS],
    /// The slices that are read; a double is its bits.
    pub ins: [Vec<u64>; READ_SLICES],
    /// The lengths of the slices that are written.
    pub lengths: [usize; WRITTEN_SLICES],
    /// What the memory holds before the call follows from this.
    pub fill: u64,
}

/// A slice that is written, with what lies behind it.
#[derive(Clone, PartialEq)]
#[repr(align(8))]
pub struct Memory([u8; MEMORY_BYTES]);

pub type Memories = [Memory; WRITTEN_SLICES];

impl Memory {
    pub fn filled(fill: u64) -> Self {
        let mut memory = Memory([0; MEMORY_BYTES]);
        for (at, bytes) in memory.0.chunks_exact_mut(8).enumerate() {
            let word = fill.wrapping_mul(2 * at as u64 + 1);
            bytes.copy_from_slice(&word.to_le_bytes());
        }
        memory
    }

    pub fn pointer<T>(&mut self) -> *mut T {
        self.0.as_mut_ptr().cast()
    }

    /// Writes the low `width` bytes of a value as the element `at`.
    pub fn put(&mut self, width: usize, at: usize, value: u64) {
        self.0[width * at..][..width].copy_from_slice(&value.to_le_bytes()[..width]);
    }

    pub fn get(&self, width: usize, at: usize) -> u64 {
        let mut bytes = [0; 8];
        bytes[..width].copy_from_slice(&self.0[width * at..][..width]);
        u64::from_le_bytes(bytes)
    }
}

/// What a call returns and leaves in memory.
#[derive(Clone, PartialEq)]
pub struct Reply {
    pub number: u32,
    pub memories: Memories,
}

/// What an argument may be: the shrinking and the report go by it.
#[derive(Clone, Copy, PartialEq)]
pub enum Sort {
    /// Answered 14 above this.
    UpTo(u64),
    BitRate,
    SampleRate,
    Whole,
    Double,
}

pub struct Argument {
    pub name: &'static str,
    pub sort: Sort,
}

/// A slice that is read: what an element may be, its bytes, and how many there must be.
pub struct In {
    pub name: &'static str,
    pub sort: Sort,
    pub width: usize,
    pub count: usize,
}

impl In {
    /// No element must be there: how many there are belongs to the input, and is drawn with them.
    pub fn has_any_length(&self) -> bool {
        self.count == 0
    }
}

pub const fn doubles(count: usize) -> In {
    In {
        name: "doubles",
        sort: Sort::Double,
        width: 8,
        count,
    }
}

/// A slice that is written: the bytes of an element and how many there must be.
pub struct Out {
    pub name: &'static str,
    pub width: usize,
    pub count: usize,
}

pub type Call = fn(&Case, &mut Memories) -> u32;

/// A function of the library beside the Rust's.
pub struct Function {
    /// Without the prefix.
    pub name: &'static str,
    /// So many of a hundred cases.
    pub share: usize,
    pub arguments: &'static [Argument],
    pub ins: &'static [In],
    pub outs: &'static [Out],
    /// Draws the numbers, and as many elements as there must be.
    pub draw: fn(&mut Case, &mut Random),
    pub library: Call,
    /// Asked only where no slice is short and nothing is out of range.
    pub rust: Call,
}

impl Function {
    pub fn draw_case(&self, case: &mut Case, random: &mut Random) {
        case.fill = random.next();
        case.ins.iter_mut().for_each(Vec::clear);
        (self.draw)(case, random);
        self.draw_lengths(case, random);
        if !self.arguments.is_empty() && random.one_in(24) {
            self.leave_range(case, random);
        }
    }

    /// At times a slice is short, at times longer than it must be.
    fn draw_lengths(&self, case: &mut Case, random: &mut Random) {
        for (length, out) in case.lengths.iter_mut().zip(self.outs) {
            *length = draw_length(out.count, random);
        }
        for (slice, read) in case.ins.iter_mut().zip(self.ins) {
            if !read.has_any_length() {
                let spare = random.next() >> (64 - 8 * read.width);
                slice.resize(draw_length(read.count, random), spare);
            }
        }
    }

    /// Puts an element that is read, or else an argument, above what it may be.
    fn leave_range(&self, case: &mut Case, random: &mut Random) {
        for (slice, read) in case.ins.iter_mut().zip(self.ins) {
            if let Sort::UpTo(last) = read.sort
                && !slice.is_empty()
                && random.one_in(2)
            {
                let at = random.below(slice.len() as u64) as usize;
                slice[at] = above(last, random);
                return;
            }
        }
        let at = random.below(self.arguments.len() as u64) as usize;
        if let Sort::UpTo(last) = self.arguments[at].sort {
            case.numbers[at] = above(last, random);
        }
    }

    /// Whether the arguments are looked at: no slice is short and nothing is out of range.
    pub fn is_read(&self, case: &Case) -> bool {
        !self.is_short(case) && !self.is_out_of_range(case)
    }

    fn is_short(&self, case: &Case) -> bool {
        let mut ins = case.ins.iter().zip(self.ins);
        let mut outs = case.lengths.iter().zip(self.outs);
        ins.any(|(slice, read)| slice.len() < read.count)
            || outs.any(|(&length, out)| length < out.count)
    }

    fn is_out_of_range(&self, case: &Case) -> bool {
        let above = |sort, number| matches!(sort, Sort::UpTo(last) if number > last);
        let mut arguments = self.arguments.iter().zip(case.numbers);
        let mut ins = case.ins.iter().zip(self.ins);
        arguments.any(|(argument, number)| above(argument.sort, number))
            || ins.any(|(slice, read)| slice[..read.count].iter().any(|&n| above(read.sort, n)))
    }

    /// What is right: the Rust's answer, with the library's own numbers for what it cannot be asked.
    pub fn expected(&self, case: &Case) -> Reply {
        reply(case, |case, memories| {
            if self.is_short(case) {
                SHORT_SLICE
            } else if self.is_out_of_range(case) {
                OUT_OF_RANGE
            } else {
                (self.rust)(case, memories)
            }
        })
    }

    pub fn answered(&self, case: &Case) -> Reply {
        reply(case, self.library)
    }
}

/// A byte above this.
fn above(last: u64, random: &mut Random) -> u64 {
    match random.below(3) {
        0 => last + 1,
        1 => u8::MAX.into(),
        _ => last + 1 + random.below(u64::from(u8::MAX) - last),
    }
}

fn draw_length(count: usize, random: &mut Random) -> usize {
    match random.below(64) {
        0 => count - 1,
        1 => random.below(count as u64) as usize,
        2..=17 => count + 1 + random.below(MOST_SPARE) as usize,
        _ => count,
    }
}

/// The memory before the call.
pub fn untouched(case: &Case) -> Memories {
    let (one, other) = (case.fill, case.fill.rotate_left(32));
    [one, !one, other, !other].map(Memory::filled)
}

fn reply(case: &Case, call: impl Fn(&Case, &mut Memories) -> u32) -> Reply {
    let mut memories = untouched(case);
    let number = call(case, &mut memories);
    Reply { number, memories }
}

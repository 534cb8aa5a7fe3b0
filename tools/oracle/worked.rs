//! Headers whose budgets were worked out by hand, records whose bits were, bytes whose records were,
//! and records that were checked or spelled by hand, with what is expected.

use crate::heads::Head;

/// 48000 Hz, single, 32000 bit/s, CRC, no padding.
pub const SMALL: Head = [0, 32_000, 48_000, 0, 0, 3, 0];

/// 44100 Hz, stereo, 192000 bit/s, no CRC or padding.
pub const STEREO: Head = [0, 192_000, 44_100, 0, 1, 0, 0];

/// 48000 Hz, single, no CRC or padding: free format, whose frame has no bits.
pub const FREE: Head = [0, 0, 48_000, 0, 1, 3, 0];

/// What the budget is.
pub const ACCEPTED: [(&str, Head); 6] = [
    (
        "48000 Hz, single, 32000 bit/s, CRC, no padding: B2c, cb 768, fixed 74",
        SMALL,
    ),
    (
        "44100 Hz, stereo, 192000 bit/s, no CRC or padding: B2b, 626 bytes, fixed 220",
        STEREO,
    ),
    (
        "the same in joint stereo with bound 4: fixed 142",
        [0, 192_000, 44_100, 0, 1, 1, 0],
    ),
    (
        "24000 Hz, stereo, 144000 bit/s, with LSF: B1Lsf, 864 bytes, fixed 182",
        [1, 144_000, 24_000, 0, 1, 0, 0],
    ),
    (
        "48000 Hz, stereo, 384000 bit/s, without LSF: B2a, 1152 bytes, fixed 208",
        [0, 384_000, 48_000, 0, 1, 0, 0],
    ),
    (
        "48000 Hz, single, free format: accepted, B2a, cb 0, fixed 120",
        FREE,
    ),
];

/// What the number is, of a budget and of all that needs one.
pub const REFUSED: [(&str, Head); 11] = [
    (
        "44100 Hz, single, 384000 bit/s, on the ladder: answer 1",
        [0, 384_000, 44_100, 0, 1, 3, 0],
    ),
    (
        "48000 Hz, stereo, 32000 bit/s, on the ladder: answer 1",
        [0, 32_000, 48_000, 0, 1, 0, 0],
    ),
    (
        "sample rate 0, 32000 bit/s, with LSF: answer 2",
        [1, 32_000, 0, 0, 1, 3, 0],
    ),
    (
        "sample rate 0, 32000 bit/s, without LSF: answer 1",
        [0, 32_000, 0, 0, 1, 3, 0],
    ),
    (
        "44100 Hz, stereo, 193000 bit/s: answer 16",
        [0, 193_000, 44_100, 0, 1, 0, 0],
    ),
    (
        "48000 Hz, single, 64999 bit/s: answer 16",
        [0, 64_999, 48_000, 0, 1, 3, 0],
    ),
    (
        "48000 Hz, single, 33000 bit/s: answer 16",
        [0, 33_000, 48_000, 0, 1, 3, 0],
    ),
    (
        "48000 Hz, stereo, 144000 bit/s, without LSF: answer 16",
        [0, 144_000, 48_000, 0, 1, 0, 0],
    ),
    (
        "24000 Hz, stereo, 384000 bit/s, with LSF: answer 16",
        [1, 384_000, 24_000, 0, 1, 0, 0],
    ),
    (
        "sample rate 0, 33000 bit/s, with LSF: answer 16, not 2",
        [1, 33_000, 0, 0, 1, 3, 0],
    ),
    (
        "sample rate 0, 33000 bit/s, without LSF: answer 16, not 1",
        [0, 33_000, 0, 0, 1, 3, 0],
    ),
];

/// 48000 Hz, joint, bound 4, 192000 bit/s, no CRC or padding: table B2a.
const JOINT: Head = [0, 192_000, 48_000, 0, 1, 1, 0];

/// A record of side information with what is not 0 in it.
pub struct Worked {
    pub words: &'static str,
    pub head: Head,
    /// Slot and steps.
    pub steps: &'static [(usize, u64)],
    /// Slot, scfsi and its three indices.
    pub parts: &'static [(usize, u64, [u64; 3])],
}

const fn small(
    words: &'static str,
    steps: &'static [(usize, u64)],
    parts: &'static [(usize, u64, [u64; 3])],
) -> Worked {
    Worked {
        words,
        head: SMALL,
        steps,
        parts,
    }
}

const fn joint(
    words: &'static str,
    steps: &'static [(usize, u64)],
    parts: &'static [(usize, u64, [u64; 3])],
) -> Worked {
    Worked {
        words,
        head: JOINT,
        steps,
        parts,
    }
}

/// What is written. B2c has 26 bits of allocation in one channel, B2a with bound 4 has 104.
pub const WRITTEN: [Worked; 12] = [
    small(
        "48000 Hz, single, 32000 bit/s, 3 steps in subband 0, scfsi 10, index 5: 34 bits, \
         the bytes 16 0 0 33 64",
        &[(0, 3)],
        &[(0, 2, [5, 5, 5])],
    ),
    small(
        "the same with scfsi 11 and the indices 5 9 9: 40 bits, the bytes 16 0 0 49 73",
        &[(0, 3)],
        &[(0, 3, [5, 9, 9])],
    ),
    small(
        "4 steps in subband 8 and in channel 1, and index 63 there: 26 bits, all 0",
        &[(8, 4), (32, 4)],
        &[(8, 3, [63, 63, 63]), (32, 3, [63, 63, 63])],
    ),
    joint(
        "48000 Hz, joint, bound 4, 192000 bit/s, 5 steps in subband 4, scfsi 10, indices 1 and 2: \
         120 bits, byte 4 is 32, bytes 13 and 14 are 160 and 66, the rest 0",
        &[(4, 5), (36, 5)],
        &[(4, 2, [1, 1, 1]), (36, 2, [2, 2, 2])],
    ),
    joint(
        "3 and 5 steps in subband 3, below the bound, scfsi 10: 120 bits",
        &[(3, 3), (35, 5)],
        &[(3, 2, [0, 0, 0]), (35, 2, [0, 0, 0])],
    ),
    joint(
        "4 steps in subband 3, 3 and 5 in subband 4: answer 7",
        &[(3, 4), (4, 3), (36, 5)],
        &[],
    ),
    joint(
        "3 and 5 steps in subband 4, 4 in subband 5: answer 6",
        &[(4, 3), (36, 5), (5, 4), (37, 4)],
        &[],
    ),
    joint(
        "4 and 3 steps in subband 4: answer 6, not 7",
        &[(4, 4), (36, 3)],
        &[],
    ),
    joint(
        "3 and 4 steps in subband 4: answer 6, not 7",
        &[(4, 3), (36, 4)],
        &[],
    ),
    joint(
        "4 steps in both channels of subband 4, index 63 in subband 0: answer 7, not 8",
        &[(0, 3), (4, 4), (36, 4)],
        &[(0, 0, [63, 0, 0])],
    ),
    joint(
        "index 63 in subband 0, which has no steps: 104 bits, all 0",
        &[],
        &[(0, 0, [63, 63, 63])],
    ),
    joint(
        "3 steps in subband 0, scfsi 10 and the indices 0 63 0: answer 8, though 63 is not sent",
        &[(0, 3)],
        &[(0, 2, [0, 63, 0])],
    ),
];

/// What is read of a slice; 26 and 104 bits of allocation as above, at 44100 Hz 188.
pub const READ: [(&str, Head, &[u8]); 17] = [
    (
        "44100 Hz, stereo, 192000 bit/s, the empty slice: answer 9",
        STEREO,
        &[],
    ),
    ("24 bytes 0: 188 bits, nothing has steps", STEREO, &[0; 24]),
    ("23 bytes 0: answer 9", STEREO, &[0; 23]),
    (
        "48000 Hz, single, 32000 bit/s, 4 bytes 0: 26 bits, nothing has steps",
        SMALL,
        &[0; 4],
    ),
    ("3 bytes 0: answer 9", SMALL, &[0; 3]),
    (
        "3 steps in subband 0, scfsi 10, index 5: 34 bits, the indices 5 5 5",
        SMALL,
        &[16, 0, 0, 33, 64],
    ),
    (
        "scfsi 11 and the indices 5 and 9: 40 bits, the indices 5 9 9",
        SMALL,
        &[16, 0, 0, 49, 73],
    ),
    (
        "scfsi 01 and the same: 40 bits, the indices 5 5 9",
        SMALL,
        &[16, 0, 0, 17, 73],
    ),
    (
        "scfsi 00 and the indices 5, 9 and 62: 46 bits, these indices",
        SMALL,
        &[16, 0, 0, 1, 73, 248],
    ),
    (
        "scfsi 00, 5, 9 and 63: answer 10",
        SMALL,
        &[16, 0, 0, 1, 73, 252],
    ),
    (
        "scfsi 00, 5, 9 and the end: answer 9",
        SMALL,
        &[16, 0, 0, 1, 73],
    ),
    (
        "scfsi 00, 5, 63 and the end: answer 10, not 9",
        SMALL,
        &[16, 0, 0, 1, 127],
    ),
    (
        "scfsi 00, 63, 0 and the end: answer 10, not 9",
        SMALL,
        &[16, 0, 0, 15, 192],
    ),
    ("scfsi 10 and 63: answer 10", SMALL, &[16, 0, 0, 47, 192]),
    (
        "scfsi 10 and four ones of an index: answer 9",
        SMALL,
        &[16, 0, 0, 47],
    ),
    (
        "48000 Hz, joint, bound 4, 192000 bit/s, 5 steps in both channels of subband 4, scfsi 10, \
         the indices 1 and 2: 120 bits",
        JOINT,
        &[0, 0, 0, 0, 32, 0, 0, 0, 0, 0, 0, 0, 0, 160, 66],
    ),
    (
        "the same, its second index 63: answer 10",
        JOINT,
        &[0, 0, 0, 0, 32, 0, 0, 0, 0, 0, 0, 0, 0, 160, 127],
    ),
];

/// What the check of a record answers. B2c has 8 subbands, B2a has 27, of which the bound leaves 4 to
/// each channel.
pub const CHECKED: [Worked; 26] = [
    small(
        "48000 Hz, single, 32000 bit/s, scfsi 10 and the indices 1 2 3 in subband 0, which has no \
         steps: passes",
        &[],
        &[(0, 2, [1, 2, 3])],
    ),
    small(
        "3 steps in subband 0, scfsi 00 and the indices 1 2 3: passes",
        &[(0, 3)],
        &[(0, 0, [1, 2, 3])],
    ),
    small(
        "scfsi 01 and the indices 5 5 9: passes",
        &[(0, 3)],
        &[(0, 1, [5, 5, 9])],
    ),
    small(
        "scfsi 01 and 5 9 9: answer 18 at 0 0",
        &[(0, 3)],
        &[(0, 1, [5, 9, 9])],
    ),
    small(
        "scfsi 11 and 5 9 9: passes",
        &[(0, 3)],
        &[(0, 3, [5, 9, 9])],
    ),
    small(
        "scfsi 11 and 5 5 9: answer 18 at 0 0",
        &[(0, 3)],
        &[(0, 3, [5, 5, 9])],
    ),
    small(
        "scfsi 10 and 5 5 5: passes",
        &[(0, 3)],
        &[(0, 2, [5, 5, 5])],
    ),
    small(
        "scfsi 10 and 5 5 9: answer 18 at 0 0",
        &[(0, 3)],
        &[(0, 2, [5, 5, 9])],
    ),
    small(
        "scfsi 10 and 9 5 9: answer 18 at 0 0",
        &[(0, 3)],
        &[(0, 2, [9, 5, 9])],
    ),
    small(
        "4 steps in subband 7, which its row lacks, scfsi 10 and three times 63: passes",
        &[(7, 4)],
        &[(7, 2, [63, 63, 63])],
    ),
    small("3 steps in subband 8: answer 17 at 8 0", &[(8, 3)], &[]),
    small(
        "3 steps in channel 1 of subband 0: answer 17 at 0 1",
        &[(32, 3)],
        &[],
    ),
    small(
        "3 steps in both channels of subband 0, scfsi 01 and 5 9 9 in channel 0: answer 18 at 0 0, \
         not 17",
        &[(0, 3), (32, 3)],
        &[(0, 1, [5, 9, 9])],
    ),
    small(
        "3 steps in channel 1 of subband 0 and in subband 1, scfsi 01 and 5 9 9 there: answer 17 \
         at 0 1, not 18",
        &[(32, 3), (1, 3)],
        &[(1, 1, [5, 9, 9])],
    ),
    joint(
        "48000 Hz, joint, bound 4, 192000 bit/s, 3 and 5 steps in subband 3: passes",
        &[(3, 3), (35, 5)],
        &[],
    ),
    joint(
        "3 and 5 steps in subband 4: answer 6 at 4 0",
        &[(4, 3), (36, 5)],
        &[],
    ),
    joint(
        "5 steps in channel 1 of subband 26 alone: answer 6 at 26 0",
        &[(58, 5)],
        &[],
    ),
    joint(
        "5 steps in channel 1 of subband 27 alone: answer 17 at 27 1",
        &[(59, 5)],
        &[],
    ),
    joint(
        "3 and 5 steps in subband 4, scfsi 01 and 5 9 9 in its channel 0: answer 6 at 4 0, not 18",
        &[(4, 3), (36, 5)],
        &[(4, 1, [5, 9, 9])],
    ),
    joint(
        "3 and 5 steps in subband 4, scfsi 01 and 5 9 9 in its channel 1: answer 6 at 4 0, not 18",
        &[(4, 3), (36, 5)],
        &[(36, 1, [5, 9, 9])],
    ),
    joint(
        "scfsi 01 and 5 9 9 in channel 1 of subband 3, 3 and 5 steps in subband 4: answer 18 at 3 \
         1, not 6",
        &[(35, 3), (4, 3), (36, 5)],
        &[(35, 1, [5, 9, 9])],
    ),
    joint(
        "3 steps in both channels of subband 4, scfsi 01 and 5 9 9 in channel 1, 3 and 5 steps in \
         subband 5: answer 18 at 4 1, not 6",
        &[(4, 3), (36, 3), (5, 3), (37, 5)],
        &[(36, 1, [5, 9, 9])],
    ),
    joint(
        "3 and 5 steps in subband 26, 3 in subband 31: answer 6 at 26 0, not 17",
        &[(26, 3), (58, 5), (31, 3)],
        &[],
    ),
    joint(
        "3 steps in subband 31 and in channel 1 of subband 0, scfsi 10 and 5 5 9 there: answer 18 \
         at 0 1, not 17",
        &[(31, 3), (32, 3)],
        &[(32, 2, [5, 5, 9])],
    ),
    joint(
        "scfsi 11 and 5 5 9 in subband 1 and in channel 1 of subband 0: answer 18 at 0 1",
        &[(1, 3), (32, 3)],
        &[(1, 3, [5, 5, 9]), (32, 3, [5, 5, 9])],
    ),
    joint(
        "3 steps in channel 1 of subband 31: answer 17 at 31 1",
        &[(63, 3)],
        &[],
    ),
];

/// What is written in one form; the bits of allocation are those of what is written above.
pub const SPELLED: [Worked; 25] = [
    small(
        "48000 Hz, single, 32000 bit/s, 3 steps in subband 0, scfsi 00 and the indices 5 5 5: scfsi \
         10 is sent, 34 bits, the bytes 16 0 0 33 64",
        &[(0, 3)],
        &[(0, 0, [5, 5, 5])],
    ),
    small(
        "the same with scfsi 01: the same bytes",
        &[(0, 3)],
        &[(0, 1, [5, 5, 5])],
    ),
    small(
        "with scfsi 10: the same bytes",
        &[(0, 3)],
        &[(0, 2, [5, 5, 5])],
    ),
    small(
        "with scfsi 11, and in subband 1, which has no steps, with scfsi 10 and 1 2 255: the same \
         bytes",
        &[(0, 3)],
        &[(0, 3, [5, 5, 5]), (1, 2, [1, 2, 255])],
    ),
    small(
        "scfsi 00 and 5 5 9: scfsi 01 is sent, 40 bits, the bytes 16 0 0 17 73",
        &[(0, 3)],
        &[(0, 0, [5, 5, 9])],
    ),
    small(
        "scfsi 01 and 5 5 9: the same bytes",
        &[(0, 3)],
        &[(0, 1, [5, 5, 9])],
    ),
    small(
        "scfsi 00 and 5 9 9: scfsi 11 is sent, 40 bits, the bytes 16 0 0 49 73",
        &[(0, 3)],
        &[(0, 0, [5, 9, 9])],
    ),
    small(
        "scfsi 11 and 5 9 9: the same bytes",
        &[(0, 3)],
        &[(0, 3, [5, 9, 9])],
    ),
    small(
        "scfsi 00 and 5 9 5: scfsi 00 is sent, 46 bits, the bytes 16 0 0 1 73 20",
        &[(0, 3)],
        &[(0, 0, [5, 9, 5])],
    ),
    small(
        "scfsi 00 and 5 9 62: scfsi 00 is sent, 46 bits, the bytes 16 0 0 1 73 248",
        &[(0, 3)],
        &[(0, 0, [5, 9, 62])],
    ),
    small(
        "scfsi 10 and three times 63 in subband 0, which has no steps: 26 bits, all 0",
        &[],
        &[(0, 2, [63, 63, 63])],
    ),
    small(
        "scfsi 01 and 5 9 9: answer 18",
        &[(0, 3)],
        &[(0, 1, [5, 9, 9])],
    ),
    small(
        "scfsi 10 and 5 9 5: answer 18",
        &[(0, 3)],
        &[(0, 2, [5, 9, 5])],
    ),
    small("3 steps in subband 8: answer 17", &[(8, 3)], &[]),
    small(
        "scfsi 00 and three times 63: answer 8",
        &[(0, 3)],
        &[(0, 0, [63, 63, 63])],
    ),
    small(
        "scfsi 10 and 0 63 0: answer 18, not 8",
        &[(0, 3)],
        &[(0, 2, [0, 63, 0])],
    ),
    small(
        "4 steps in subband 0, 3 in subband 7, scfsi 01 and 5 9 9 there: answer 18, not 7",
        &[(0, 4), (7, 3)],
        &[(7, 1, [5, 9, 9])],
    ),
    small(
        "4 steps in subband 0, 3 in subband 31: answer 17, not 7",
        &[(0, 4), (31, 3)],
        &[],
    ),
    small(
        "3 steps in subband 0, scfsi 10 and 63, 4 steps in subband 7: answer 7, not 8",
        &[(0, 3), (7, 4)],
        &[(0, 2, [63, 63, 63])],
    ),
    small(
        "3 steps in subband 0, scfsi 10 and 63, 3 steps in channel 1: answer 17, not 8",
        &[(0, 3), (32, 3)],
        &[(0, 2, [63, 63, 63])],
    ),
    joint(
        "48000 Hz, joint, bound 4, 192000 bit/s, 5 steps in subband 4, scfsi 00 and 1 1 1 in channel \
         0, scfsi 01 and 2 2 2 in channel 1: 120 bits, byte 4 is 32, bytes 13 and 14 are 160 and \
         66, the rest 0",
        &[(4, 5), (36, 5)],
        &[(4, 0, [1, 1, 1]), (36, 1, [2, 2, 2])],
    ),
    joint(
        "3 steps in subband 0, scfsi 00, 5 5 5 in channel 0 and 5 9 9 in channel 1: 126 bits, byte 0 \
         is 17, bytes 13 to 15 are 177, 69 and 36, the rest 0",
        &[(0, 3), (32, 3)],
        &[(0, 0, [5, 5, 5]), (32, 0, [5, 9, 9])],
    ),
    joint(
        "4 steps in subband 3, 3 and 5 in subband 4: answer 6, not 7",
        &[(3, 4), (4, 3), (36, 5)],
        &[],
    ),
    joint(
        "3 and 5 steps in subband 26, index 63 in subband 0: answer 6, not 8",
        &[(0, 3), (26, 3), (58, 5)],
        &[(0, 0, [63, 0, 0])],
    ),
    joint(
        "4 steps in both channels of subband 4, index 63 in subband 0: answer 7, not 8",
        &[(0, 3), (4, 4), (36, 4)],
        &[(0, 0, [63, 0, 0])],
    ),
];

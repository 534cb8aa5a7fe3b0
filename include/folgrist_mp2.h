/*
 * Folgrist: the decisions of an MPEG Audio Layer II encoder (ISO/IEC 11172-3, ISO/IEC 13818-3), from subband samples to sample codes, and
 * the side information of its frames, written, read and checked.
 *
 * Link with libfolgrist_mp2.a (`bash examples/library.sh` builds it in target/staticlib). The library keeps no state and uses no heap; it calls
 * nothing but memcpy and memset, and takes some 20 KB of stack. Calls from several threads do not disturb one another.
 *
 * Floating point. Call it in the default environment: rounding to nearest, subnormals neither flushed nor read as zero (no FTZ, no DAZ).
 * Any double may be handed in, NaN and infinities included.
 *
 * Answers. A function returns the number of its answer, FOLGRIST_ACCEPTED or one of the others below, unless it is said to return a value.
 *
 * Slices. An array is two arguments, a pointer and its length in elements. A length below the one that the function's comment names is
 * answered FOLGRIST_SHORT_SLICE. A longer array is fine: what is behind the named length is neither read nor written. The pointer has to be
 * aligned and valid for the length given, and an array that is written may not overlap another. The pointer may not be null, even of length 0.
 *
 * Order. FOLGRIST_SHORT_SLICE is asked first, then FOLGRIST_BAD_ARGUMENT, then FOLGRIST_NOTHING_THERE; with these three nothing is written.
 * Then FOLGRIST_RATE_OFF_LADDER, and then the others by their numbers; but FOLGRIST_SHARED_STEPS_DIFFER and FOLGRIST_STEPS_NOT_IN_ROW are asked
 * together, field by field in the order of the bitstream, and so are FOLGRIST_SIDE_INFO_CUT and FOLGRIST_RESERVED_INDEX. folgrist_check_record asks
 * FOLGRIST_STEPS_NOT_CARRIED, FOLGRIST_SHARED_STEPS_DIFFER and FOLGRIST_SHARED_INDICES_DIFFER together, slot by slot, and so does
 * folgrist_write_side_info_canonical, which asks FOLGRIST_STEPS_NOT_IN_ROW and then FOLGRIST_INDEX_NOT_TABLED behind them.
 * With any other number everything is written: beside a number that is not 0 stand zeros, but for what the comment says.
 *
 * Header. Seven arguments, the same in each function that has them:
 *   lsf             0, or 1 for the low sampling frequencies of ISO/IEC 13818-3
 *   bit_rate        in bit/s; 0 is free format, whose frame counts as 0 bytes (1 with padding), so that folgrist_allocate_bits answers 4
 *                   wherever there is a table and the sample rate is not 0. Any other that is not on the header's ladder, 1000 times one of
 *                   32, 48, 56, 64, 80, 96, 112, 128, 160, 192, 224, 256, 320, 384 or, with lsf 1, of
 *                   8, 16, 24, 32, 40, 48, 56, 64, 80, 96, 112, 128, 144, 160, is answered FOLGRIST_RATE_OFF_LADDER; but
 *                   folgrist_select_table and folgrist_frame_size_bytes take any
 *   sample_rate     in Hz
 *   padding         0, or 1 for one more byte
 *   protection_bit  as on the wire: 0 where a CRC follows the header, 1 where none does
 *   mode            enum folgrist_mode
 *   mode_extension  enum folgrist_mode_extension; read in joint stereo only, but checked in every mode
 * No rate is a bad argument. A flag above 1, a mode or an extension above 3 is answered FOLGRIST_BAD_ARGUMENT.
 *
 * Slots. A slot is one channel of one subband, numbered 32 * channel + subband: 64 slots, those of channel 0 first.
 */
#ifndef FOLGRIST_MP2_H
#define FOLGRIST_MP2_H

#include <stddef.h>
#include <stdint.h>

#ifdef __cplusplus
extern "C" {
#endif

/* The version of what is declared here; folgrist_version() has that of the archive. A new function, or a change of a signature or of an
 * answer, raises the minor number. 1.1: FOLGRIST_RATE_OFF_LADDER. 1.2: folgrist_write_side_info. 1.3: folgrist_read_side_info. 1.4:
 * folgrist_check_record. 1.5: folgrist_write_side_info_canonical. */
#define FOLGRIST_VERSION_MAJOR 1
#define FOLGRIST_VERSION_MINOR 5
#define FOLGRIST_VERSION_PATCH 0

/* The numbers of answers. */
enum folgrist_answer {
    FOLGRIST_ACCEPTED = 0,
    FOLGRIST_NO_TABLE = 1,               /* no allocation table covers the header's rates */
    FOLGRIST_ZERO_SAMPLE_RATE = 2,       /* the sample rate is 0 */
    FOLGRIST_FRAME_TOO_LARGE = 3,        /* never given since 1.1: at a rate on the ladder the frame's bits fit 32 bits */
    FOLGRIST_INSUFFICIENT_FRAME = 4,     /* the fixed bits and the caller's are more than the frame has */
    FOLGRIST_NO_CLASS = 5,               /* the steps are none of the seventeen classes of quantization */
    FOLGRIST_SHARED_STEPS_DIFFER = 6,    /* an allocation field serves both channels, and their steps differ */
    FOLGRIST_STEPS_NOT_IN_ROW = 7,       /* the steps of a field are not in its subband's row */
    FOLGRIST_INDEX_NOT_TABLED = 8,       /* a scalefactor index above 62 where something is allocated */
    FOLGRIST_SIDE_INFO_CUT = 9,          /* a field of the side information passes the end of the bytes */
    FOLGRIST_RESERVED_INDEX = 10,        /* the bytes hold scalefactor index 63, which is reserved */
    FOLGRIST_BAD_ARGUMENT = 14,          /* a flag above 1, a mode or extension above 3, a table above 4, a scfsi above 3 */
    FOLGRIST_RATE_OFF_LADDER = 16,       /* the bit rate is neither 0 nor on the header's ladder */
    FOLGRIST_STEPS_NOT_CARRIED = 17,     /* steps in a slot that the frame does not carry */
    FOLGRIST_SHARED_INDICES_DIFFER = 18, /* granules share an index by their scfsi, and their indices differ */
    FOLGRIST_NOTHING_THERE = 97,         /* a place outside the row, or steps that the row does not have */
    FOLGRIST_SHORT_SLICE = 98            /* an array is shorter than the function asks */
};

enum folgrist_mode {
    FOLGRIST_STEREO = 0,
    FOLGRIST_JOINT_STEREO = 1,
    FOLGRIST_DUAL_CHANNEL = 2,
    FOLGRIST_SINGLE_CHANNEL = 3
};

/* In joint stereo: from which subband on the channels share their samples. */
enum folgrist_mode_extension {
    FOLGRIST_BOUND_4 = 0,
    FOLGRIST_BOUND_8 = 1,
    FOLGRIST_BOUND_12 = 2,
    FOLGRIST_BOUND_16 = 3
};

/* Tables 3-B.2a to d of ISO/IEC 11172-3, and Table B.1 of ISO/IEC 13818-3. */
enum folgrist_table {
    FOLGRIST_TABLE_B2A = 0,
    FOLGRIST_TABLE_B2B = 1,
    FOLGRIST_TABLE_B2C = 2,
    FOLGRIST_TABLE_B2D = 3,
    FOLGRIST_TABLE_B1_LSF = 4
};

/* Scalefactor selection information: its two-bit code. */
enum folgrist_scfsi {
    FOLGRIST_THREE_PER_GRANULE = 0, /* three indices, one for each granule */
    FOLGRIST_SHARE_01_THEN_2 = 1,   /* two: granules 0 and 1 share, then granule 2 */
    FOLGRIST_SHARE_ALL = 2,         /* one for all three */
    FOLGRIST_SHARE_0_THEN_12 = 3    /* two: granule 0, then 1 and 2 share */
};

/* Returns a value: the version of the archive, 10000 * major + 100 * minor + patch. */
uint32_t folgrist_version(void);

/* ---- the frame ---- */

/* The allocation table that the header selects. out, 1 element: the table.
 * Answers 0, 1 (out: 0), 14, 98. */
uint32_t folgrist_select_table(uint8_t lsf, uint32_t bit_rate, uint32_t sample_rate, uint8_t padding, uint8_t protection_bit, uint8_t mode,
                               uint8_t mode_extension, uint32_t *out, size_t out_len);

/* The length of the header's frame. out, 1 element: bytes.
 * Answers 0, 2, 14, 98. */
uint32_t folgrist_frame_size_bytes(uint8_t lsf, uint32_t bit_rate, uint32_t sample_rate, uint8_t padding, uint8_t protection_bit,
                                   uint8_t mode, uint8_t mode_extension, uint64_t *out, size_t out_len);

/* The bits of the frame that are spent before any sample is coded. out, 8 elements: the bits of the frame (cb), of the header (bhdr), of the
 * CRC (bcrc) and of the allocation fields (bbal); the number of subbands carried (sblimit); the subband from which on one allocation field
 * serves both channels (bound); the number of channels; the table.
 * Answers 0, 1, 2, 14, 16, 98. */
uint32_t folgrist_fixed_bit_budget(uint8_t lsf, uint32_t bit_rate, uint32_t sample_rate, uint8_t padding, uint8_t protection_bit,
                                   uint8_t mode, uint8_t mode_extension, uint32_t *out, size_t out_len);

/* The bits that the frame offers to samples and scalefactors beside banc ancillary bits. out, 1 element: bits, which may be below 0.
 * Answers 0, 1, 2, 14, 16, 98. */
uint32_t folgrist_available_data_bits(uint8_t lsf, uint32_t bit_rate, uint32_t sample_rate, uint8_t padding, uint8_t protection_bit,
                                      uint8_t mode, uint8_t mode_extension, uint32_t banc, int64_t *out, size_t out_len);

/* The bits with which every allocation field has a mask-to-noise ratio of at least 0 dB or stands at its top place. smr_db, 64 elements by
 * slot: signal-to-mask ratios in dB; those of subbands and channels that the frame does not carry are not read. A field that serves both
 * channels goes by the larger ratio, where a NaN beside a number yields the number; a NaN needs the top place. out, 1 element: bits.
 * Answers 0, 1, 2, 14, 16, 98. */
uint32_t folgrist_demand_bits(uint8_t lsf, uint32_t bit_rate, uint32_t sample_rate, uint8_t padding, uint8_t protection_bit, uint8_t mode,
                              uint8_t mode_extension, const double *smr_db, size_t smr_db_len, uint64_t *out, size_t out_len);

/* The bit allocation. banc: ancillary bits set aside. smr_db, 64 elements: as above. steps, 64 elements by slot: the number of quantization
 * steps, 0 where nothing is allocated; from the bound on both channels have those of their shared field. A field's first step is charged 20
 * bits for each channel that it serves besides its samples: scfsi and three scalefactors. out, 4 elements: the bits left; and beside number 4
 * the bits of the frame, the fixed ones and banc, which are 0 beside every other number.
 * Answers 0, 1, 2, 4, 14, 16, 98. */
uint32_t folgrist_allocate_bits(uint8_t lsf, uint32_t bit_rate, uint32_t sample_rate, uint8_t padding, uint8_t protection_bit, uint8_t mode,
                                uint8_t mode_extension, uint32_t banc, const double *smr_db, size_t smr_db_len, uint32_t *steps,
                                size_t steps_len, uint32_t *out, size_t out_len);

/* ---- the side information ---- */

/* The side information of the header's frame as bits: allocation, scfsi and scalefactors in the order of ISO/IEC 11172-3 2.4.1.6. Its record is
 * three arrays. steps, 64 elements by slot: as folgrist_allocate_bits writes them. scfsi, 64 elements by slot: enum folgrist_scfsi; a code above 3
 * is answered FOLGRIST_BAD_ARGUMENT in every slot. index, 192 elements, at 3 * slot + granule: scalefactor indices. Steps and indices of a
 * slot that the frame does not carry are not asked about, nor are indices where the steps are 0. bytes, 174 elements: the bits, most significant
 * first; behind the last of them all bits are 0. out, 1 element: the number of bits, 1388 at most.
 * Answers 0, 1, 2, 6, 7, 8, 14, 16, 98. */
uint32_t folgrist_write_side_info(uint8_t lsf, uint32_t bit_rate, uint32_t sample_rate, uint8_t padding, uint8_t protection_bit,
                                  uint8_t mode, uint8_t mode_extension, const uint32_t *steps, size_t steps_len, const uint8_t *scfsi,
                                  size_t scfsi_len, const uint8_t *index, size_t index_len, uint8_t *bytes, size_t bytes_len, uint32_t *out,
                                  size_t out_len);

/* The record of the side information that bytes start with. bytes, any number of elements, 0 too: from the first bit of the allocation on,
 * which follows the header, or its CRC where protection_bit is 0; most significant bit first. Nothing behind the bits used is looked at, nor is it asked whether they
 * fit the frame. steps and scfsi, 64 elements each by slot, and index, 192 elements, at 3 * slot + granule: the record, as above; granules
 * that share an index each have it. An idle slot, one without allocation or outside the frame, reads as 0 steps, FOLGRIST_THREE_PER_GRANULE
 * and indices 0. out, 1 element: the number of bits used, 1388 at most. What folgrist_write_side_info wrote comes back where the indices
 * agree with their scfsi, idle slots hold these values and steps outside the frame are 0.
 * Answers 0, 1, 2, 9, 10, 14, 16, 98. */
uint32_t folgrist_read_side_info(uint8_t lsf, uint32_t bit_rate, uint32_t sample_rate, uint8_t padding, uint8_t protection_bit,
                                 uint8_t mode, uint8_t mode_extension, const uint8_t *bytes, size_t bytes_len, uint32_t *steps,
                                 size_t steps_len, uint8_t *scfsi, size_t scfsi_len, uint8_t *index, size_t index_len, uint32_t *out,
                                 size_t out_len);

/* Whether a record hangs together in the header's frame. steps, scfsi and index: the record, as folgrist_write_side_info takes it. A slot that
 * the frame does not carry has to have 0 steps (17). Where an allocation field serves both channels, their steps have to be equal (6). Where
 * the frame carries a slot and its steps are not 0, granules that share an index by their scfsi have to have the same (18). The scfsi and the
 * indices of idle slots are free. The slots are asked by rising subband, channel 0 first, and each of them in the order 17, 6, 18. out, 2
 * elements: the subband and the channel of the first slot that fails, channel 0 beside 6; both are 0 unless the number is 17, 6 or 18. Steps
 * that the row does not have and indices above 62 are not asked about: folgrist_write_side_info answers these with 7 and 8.
 * Answers 0, 1, 2, 6, 14, 16, 17, 18, 98. */
uint32_t folgrist_check_record(uint8_t lsf, uint32_t bit_rate, uint32_t sample_rate, uint8_t padding, uint8_t protection_bit, uint8_t mode,
                               uint8_t mode_extension, const uint32_t *steps, size_t steps_len, const uint8_t *scfsi, size_t scfsi_len,
                               const uint8_t *index, size_t index_len, uint32_t *out, size_t out_len);

/* The side information of the header's frame in one form, for records that are compared byte by byte. steps, scfsi and index: the record, as
 * folgrist_write_side_info takes it. It is written as by that function, but each slot that has steps with the scfsi that sends the fewest
 * indices: FOLGRIST_SHARE_ALL where its three indices are equal, FOLGRIST_SHARE_01_THEN_2 or FOLGRIST_SHARE_0_THEN_12 where only the first two
 * or only the last two are, else FOLGRIST_THREE_PER_GRANULE. The indices stay as they are; folgrist_select_scfsi, which may change them, is
 * another choice. The scfsi given is asked about as folgrist_check_record asks, and not written. Two accepted records of one header have the
 * same bytes exactly where their steps are equal, and so are the indices of the slots that have steps. All that folgrist_check_record asks is
 * asked first; then 7 of every field, then 8 of every slot that has steps. bytes and out: as folgrist_write_side_info has them; never more bits
 * than that writes of the same record.
 * Answers 0, 1, 2, 6, 7, 8, 14, 16, 17, 18, 98. */
uint32_t folgrist_write_side_info_canonical(uint8_t lsf, uint32_t bit_rate, uint32_t sample_rate, uint8_t padding, uint8_t protection_bit,
                                            uint8_t mode, uint8_t mode_extension, const uint32_t *steps, size_t steps_len,
                                            const uint8_t *scfsi, size_t scfsi_len, const uint8_t *index, size_t index_len, uint8_t *bytes,
                                            size_t bytes_len, uint32_t *out, size_t out_len);

/* ---- the allocation tables ---- */

/* What a table says of a subband. out, 2 elements: how many subbands the table carries (sblimit), and the bits of the subband's allocation
 * field (nbal), 0 for a subband that the table does not carry.
 * Answers 0, 14, 98. */
uint32_t folgrist_table_limits(uint8_t table, uint64_t sb, uint32_t *out, size_t out_len);

/* The number of steps at a place of a subband's row; place 0 has 0 steps. out, 1 element: steps.
 * Answers 0, 14, 97 (the row has no such place), 98. */
uint32_t folgrist_nb_steps(uint8_t table, uint64_t sb, uint32_t index, uint32_t *out, size_t out_len);

/* The place of a subband's row that has these steps. out, 1 element: the place.
 * Answers 0, 14, 97 (the row does not have them), 98. */
uint32_t folgrist_allocation_index(uint8_t table, uint64_t sb, uint32_t steps, uint32_t *out, size_t out_len);

/* The class of quantization of a number of steps (Table 3-B.4). cd, 2 elements: the coefficients C and D. out, 4 elements: 1 where three
 * samples are grouped in one codeword, else 0; samples per codeword; bits per codeword; bits per sample.
 * Answers 0, 5, 98. */
uint32_t folgrist_class_of_quantization(uint32_t steps, double *cd, size_t cd_len, uint32_t *out, size_t out_len);

/* Returns a value: the bits of a subband's 36 samples in a frame, 0 where there is no class of so many steps. */
uint32_t folgrist_sample_bits_for(uint32_t steps);

/* The signal-to-noise ratio of a number of steps (Table C.5); less the signal-to-mask ratio it is the mask-to-noise ratio. out, 1 element: dB,
 * 0 for 0 steps.
 * Answers 0, 5 (neither 0 nor the steps of a class), 98. */
uint32_t folgrist_snr_db(uint32_t steps, double *out, size_t out_len);

/* ---- scalefactors ---- */

/* Returns a value: the last scalefactor index, 0 to 62, whose multiplier is at least max_abs; 0 where there is none, as for a NaN. */
uint8_t folgrist_pick_scalefactor_index(double max_abs);

/* The scalefactor index of a granule. samples, 12 elements; a NaN is skipped, so that twelve give 62; a magnitude above 2.0 gives 0. out, 1
 * element: the index.
 * Answers 0, 98. */
uint32_t folgrist_extract_scalefactor_index(const double *samples, size_t samples_len, uint8_t *out, size_t out_len);

/* The scalefactor indices of a frame, of one channel. samples, 1152 elements: 36 of each subband, those of subband 0 first. limit: how many
 * subbands are coded, where more than 32 are taken as 32; the others have index 62. out, 96 elements: the indices of the 32 subbands in granule 0, then in
 * granule 1, then in granule 2.
 * Answers 0, 98. */
uint32_t folgrist_compute_scalefactors(const double *samples, size_t samples_len, uint64_t limit, uint8_t *out, size_t out_len);

/* Which of a slot's three scalefactor indices a, b, c, one a granule, are used, and which are transmitted (Table C.4). out, 9 elements: the
 * three indices used; three flags, 1 where that one is transmitted; the scfsi; the classes, 1 to 5, of a - b and of b - c.
 * Answers 0, 98. */
uint32_t folgrist_select_scfsi(uint8_t a, uint8_t b, uint8_t c, uint8_t *out, size_t out_len);

/* ---- samples ---- */

/* The code of a sample, given divided by its scalefactor, in the class of a number of steps. out, 1 element: the code, 0 to steps - 1 where
 * the class is grouped, else 0 to 2^n - 1 with n bits per sample: at the top all ones, which names no step. Samples beyond the range get the
 * code at its end, an infinity too; a NaN gets 2^(n - 1).
 * Answers 0, 5, 98. */
uint32_t folgrist_quantize_sample(uint32_t steps, double sample, uint32_t *out, size_t out_len);

/* The codewords of three consecutive samples in the class of a number of steps. out, 5 elements: how many codewords, the bits of each, and
 * three places for them, 0 where not used. A grouped class has one codeword: first code + steps * second + steps * steps * third.
 * Answers 0, 5, 98. */
uint32_t folgrist_write_triplet(uint32_t steps, double a, double b, double c, uint32_t *out, size_t out_len);

#ifdef __cplusplus
}
#endif

#endif

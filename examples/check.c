/*
 * Calls every function of folgrist_mp2.h and checks what it returns and writes: with arguments that are good, refused and out of range, and with
 * arrays that are as long as asked, longer and shorter. What lies behind the elements that a function writes has to stay as it was, and beside
 * FOLGRIST_SHORT_SLICE, FOLGRIST_BAD_ARGUMENT and FOLGRIST_NOTHING_THERE all of it.
 *
 * The answers that are expected were found by hand or are those of the Rust program that the library is a port of.
 *
 * C99 and C++11. Run by examples/check.sh.
 */
#include <math.h>
#include <stdio.h>
#include <string.h>

#include "folgrist_mp2.h"

#define COUNT(a) (sizeof(a) / sizeof(a)[0])

/* What a function may be handed beside arrays; it takes some of these. */
struct arguments {
    uint8_t lsf;
    uint32_t bit_rate;
    uint32_t sample_rate;
    uint8_t padding;
    uint8_t protection_bit;
    uint8_t mode;
    uint8_t mode_extension;
    uint32_t banc;
    uint8_t table;
    uint64_t sb;
    uint32_t number; /* steps, or a place of a row */
    double samples[3];
    uint8_t indices[3];
    uint64_t limit;
};

/* The seven arguments of a header, in their order. */
#define HEADER(a) (a)->lsf, (a)->bit_rate, (a)->sample_rate, (a)->padding, (a)->protection_bit, (a)->mode, (a)->mode_extension

/* A function's arrays: one that is read, one that is written before `out`, and `out`; two more that are read, and two that are written. */
enum array { READ, FIRST, OUT, READ_2, READ_3, SECOND, THIRD, ARRAYS };

static double input[1160];

static union memory {
    uint8_t bytes[512];
    uint32_t words[128];
    uint64_t longs[64];
    int64_t integers[64];
    double doubles[64];
} first, second, third, out;

/* Elements behind those that a function asks for. */
#define SPARE 3

/* What the memory holds before a call. */
#define FILL 0xA5

/* The record of side information that is read, or that is expected. */
static struct side_info {
    uint32_t steps[64 + SPARE];
    uint8_t scfsi[64 + SPARE];
    uint8_t index[192 + SPARE];
} record;

/* The bytes of side information that are read: the first `count`. */
static struct {
    uint8_t bytes[200];
    size_t count;
} source;

/* What a call has to write into each array; null: nothing is written there. */
struct written {
    const void *first, *second, *third, *out;
};

struct function {
    const char *name;
    size_t needed[ARRAYS];
    size_t element[ARRAYS]; /* bytes */
    uint32_t (*call)(const struct arguments *a, const size_t *length);
};

/* ---- counting ---- */

static unsigned checks, failures, functions;
static unsigned checks_before, failures_before;

static void check(const char *name, const char *what, int good)
{
    checks++;
    if (!good) {
        failures++;
        printf("%s: %s is not as expected\n", name, what);
    }
}

/* The line of a function, behind its checks. */
static void done(const char *name)
{
    printf("%-28s %5u checks%s\n", name, checks - checks_before, failures == failures_before ? "" : ", FAILED");
    checks_before = checks;
    failures_before = failures;
    functions++;
}

/* ---- one call ---- */

/* 1 where the memory starts with the bytes expected, none of them where `expected` is null, and is as it was behind them. */
static int holds(const union memory *m, const void *expected, size_t count)
{
    size_t i;

    if (expected == NULL)
        count = 0;
    else if (memcmp(m->bytes, expected, count) != 0)
        return 0;
    for (i = count; i < sizeof m->bytes; i++)
        if (m->bytes[i] != FILL)
            return 0;
    return 1;
}

static void expect_at(const struct function *f, const struct arguments *a, const size_t *length, uint32_t number, const struct written *w)
{
    uint32_t answered;

    memset(&first, FILL, sizeof first);
    memset(&second, FILL, sizeof second);
    memset(&third, FILL, sizeof third);
    memset(&out, FILL, sizeof out);
    answered = f->call(a, length);
    check(f->name, "the number", answered == number);
    check(f->name, "the first array", holds(&first, w->first, f->needed[FIRST] * f->element[FIRST]));
    if (f->needed[SECOND] != 0)
        check(f->name, "the second array", holds(&second, w->second, f->needed[SECOND] * f->element[SECOND]));
    if (f->needed[THIRD] != 0)
        check(f->name, "the third array", holds(&third, w->third, f->needed[THIRD] * f->element[THIRD]));
    check(f->name, "out", holds(&out, w->out, f->needed[OUT] * f->element[OUT]));
}

/* ---- one question: with arrays as long as asked, longer, and each of them shorter ---- */

static void expect_written(const struct function *f, const struct arguments *a, uint32_t number, const struct written *w)
{
    static const struct written nothing = {NULL, NULL, NULL, NULL};
    size_t length[ARRAYS];
    int i;

    expect_at(f, a, f->needed, number, w);
    for (i = 0; i < ARRAYS; i++)
        length[i] = f->needed[i] + SPARE;
    expect_at(f, a, length, number, w);
    for (i = 0; i < ARRAYS; i++) {
        if (f->needed[i] == 0)
            continue;
        length[i] = f->needed[i] - 1;
        expect_at(f, a, length, FOLGRIST_SHORT_SLICE, &nothing);
        length[i] = 0;
        expect_at(f, a, length, FOLGRIST_SHORT_SLICE, &nothing);
        length[i] = f->needed[i] + SPARE;
    }
}

/* Of a function that writes more than one array before `out`: the same in each of them. */
static void expect(const struct function *f, const struct arguments *a, uint32_t number, const void *in_first, const void *in_out)
{
    const struct written w = {in_first, in_first, in_first, in_out};

    expect_written(f, a, number, &w);
}

/* ---- headers ---- */

/* 44100 Hz, stereo, 192000 bit/s, neither CRC nor padding. */
static struct arguments stereo(void)
{
    struct arguments a;

    memset(&a, 0, sizeof a);
    a.bit_rate = 192000;
    a.sample_rate = 44100;
    a.protection_bit = 1;
    a.mode = FOLGRIST_STEREO;
    a.mode_extension = FOLGRIST_BOUND_4;
    return a;
}

/* The same in joint stereo with bound 12, with CRC and padding. */
static struct arguments joint(void)
{
    struct arguments a = stereo();

    a.padding = 1;
    a.protection_bit = 0;
    a.mode = FOLGRIST_JOINT_STEREO;
    a.mode_extension = FOLGRIST_BOUND_12;
    return a;
}

/* 48000 Hz, single channel, 32000 bit/s, with CRC. */
static struct arguments mono(void)
{
    struct arguments a = stereo();

    a.bit_rate = 32000;
    a.sample_rate = 48000;
    a.protection_bit = 0;
    a.mode = FOLGRIST_SINGLE_CHANNEL;
    return a;
}

/* The same with 24000 Hz: LSF. */
static struct arguments low(void)
{
    struct arguments a = mono();

    a.lsf = 1;
    a.sample_rate = 24000;
    return a;
}

/* 44100 Hz, stereo, 193000 bit/s: off the ladder, and no table. */
static struct arguments odd(void)
{
    struct arguments a = stereo();

    a.bit_rate = 193000;
    return a;
}

/* 44100 Hz, stereo, 80000 bit/s: on the ladder, and no table. */
static struct arguments untabled(void)
{
    struct arguments a = stereo();

    a.bit_rate = 80000;
    return a;
}

/* LSF, 0 Hz. */
static struct arguments no_rate(void)
{
    struct arguments a = mono();

    a.lsf = 1;
    a.sample_rate = 0;
    return a;
}

/* LSF, 1 Hz: off the ladder, 144 * (2^32 - 1) bytes. */
static struct arguments large(void)
{
    struct arguments a = mono();

    a.lsf = 1;
    a.bit_rate = 0xFFFFFFFF;
    a.sample_rate = 1;
    return a;
}

/* Each argument that has a range, outside it. */
static void expect_bad_headers(const struct function *f)
{
    struct arguments bad[6];
    size_t i;

    for (i = 0; i < COUNT(bad); i++)
        bad[i] = stereo();
    bad[0].lsf = 2;
    bad[1].padding = 2;
    bad[2].protection_bit = 2;
    bad[3].mode = 4;
    bad[4].mode_extension = 4;
    bad[5].lsf = 255;
    for (i = 0; i < COUNT(bad); i++)
        expect(f, &bad[i], FOLGRIST_BAD_ARGUMENT, NULL, NULL);
}

/* The headers that questions 16, 1 and 2 refuse, beside zeros; 16 also where the sample rate is 0. */
static void expect_refused_headers(const struct function *f)
{
    static const uint32_t zeros[64] = {0};
    const struct arguments a = untabled(), b = no_rate(), c = odd(), d = large();
    struct arguments e = no_rate();

    expect(f, &a, FOLGRIST_NO_TABLE, zeros, zeros);
    expect(f, &b, FOLGRIST_ZERO_SAMPLE_RATE, zeros, zeros);
    expect(f, &c, FOLGRIST_RATE_OFF_LADDER, zeros, zeros);
    expect(f, &d, FOLGRIST_RATE_OFF_LADDER, zeros, zeros);
    e.bit_rate = 33000;
    expect(f, &e, FOLGRIST_RATE_OFF_LADDER, zeros, zeros);
}

static void read_only_zeros(void)
{
    memset(input, 0, sizeof input);
}

/* From 30 dB down by three quarters of one from slot to slot. */
static void read_falling_ratios(void)
{
    int slot;

    read_only_zeros();
    for (slot = 0; slot < 64; slot++)
        input[slot] = 30.0 - 0.75 * slot;
}

/* ---- the frame ---- */

static void check_version(void)
{
    const uint32_t header = 10000 * FOLGRIST_VERSION_MAJOR + 100 * FOLGRIST_VERSION_MINOR + FOLGRIST_VERSION_PATCH;

    check("version", "the archive's", folgrist_version() == header);
    done("version");
}

static uint32_t call_select_table(const struct arguments *a, const size_t *length)
{
    return folgrist_select_table(HEADER(a), out.words, length[OUT]);
}

static void check_select_table(void)
{
    static const struct function f = {"select_table", {0, 0, 1}, {0, 0, sizeof(uint32_t)}, call_select_table};
    static const uint32_t b2a = FOLGRIST_TABLE_B2A, b2b = FOLGRIST_TABLE_B2B, b2c = FOLGRIST_TABLE_B2C, b2d = FOLGRIST_TABLE_B2D;
    static const uint32_t lsf = FOLGRIST_TABLE_B1_LSF, none = 0;
    struct arguments a = stereo();

    expect(&f, &a, FOLGRIST_ACCEPTED, NULL, &b2b);
    a = mono();
    expect(&f, &a, FOLGRIST_ACCEPTED, NULL, &b2c);
    a.bit_rate = 64999;
    expect(&f, &a, FOLGRIST_ACCEPTED, NULL, &b2a);
    a.bit_rate = 32000;
    a.sample_rate = 32000;
    expect(&f, &a, FOLGRIST_ACCEPTED, NULL, &b2d);
    a = no_rate();
    expect(&f, &a, FOLGRIST_ACCEPTED, NULL, &lsf);
    a = odd();
    expect(&f, &a, FOLGRIST_NO_TABLE, NULL, &none);
    expect_bad_headers(&f);
    done(f.name);
}

static uint32_t call_frame_size_bytes(const struct arguments *a, const size_t *length)
{
    return folgrist_frame_size_bytes(HEADER(a), out.longs, length[OUT]);
}

static void check_frame_size_bytes(void)
{
    static const struct function f = {"frame_size_bytes", {0, 0, 1}, {0, 0, sizeof(uint64_t)}, call_frame_size_bytes};
    static const uint64_t bytes[] = {626, 627, 194, 618475290480, 0};
    struct arguments a = stereo();

    expect(&f, &a, FOLGRIST_ACCEPTED, NULL, &bytes[0]);
    a = joint();
    expect(&f, &a, FOLGRIST_ACCEPTED, NULL, &bytes[1]);
    a = mono();
    a.bit_rate = 64999;
    expect(&f, &a, FOLGRIST_ACCEPTED, NULL, &bytes[2]);
    a = large();
    expect(&f, &a, FOLGRIST_ACCEPTED, NULL, &bytes[3]);
    a = no_rate();
    expect(&f, &a, FOLGRIST_ZERO_SAMPLE_RATE, NULL, &bytes[4]);
    expect_bad_headers(&f);
    done(f.name);
}

static uint32_t call_fixed_bit_budget(const struct arguments *a, const size_t *length)
{
    return folgrist_fixed_bit_budget(HEADER(a), out.words, length[OUT]);
}

static void check_fixed_bit_budget(void)
{
    static const struct function f = {"fixed_bit_budget", {0, 0, 8}, {0, 0, sizeof(uint32_t)}, call_fixed_bit_budget};
    static const uint32_t in_stereo[] = {5008, 32, 0, 188, 30, 30, 2, FOLGRIST_TABLE_B2B};
    static const uint32_t in_joint[] = {5016, 32, 16, 141, 30, 12, 2, FOLGRIST_TABLE_B2B};
    static const uint32_t in_mono[] = {768, 32, 16, 26, 8, 8, 1, FOLGRIST_TABLE_B2C};
    struct arguments a = stereo();

    expect(&f, &a, FOLGRIST_ACCEPTED, NULL, in_stereo);
    a = joint();
    expect(&f, &a, FOLGRIST_ACCEPTED, NULL, in_joint);
    a = mono();
    expect(&f, &a, FOLGRIST_ACCEPTED, NULL, in_mono);
    expect_refused_headers(&f);
    expect_bad_headers(&f);
    done(f.name);
}

static uint32_t call_available_data_bits(const struct arguments *a, const size_t *length)
{
    return folgrist_available_data_bits(HEADER(a), a->banc, out.integers, length[OUT]);
}

static void check_available_data_bits(void)
{
    static const struct function f = {"available_data_bits", {0, 0, 1}, {0, 0, sizeof(int64_t)}, call_available_data_bits};
    static const int64_t bits[] = {4788, -212, 3827};
    struct arguments a = stereo();

    expect(&f, &a, FOLGRIST_ACCEPTED, NULL, &bits[0]);
    a.banc = 5000;
    expect(&f, &a, FOLGRIST_ACCEPTED, NULL, &bits[1]);
    a = joint();
    a.banc = 1000;
    expect(&f, &a, FOLGRIST_ACCEPTED, NULL, &bits[2]);
    expect_refused_headers(&f);
    expect_bad_headers(&f);
    done(f.name);
}

static uint32_t call_demand_bits(const struct arguments *a, const size_t *length)
{
    return folgrist_demand_bits(HEADER(a), input, length[READ], out.longs, length[OUT]);
}

static void check_demand_bits(void)
{
    static const struct function f = {"demand_bits", {64, 0, 1}, {sizeof(double), 0, sizeof(uint64_t)}, call_demand_bits};
    static const double ratios[] = {0.0, 7.0, 7.5, (double)NAN};
    static const uint64_t bits[] = {0, 80, 104, 560}, falling = 6940;
    struct arguments a = mono();
    size_t i;

    read_only_zeros();
    for (i = 0; i < COUNT(ratios); i++) {
        input[0] = ratios[i];
        expect(&f, &a, FOLGRIST_ACCEPTED, NULL, &bits[i]);
    }
    a = joint();
    read_falling_ratios();
    expect(&f, &a, FOLGRIST_ACCEPTED, NULL, &falling);
    expect_refused_headers(&f);
    expect_bad_headers(&f);
    done(f.name);
}

static uint32_t call_allocate_bits(const struct arguments *a, const size_t *length)
{
    return folgrist_allocate_bits(HEADER(a), a->banc, input, length[READ], first.words, length[FIRST], out.words, length[OUT]);
}

static void check_allocate_bits(void)
{
    static const struct function f = {
        "allocate_bits", {64, 64, 4}, {sizeof(double), sizeof(uint32_t), sizeof(uint32_t)}, call_allocate_bits};
    static const uint32_t none[64] = {0}, one[64] = {3};
    static const uint32_t full[] = {0, 0, 0, 0}, insufficient[] = {0, 768, 74, 695}, left_79[] = {79, 0, 0, 0}, left_11[] = {11, 0, 0, 0};
    static const uint32_t falling[64] = {15, 15, 15, 9, 9, 9, 9, 9, 9, 9, 7, 7, 7, 7, 7, 5, 5, 5, 5, 5, 5, 3, 3, 3, 3, 3, 3, 3, 3, 3, 0, 0,
                                         0,  0,  0,  0, 0, 0, 0, 0, 0, 0, 0, 0, 7, 7, 7, 5, 5, 5, 5, 5, 5, 3, 3, 3, 3, 3, 3, 3, 3, 3, 0, 0};
    struct arguments a = mono();

    read_only_zeros();
    a.banc = 694;
    expect(&f, &a, FOLGRIST_ACCEPTED, none, full);
    a.banc = 695;
    expect(&f, &a, FOLGRIST_INSUFFICIENT_FRAME, none, insufficient);
    a.protection_bit = 1;
    a.banc = 630;
    expect(&f, &a, FOLGRIST_ACCEPTED, one, full);
    a.banc = 631;
    expect(&f, &a, FOLGRIST_ACCEPTED, none, left_79);
    a = joint();
    a.banc = 1000;
    read_falling_ratios();
    expect(&f, &a, FOLGRIST_ACCEPTED, falling, left_11);
    expect_refused_headers(&f);
    expect_bad_headers(&f);
    done(f.name);
}

/* ---- the side information ---- */

/* No steps; behind the record what no function may read. */
static void record_idle(void)
{
    memset(&record, 0, sizeof record);
    memset(record.steps + 64, 0xFF, SPARE * sizeof record.steps[0]);
    memset(record.scfsi + 64, 0xFF, SPARE);
    memset(record.index + 192, 0xFF, SPARE);
}

static void record_slot(size_t slot, uint32_t steps, uint8_t scfsi, uint8_t a, uint8_t b, uint8_t c)
{
    record.steps[slot] = steps;
    record.scfsi[slot] = scfsi;
    record.index[3 * slot] = a;
    record.index[3 * slot + 1] = b;
    record.index[3 * slot + 2] = c;
}

static uint32_t call_write_side_info(const struct arguments *a, const size_t *length)
{
    return folgrist_write_side_info(HEADER(a), record.steps, length[READ], record.scfsi, length[READ_2], record.index, length[READ_3],
                                    first.bytes, length[FIRST], out.words, length[OUT]);
}

static const struct function write_side_info = {"write_side_info",
                                                {64, 174, 1, 64, 192},
                                                {sizeof(uint32_t), 1, sizeof(uint32_t), 1, 1},
                                                call_write_side_info};

/* Nothing is allocated; slots send what their scfsi says; a slot that is idle or that the frame does not carry sends nothing. */
static void expect_records_written(void)
{
    static const uint8_t none[174] = {0};
    static const uint32_t idle = 26, two_slots = 48, shared = 175;
    /* 26 bits of allocation, 0100 0000 111 and zeros; scfsi 01 10; indices 3, 62 and 21 */
    static const uint8_t in_mono[174] = {0x40, 0xE0, 0x00, 0x18, 0x3F, 0x95};
    /* 141 bits of allocation, of which 94 to 96 are 010; scfsi 11 00; indices 5, 6 and 7, 8, 9 */
    static const uint8_t in_joint[174] = {0, 0, 0, 0, 0, 0, 0, 0, 0, 0, 0, 0x01, 0, 0, 0, 0, 0, 0x06, 0x0A, 0x30, 0xE4, 0x12};
    struct arguments a = mono();

    record_idle();
    expect(&write_side_info, &a, FOLGRIST_ACCEPTED, none, &idle);
    record_slot(0, 15, FOLGRIST_SHARE_01_THEN_2, 3, 3, 62);
    record_slot(2, 127, FOLGRIST_SHARE_ALL, 21, 21, 21);
    record_slot(7, 0, FOLGRIST_SHARE_0_THEN_12, 255, 63, 63);
    record_slot(8, 4, FOLGRIST_SHARE_ALL, 255, 255, 255);
    record_slot(32, 15, FOLGRIST_SHARE_ALL, 1, 1, 1);
    expect(&write_side_info, &a, FOLGRIST_ACCEPTED, in_mono, &two_slots);
    a = joint();
    record_idle();
    record_slot(12, 5, FOLGRIST_SHARE_0_THEN_12, 5, 6, 6);
    record_slot(44, 5, FOLGRIST_THREE_PER_GRANULE, 7, 8, 9);
    expect(&write_side_info, &a, FOLGRIST_ACCEPTED, in_joint, &shared);
}

/* A record that is refused, beside zeros. */
static void expect_record_refused(const struct arguments *a, uint32_t number)
{
    static const uint32_t zeros[64] = {0};

    expect(&write_side_info, a, number, zeros, zeros);
}

/* 6, then 7 of a field, field by field; then 8, also of an index that is not sent. */
static void expect_records_refused(void)
{
    const struct arguments a = joint(), b = mono();

    record_idle();
    record.steps[12] = 5;
    expect_record_refused(&a, FOLGRIST_SHARED_STEPS_DIFFER);
    record.steps[12] = 4;
    expect_record_refused(&a, FOLGRIST_SHARED_STEPS_DIFFER);
    record.steps[11 + 32] = 4;
    expect_record_refused(&a, FOLGRIST_STEPS_NOT_IN_ROW);
    record_idle();
    record.steps[12] = record.steps[44] = 4;
    record.steps[13] = 5;
    expect_record_refused(&a, FOLGRIST_STEPS_NOT_IN_ROW);
    record_idle();
    record_slot(2, 127, FOLGRIST_SHARE_ALL, 21, 63, 21);
    expect_record_refused(&b, FOLGRIST_INDEX_NOT_TABLED);
    record.steps[7] = 7;
    expect_record_refused(&b, FOLGRIST_STEPS_NOT_IN_ROW);
    expect_refused_headers(&write_side_info);
}

/* A scfsi above 3, beside steps that the writer and the checker refuse. */
static void expect_bad_codes(const struct function *f)
{
    const struct arguments a = mono();
    size_t slot;

    for (slot = 0; slot < 64; slot += 21) {
        record_idle();
        record.scfsi[slot] = 4;
        record.steps[0] = record.steps[63] = 4;
        expect(f, &a, FOLGRIST_BAD_ARGUMENT, NULL, NULL);
    }
}

static void check_write_side_info(void)
{
    expect_records_written();
    expect_records_refused();
    expect_bad_codes(&write_side_info);
    record_idle();
    expect_bad_headers(&write_side_info);
    done(write_side_info.name);
}

static uint32_t call_read_side_info(const struct arguments *a, const size_t *length)
{
    return folgrist_read_side_info(HEADER(a), source.bytes, source.count, first.words, length[FIRST], second.bytes, length[SECOND],
                                   third.bytes, length[THIRD], out.words, length[OUT]);
}

static const struct function read_side_info = {
    "read_side_info", {0, 64, 1, 0, 0, 64, 192}, {0, sizeof(uint32_t), sizeof(uint32_t), 0, 0, 1, 1}, call_read_side_info};

/* The bytes are read, with ones behind them; the record is expected, an idle one beside a refusal. */
static void expect_read(const struct arguments *a, const uint8_t *bytes, size_t count, uint32_t number, uint32_t bits)
{
    const struct written w = {record.steps, record.scfsi, record.index, &bits};

    memset(source.bytes, 0xFF, sizeof source.bytes);
    memcpy(source.bytes, bytes, count);
    source.count = count;
    expect_written(&read_side_info, a, number, &w);
}

/* 26 bits of allocation, 0001 and zeros, or zeros alone; scfsi 10, 01 or 00; indices 5; 5 and 62 or 63; and 1. Of 9 and 10 that one is
 * answered whose field comes first. */
static void expect_mono_read(void)
{
    static const uint8_t idle[] = {0, 0, 0, 0};
    static const uint8_t one[] = {0x10, 0, 0, 0x21, 0x40}, two[] = {0x10, 0, 0, 0x11, 0x7E}, three[] = {0x10, 0, 0, 0x01, 0x7E, 0x04};
    static const uint8_t two_reserved[] = {0x10, 0, 0, 0x11, 0x7F}, three_reserved[] = {0x10, 0, 0, 0x01, 0x7F};
    const struct arguments a = mono();

    record_idle();
    expect_read(&a, idle, 0, FOLGRIST_SIDE_INFO_CUT, 0);
    expect_read(&a, idle, 3, FOLGRIST_SIDE_INFO_CUT, 0);
    expect_read(&a, idle, 4, FOLGRIST_ACCEPTED, 26);
    expect_read(&a, one, 4, FOLGRIST_SIDE_INFO_CUT, 0);
    expect_read(&a, three, 5, FOLGRIST_SIDE_INFO_CUT, 0);
    expect_read(&a, two_reserved, 5, FOLGRIST_RESERVED_INDEX, 0);
    expect_read(&a, three_reserved, 5, FOLGRIST_RESERVED_INDEX, 0);
    record_slot(0, 3, FOLGRIST_SHARE_ALL, 5, 5, 5);
    expect_read(&a, one, 5, FOLGRIST_ACCEPTED, 34);
    record_slot(0, 3, FOLGRIST_SHARE_01_THEN_2, 5, 5, 62);
    expect_read(&a, two, 5, FOLGRIST_ACCEPTED, 40);
    record_slot(0, 3, FOLGRIST_THREE_PER_GRANULE, 5, 62, 1);
    expect_read(&a, three, 6, FOLGRIST_ACCEPTED, 46);
}

/* 48000 Hz, joint stereo with bound 4, 64000 bit/s: 40 bits of allocation, of which 28 to 30 are 010; scfsi 10 11; indices 7 and 1, 2. */
static void expect_joint_read(void)
{
    static const uint8_t bytes[] = {0, 0, 0, 0x04, 0, 0xB1, 0xC1, 0x08};
    struct arguments a = mono();

    a.bit_rate = 64000;
    a.mode = FOLGRIST_JOINT_STEREO;
    record_idle();
    expect_read(&a, bytes, 7, FOLGRIST_SIDE_INFO_CUT, 0);
    record_slot(4, 5, FOLGRIST_SHARE_ALL, 7, 7, 7);
    record_slot(36, 5, FOLGRIST_SHARE_0_THEN_12, 1, 2, 2);
    expect_read(&a, bytes, 8, FOLGRIST_ACCEPTED, 62);
}

/* The record as bytes; the number of their bits. */
static uint32_t write_record(const struct arguments *a, uint8_t *bytes)
{
    check(read_side_info.name, "what is written", write_side_info.call(a, write_side_info.needed) == FOLGRIST_ACCEPTED);
    memcpy(bytes, first.bytes, 174);
    return out.words[0];
}

/* What is written of the record is read back: from bytes that end with it, with zeros or ones behind its bits, and from more. From fewer it
 * is cut, though the others still lie behind them. */
static void expect_read_back(const struct arguments *a)
{
    static const uint32_t zeros[64] = {0};
    static const struct written nothing = {zeros, zeros, zeros, zeros};
    uint8_t bytes[sizeof source.bytes];
    const uint32_t bits = write_record(a, bytes);
    const size_t count = (bits + 7) / 8;

    expect_read(a, bytes, count, FOLGRIST_ACCEPTED, bits);
    if (bits % 8 != 0)
        bytes[count - 1] |= (uint8_t)(0xFF >> bits % 8);
    expect_read(a, bytes, count, FOLGRIST_ACCEPTED, bits);
    memset(bytes + count, 0xFF, sizeof bytes - count);
    expect_read(a, bytes, sizeof bytes, FOLGRIST_ACCEPTED, bits);
    for (source.count = 0; source.count < count; source.count++)
        expect_at(&read_side_info, a, read_side_info.needed, FOLGRIST_SIDE_INFO_CUT, &nothing);
}

/* A slot whose indices agree with its scfsi. */
static void record_agreeing(size_t slot, uint32_t steps, uint8_t scfsi)
{
    /* by scfsi: the granule whose index each granule has */
    static const uint8_t granules[4][3] = {{0, 1, 2}, {0, 0, 2}, {0, 0, 0}, {0, 1, 1}};
    uint8_t index[3];
    size_t granule;

    for (granule = 0; granule < 3; granule++)
        index[granule] = (uint8_t)((5 * slot + 20 * granules[scfsi][granule]) % 63);
    record_slot(slot, steps, scfsi, index[0], index[1], index[2]);
}

/* Each field has the place that its subband, its channel and `turn` name, counted round its row; place 0 is idle. */
static void record_varied(const struct arguments *a, uint32_t turn)
{
    uint32_t budget[8], limits[2], steps, channel, sb, place;
    uint8_t table;

    record_idle();
    folgrist_fixed_bit_budget(HEADER(a), budget, COUNT(budget));
    table = (uint8_t)budget[7];
    for (channel = 0; channel < budget[6]; channel++)
        for (sb = 0; sb < budget[4]; sb++) {
            folgrist_table_limits(table, sb, limits, COUNT(limits));
            place = (sb + turn + (sb < budget[5] ? channel : 0)) % (1u << limits[1]);
            folgrist_nb_steps(table, sb, place, &steps, 1);
            if (steps != 0)
                record_agreeing(32 * channel + sb, steps, (uint8_t)((sb / 4 + channel + turn) % 4));
        }
}

/* Records of four frames, and the longest there is. */
static void expect_records_read_back(void)
{
    const struct arguments asked[] = {stereo(), joint(), mono(), low()};
    uint8_t bytes[174];
    uint32_t turn;
    size_t i, sb;

    for (i = 0; i < COUNT(asked); i++)
        for (turn = 0; turn < 4; turn++) {
            record_varied(&asked[i], turn);
            expect_read_back(&asked[i]);
        }
    record_idle();
    for (sb = 0; sb < 30; sb++) {
        record_agreeing(sb, 3, FOLGRIST_THREE_PER_GRANULE);
        record_agreeing(32 + sb, 3, FOLGRIST_THREE_PER_GRANULE);
    }
    expect_read_back(&asked[0]);
    check(read_side_info.name, "the longest record", write_record(&asked[0], bytes) == 1388);
}

/* What the record holds of a slot that is idle or that the frame does not carry is not sent. */
static void expect_idle_slots_read(void)
{
    const struct arguments a = mono();
    uint8_t bytes[174];
    uint32_t bits;

    record_idle();
    record_slot(7, 0, FOLGRIST_SHARE_0_THEN_12, 255, 63, 63);
    record_slot(8, 4, FOLGRIST_SHARE_ALL, 255, 255, 255);
    record_slot(32, 15, FOLGRIST_SHARE_ALL, 1, 1, 1);
    bits = write_record(&a, bytes);
    record_idle();
    expect_read(&a, bytes, sizeof bytes, FOLGRIST_ACCEPTED, bits);
}

static void check_read_side_info(void)
{
    expect_mono_read();
    expect_joint_read();
    expect_records_read_back();
    expect_idle_slots_read();
    /* the header's questions, without bytes and with enough of them */
    memset(source.bytes, 0, sizeof source.bytes);
    for (source.count = 0; source.count <= sizeof source.bytes; source.count += sizeof source.bytes) {
        expect_refused_headers(&read_side_info);
        expect_bad_headers(&read_side_info);
    }
    done(read_side_info.name);
}

static uint32_t call_check_record(const struct arguments *a, const size_t *length)
{
    return folgrist_check_record(HEADER(a), record.steps, length[READ], record.scfsi, length[READ_2], record.index, length[READ_3], out.words,
                                 length[OUT]);
}

static const struct function check_record = {
    "check_record", {64, 0, 2, 64, 192}, {sizeof(uint32_t), 0, sizeof(uint32_t), 1, 1}, call_check_record};

/* The answer to the record, and its subband and channel. */
static void expect_place(const struct arguments *a, uint32_t number, uint32_t sb, uint32_t channel)
{
    const uint32_t place[] = {sb, channel};

    expect(&check_record, a, number, NULL, place);
}

static void expect_passed(const struct arguments *a)
{
    expect_place(a, FOLGRIST_ACCEPTED, 0, 0);
}

/* The record with steps in one slot. */
static void expect_with_steps(const struct arguments *a, size_t slot, uint32_t steps, uint32_t number)
{
    const uint32_t of_slot = number != FOLGRIST_ACCEPTED;

    record_idle();
    record.steps[slot] = steps;
    expect_place(a, number, of_slot * (slot % 32), of_slot * (number == FOLGRIST_SHARED_STEPS_DIFFER ? 0 : slot / 32));
}

/* 17 in each channel: from the table's limit to subband 31, and in the channel that mono lacks. 6 from the bound on, whichever channel has the
 * steps, and always at channel 0. */
static void expect_steps_checked(void)
{
    const struct arguments a = stereo(), b = joint(), c = mono(), d = low();
    size_t channel;

    for (channel = 0; channel < 64; channel += 32) {
        expect_with_steps(&a, channel + 29, 3, FOLGRIST_ACCEPTED);
        expect_with_steps(&a, channel + 30, 3, FOLGRIST_STEPS_NOT_CARRIED);
        expect_with_steps(&a, channel + 31, UINT32_MAX, FOLGRIST_STEPS_NOT_CARRIED);
        expect_with_steps(&b, channel + 11, 5, FOLGRIST_ACCEPTED);
        expect_with_steps(&b, channel + 12, 5, FOLGRIST_SHARED_STEPS_DIFFER);
        expect_with_steps(&b, channel + 29, 3, FOLGRIST_SHARED_STEPS_DIFFER);
        expect_with_steps(&b, channel + 30, 3, FOLGRIST_STEPS_NOT_CARRIED);
        expect_with_steps(&c, channel + 8, 3, FOLGRIST_STEPS_NOT_CARRIED);
    }
    expect_with_steps(&c, 7, 3, FOLGRIST_ACCEPTED);
    expect_with_steps(&c, 32, 15, FOLGRIST_STEPS_NOT_CARRIED);
    expect_with_steps(&c, 39, 3, FOLGRIST_STEPS_NOT_CARRIED);
    expect_with_steps(&d, 8, 3, FOLGRIST_ACCEPTED);
    expect_with_steps(&d, 40, 3, FOLGRIST_STEPS_NOT_CARRIED);
}

/* 18 in each channel, where it is the slot's own and where it shares its field: by the scfsi's code, of a first index that differs from the
 * others, of a second and of a third. */
static void expect_indices_checked(void)
{
    static const uint8_t index[3][3] = {{1, 2, 2}, {2, 1, 2}, {2, 2, 1}};
    static const uint32_t differing[4][3] = {{0, 0, 0}, {18, 18, 0}, {18, 18, 18}, {0, 18, 18}};
    static const uint32_t subbands[] = {2, 20};
    const struct arguments a = joint();
    uint32_t channel, number;
    uint8_t scfsi;
    size_t i, sb;

    for (sb = 0; sb < COUNT(subbands); sb++)
        for (channel = 0; channel < 2; channel++)
            for (scfsi = 0; scfsi < 4; scfsi++)
                for (i = 0; i < COUNT(index); i++) {
                    record_idle();
                    record.steps[subbands[sb]] = record.steps[32 + subbands[sb]] = 5;
                    record_slot(32 * channel + subbands[sb], 5, scfsi, index[i][0], index[i][1], index[i][2]);
                    number = differing[scfsi][i];
                    expect_place(&a, number, number == 0 ? 0 : subbands[sb], number == 0 ? 0 : channel);
                }
}

/* Of two faults the one in the lower subband, of one subband's that of channel 0, of one slot's 6 before 18. */
static void expect_first_place(void)
{
    const struct arguments a = joint(), b = mono();

    record_idle();
    record.steps[32 + 31] = 3;
    expect_place(&a, FOLGRIST_STEPS_NOT_CARRIED, 31, 1);
    record.steps[31] = 3;
    expect_place(&a, FOLGRIST_STEPS_NOT_CARRIED, 31, 0);
    record.steps[32 + 30] = 3;
    expect_place(&a, FOLGRIST_STEPS_NOT_CARRIED, 30, 1);
    record_slot(20, 5, FOLGRIST_SHARE_ALL, 1, 2, 3);
    expect_place(&a, FOLGRIST_SHARED_STEPS_DIFFER, 20, 0);
    record.steps[32 + 20] = 5;
    expect_place(&a, FOLGRIST_SHARED_INDICES_DIFFER, 20, 0);
    record.steps[32 + 12] = 5;
    expect_place(&a, FOLGRIST_SHARED_STEPS_DIFFER, 12, 0);
    record_slot(32 + 3, 7, FOLGRIST_SHARE_01_THEN_2, 1, 2, 3);
    expect_place(&a, FOLGRIST_SHARED_INDICES_DIFFER, 3, 1);
    record_slot(3, 7, FOLGRIST_SHARE_0_THEN_12, 1, 2, 3);
    expect_place(&a, FOLGRIST_SHARED_INDICES_DIFFER, 3, 0);
    record_idle();
    record_slot(1, 15, FOLGRIST_SHARE_ALL, 1, 2, 3);
    record.steps[32] = 15;
    expect_place(&b, FOLGRIST_STEPS_NOT_CARRIED, 0, 1);
    record_slot(0, 15, FOLGRIST_SHARE_ALL, 1, 2, 3);
    expect_place(&b, FOLGRIST_SHARED_INDICES_DIFFER, 0, 0);
}

/* What idle slots hold is free. Steps that are not in the row, and indices above 62, are not asked about: the writer refuses them. */
static void expect_not_asked(void)
{
    const struct arguments a = joint(), b = mono();
    size_t slot;

    record_idle();
    for (slot = 0; slot < 64; slot++)
        record_slot(slot, 0, (uint8_t)(slot % 4), 255, 63, 1);
    expect_passed(&a);
    expect_passed(&b);
    record_idle();
    record.steps[7] = 7;
    expect_passed(&b);
    check(check_record.name, "7", write_side_info.call(&b, write_side_info.needed) == FOLGRIST_STEPS_NOT_IN_ROW);
    record_idle();
    record_slot(2, 127, FOLGRIST_SHARE_ALL, 63, 63, 63);
    expect_passed(&b);
    check(check_record.name, "8", write_side_info.call(&b, write_side_info.needed) == FOLGRIST_INDEX_NOT_TABLED);
}

/* Records whose indices agree with their scfsi pass, and so does what folgrist_read_side_info reads: here bytes that are all the same, never
 * with six ones in a row. */
static void expect_records_passed(void)
{
    static const uint8_t bytes[] = {0x00, 0x12, 0x5A, 0x96, 0xDB};
    const struct arguments asked[] = {stereo(), joint(), mono(), low()};
    uint32_t turn;
    size_t i, j;

    for (i = 0; i < COUNT(asked); i++) {
        for (turn = 0; turn < 4; turn++) {
            record_varied(&asked[i], turn);
            expect_passed(&asked[i]);
        }
        for (j = 0; j < COUNT(bytes); j++) {
            memset(source.bytes, bytes[j], sizeof source.bytes);
            source.count = sizeof source.bytes;
            check(check_record.name, "what is read", read_side_info.call(&asked[i], read_side_info.needed) == FOLGRIST_ACCEPTED);
            record_idle();
            memcpy(record.steps, first.words, 64 * sizeof record.steps[0]);
            memcpy(record.scfsi, second.bytes, 64);
            memcpy(record.index, third.bytes, 192);
            expect_passed(&asked[i]);
        }
    }
}

static void check_check_record(void)
{
    expect_records_passed();
    expect_steps_checked();
    expect_indices_checked();
    expect_first_place();
    expect_not_asked();
    expect_bad_codes(&check_record);
    /* the header's questions, with a record that is refused */
    record_idle();
    record.steps[63] = 3;
    expect_refused_headers(&check_record);
    expect_bad_headers(&check_record);
    done(check_record.name);
}

static uint32_t call_write_canonical(const struct arguments *a, const size_t *length)
{
    return folgrist_write_side_info_canonical(HEADER(a), record.steps, length[READ], record.scfsi, length[READ_2], record.index,
                                              length[READ_3], first.bytes, length[FIRST], out.words, length[OUT]);
}

static const struct function write_canonical = {"write_side_info_canonical",
                                                {64, 174, 1, 64, 192},
                                                {sizeof(uint32_t), 1, sizeof(uint32_t), 1, 1},
                                                call_write_canonical};

/* A record that is refused, beside zeros. */
static void expect_not_canonical(const struct arguments *a, uint32_t number)
{
    static const uint32_t zeros[64] = {0};

    expect(&write_canonical, a, number, zeros, zeros);
}

/* One slot of mono with three indices, by every scfsi: the bytes are those of the fewest indices, or the scfsi contradicts the indices.
 * 26 bits of allocation, 0001 and zeros; scfsi 10, 01, 11 or 00; indices 5 and 62. */
static void expect_fewest(void)
{
    static const uint8_t index[5][3] = {{5, 5, 5}, {5, 5, 62}, {5, 62, 62}, {5, 62, 5}, {5, 62, 21}};
    static const uint8_t bytes[5][174] = {{0x10, 0, 0, 0x21, 0x40},
                                          {0x10, 0, 0, 0x11, 0x7E},
                                          {0x10, 0, 0, 0x31, 0x7E},
                                          {0x10, 0, 0, 0x01, 0x7E, 0x14},
                                          {0x10, 0, 0, 0x01, 0x7E, 0x54}};
    static const uint32_t bits[] = {34, 40, 40, 46, 46};
    static const uint8_t carries[5][4] = {{1, 1, 1, 1}, {1, 1, 0, 0}, {1, 0, 0, 1}, {1, 0, 0, 0}, {1, 0, 0, 0}};
    const struct arguments a = mono();
    uint8_t scfsi;
    size_t i;

    for (i = 0; i < COUNT(index); i++)
        for (scfsi = 0; scfsi < 4; scfsi++) {
            record_idle();
            record_slot(0, 3, scfsi, index[i][0], index[i][1], index[i][2]);
            if (carries[i][scfsi])
                expect(&write_canonical, &a, FOLGRIST_ACCEPTED, bytes[i], &bits[i]);
            else
                expect_not_canonical(&a, FOLGRIST_SHARED_INDICES_DIFFER);
        }
}

/* The record is in its one form. It stays so with three indices sent for every slot, and with anything in idle slots; what is read of it is the
 * record again; and another index, or other steps, give other bytes. */
static void expect_one_form(const struct arguments *a)
{
    uint8_t bytes[sizeof source.bytes];
    const uint32_t bits = write_record(a, bytes);
    size_t slot, last = 64;

    expect(&write_canonical, a, FOLGRIST_ACCEPTED, bytes, &bits);
    expect_read(a, bytes, 174, FOLGRIST_ACCEPTED, bits);
    memset(record.scfsi, FOLGRIST_THREE_PER_GRANULE, 64);
    check(write_canonical.name, "no fewer bits", write_side_info.call(a, write_side_info.needed) == 0 && out.words[0] >= bits);
    expect(&write_canonical, a, FOLGRIST_ACCEPTED, bytes, &bits);
    for (slot = 0; slot < 64; slot++) {
        if (record.steps[slot] == 0)
            record_slot(slot, 0, (uint8_t)(slot % 4), 255, 63, 1);
        else
            last = slot;
    }
    expect(&write_canonical, a, FOLGRIST_ACCEPTED, bytes, &bits);
    record.index[3 * last + 1] = (uint8_t)((record.index[3 * last + 1] + 1) % 63);
    check(write_canonical.name, "another index", write_canonical.call(a, write_canonical.needed) == 0 && memcmp(first.bytes, bytes, 174) != 0);
    record.steps[last] = record.steps[(last + 32) % 64] = 0;
    check(write_canonical.name, "other steps", write_canonical.call(a, write_canonical.needed) == 0 && memcmp(first.bytes, bytes, 174) != 0);
}

/* The check's numbers first, by slot; then 7, then 8. */
static void expect_in_order(void)
{
    const struct arguments a = joint(), b = mono();

    record_idle();
    record_slot(0, 3, FOLGRIST_SHARE_ALL, 63, 63, 63);
    expect_not_canonical(&b, FOLGRIST_INDEX_NOT_TABLED);
    record.steps[7] = 7;
    expect_not_canonical(&b, FOLGRIST_STEPS_NOT_IN_ROW);
    record.steps[31] = 3;
    expect_not_canonical(&b, FOLGRIST_STEPS_NOT_CARRIED);
    record_slot(6, 3, FOLGRIST_SHARE_01_THEN_2, 1, 2, 3);
    expect_not_canonical(&b, FOLGRIST_SHARED_INDICES_DIFFER);
    record_idle();
    record.steps[11] = 4;
    expect_not_canonical(&a, FOLGRIST_STEPS_NOT_IN_ROW);
    record.steps[12] = 5;
    expect_not_canonical(&a, FOLGRIST_SHARED_STEPS_DIFFER);
}

static void check_write_canonical(void)
{
    const struct arguments asked[] = {stereo(), joint(), mono(), low()};
    uint32_t turn;
    size_t i;

    expect_fewest();
    for (i = 0; i < COUNT(asked); i++)
        for (turn = 0; turn < 4; turn++) {
            record_varied(&asked[i], turn);
            expect_one_form(&asked[i]);
        }
    expect_in_order();
    expect_bad_codes(&write_canonical);
    /* the header's questions, with a record that is refused */
    record_idle();
    record.steps[63] = 3;
    expect_refused_headers(&write_canonical);
    expect_bad_headers(&write_canonical);
    done(write_canonical.name);
}

/* ---- the allocation tables ---- */

/* The arguments of a table, a subband, and steps or a place. */
static struct arguments place(uint8_t table, uint64_t sb, uint32_t number)
{
    struct arguments a = stereo();

    a.table = table;
    a.sb = sb;
    a.number = number;
    return a;
}

/* Tables above the last. */
static void expect_bad_tables(const struct function *f)
{
    const struct arguments a = place(FOLGRIST_TABLE_B1_LSF + 1, 0, 0), b = place(255, 0, 0);

    expect(f, &a, FOLGRIST_BAD_ARGUMENT, NULL, NULL);
    expect(f, &b, FOLGRIST_BAD_ARGUMENT, NULL, NULL);
}

static uint32_t call_table_limits(const struct arguments *a, const size_t *length)
{
    return folgrist_table_limits(a->table, a->sb, out.words, length[OUT]);
}

static void check_table_limits(void)
{
    static const struct function f = {"table_limits", {0, 0, 2}, {0, 0, sizeof(uint32_t)}, call_table_limits};
    static const uint32_t limits[][2] = {{27, 4}, {27, 0}, {30, 4}, {30, 2}, {8, 0}};
    const struct arguments asked[] = {place(FOLGRIST_TABLE_B2A, 0, 0), place(FOLGRIST_TABLE_B2A, 27, 0), place(FOLGRIST_TABLE_B2B, 3, 0),
                                      place(FOLGRIST_TABLE_B1_LSF, 29, 0), place(FOLGRIST_TABLE_B2C, UINT64_MAX, 0)};
    size_t i;

    for (i = 0; i < COUNT(asked); i++)
        expect(&f, &asked[i], FOLGRIST_ACCEPTED, NULL, limits[i]);
    expect_bad_tables(&f);
    done(f.name);
}

static uint32_t call_nb_steps(const struct arguments *a, const size_t *length)
{
    return folgrist_nb_steps(a->table, a->sb, a->number, out.words, length[OUT]);
}

static void check_nb_steps(void)
{
    static const struct function f = {"nb_steps", {0, 0, 1}, {0, 0, sizeof(uint32_t)}, call_nb_steps};
    static const uint32_t steps[] = {15, 32767, 0};
    const struct arguments there[] = {place(FOLGRIST_TABLE_B2B, 2, 3), place(FOLGRIST_TABLE_B2C, 0, 15), place(FOLGRIST_TABLE_B2A, 0, 0)};
    const struct arguments nowhere[] = {place(FOLGRIST_TABLE_B2C, 0, 16), place(FOLGRIST_TABLE_B2C, 8, 0),
                                        place(FOLGRIST_TABLE_B2C, UINT64_MAX, UINT32_MAX)};
    size_t i;

    for (i = 0; i < COUNT(there); i++)
        expect(&f, &there[i], FOLGRIST_ACCEPTED, NULL, &steps[i]);
    for (i = 0; i < COUNT(nowhere); i++)
        expect(&f, &nowhere[i], FOLGRIST_NOTHING_THERE, NULL, NULL);
    expect_bad_tables(&f);
    done(f.name);
}

static uint32_t call_allocation_index(const struct arguments *a, const size_t *length)
{
    return folgrist_allocation_index(a->table, a->sb, a->number, out.words, length[OUT]);
}

static void check_allocation_index(void)
{
    static const struct function f = {"allocation_index", {0, 0, 1}, {0, 0, sizeof(uint32_t)}, call_allocation_index};
    static const uint32_t indices[] = {3, 15, 0};
    const struct arguments there[] = {place(FOLGRIST_TABLE_B2B, 2, 15), place(FOLGRIST_TABLE_B2C, 0, 32767), place(FOLGRIST_TABLE_B2A, 0, 0)};
    const struct arguments nowhere[] = {place(FOLGRIST_TABLE_B2C, 0, 4), place(FOLGRIST_TABLE_B2A, 27, 0)};
    size_t i;

    for (i = 0; i < COUNT(there); i++)
        expect(&f, &there[i], FOLGRIST_ACCEPTED, NULL, &indices[i]);
    for (i = 0; i < COUNT(nowhere); i++)
        expect(&f, &nowhere[i], FOLGRIST_NOTHING_THERE, NULL, NULL);
    expect_bad_tables(&f);
    done(f.name);
}

/* ---- a number of steps ---- */

static struct arguments of_steps(uint32_t steps)
{
    return place(0, 0, steps);
}

static uint32_t call_class_of_quantization(const struct arguments *a, const size_t *length)
{
    return folgrist_class_of_quantization(a->number, first.doubles, length[FIRST], out.words, length[OUT]);
}

static void check_class_of_quantization(void)
{
    static const struct function f = {
        "class_of_quantization", {0, 2, 4}, {0, sizeof(double), sizeof(uint32_t)}, call_class_of_quantization};
    static const double cd[][2] = {{1.6, 0.5}, {1.14285714286, 0.25}, {0.0, 0.0}};
    static const uint32_t figures[][4] = {{1, 3, 7, 3}, {0, 1, 3, 3}, {0, 0, 0, 0}};
    const struct arguments grouped = of_steps(5), single = of_steps(7), none = of_steps(6), zero = of_steps(0);

    expect(&f, &grouped, FOLGRIST_ACCEPTED, cd[0], figures[0]);
    expect(&f, &single, FOLGRIST_ACCEPTED, cd[1], figures[1]);
    expect(&f, &none, FOLGRIST_NO_CLASS, cd[2], figures[2]);
    expect(&f, &zero, FOLGRIST_NO_CLASS, cd[2], figures[2]);
    done(f.name);
}

static void check_sample_bits_for(void)
{
    static const uint32_t bits[][2] = {{3, 60}, {5, 84}, {7, 108}, {9, 120}, {65535, 576}, {0, 0}, {4, 0}, {UINT32_MAX, 0}};
    size_t i;

    for (i = 0; i < COUNT(bits); i++)
        check("sample_bits_for", "the value", folgrist_sample_bits_for(bits[i][0]) == bits[i][1]);
    done("sample_bits_for");
}

static uint32_t call_snr_db(const struct arguments *a, const size_t *length)
{
    return folgrist_snr_db(a->number, out.doubles, length[OUT]);
}

static void check_snr_db(void)
{
    static const struct function f = {"snr_db", {0, 0, 1}, {0, 0, sizeof(double)}, call_snr_db};
    static const double db[] = {0.0, 7.0, 20.84, 98.01}, none = 0.0;
    const struct arguments listed[] = {of_steps(0), of_steps(3), of_steps(9), of_steps(65535)};
    const struct arguments others[] = {of_steps(1), of_steps(65536)};
    size_t i;

    for (i = 0; i < COUNT(listed); i++)
        expect(&f, &listed[i], FOLGRIST_ACCEPTED, NULL, &db[i]);
    for (i = 0; i < COUNT(others); i++)
        expect(&f, &others[i], FOLGRIST_NO_CLASS, NULL, &none);
    done(f.name);
}

/* ---- scalefactors ---- */

static void check_pick_scalefactor_index(void)
{
    const char *name = "pick_scalefactor_index";

    check(name, "the index of 0.0", folgrist_pick_scalefactor_index(0.0) == 62);
    check(name, "the index of 0.7", folgrist_pick_scalefactor_index(0.7) == 4);
    check(name, "the index of 1.0", folgrist_pick_scalefactor_index(1.0) == 3);
    check(name, "the index of 2.0", folgrist_pick_scalefactor_index(2.0) == 0);
    check(name, "the index of 3.0", folgrist_pick_scalefactor_index(3.0) == 0);
    check(name, "the index of a NaN", folgrist_pick_scalefactor_index((double)NAN) == 0);
    done(name);
}

static uint32_t call_extract_scalefactor_index(const struct arguments *a, const size_t *length)
{
    (void)a;
    return folgrist_extract_scalefactor_index(input, length[READ], out.bytes, length[OUT]);
}

static void check_extract_scalefactor_index(void)
{
    static const struct function f = {"extract_scalefactor_index", {12, 0, 1}, {sizeof(double), 0, 1}, call_extract_scalefactor_index};
    static const uint8_t of_one = 3, of_zeros = 62, of_three = 0;
    const struct arguments a = stereo();
    int i;

    read_only_zeros();
    input[12] = 2.0;
    expect(&f, &a, FOLGRIST_ACCEPTED, NULL, &of_zeros);
    input[11] = -1.0;
    expect(&f, &a, FOLGRIST_ACCEPTED, NULL, &of_one);
    input[0] = 3.0;
    expect(&f, &a, FOLGRIST_ACCEPTED, NULL, &of_three);
    for (i = 0; i < 12; i++)
        input[i] = (double)NAN;
    expect(&f, &a, FOLGRIST_ACCEPTED, NULL, &of_zeros);
    done(f.name);
}

static uint32_t call_compute_scalefactors(const struct arguments *a, const size_t *length)
{
    return folgrist_compute_scalefactors(input, length[READ], a->limit, out.bytes, length[OUT]);
}

static void check_compute_scalefactors(void)
{
    static const struct function f = {"compute_scalefactors", {1152, 0, 96}, {sizeof(double), 0, 1}, call_compute_scalefactors};
    static const uint8_t of_subbands[3][2] = {{3, 0}, {3, 62}, {3, 0}};
    static const uint64_t limits[] = {0, 1, 2, 32, 4294967297u, UINT64_MAX};
    struct arguments a = stereo();
    uint8_t expected[96];
    size_t i, granule, sb;

    /* subband 0 has 1.0 throughout; subband 1 has 2.0, 0.0 and 3.0 by granule */
    read_only_zeros();
    for (i = 0; i < 36; i++) {
        input[i] = 1.0;
        input[36 + i] = i < 12 ? 2.0 : i < 24 ? 0.0 : 3.0;
    }
    for (i = 0; i < COUNT(limits); i++) {
        memset(expected, 62, sizeof expected);
        for (granule = 0; granule < 3; granule++)
            for (sb = 0; sb < 2 && sb < limits[i]; sb++)
                expected[32 * granule + sb] = of_subbands[granule][sb];
        a.limit = limits[i];
        expect(&f, &a, FOLGRIST_ACCEPTED, NULL, expected);
    }
    done(f.name);
}

static uint32_t call_select_scfsi(const struct arguments *a, const size_t *length)
{
    return folgrist_select_scfsi(a->indices[0], a->indices[1], a->indices[2], out.bytes, length[OUT]);
}

static void check_select_scfsi(void)
{
    static const struct function f = {"select_scfsi", {0, 0, 9}, {0, 0, 1}, call_select_scfsi};
    static const uint8_t given[][3] = {{10, 12, 11}, {0, 3, 3}, {0, 2, 4}, {20, 10, 15}};
    static const uint8_t selected[][9] = {{10, 10, 10, 0, 0, 1, FOLGRIST_SHARE_ALL, 2, 4},
                                          {0, 3, 3, 1, 1, 0, FOLGRIST_SHARE_0_THEN_12, 1, 3},
                                          {0, 0, 0, 0, 0, 1, FOLGRIST_SHARE_ALL, 2, 2},
                                          {20, 10, 15, 1, 1, 1, FOLGRIST_THREE_PER_GRANULE, 5, 1}};
    struct arguments a = stereo();
    size_t i;

    for (i = 0; i < COUNT(given); i++) {
        memcpy(a.indices, given[i], sizeof a.indices);
        expect(&f, &a, FOLGRIST_ACCEPTED, NULL, selected[i]);
    }
    done(f.name);
}

/* ---- samples ---- */

static struct arguments of_samples(uint32_t steps, double x, double y, double z)
{
    struct arguments a = of_steps(steps);

    a.samples[0] = x;
    a.samples[1] = y;
    a.samples[2] = z;
    return a;
}

static uint32_t call_quantize_sample(const struct arguments *a, const size_t *length)
{
    return folgrist_quantize_sample(a->number, a->samples[0], out.words, length[OUT]);
}

static void check_quantize_sample(void)
{
    static const struct function f = {"quantize_sample", {0, 0, 1}, {0, 0, sizeof(uint32_t)}, call_quantize_sample};
    static const uint32_t steps[] = {3, 3, 3, 7, 7, 7, 7, 15};
    static const double samples[] = {-1.0, 0.0, 1.0, 1.0, 2.0, (double)INFINITY, (double)NAN, 1.0};
    static const uint32_t codes[] = {0, 1, 2, 6, 7, 7, 4, 15}, none = 0;
    struct arguments a;
    size_t i;

    for (i = 0; i < COUNT(steps); i++) {
        a = of_samples(steps[i], samples[i], 0.0, 0.0);
        expect(&f, &a, FOLGRIST_ACCEPTED, NULL, &codes[i]);
    }
    a = of_samples(6, 1.0, 0.0, 0.0);
    expect(&f, &a, FOLGRIST_NO_CLASS, NULL, &none);
    done(f.name);
}

static uint32_t call_write_triplet(const struct arguments *a, const size_t *length)
{
    return folgrist_write_triplet(a->number, a->samples[0], a->samples[1], a->samples[2], out.words, length[OUT]);
}

static void check_write_triplet(void)
{
    static const struct function f = {"write_triplet", {0, 0, 5}, {0, 0, sizeof(uint32_t)}, call_write_triplet};
    static const uint32_t grouped[] = {1, 5, 26, 0, 0}, separate[] = {3, 3, 6, 3, 1}, none[] = {0, 0, 0, 0, 0};
    struct arguments a = of_samples(3, 1.0, 1.0, 1.0);

    expect(&f, &a, FOLGRIST_ACCEPTED, NULL, grouped);
    a = of_samples(7, 0.9, 0.1, -0.6);
    expect(&f, &a, FOLGRIST_ACCEPTED, NULL, separate);
    a = of_samples(0, 0.9, 0.1, -0.6);
    expect(&f, &a, FOLGRIST_NO_CLASS, NULL, none);
    done(f.name);
}

int main(void)
{
    check_version();
    check_select_table();
    check_frame_size_bytes();
    check_fixed_bit_budget();
    check_available_data_bits();
    check_demand_bits();
    check_allocate_bits();
    check_write_side_info();
    check_read_side_info();
    check_check_record();
    check_write_canonical();
    check_table_limits();
    check_nb_steps();
    check_allocation_index();
    check_class_of_quantization();
    check_sample_bits_for();
    check_snr_db();
    check_pick_scalefactor_index();
    check_extract_scalefactor_index();
    check_compute_scalefactors();
    check_select_scfsi();
    check_quantize_sample();
    check_write_triplet();
    printf("%u functions, %u checks, %u failed\n", functions, checks, failures);
    return failures == 0 ? 0 : 1;
}

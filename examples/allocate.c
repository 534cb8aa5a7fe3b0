/*
 * The bit allocation of one frame, printed as a table.
 *
 * The signal-to-mask ratios are made up: they fall from 30 dB in subband 0, the second channel 6 dB below the first.
 *
 * Run by examples/allocate.sh.
 */
#include <inttypes.h>
#include <stdio.h>

#include "folgrist_mp2.h"

struct header {
    uint8_t lsf;
    uint32_t bit_rate;
    uint32_t sample_rate;
    uint8_t padding;
    uint8_t protection_bit;
    uint8_t mode;
    uint8_t mode_extension;
};

/* The seven arguments of a header, in their order. */
#define HEADER(h) (h).lsf, (h).bit_rate, (h).sample_rate, (h).padding, (h).protection_bit, (h).mode, (h).mode_extension

/* By table number. */
static const char *const table_names[] = {"3-B.2a", "3-B.2b", "3-B.2c", "3-B.2d", "B.1 (LSF)"};

static const char *answer_text(uint32_t number)
{
    switch (number) {
    case FOLGRIST_ACCEPTED: return "accepted";
    case FOLGRIST_NO_TABLE: return "no allocation table covers the header's rates";
    case FOLGRIST_ZERO_SAMPLE_RATE: return "the sample rate is 0";
    case FOLGRIST_INSUFFICIENT_FRAME: return "the fixed and ancillary bits are more than the frame has";
    case FOLGRIST_NO_CLASS: return "no class of quantization has so many steps";
    case FOLGRIST_BAD_ARGUMENT: return "an argument is out of its range";
    case FOLGRIST_RATE_OFF_LADDER: return "the bit rate is not one that the header can name";
    case FOLGRIST_NOTHING_THERE: return "there is nothing at that place";
    case FOLGRIST_SHORT_SLICE: return "an array is too short";
    default: return "an unknown answer";
    }
}

/* 1, and a message, where a call was not accepted. */
static int refused(const char *call, uint32_t number)
{
    if (number == FOLGRIST_ACCEPTED)
        return 0;
    fprintf(stderr, "%s: answer %" PRIu32 ": %s\n", call, number, answer_text(number));
    return 1;
}

static void print_steps(const uint32_t *budget, const double *smr_db, const uint32_t *steps)
{
    uint32_t sb, ch;

    printf("\nsubband");
    for (ch = 0; ch < budget[6]; ch++)
        printf("   SMR %" PRIu32 " dB   steps", ch);
    printf("\n");
    for (sb = 0; sb < budget[4]; sb++) {
        printf("%7" PRIu32, sb);
        for (ch = 0; ch < budget[6]; ch++)
            printf("%11.1f%8" PRIu32, smr_db[32 * ch + sb], steps[32 * ch + sb]);
        printf("\n");
    }
}

int main(void)
{
    const struct header h = {0, 192000, 48000, 0, 1, FOLGRIST_JOINT_STEREO, FOLGRIST_BOUND_8};
    const uint32_t banc = 0;
    double smr_db[64];
    uint32_t budget[8], steps[64], out[4];
    uint64_t bytes, demand;
    int64_t offered;
    int sb;

    for (sb = 0; sb < 32; sb++) {
        smr_db[sb] = 30.0 - 1.5 * sb;
        smr_db[32 + sb] = 24.0 - 1.5 * sb;
    }
    if (refused("frame_size_bytes", folgrist_frame_size_bytes(HEADER(h), &bytes, 1)) ||
        refused("fixed_bit_budget", folgrist_fixed_bit_budget(HEADER(h), budget, 8)) ||
        refused("available_data_bits", folgrist_available_data_bits(HEADER(h), banc, &offered, 1)) ||
        refused("demand_bits", folgrist_demand_bits(HEADER(h), smr_db, 64, &demand, 1)) ||
        refused("allocate_bits", folgrist_allocate_bits(HEADER(h), banc, smr_db, 64, steps, 64, out, 4)))
        return 1;

    printf("header         %" PRIu32 " bit/s, %" PRIu32 " Hz, joint stereo from subband %" PRIu32 ", no CRC\n", h.bit_rate, h.sample_rate,
           budget[5]);
    printf("table          %s, %" PRIu32 " subbands, %" PRIu32 " channels\n", table_names[budget[7]], budget[4], budget[6]);
    printf("frame          %" PRIu64 " bytes, %" PRIu32 " bits, of which %" PRIu32 " are fixed\n", bytes, budget[0],
           budget[1] + budget[2] + budget[3]);
    printf("offered        %" PRId64 " bits\n", offered);
    printf("demand         %" PRIu64 " bits\n", demand);
    printf("left           %" PRIu32 " bits\n", out[0]);
    print_steps(budget, smr_db, steps);
    return 0;
}

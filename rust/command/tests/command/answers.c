/* Every number that seamwillow.h names, reached through the library. Prints each that is not as declared. */
#include "seamwillow.h"

#include <inttypes.h>
#include <stdio.h>
#include <stdlib.h>

#define SYNC 0xAA995566u
#define WRITE(reg, count) (0x30000000u | (uint32_t)(reg) << 13 | (count))
#define READ(reg, count) (0x28000000u | (uint32_t)(reg) << 13 | (count))

enum { CRC = 0, FAR = 1, FDRI = 2, CMD = 4, MFWR = 10, FLR = 11, RESERVED = 12, IDCODE = 14 };
enum { WCFG = 1, START = 5, RCRC = 7, AGHIGH = 8, DESYNC = 13 };
enum { XC3S50 = 0, XC3S400 = 2, NO_DEVICE = 8 };

struct part {
    uint8_t record[SW_RECORD_LEN];
    uint8_t *memory;
    uint32_t idcode, frame_words, frames;
    uint64_t memory_len;
};

static unsigned wrong;

static void same(const char *what, uint64_t got, uint64_t wanted) {
    if (got != wanted) {
        printf("%s: %" PRIu64 ", not %" PRIu64 "\n", what, got, wanted);
        wrong++;
    }
}

#define SAME(got, wanted) same(#got " is " #wanted, (uint64_t)(got), (uint64_t)(wanted))

static struct part powered(uint32_t device) {
    struct part part;
    SAME(sw_part(device, &part.idcode, &part.frame_words, &part.frames, &part.memory_len), 0);
    part.memory = malloc(part.memory_len);
    if (!part.memory) {
        exit(2);
    }
    SAME(sw_power_on(device, part.record, SW_RECORD_LEN, part.memory, part.memory_len), 0);
    return part;
}

static uint32_t word(const struct part *part, unsigned index) {
    const uint8_t *at = part->record + 4 * index;
    return (uint32_t)at[0] << 24 | (uint32_t)at[1] << 16 | (uint32_t)at[2] << 8 | at[3];
}

static uint32_t feed_bytes(struct part *part, const uint8_t *bytes, size_t count) {
    uint64_t taken;
    return sw_load(part->record, SW_RECORD_LEN, part->memory, part->memory_len, bytes, count, &taken);
}

static uint32_t feed_word(struct part *part, uint32_t it) {
    uint8_t bytes[4] = {(uint8_t)(it >> 24), (uint8_t)(it >> 16), (uint8_t)(it >> 8), (uint8_t)it};
    return feed_bytes(part, bytes, sizeof bytes);
}

static uint32_t feed(struct part *part, const uint32_t *words, size_t count) {
    uint32_t answer = 0;
    for (size_t i = 0; i < count && answer == 0; i++) {
        answer = feed_word(part, words[i]);
    }
    return answer;
}

#define FEED(part, ...) \
    feed(part, (const uint32_t[]){__VA_ARGS__}, sizeof((const uint32_t[]){__VA_ARGS__}) / sizeof(uint32_t))

/* A part that takes frame data. */
static struct part ready(uint32_t device) {
    struct part part = powered(device);
    SAME(FEED(&part, SYNC, WRITE(IDCODE, 1), part.idcode, WRITE(FLR, 1), part.frame_words - 1), 0);
    SAME(FEED(&part, WRITE(CMD, 1), WCFG), 0);
    return part;
}

static void stopped(struct part part, uint32_t answer, uint32_t stop) {
    SAME(answer, stop);
    SAME(word(&part, SW_RECORD_PHASE), SW_PHASE_STOPPED);
    SAME(word(&part, SW_RECORD_ARGUMENT), stop);
    free(part.memory);
}

#define STOPS(begun, stop, ...)                      \
    do {                                             \
        struct part part = begun;                    \
        uint32_t answer = FEED(&part, __VA_ARGS__);  \
        stopped(part, answer, stop);                 \
    } while (0)

static void stops(void) {
    STOPS(powered(XC3S50), SW_STOP_BAD_HEADER, SYNC, 0xE0000000u);
    STOPS(powered(XC3S50), SW_STOP_BAD_REGISTER, SYNC, WRITE(RESERVED, 1));
    STOPS(powered(XC3S50), SW_STOP_READ_OPERATION, SYNC, READ(CMD, 1));
    STOPS(powered(XC3S50), SW_STOP_WRONG_IDCODE, SYNC, WRITE(IDCODE, 1), 0);
    STOPS(powered(XC3S50), SW_STOP_WRONG_FRAME_LENGTH, SYNC, WRITE(FLR, 1), 0);
    STOPS(powered(XC3S50), SW_STOP_NOT_READY, SYNC, WRITE(MFWR, 2));
    STOPS(ready(XC3S50), SW_STOP_WRONG_COUNT, WRITE(FDRI, 1));
    STOPS(powered(XC3S50), SW_STOP_CRC_CHECK, SYNC, WRITE(CRC, 1), 1);
    STOPS(powered(XC3S50), SW_STOP_UNKNOWN_COMMAND, SYNC, WRITE(CMD, 1), DESYNC + 1);
}

static void no_current_frame(void) {
    struct part part = ready(XC3S50);
    uint32_t number;
    SAME(sw_frame_number(XC3S50, 0xFFFFFFFFu, &number), 0);
    SAME(number, SW_NO_FRAME);
    SAME(FEED(&part, WRITE(FAR, 1), 0xFFFFFFFFu, WRITE(FDRI, 2 * part.frame_words)), 0);
    SAME(word(&part, SW_RECORD_CURRENT_FRAME), SW_NO_FRAME);
    uint32_t answer = 0;
    for (uint32_t i = 0; i < part.frame_words; i++) {
        SAME(answer, 0);
        answer = feed_word(&part, i);
    }
    stopped(part, answer, SW_STOP_NO_CURRENT_FRAME);
}

static void refused_layouts(void) {
    const uint8_t empty[] = {1, 0, 0}, edition[] = {2, 0, 0}, device[] = {1, 1, 0};
    const uint8_t past[] = {1, 0, 1, 1, 0xEF, 2, 2}, frame_256[] = {1, 0, 1, 1, 0x80, 2, 1};
    uint8_t out[47];
    uint64_t value;
    SAME(sw_check(NO_DEVICE, 0, 368, empty, sizeof empty, &value), SW_REFUSED_UNKNOWN_DEVICE);
    SAME(sw_check(XC3S50, 364, 5, empty, sizeof empty, &value), SW_REFUSED_WRONG_RANGE);
    SAME(sw_check(XC3S50, 0, 368, edition, sizeof edition, &value), SW_REFUSED_WRONG_EDITION);
    SAME(sw_check(XC3S50, 0, 368, device, sizeof device, &value), SW_REFUSED_WRONG_DEVICE);
    SAME(sw_check(XC3S50, 0, 368, past, sizeof past, &value), SW_REFUSED_OUTSIDE_PART);
    SAME(sw_check(XC3S50, 0, 256, frame_256, sizeof frame_256, &value), SW_REFUSED_OUTSIDE_RANGE);
    SAME(sw_compile(XC3S50, 0, 368, empty, sizeof empty, out, sizeof out, &value), SW_REFUSED_SHORT_OUTPUT);
    SAME(value, sizeof out + 1);
}

static void malformed_layouts(void) {
    const uint8_t form[] = {0x81, 0, 0, 0}, kind[] = {1, 0, 1, 3}, zero[] = {1, 0, 1, 2, 0};
    const uint8_t steps[] = {1, 0, 0x81, 0x20}, after[] = {1, 0, 0, 0};
    uint8_t falling[] = {1, 0, 1, 2, 2, [153] = 7, [154] = 6};
    uint64_t value;
    SAME(sw_check(XC3S50, 0, 368, form, sizeof form, &value), SW_REFUSED_BAD_NUMBER);
    SAME(sw_check(XC3S50, 0, 368, form, 0, &value), SW_REFUSED_MISSING_BYTES);
    SAME(sw_check(XC3S50, 0, 368, kind, sizeof kind, &value), SW_REFUSED_UNKNOWN_KIND);
    SAME(sw_check(XC3S50, 0, 368, zero, sizeof zero, &value), SW_REFUSED_ZERO_COUNT);
    SAME(sw_check(XC3S50, 0, 368, falling, sizeof falling, &value), SW_REFUSED_NOT_RISING);
    SAME(value, 154);
    SAME(sw_check(XC3S50, 0, 368, steps, sizeof steps, &value), SW_REFUSED_TOO_MANY_STEPS);
    SAME(sw_check(XC3S50, 0, 368, after, sizeof after, &value), SW_REFUSED_BYTES_AFTER);
}

/* A layout read number by number and step by step. */
static void read_layout(void) {
    const uint8_t layout[] = {1, 0, 0x80, 1, 2, 0};
    uint32_t number;
    uint64_t next, value;
    SAME(sw_read_number(layout, sizeof layout, 2, &number, &next), 0);
    SAME(number, 128);
    SAME(next, 4);
    SAME(sw_read_step(XC3S50, 0, 368, layout, sizeof layout, next, &value), SW_REFUSED_ZERO_COUNT);
    SAME(value, 5);
    SAME(sw_read_number(layout, 3, 2, &number, &next), SW_REFUSED_MISSING_BYTES);
    SAME(number, 0);
    SAME(next, 0);
}

static void refused_records(void) {
    struct part part = powered(XC3S50);
    const uint8_t empty[] = {1, 0, 0};
    uint8_t out[48];
    uint64_t value;
    SAME(sw_power_on(XC3S50, part.record, SW_RECORD_LEN - 1, part.memory, part.memory_len), SW_REFUSED_INCONSISTENT);
    SAME(sw_apply(XC3S50, 0, 368, empty, sizeof empty, part.memory, part.memory_len - 1, &value),
         SW_REFUSED_WRONG_MEMORY);
    SAME(sw_reconfigure(part.record, SW_RECORD_LEN, part.memory, part.memory_len, 0, 368, empty, sizeof empty, out,
                        sizeof out, &value), 0);
    SAME(FEED(&part, SYNC), 0);
    SAME(sw_reconfigure(part.record, SW_RECORD_LEN, part.memory, part.memory_len, 0, 368, empty, sizeof empty, out,
                        sizeof out, &value), SW_REFUSED_NOT_HUNTING);
    free(part.memory);
}

static void refused_numbers(void) {
    uint32_t idcode, frame_words, frames, address, block, major, minor;
    uint64_t memory_len;
    SAME(sw_part(NO_DEVICE, &idcode, &frame_words, &frames, &memory_len), SW_REFUSED_UNKNOWN_DEVICE);
    SAME(idcode | frame_words | frames | memory_len, 0);
    SAME(sw_frame_address(XC3S400, 767, &address), SW_REFUSED_OUTSIDE_PART);
    SAME(sw_frame_address(XC3S400, 766, &address), 0);
    sw_address_fields(address | 0xF80001FFu, &block, &major, &minor);
    SAME(block, 2);
    SAME(major, 1);
    SAME(minor, 18);
    SAME(sw_crc(0, CRC, 0x80000000u), 0x80C3);
}

/* The words of the image in each phase. */
static void words(void) {
    struct part part = powered(XC3S400);
    const uint8_t half[] = {0xAA, 0x99}, rest[] = {0x55, 0x66};
    SAME(SW_RECORD_WORDS * 4, SW_RECORD_LEN);
    SAME(word(&part, SW_RECORD_DEVICE), XC3S400);
    SAME(word(&part, SW_RECORD_PHASE), SW_PHASE_HUNTING);
    SAME(feed_bytes(&part, half, sizeof half), 0);
    SAME(word(&part, SW_RECORD_BYTE_COUNT), 2);
    SAME(word(&part, SW_RECORD_BYTES), 0xAA99);
    SAME(feed_bytes(&part, rest, sizeof rest), 0);
    SAME(word(&part, SW_RECORD_PHASE), SW_PHASE_HEADER);
    SAME(word(&part, SW_RECORD_ARGUMENT), 0);
    SAME(FEED(&part, WRITE(FDRI, 0)), 0);
    SAME(word(&part, SW_RECORD_ARGUMENT), FDRI + 1);
    SAME(FEED(&part, WRITE(FAR, 1), 0x00020000u, WRITE(CMD, 1)), 0);
    SAME(word(&part, SW_RECORD_CURRENT_FRAME), 3);
    SAME(word(&part, SW_RECORD_PHASE), SW_PHASE_DATA);
    SAME(word(&part, SW_RECORD_ARGUMENT), CMD);
    SAME(word(&part, SW_RECORD_WORDS_LEFT), 1);
    SAME(FEED(&part, WCFG), 0);
    SAME(word(&part, SW_RECORD_REGISTERS + CMD), WCFG);
    free(part.memory);
}

/* A frame on its way into the buffer, up to the auto CRC word. */
static void frame(void) {
    struct part part = ready(XC3S400);
    SAME(FEED(&part, WRITE(FDRI, part.frame_words), 0x01234567u), 0);
    SAME(word(&part, SW_RECORD_FRAME_BUFFER), 0x01234567u);
    SAME(word(&part, SW_RECORD_WORDS_FILLED), 1);
    SAME(word(&part, SW_RECORD_WORDS_LEFT), part.frame_words - 1);
    SAME(word(&part, SW_RECORD_FLAGS), SW_FLAG_IDCODE_ACCEPTED | SW_FLAG_FLR_ACCEPTED);
    for (uint32_t i = 1; i < part.frame_words; i++) {
        SAME(feed_word(&part, i), 0);
    }
    SAME(word(&part, SW_RECORD_FRAME_BUFFER + part.frame_words - 1), part.frame_words - 1);
    SAME(word(&part, SW_RECORD_PHASE), SW_PHASE_CRC);
    SAME(word(&part, SW_RECORD_FLAGS), SW_FLAG_IDCODE_ACCEPTED | SW_FLAG_FLR_ACCEPTED | SW_FLAG_BUFFER_VALID);
    free(part.memory);
}

/* Each flag as it comes, up to a device that has started. */
static void flags(void) {
    struct part part = powered(XC3S50);
    SAME(word(&part, SW_RECORD_FLAGS), 0);
    SAME(FEED(&part, SYNC, WRITE(IDCODE, 1), part.idcode), 0);
    SAME(word(&part, SW_RECORD_FLAGS), SW_FLAG_IDCODE_ACCEPTED);
    SAME(FEED(&part, WRITE(CMD, 1), AGHIGH), 0);
    SAME(word(&part, SW_RECORD_FLAGS), SW_FLAG_IDCODE_ACCEPTED | SW_FLAG_GHIGH);
    SAME(FEED(&part, WRITE(CMD, 1), START), 0);
    SAME(word(&part, SW_RECORD_FLAGS), SW_FLAG_IDCODE_ACCEPTED | SW_FLAG_GHIGH | SW_FLAG_START_PENDING);
    /* After RCRC the register is zero, and the word 0 keeps it so. */
    SAME(FEED(&part, WRITE(CMD, 1), RCRC, WRITE(CRC, 1), 0), 0);
    SAME(word(&part, SW_RECORD_FLAGS) & SW_FLAG_CHECK_PASSED, SW_FLAG_CHECK_PASSED);
    SAME(FEED(&part, WRITE(CMD, 1), DESYNC), 0);
    SAME(word(&part, SW_RECORD_FLAGS) & SW_FLAG_START_PENDING, 0);
    SAME(word(&part, SW_RECORD_FLAGS) & SW_FLAG_STARTED, SW_FLAG_STARTED);
    free(part.memory);
}

int main(void) {
    stops();
    no_current_frame();
    refused_layouts();
    malformed_layouts();
    read_layout();
    refused_records();
    refused_numbers();
    words();
    frame();
    flags();
    if (wrong == 0) {
        puts("all as declared");
    }
    return wrong != 0;
}

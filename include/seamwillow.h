/* The C interface of the proved static library seamwillow. */
#ifndef SEAMWILLOW_H
#define SEAMWILLOW_H

#include <stddef.h>
#include <stdint.h>

#ifdef __cplusplus
extern "C" {
#endif

/* Functions that answer a number answer 0 for done, else a stop or a refusal; sw_crc alone answers a CRC register. */

/* Why a part stopped in a stream: sw_load answers it, and the record of a stopped part holds it. */
enum sw_stop {
    SW_STOP_BAD_HEADER = 1,         /* header of no allowed kind */
    SW_STOP_BAD_REGISTER = 2,       /* register unknown, or written though it can't be */
    SW_STOP_READ_OPERATION = 3,     /* read operation */
    SW_STOP_WRONG_IDCODE = 4,       /* IDCODE word not the part's */
    SW_STOP_WRONG_FRAME_LENGTH = 5, /* FLR word not the words of the part's frame less one */
    SW_STOP_NOT_READY = 6,          /* FDRI or MFWR before IDCODE and FLR, without its command, or no frame loaded */
    SW_STOP_WRONG_COUNT = 7,        /* FDRI count not whole frames, MFWR count not 2 */
    SW_STOP_CRC_CHECK = 8,          /* CRC check not zero */
    SW_STOP_NO_CURRENT_FRAME = 9,   /* a frame to store, current frame none */
    SW_STOP_UNKNOWN_COMMAND = 10    /* CMD word above 13 */
};

/* Why a call was refused. */
enum sw_refused {
    SW_REFUSED_UNKNOWN_DEVICE = 21, /* device number above 7 */
    SW_REFUSED_INCONSISTENT = 22,   /* record inconsistent, or its image not SW_RECORD_LEN bytes */
    SW_REFUSED_WRONG_MEMORY = 23,   /* memory length not the part's */
    SW_REFUSED_NOT_HUNTING = 24,    /* the record does not wait for sync (a number of this interface) */
    SW_REFUSED_WRONG_EDITION = 32,  /* edition not 1 */
    SW_REFUSED_WRONG_DEVICE = 33,   /* layout's device not the desk's */
    SW_REFUSED_OUTSIDE_PART = 34,   /* frame outside the part */
    SW_REFUSED_OUTSIDE_RANGE = 35,  /* frame outside the range that the desk names */
    SW_REFUSED_SHORT_OUTPUT = 36,   /* output shorter than the stream */
    SW_REFUSED_WRONG_RANGE = 37,    /* range's first frame plus count above the part's frames */
    SW_REFUSED_BAD_NUMBER = 41,     /* layout: a badly formed count or number */
    SW_REFUSED_MISSING_BYTES = 42,  /* layout: bytes missing, or a number cut short by the end */
    SW_REFUSED_UNKNOWN_KIND = 43,   /* layout: a kind of step that does not exist */
    SW_REFUSED_ZERO_COUNT = 44,     /* layout: a step's count is 0 */
    SW_REFUSED_NOT_RISING = 45,     /* layout: targets not rising */
    SW_REFUSED_TOO_MANY_STEPS = 46, /* layout: more than 4096 steps */
    SW_REFUSED_BYTES_AFTER = 47     /* layout: bytes after the last step */
};

/* The CRC register (crc modulo 65,536) after word is fed for register address reg (modulo 32). */
uint32_t sw_crc(uint32_t crc, uint32_t reg, uint32_t word);

/* 0 or 21; the part's IDCODE, the words of a frame, the frames and the bytes of frame memory, all 0 where refused. */
uint32_t sw_part(uint32_t device, uint32_t *idcode, uint32_t *frame_words, uint32_t *frames, uint64_t *memory_len);

/* The fields of a frame address: bits 26..25, 24..17 and 16..9. Any address; the other bits are ignored. */
void sw_address_fields(uint32_t address, uint32_t *block, uint32_t *major, uint32_t *minor);

/* No frame, as a frame number. */
#define SW_NO_FRAME 0xFFFFFFFFu

/* 0, 21 or 34; address: the frame address, 0 where refused. */
uint32_t sw_frame_address(uint32_t device, uint32_t number, uint32_t *address);

/* 0 or 21; number: the frame number, SW_NO_FRAME for none and where refused. */
uint32_t sw_frame_number(uint32_t device, uint32_t address, uint32_t *number);

/* The length in bytes of a record's image: 237 words, high byte first. */
#define SW_RECORD_LEN 948

/* The words of a record's image. */
enum sw_record_word {
    SW_RECORD_DEVICE = 0,        /* device number */
    SW_RECORD_PHASE = 1,         /* enum sw_phase */
    SW_RECORD_ARGUMENT = 2,      /* header: register of a type 2 header plus 1, or 0; data: register; stopped: stop */
    SW_RECORD_WORDS_LEFT = 3,    /* data: words still to come; else 0 */
    SW_RECORD_WORDS_FILLED = 4,  /* data of FDRI: words of the frame filled; else 0 */
    SW_RECORD_BYTE_COUNT = 5,    /* bytes of the partial word, or of the sync window while hunting, 0 to 3 */
    SW_RECORD_BYTES = 6,         /* those bytes as one number, the first byte highest */
    SW_RECORD_CURRENT_FRAME = 7, /* frame number, SW_NO_FRAME for none */
    SW_RECORD_FLAGS = 8,         /* enum sw_flag, or-ed */
    SW_RECORD_REGISTERS = 9,     /* registers 0 to 14 from here on, each at its address */
    SW_RECORD_FRAME_BUFFER = 24, /* 213 words from here on, of which the part's frame has the first */
    SW_RECORD_WORDS = 237        /* how many words an image has */
};

/* What a part waits for. */
enum sw_phase {
    SW_PHASE_HUNTING = 0, /* the sync word */
    SW_PHASE_HEADER = 1,  /* a packet header */
    SW_PHASE_DATA = 2,    /* a packet's data */
    SW_PHASE_CRC = 3,     /* the auto CRC word after frame data */
    SW_PHASE_STOPPED = 4  /* nothing more: it stopped, and takes no byte until power-on */
};

/* The flags of a record; all other bits are 0. */
enum sw_flag {
    SW_FLAG_IDCODE_ACCEPTED = 1 << 0, /* the part's IDCODE was written */
    SW_FLAG_FLR_ACCEPTED = 1 << 1,    /* the part's frame length was written */
    SW_FLAG_BUFFER_VALID = 1 << 2,    /* a frame is in the buffer, for MFWR to store */
    SW_FLAG_GHIGH = 1 << 3,           /* GHIGH is asserted */
    SW_FLAG_START_PENDING = 1 << 4,   /* START was given, DESYNC not yet */
    SW_FLAG_CHECK_PASSED = 1 << 5,    /* a CRC check has passed since START, or since power-on */
    SW_FLAG_STARTED = 1 << 6          /* the device has started */
};

/* 22 where record_len is not 948, judged first, and then nothing is written; else 0, 21, 23. 0 writes the record of
   the part just powered on and a memory of zeros; 21 and 23 write the fresh record of device 0 and leave the memory. */
uint32_t sw_power_on(uint32_t device, uint8_t *record, size_t record_len, uint8_t *memory, size_t memory_len);

/* The stop or refusal number, 0 for none; taken: the bytes taken from this piece, 0 at a refusal. A record_len other
   than 948 and an image of no consistent record are 22, then a memory of another length than the part's is 23;
   a refusal changes neither record nor memory. */
uint32_t sw_load(uint8_t *record, size_t record_len, uint8_t *memory, size_t memory_len,
                 const uint8_t *stream, size_t stream_len, uint64_t *taken);

/* 0 and the length of the layout's stream in bytes, or the refusal number and its offset: 21 and 37, both with value 0,
   then the layout's. The frames that the layout may name are count of them from first on. */
uint32_t sw_check(uint32_t device, uint32_t first, uint32_t count, const uint8_t *layout, size_t layout_len,
                  uint64_t *value);

/* To say what is refused, and in which step: a layout is an edition, a device, a step count and that many steps. */

/* The number that begins at an offset of a layout: 0, 41 or 42; value and the offset after it, both 0 where refused. */
uint32_t sw_read_number(const uint8_t *layout, size_t layout_len, size_t at, uint32_t *value, uint64_t *next);

/* The step that begins at an offset of a layout: 0 and the offset after it, or the refusal number and its offset. Neither
   21 nor 37 is given: for a device above 7 every step is refused, one that has its form with 34. */
uint32_t sw_read_step(uint32_t device, uint32_t first, uint32_t count, const uint8_t *layout, size_t layout_len,
                      size_t at, uint64_t *value);

/* Answers as sw_check, then 23 with value 0 for a memory of another length than the part's. 0 does the layout's steps
   on the memory; a refusal leaves it as it was. */
uint32_t sw_apply(uint32_t device, uint32_t first, uint32_t count, const uint8_t *layout, size_t layout_len,
                  uint8_t *memory, size_t memory_len, uint64_t *value);

/* Answers as sw_check, then 36 with the length needed for an out_len under that of the stream. 0 writes the stream to
   the first bytes of out and leaves those after it; a refusal leaves all of out as it was. */
uint32_t sw_compile(uint32_t device, uint32_t first, uint32_t count, const uint8_t *layout, size_t layout_len,
                    uint8_t *out, size_t out_len, uint64_t *value);

/* Compiles the layout for the record's own device into out, then loads the stream. 22 and 23 as sw_load, then 24 (a
   number of this interface) for a consistent record that is not hunting, all three with value 0; then 37, the layout's
   refusals and 36 as sw_compile. Every refusal leaves record, memory and out as they were. 0 and the stream's length:
   out is as sw_compile leaves it, the memory as sw_apply does, and the record is consistent and hunts, with no bytes
   remembered. */
uint32_t sw_reconfigure(uint8_t *record, size_t record_len, uint8_t *memory, size_t memory_len,
                        uint32_t first, uint32_t count, const uint8_t *layout, size_t layout_len,
                        uint8_t *out, size_t out_len, uint64_t *value);

#ifdef __cplusplus
}
#endif

#endif

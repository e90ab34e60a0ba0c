/* Fezgandom: an Intel 8080, stepped state by state. The functions are proved (crates/capi) to do what is said here, for every
   argument: any length, any bytes. A buffer is a pointer and then its length; an empty one may have a null pointer. The
   buffers of one call must not overlap. Nothing is allocated, and nothing is kept between calls. */
#ifndef FEZGANDOM_H
#define FEZGANDOM_H

#include <stdbool.h>
#include <stddef.h>
#include <stdint.h>

#ifdef __cplusplus
extern "C" {
#endif

/* Sizes in bytes, and the most that a run takes. */
enum {
    FEZ_RECORD_BYTES = 64,
    FEZ_MEMORY_BYTES = 65536,
    FEZ_PORT_BYTES = 256,
    FEZ_EVENT_BYTES = 6,
    FEZ_ROW_BYTES = 8,
    FEZ_SAVED_BYTES = 65816,
    FEZ_MOST_EVENTS = 1000,
    FEZ_MOST_STATES = 8192,
    FEZ_HEX_MOST_BYTES = 184333 /* the text of the whole memory in Intel HEX */
};

/* The numbers that the functions return. All but FEZ_DONE and FEZ_STOPPED are refusals: no byte of any buffer changes. */
enum {
    FEZ_DONE = 0,
    FEZ_MEMORY_SIZE = 1,         /* memory is not 65,536 bytes */
    FEZ_PORT_SIZE = 2,           /* a port buffer is not 256 bytes */
    FEZ_SCHEDULE_LENGTH = 3,     /* schedule length is no multiple of 6, or over 6,000 */
    FEZ_EVENT_VALUE = 4,         /* an event's line or value is not listed */
    FEZ_EVENT_ORDER = 5,         /* the events' order is broken */
    FEZ_TOO_MANY_STATES = 6,     /* more than 8,192 states asked */
    FEZ_TRACE_SHORT = 7,         /* trace shorter than 8 times the states asked */
    FEZ_ILL_FORMED = 8,          /* the machine record is ill formed */
    FEZ_CLOCK_RANGE = 9,         /* clock plus states asked exceeds 4,294,967,295 */
    FEZ_STOPPED = 10,            /* an undefined opcode was fetched, in this call or before */
    FEZ_INSIDE_INSTRUCTION = 11, /* saving: the machine is inside an instruction */
    FEZ_SAVED_SIZE = 12,         /* loading: not 65,816 bytes */
    FEZ_FIELD_RANGE = 13,        /* loading: a field is outside its range */
    FEZ_OUTPUT_SIZE = 14,        /* saving: output is not 65,816 bytes */
    FEZ_HEX_MALFORMED = 15,      /* reading Intel HEX: malformed line or wrong checksum */
    FEZ_HEX_OTHER_TYPE = 16,     /* reading Intel HEX: a record's type is neither 00 nor 01 */
    FEZ_HEX_PAST_END = 17,       /* Intel HEX: data, or a range to write, past hex FFFF */
    FEZ_HEX_NO_END = 18,         /* reading Intel HEX: no end record */
    FEZ_HEX_OUTPUT_SHORT = 19    /* writing Intel HEX: output shorter than the text */
};

/* Where things stand in a machine record of 64 bytes; docs/RECORD.md says which values they take. Bytes 21 to 23 and 33 to 63
   are zeros. */
enum {
    FEZ_A = 0,
    FEZ_FLAGS = 1, /* bits 7 to 0: S, Z, 0, AC, 0, P, 1, CY */
    FEZ_B = 2,
    FEZ_C = 3,
    FEZ_D = 4,
    FEZ_E = 5,
    FEZ_H = 6,
    FEZ_L = 7,
    FEZ_SP = 8,           /* 2 bytes, low first */
    FEZ_PC = 10,          /* 2 bytes, low first */
    FEZ_INTE = 12,        /* 0 or 1 */
    FEZ_NEXT = 13,        /* 0 fetch, 1 halt state, 2 stopped, 3 later state of a cycle, 4 wait, 5 hold */
    FEZ_CLOCK = 14,       /* 4 bytes, low first */
    FEZ_READY = 18,       /* 0 down, 1 up */
    FEZ_HOLD = 19,        /* 0 down, 1 up */
    FEZ_INT = 20,         /* 0 to 7 up with that restart number, 8 down */
    FEZ_CYCLE = 24,       /* of a later state, a wait or a hold; else 0 */
    FEZ_STATE = 25,       /* of a later state; else 0 */
    FEZ_OPCODE = 26,      /* the opcode kept */
    FEZ_ACKNOWLEDGE = 27, /* 0 none, 1 from running, 2 from halt */
    FEZ_RESTART = 28,     /* the restart number taken */
    FEZ_KEPT = 29         /* 4 bytes: what cycles 2 to 5 read */
};

/* Puts a cold machine into the record: FEZ_DONE, or FEZ_ILL_FORMED where the record is not 64 bytes. */
uint8_t fez_cold(uint8_t *record, size_t record_bytes);

/* Whether the record is well formed. */
bool fez_well(const uint8_t *record, size_t record_bytes);

/* A run of `states` states over memory, input ports, output ports, a schedule of events of 6 bytes (state number, 4 bytes low
   first; line 0 READY, 1 HOLD, 2 INT; value) and a trace of 8 bytes a state. Tests 1 to 9 in that order. Returns the number and
   the states done; take them out with fez_number and fez_states. */
uint64_t fez_run(uint8_t *record, size_t record_bytes, uint32_t states, uint8_t *memory, size_t memory_bytes,
                 const uint8_t *inputs, size_t inputs_bytes, uint8_t *outputs, size_t outputs_bytes, const uint8_t *schedule,
                 size_t schedule_bytes, uint8_t *trace, size_t trace_bytes);

static inline unsigned fez_number(uint64_t answer) { return (unsigned)(answer % 256); }
static inline uint64_t fez_states(uint64_t answer) { return answer / 256; }

/* Saves a machine that is between instructions, with its output ports and memory, into 65,816 bytes. Tests 1, 2, 8, 11, 14. */
uint8_t fez_save(const uint8_t *record, size_t record_bytes, const uint8_t *memory, size_t memory_bytes,
                 const uint8_t *outputs, size_t outputs_bytes, uint8_t *saved, size_t saved_bytes);

/* Loads what was saved: the machine into the record, whose old bytes are not judged, and the output ports and memory.
   FEZ_ILL_FORMED where the record is not 64 bytes; then tests 12, 13, 1, 2. */
uint8_t fez_load(uint8_t *record, size_t record_bytes, const uint8_t *saved, size_t saved_bytes, uint8_t *memory,
                 size_t memory_bytes, uint8_t *outputs, size_t outputs_bytes);

/* Reads a text in Intel HEX, records of types 00 and 01, into memory; bytes that no record names stay. Lines end in LF or
   CR LF, which the last may lack; digits may be of either case; what follows the end record is ignored. An end record with
   data or a nonzero address is malformed. Tests 1; then 15, 16, 17 line by line up to the end record; then 18. Returns the
   number and the line at fault, from 1 on, or 0 where no line is; take them out with fez_number and fez_line. */
uint64_t fez_hex_read(const uint8_t *text, size_t text_bytes, uint8_t *memory, size_t memory_bytes);

static inline uint64_t fez_line(uint64_t answer) { return answer / 256; }

/* Writes `length` bytes of memory from `start` on as such a text: data records of 16 bytes, the last shorter, then the end
   record, in capitals, lines with CR LF. That is two characters a byte, 13 more for each data record, and 13 for the end
   record. Output past the text keeps its bytes. Tests 1, 17, 19. Returns the number and the characters written, 0 after a
   refusal; take them out with fez_number and fez_written. */
uint64_t fez_hex_write(const uint8_t *memory, size_t memory_bytes, size_t start, size_t length, uint8_t *out,
                       size_t out_bytes);

static inline uint64_t fez_written(uint64_t answer) { return answer / 256; }

/* For a caller that is the bus itself: what the state that comes next asks, and one state with this byte on the bus.
   fez_step tests 8, 9, 10, and changes nothing where it does not return FEZ_DONE; the levels are the record's bytes 18 to 20,
   which the caller may set between two states. */
enum {
    FEZ_ASKS_NOTHING = 0, /* any byte will do */
    FEZ_ASKS_READ = 1,    /* the byte at the address */
    FEZ_ASKS_WRITE = 2,   /* the byte goes to the address, and to fez_step */
    FEZ_ASKS_INPUT = 3,   /* the byte of the port */
    FEZ_ASKS_OUTPUT = 4,  /* the byte goes to the port, and to fez_step */
    FEZ_ASKS_RESTART = 5  /* the byte, an RST, goes to fez_step */
};
uint32_t fez_request(const uint8_t *record, size_t record_bytes);
uint8_t fez_step(uint8_t *record, size_t record_bytes, uint8_t byte);

static inline unsigned fez_asks(uint32_t request) { return request >> 24; }
static inline uint8_t fez_asks_byte(uint32_t request) { return (uint8_t)(request >> 16); }
static inline uint16_t fez_asks_where(uint32_t request) { return (uint16_t)request; }

#ifdef __cplusplus
}
#endif

#endif

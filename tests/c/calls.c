/* Calls each function of include/fezgandom.h from C and compares what it returns and leaves. */
#include <stdio.h>
#include <string.h>

#include "fezgandom.h"

/* Everything that is lent to a call. */
struct machine {
    uint8_t record[FEZ_RECORD_BYTES];
    uint8_t memory[FEZ_MEMORY_BYTES];
    uint8_t inputs[FEZ_PORT_BYTES];
    uint8_t outputs[FEZ_PORT_BYTES];
    uint8_t trace[FEZ_ROW_BYTES * FEZ_MOST_STATES];
    uint8_t saved[FEZ_SAVED_BYTES];
};

static struct machine m, before;
static unsigned checks, failures;

#define CHECK(what) check((what), #what, __LINE__)

static void check(bool holds, const char *what, int line)
{
    checks++;
    if (!holds) {
        failures++;
        printf("calls.c:%d: %s\n", line, what);
    }
}

/* A cold machine with the sample program 3E 05 76 at address 0. */
static void sample(void)
{
    static const uint8_t program[] = {0x3E, 0x05, 0x76};
    memset(&m, 0, sizeof m);
    memcpy(m.memory, program, sizeof program);
    memset(m.trace, 0xEE, sizeof m.trace);
    fez_cold(m.record, sizeof m.record);
    before = m;
}

static uint64_t run(uint32_t states)
{
    return fez_run(m.record, sizeof m.record, states, m.memory, sizeof m.memory, m.inputs, sizeof m.inputs, m.outputs,
                   sizeof m.outputs, NULL, 0, m.trace, sizeof m.trace);
}

static uint64_t run_with(const uint8_t *schedule, size_t bytes)
{
    return fez_run(m.record, sizeof m.record, 1, m.memory, sizeof m.memory, m.inputs, sizeof m.inputs, m.outputs,
                   sizeof m.outputs, schedule, bytes, m.trace, sizeof m.trace);
}

static uint8_t save(size_t bytes)
{
    return fez_save(m.record, sizeof m.record, m.memory, sizeof m.memory, m.outputs, sizeof m.outputs, m.saved, bytes);
}

static uint8_t load(size_t bytes)
{
    return fez_load(m.record, sizeof m.record, m.saved, bytes, m.memory, sizeof m.memory, m.outputs, sizeof m.outputs);
}

static bool unchanged(void)
{
    return memcmp(&m, &before, sizeof m) == 0;
}

static void cold_record(void)
{
    uint8_t expected[FEZ_RECORD_BYTES] = {[FEZ_FLAGS] = 0x02, [FEZ_READY] = 1, [FEZ_INT] = 8};
    uint8_t short_record[FEZ_RECORD_BYTES] = {7};
    sample();
    CHECK(memcmp(m.record, expected, sizeof expected) == 0);
    CHECK(fez_well(m.record, sizeof m.record));
    CHECK(fez_cold(short_record, 63) == FEZ_ILL_FORMED && short_record[0] == 7);
    CHECK(!fez_well(m.record, 63));
    CHECK(!fez_well(NULL, 0));
}

/* Document 01's sample: state, kind, address, data of its 14 states. */
static void sample_rows(void)
{
    static const uint8_t rows[14][4] = {
        {1, 1, 0, 0}, {2, 1, 0, 0}, {3, 1, 0, 0x3E}, {4, 1, 0, 0}, {1, 2, 1, 0}, {2, 2, 1, 0}, {3, 2, 1, 5},
        {1, 1, 2, 0}, {2, 1, 2, 0}, {3, 1, 2, 0x76}, {4, 1, 0, 0}, {1, 9, 3, 0}, {2, 9, 3, 0}, {3, 9, 3, 0},
    };
    sample();
    CHECK(run(14) == FEZ_DONE + 256 * 14);
    for (int i = 0; i < 14; i++) {
        const uint8_t *row = m.trace + FEZ_ROW_BYTES * i;
        CHECK(row[0] == rows[i][0] && row[1] == rows[i][1] && row[2] == rows[i][2] && row[3] == 0 && row[4] == rows[i][3]);
    }
    CHECK(m.trace[FEZ_ROW_BYTES * 14] == 0xEE);
    CHECK(m.record[FEZ_A] == 5 && m.record[FEZ_PC] == 3 && m.record[FEZ_NEXT] == 1 && m.record[FEZ_CLOCK] == 14);
}

/* The same states one by one, with this test as the bus, leave the same record after each. */
static void sample_steps(void)
{
    uint8_t record[FEZ_RECORD_BYTES];
    sample();
    fez_cold(record, sizeof record);
    for (int i = 0; i < 20; i++) {
        uint32_t asked = fez_request(record, sizeof record);
        bool read = fez_asks(asked) == FEZ_ASKS_READ;
        CHECK(read == (i == 2 || i == 6 || i == 9));
        CHECK(fez_step(record, sizeof record, read ? m.memory[fez_asks_where(asked)] : 0) == FEZ_DONE);
        CHECK(run(1) == FEZ_DONE + 256);
        CHECK(memcmp(record, m.record, sizeof record) == 0);
    }
}

static void refused_runs(void)
{
    static const uint8_t line_three[] = {0, 0, 0, 0, 3, 0};
    static const uint8_t falling[] = {1, 0, 0, 0, 0, 1, 0, 0, 0, 0, 0, 1};
    sample();
    CHECK(fez_run(m.record, 64, 1, m.memory, 65535, m.inputs, 256, m.outputs, 256, NULL, 0, m.trace, 8) == FEZ_MEMORY_SIZE);
    CHECK(fez_run(m.record, 64, 1, m.memory, 65536, m.inputs, 255, m.outputs, 256, NULL, 0, m.trace, 8) == FEZ_PORT_SIZE);
    CHECK(fez_run(m.record, 64, 1, m.memory, 65536, m.inputs, 256, m.outputs, 255, NULL, 0, m.trace, 8) == FEZ_PORT_SIZE);
    CHECK(run_with(line_three, 5) == FEZ_SCHEDULE_LENGTH);
    CHECK(run_with(line_three, 6) == FEZ_EVENT_VALUE);
    CHECK(run_with(falling, 12) == FEZ_EVENT_ORDER);
    CHECK(run(8193) == FEZ_TOO_MANY_STATES);
    CHECK(run(UINT32_MAX) == FEZ_TOO_MANY_STATES);
    CHECK(fez_run(m.record, 64, 2, m.memory, 65536, m.inputs, 256, m.outputs, 256, NULL, 0, m.trace, 15) == FEZ_TRACE_SHORT);
    CHECK(fez_run(m.record, 63, 1, m.memory, 65536, m.inputs, 256, m.outputs, 256, NULL, 0, m.trace, 8) == FEZ_ILL_FORMED);
    CHECK(unchanged());
    CHECK(run(8192) == FEZ_DONE + 256 * 8192);
}

/* A record with one byte that is not allowed there. */
static void ill_formed(unsigned at, uint8_t byte)
{
    sample();
    m.record[at] = byte;
    before = m;
    CHECK(!fez_well(m.record, sizeof m.record));
    CHECK(run(1) == FEZ_ILL_FORMED);
    CHECK(fez_step(m.record, sizeof m.record, 0) == FEZ_ILL_FORMED);
    CHECK(save(sizeof m.saved) == FEZ_ILL_FORMED);
    CHECK(unchanged());
}

static void last_state(void)
{
    sample();
    memset(m.record + FEZ_CLOCK, 0xFF, 4);
    before = m;
    CHECK(run(1) == FEZ_CLOCK_RANGE);
    CHECK(fez_step(m.record, sizeof m.record, 0) == FEZ_CLOCK_RANGE);
    CHECK(unchanged());
}

static void undefined_opcode(void)
{
    sample();
    m.memory[0] = 0x08;
    CHECK(run(14) == FEZ_STOPPED + 256 * 3);
    CHECK(m.record[FEZ_NEXT] == 2 && m.record[FEZ_PC] == 1);
    before = m;
    CHECK(run(0) == FEZ_STOPPED);
    CHECK(fez_step(m.record, sizeof m.record, 0) == FEZ_STOPPED);
    CHECK(unchanged());
}

static void save_and_load(void)
{
    sample();
    m.outputs[255] = 9;
    CHECK(run(14) == FEZ_DONE + 256 * 14);
    before = m;
    CHECK(save(FEZ_SAVED_BYTES - 1) == FEZ_OUTPUT_SIZE);
    CHECK(unchanged());
    CHECK(save(FEZ_SAVED_BYTES) == FEZ_DONE);
    CHECK(memcmp(m.saved, m.record, 24) == 0);

    before = m;
    CHECK(load(FEZ_SAVED_BYTES - 1) == FEZ_SAVED_SIZE);
    CHECK(fez_load(m.record, 63, m.saved, 0, m.memory, 0, m.outputs, 0) == FEZ_ILL_FORMED);
    CHECK(fez_load(m.record, 64, m.saved, 65816, m.memory, 65535, m.outputs, 256) == FEZ_MEMORY_SIZE);
    CHECK(fez_load(m.record, 64, m.saved, 65816, m.memory, 65536, m.outputs, 255) == FEZ_PORT_SIZE);
    CHECK(unchanged());

    memset(m.record, 0xAA, sizeof m.record);
    memset(m.memory, 0xAA, sizeof m.memory);
    memset(m.outputs, 0xAA, sizeof m.outputs);
    CHECK(load(FEZ_SAVED_BYTES) == FEZ_DONE);
    CHECK(unchanged());

    m.saved[FEZ_INTE] = 2;
    before = m;
    CHECK(load(FEZ_SAVED_BYTES) == FEZ_FIELD_RANGE);
    CHECK(unchanged());
}

static void save_inside(void)
{
    sample();
    CHECK(run(1) == FEZ_DONE + 256);
    before = m;
    CHECK(save(FEZ_SAVED_BYTES) == FEZ_INSIDE_INSTRUCTION);
    CHECK(unchanged());
}

static uint64_t hex_read(const char *text)
{
    return fez_hex_read((const uint8_t *)text, strlen(text), m.memory, sizeof m.memory);
}

static void hex_in(void)
{
    sample();
    CHECK(hex_read("") == FEZ_HEX_NO_END);
    CHECK(fez_hex_read(NULL, 0, m.memory, sizeof m.memory) == FEZ_HEX_NO_END);
    CHECK(fez_hex_read(NULL, 0, m.memory, 65535) == FEZ_MEMORY_SIZE);
    CHECK(hex_read(":01000000AA55\n:00000001FE\n") == FEZ_HEX_MALFORMED + 256 * 2);
    CHECK(hex_read(":020000040000FA\r\n:00000001FF") == FEZ_HEX_OTHER_TYPE + 256);
    uint64_t answer = hex_read(":01000000AA55\n:01FFFF00AA57\r\n:02FFFF00AABB9B\n\n");
    CHECK(fez_number(answer) == FEZ_HEX_PAST_END && fez_line(answer) == 3);
    CHECK(unchanged());
    CHECK(hex_read(":02FFFE00aabb9c\n:01000000AA55\r\n:00000001FF") == FEZ_DONE);
    before.memory[0xFFFE] = 0xAA;
    before.memory[0xFFFF] = 0xBB;
    before.memory[0] = 0xAA;
    CHECK(unchanged());
}

static void hex_out(void)
{
    static uint8_t out[FEZ_HEX_MOST_BYTES + 1];
    static const char text[] = ":030000003E057644\r\n:00000001FF\r\n";
    size_t length = strlen(text);
    sample();
    memset(out, 0xEE, sizeof out);
    CHECK(fez_hex_write(m.memory, 65537, 0, 65537, NULL, 0) == FEZ_MEMORY_SIZE);
    CHECK(fez_hex_write(m.memory, sizeof m.memory, 65535, 2, NULL, 0) == FEZ_HEX_PAST_END);
    CHECK(fez_hex_write(m.memory, sizeof m.memory, SIZE_MAX, SIZE_MAX, out, sizeof out) == FEZ_HEX_PAST_END);
    CHECK(fez_hex_write(m.memory, sizeof m.memory, 0, 0, NULL, 0) == FEZ_HEX_OUTPUT_SHORT);
    CHECK(fez_hex_write(m.memory, sizeof m.memory, 0, 3, out, length - 1) == FEZ_HEX_OUTPUT_SHORT);
    CHECK(out[0] == 0xEE);
    uint64_t answer = fez_hex_write(m.memory, sizeof m.memory, 0, 3, out, sizeof out);
    CHECK(fez_number(answer) == FEZ_DONE && fez_written(answer) == length);
    CHECK(memcmp(out, text, length) == 0 && out[length] == 0xEE);
    CHECK(unchanged());

    answer = fez_hex_write(m.memory, sizeof m.memory, 0, sizeof m.memory, out, sizeof out);
    CHECK(fez_number(answer) == FEZ_DONE && fez_written(answer) == FEZ_HEX_MOST_BYTES);
    CHECK(out[FEZ_HEX_MOST_BYTES - 1] == '\n' && out[FEZ_HEX_MOST_BYTES] == 0xEE);
    memset(m.memory, 0xAA, sizeof m.memory);
    CHECK(fez_hex_read(out, FEZ_HEX_MOST_BYTES, m.memory, sizeof m.memory) == FEZ_DONE);
    CHECK(unchanged());
}

int main(void)
{
    cold_record();
    sample_rows();
    sample_steps();
    refused_runs();
    ill_formed(FEZ_FLAGS, 0x00);
    ill_formed(FEZ_INTE, 2);
    ill_formed(FEZ_NEXT, 6);
    ill_formed(FEZ_CYCLE, 1);
    ill_formed(FEZ_STATE, 2);
    ill_formed(FEZ_ACKNOWLEDGE, 3);
    ill_formed(23, 1);
    ill_formed(63, 1);
    last_state();
    undefined_opcode();
    save_and_load();
    save_inside();
    hex_in();
    hex_out();
    printf("calls: %u checks, %u failures\n", checks, failures);
    return failures == 0 ? 0 : 1;
}

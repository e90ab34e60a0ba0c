/* Runs a firmware image from address 0 and prints what the bus shows in each state: state number, state, kind of cycle,
   address, data. READY is down in states 12 and 13, and INT 6 comes up at state 38.

       firmware IMAGE STATES */
#include <stdio.h>
#include <stdlib.h>

#include "fezgandom.h"

static const char *const names[] = {"?", "T1", "T2", "T3", "T4", "T5", "TW", "HOLD", "HALT"};

/* Events: state number (4 bytes, low first), line, value. */
static const uint8_t schedule[] = {
    12, 0, 0, 0, 0, 0, /* READY down */
    14, 0, 0, 0, 0, 1, /* READY up */
    38, 0, 0, 0, 2, 6, /* INT up, restart 6 */
};

static uint8_t record[FEZ_RECORD_BYTES];
static uint8_t memory[FEZ_MEMORY_BYTES];
static uint8_t inputs[FEZ_PORT_BYTES];
static uint8_t outputs[FEZ_PORT_BYTES];
static uint8_t trace[FEZ_ROW_BYTES * FEZ_MOST_STATES];

static void print_rows(unsigned long first, uint64_t rows)
{
    for (uint64_t i = 0; i < rows; i++) {
        const uint8_t *row = trace + FEZ_ROW_BYTES * i;
        printf("%lu %s %u %02X%02X %02X\n", first + (unsigned long)i, names[row[0]], row[1], row[3], row[2], row[4]);
    }
}

/* In calls of 8,192 states at the most: the record carries the machine from one call to the next. */
static unsigned run(unsigned long states)
{
    unsigned long done = 0;
    while (done < states) {
        unsigned long left = states - done;
        uint32_t ask = left < FEZ_MOST_STATES ? (uint32_t)left : FEZ_MOST_STATES;
        uint64_t answer = fez_run(record, sizeof record, ask, memory, sizeof memory, inputs, sizeof inputs, outputs,
                                  sizeof outputs, schedule, sizeof schedule, trace, sizeof trace);
        print_rows(done, fez_states(answer));
        done += (unsigned long)fez_states(answer);
        if (fez_number(answer) != FEZ_DONE) {
            return fez_number(answer);
        }
    }
    return FEZ_DONE;
}

int main(int argc, char **argv)
{
    if (argc != 3) {
        fprintf(stderr, "usage: firmware IMAGE STATES\n");
        return 2;
    }
    FILE *image = fopen(argv[1], "rb");
    if (image == NULL) {
        perror(argv[1]);
        return 2;
    }
    size_t size = fread(memory, 1, sizeof memory, image);
    fclose(image);
    fprintf(stderr, "firmware: %zu bytes from %s\n", size, argv[1]);

    fez_cold(record, sizeof record);
    unsigned number = run(strtoul(argv[2], NULL, 10));
    printf("A %02X PC %02X%02X NUMBER %u\n", record[FEZ_A], record[FEZ_PC + 1], record[FEZ_PC], number);
    return number == FEZ_DONE || number == FEZ_STOPPED ? 0 : 1;
}

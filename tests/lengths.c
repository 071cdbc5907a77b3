/* lengths FILE: the C functions with lengths that no memory has, from 2^62 to 2^64 - 1. Of a slice only what a call needs is read and written, so that the
 * answers are those of slices that are long enough, and the bytes after what is written stay. FILE is document 01's E. Prints what differs. */
#include <stdio.h>
#include <string.h>

#include "slots.h"

static uint8_t file[64], marks[64], steps[64], report[64];

static void held(size_t length, const char *what, uint64_t came, uint64_t due) {
    if (came != due)
        printf("length %zx, %s: due %llx, came %llx\n", length, what, (unsigned long long)due, (unsigned long long)came);
}

/* One of the three numbers of the report. */
static uint64_t reported(int i) {
    uint64_t number = 0;
    for (int byte = 7; byte >= 0; byte--)
        number = number << 8 | report[8 * i + byte];
    return number;
}

static void fill(void) {
    memset(marks, 9, sizeof marks);
    memset(steps, 9, sizeof steps);
    memset(report, 9, sizeof report);
}

static void try_length(size_t file_length, size_t length) {
    fill();
    held(length, "open", slots_open(file, file_length, report, length), SLOTS_OK);
    held(length, "k", reported(0), 2);
    held(length, "after the report", report[24], 9);
    held(length, "open of such a file", slots_open(file, length, report, sizeof report), SLOTS_REASON_LENGTH);
    held(length, "place", reported(0), length);

    fill();
    held(length, "decide", slots_decide(file, file_length, 0, 1, 1, 1, SLOTS_MODE_FULL, 0, marks, length, report, length), SLOTS_OK);
    held(length, "kept", reported(1), 6);
    held(length, "mark of (1, 1)", marks[8], 2);
    held(length, "after the marks", marks[24], 9);

    fill();
    held(length, "run", slots_run(file, file_length, 0, 1, 1, 1, SLOTS_MODE_FULL, 0, marks, length, steps, length, report, length), SLOTS_OK);
    held(length, "steps", reported(0), 2);
    held(length, "task row of the last step", steps[6] + 256u * steps[7], SLOTS_ROW_NONE);
    held(length, "after the steps", steps[8], 9);
}

int main(int argc, char **argv) {
    const size_t lengths[] = {(size_t)1 << 62, (size_t)1 << 63, ((size_t)1 << 63) + 1, SIZE_MAX};
    FILE *in = argc == 2 ? fopen(argv[1], "rb") : NULL;
    if (!in)
        return 1;
    size_t file_length = fread(file, 1, sizeof file, in);
    for (size_t i = 0; i < sizeof lengths / sizeof lengths[0]; i++)
        try_length(file_length, lengths[i]);
    return fclose(in);
}

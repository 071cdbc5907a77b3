/* check FILE [STANDING]: decides the first demand table of a file of tables beside its first supply table, in both modes, and prints what `slots FILE`
 * prints: the two verdicts, and the run of a no. STANDING is a set of resources that every slot grants besides: the sum of 2 to the power r for each
 * resource r, 0 where it is left out. examples/README.md says how to build it. */
#include <inttypes.h>
#include <stdio.h>
#include <stdlib.h>

#include "slots.h"

/* Two tables of a file, a state of each, and the standing set. */
struct question {
    const uint8_t *file;
    size_t file_length;
    uint64_t demand, supply;
    uint64_t demand_state, supply_state;
    uint16_t standing;
};

/* The number in so many bytes, low byte first. */
static uint64_t number_at(const uint8_t *bytes, int count) {
    uint64_t number = 0;
    while (count-- > 0)
        number = number << 8 | bytes[count];
    return number;
}

/* One of the three numbers of a report, 0 to 2. */
static uint64_t reported(const uint8_t *report, int i) {
    return number_at(report + 8 * i, 8);
}

/* The reason for which a call was turned back, printed and handed on. */
static uint64_t refused(uint64_t reason, uint64_t place) {
    printf("refused %" PRIu64 " at %" PRIu64 "\n", reason, place);
    return reason;
}

/* The contents of a file that was opened: 6 bytes for each table, from byte 2 on, of which the first is the kind and the second n, the count of states. */
static const uint8_t *contents_entry(const uint8_t *file, uint64_t table) {
    return file + 2 + 6 * table;
}

/* The number of the first of k tables that is of a kind; k, where none is. */
static uint64_t first_table(const uint8_t *file, uint64_t k, int kind) {
    uint64_t table = 0;
    while (table < k && contents_entry(file, table)[0] != kind)
        table++;
    return table;
}

/* The state from which a table starts: 1, or 0 where there is no other. */
static uint64_t start_state(const uint8_t *file, uint64_t table) {
    return contents_entry(file, table)[1] == 1 ? 0 : 1;
}

static void print_row(uint64_t row) {
    if (row == SLOTS_ROW_IDLE)
        printf(" idle");
    else if (row == SLOTS_ROW_NONE)
        printf(" none");
    else
        printf(" %" PRIu64, row);
}

/* Prints the run that shows a no. */
static uint64_t print_run(const struct question *q, uint64_t mode) {
    uint8_t marks[SLOTS_MARKS_BYTES], steps[SLOTS_STEPS_BYTES], report[SLOTS_REPORT_BYTES];
    uint64_t reason = slots_run(q->file, q->file_length, q->demand, q->supply, q->demand_state, q->supply_state, mode, q->standing,
                                marks, sizeof marks, steps, sizeof steps, report, sizeof report);
    if (reason != SLOTS_OK)
        return refused(reason, reported(report, 0));
    uint64_t count = reported(report, 0);
    for (uint64_t i = 0; i < count; i++) {
        printf("step");
        print_row(number_at(steps + 4 * i, 2));
        print_row(number_at(steps + 4 * i + 2, 2));
        printf("\n");
    }
    return SLOTS_OK;
}

/* Decides in one mode, and prints the verdict with what shows a no. */
static uint64_t print_verdict(const struct question *q, uint64_t mode) {
    uint8_t marks[SLOTS_MARKS_BYTES], report[SLOTS_REPORT_BYTES];
    uint64_t reason = slots_decide(q->file, q->file_length, q->demand, q->supply, q->demand_state, q->supply_state, mode, q->standing,
                                   marks, sizeof marks, report, sizeof report);
    if (reason != SLOTS_OK)
        return refused(reason, reported(report, 0));
    uint64_t yes = reported(report, 0), kept = reported(report, 1), rounds = reported(report, 2);
    printf("%s %s rounds %" PRIu64 " kept %" PRIu64 "\n", mode == SLOTS_MODE_FULL ? "full" : "partial", yes ? "yes" : "no", rounds, kept);
    return yes ? SLOTS_OK : print_run(q, mode);
}

/* Opens a file and prints both verdicts. Gives SLOTS_OK, or the reason for which a call was turned back, which is printed too. */
static uint64_t check(const uint8_t *file, size_t file_length, uint16_t standing) {
    uint8_t report[SLOTS_REPORT_BYTES];
    uint64_t reason = slots_open(file, file_length, report, sizeof report);
    if (reason != SLOTS_OK)
        return refused(reason, reported(report, 0));
    uint64_t k = reported(report, 0);
    uint64_t demand = first_table(file, k, SLOTS_KIND_DEMAND), supply = first_table(file, k, SLOTS_KIND_SUPPLY);
    if (demand == k || supply == k)
        return refused(SLOTS_REASON_WRONG_KIND, 0);

    struct question q = {file, file_length, demand, supply, start_state(file, demand), start_state(file, supply), standing};
    printf("slots %zu bytes %" PRIu64 " tables\n", file_length, k);
    printf("demand %" PRIu64 " supply %" PRIu64 " start %" PRIu64 " %" PRIu64 "\n", q.demand, q.supply, q.demand_state, q.supply_state);
    reason = print_verdict(&q, SLOTS_MODE_FULL);
    return reason != SLOTS_OK ? reason : print_verdict(&q, SLOTS_MODE_PARTIAL);
}

/* Reads at most `room` bytes of a file; 0 where it cannot be read. */
static int read_file(const char *path, uint8_t *bytes, size_t room, size_t *length) {
    FILE *in = fopen(path, "rb");
    if (!in)
        return 0;
    *length = fread(bytes, 1, room, in);
    int is_read = !ferror(in);
    fclose(in);
    return is_read;
}

/* Reads a set from its number; 0 where the text is no number of 16 bits. */
static int read_set(const char *text, uint16_t *set) {
    char *end;
    unsigned long number = strtoul(text, &end, 10);
    if (end == text || *end != '\0' || number > UINT16_MAX)
        return 0;
    *set = (uint16_t)number;
    return 1;
}

int main(int argc, char **argv) {
    static uint8_t file[SLOTS_FILE_BYTES + 1]; /* one byte more, so that a longer file is still too long when it is cut to this */
    size_t file_length;
    uint16_t standing = 0;
    if (argc < 2 || argc > 3 || (argc == 3 && !read_set(argv[2], &standing))) {
        fprintf(stderr, "check FILE [STANDING], a number from 0 to %d\n", UINT16_MAX);
        return 2;
    }
    if (!read_file(argv[1], file, sizeof file, &file_length)) {
        perror(argv[1]);
        return 1;
    }
    check(file, file_length, standing); /* a refusal is an answer too, with the status of `slots` */
    return 0;
}

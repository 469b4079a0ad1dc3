/*
 * Judges a graph file: judge FILE. Prints number, place and job of the reply
 * and, where the graph is accepted, a line for each task with its index and
 * its response time. The status is 0 where the graph is accepted, 1 where it
 * is refused and 2 where the file can't be read.
 */
#include <inttypes.h>
#include <stdio.h>

#include "ghadibosh.h"

/* More than is ever looked at: a longer file is refused at a record within its first 39,104 bytes or just behind. */
static uint8_t file[65536];

int main(int argc, char **argv)
{
    if (argc != 2) {
        fprintf(stderr, "usage: %s FILE\n", argv[0]);
        return 2;
    }
    FILE *from = fopen(argv[1], "rb");
    if (from == NULL) {
        perror(argv[1]);
        return 2;
    }
    size_t length = fread(file, 1, sizeof file, from);
    int failed = ferror(from);
    fclose(from);
    if (failed) {
        fprintf(stderr, "%s: cannot be read\n", argv[1]);
        return 2;
    }

    uint32_t report[GHADIBOSH_TASKS];
    uint64_t place, job;
    uint32_t number = ghadibosh_check(file, length, report, GHADIBOSH_TASKS, &place, &job);
    printf("%" PRIu32 " %" PRIu64 " %" PRIu64 "\n", number, place, job);
    if (number != 0)
        return 1;
    for (uint64_t task = 0; task < place; task++)
        printf("%" PRIu64 " %" PRIu32 "\n", task, report[task]);
    return 0;
}

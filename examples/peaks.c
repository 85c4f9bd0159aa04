/*
 * Helps to choose a window. Prints, for each of seven windows, how many chunks a job has, their mean length, and its
 * cuts by the byte that causes them, the one at the maximum point of the chunk that the cut ends: how many of these
 * bytes are below 20, from 20 to 7E and above 7E, hexadecimal.
 *
 *     peaks [FILE]
 *
 * Without a file it reads standard input. The job may have any length: it is read once, in parts, and each part is fed
 * to all seven scanners. `make peaks JOB=FILE` builds and runs it.
 */
#include <inttypes.h>
#include <stdio.h>
#include <stdlib.h>

#include "hirunvel.h"

/* The bytes that are read at a time. The cuts do not depend on where the parts end. */
#ifndef PART_BYTES
#define PART_BYTES 4096
#endif

#define WINDOWS 7
static const uint32_t windows[WINDOWS] = {1, 2, 4, 8, 16, 32, 64};

/* A scanner with one of the windows, and what it has found in the job so far. */
struct row {
    uint32_t scanner[4];
    uint64_t chunks;
    uint64_t bytes;   /* the sum of their lengths */
    uint64_t cuts[3]; /* by the value of the maximum point: below 20, from 20 to 7E, above 7E */
};
static struct row rows[WINDOWS];

static void fail(const char *name, const char *reason)
{
    fprintf(stderr, "peaks: %s: %s\n", name, reason);
    exit(EXIT_FAILURE);
}

/* Ends the program if a call was refused. The grounds are listed in hirunvel.h. */
static void check(uint32_t refusal, const char *function)
{
    if (refusal != HIRUNVEL_ACCEPTED) {
        fprintf(stderr, "peaks: %s: refusal %" PRIu32 "\n", function, refusal);
        exit(EXIT_FAILURE);
    }
}

static void open_rows(void)
{
    size_t i;

    for (i = 0; i < WINDOWS; i++)
        check(hirunvel_scanner_open(windows[i], rows[i].scanner), "hirunvel_scanner_open");
}

/* Which of the three columns a cut with this value belongs in. */
static int column(uint64_t value)
{
    if (value < 0x20)
        return 0;
    return value <= 0x7E ? 1 : 2;
}

/* Feeds a part. A call stops after a cut: the rest of the part goes to the next. */
static void feed_part(struct row *row, const uint8_t *part, size_t length)
{
    while (length > 0) {
        uint64_t fed[4]; /* the bytes consumed; at a cut 1, and place and value of the maximum point */

        check(hirunvel_scanner_feed(row->scanner, part, length, fed), "hirunvel_scanner_feed");
        part += fed[0];
        length -= (size_t)fed[0];
        row->bytes += fed[0];
        if (fed[1] == 1) {
            row->chunks++;
            row->cuts[column(fed[3])]++;
        }
    }
}

/* Ends the job. The bytes after the last cut, if there are any, are a chunk too, which no cut ends. */
static void finish_row(struct row *row)
{
    uint64_t last;

    check(hirunvel_scanner_finish(row->scanner, &last), "hirunvel_scanner_finish");
    if (last > 0)
        row->chunks++;
}

/* Reads the job to its end, and feeds it to the scanner of each row. */
static void scan_job(FILE *file, const char *name)
{
    static uint8_t part[PART_BYTES];
    size_t length, i;

    while ((length = fread(part, 1, PART_BYTES, file)) > 0)
        for (i = 0; i < WINDOWS; i++)
            feed_part(&rows[i], part, length);
    if (ferror(file))
        fail(name, "cannot be read");
    fclose(file);
    for (i = 0; i < WINDOWS; i++)
        finish_row(&rows[i]);
}

static void print_rows(void)
{
    size_t i;

    printf("window      chunks  mean length  cuts below 20     20 to 7E     above 7E\n");
    for (i = 0; i < WINDOWS; i++) {
        const struct row *row = &rows[i];
        double mean = row->chunks == 0 ? 0.0 : (double)row->bytes / (double)row->chunks;

        printf("%6" PRIu32 "  %10" PRIu64 "  %11.1f  %13" PRIu64 "  %11" PRIu64 "  %11" PRIu64 "\n", windows[i],
               row->chunks, mean, row->cuts[0], row->cuts[1], row->cuts[2]);
    }
}

int main(int argc, char **argv)
{
    const char *name = argc == 2 ? argv[1] : "standard input";
    FILE *file = stdin;

    if (argc > 2) {
        fprintf(stderr, "usage: peaks [FILE]\n");
        return EXIT_FAILURE;
    }
    if (argc == 2 && (file = fopen(name, "rb")) == NULL)
        fail(name, "cannot be opened");
    open_rows();
    scan_job(file, name);
    print_rows();
    if (fflush(stdout) != 0)
        fail("standard output", "cannot be written");
    return EXIT_SUCCESS;
}

/*
 * Takes a job into a store and quotes its revision: prints what it would cost before anything of it is stored. Then
 * takes the revision, which costs what was quoted, and rebuilds both jobs from their recipes.
 *
 *     label_revision docs/example/label.zpl docs/example/label-2.zpl
 *
 * `make example` builds and runs it.
 */
#include <inttypes.h>
#include <stdio.h>
#include <stdlib.h>
#include <string.h>

#include "hirunvel.h"

#define WINDOW 4
#define JOB_BYTES 4096
#define POOL_BYTES 8192
#define ENTRIES 1024
#define INDEX_NUMBERS (HIRUNVEL_CHAINS + ENTRIES)
#define RECIPE_NUMBERS 1024
#define PART_BYTES 64

/* The store. The library has no memory of its own: each call is lent these, a quote and a take the index too. */
static uint32_t head[3]; /* the window, the number of chunks, the pool's bytes in use */
static uint8_t pool[POOL_BYTES];
static uint32_t directory[2 * ENTRIES];
static uint32_t chunk_index[INDEX_NUMBERS]; /* the chains along which equal chunks are found */

/* A job, and the recipe that its quote or take leaves. */
struct job {
    const char *name;
    uint8_t bytes[JOB_BYTES];
    size_t length;
    uint32_t recipe[RECIPE_NUMBERS];
    size_t chunks; /* the recipe's length */
};
static struct job label, revision;

static void fail(const char *name, const char *reason)
{
    fprintf(stderr, "label_revision: %s: %s\n", name, reason);
    exit(EXIT_FAILURE);
}

/* Ends the program if a call was refused. The grounds are listed in hirunvel.h. */
static void check(uint32_t refusal, const char *function)
{
    if (refusal != HIRUNVEL_ACCEPTED) {
        fprintf(stderr, "label_revision: %s: refusal %" PRIu32 "\n", function, refusal);
        exit(EXIT_FAILURE);
    }
}

static void read_job(const char *name, struct job *job)
{
    FILE *file = fopen(name, "rb");

    if (file == NULL)
        fail(name, "cannot be opened");
    job->name = name;
    job->length = fread(job->bytes, 1, JOB_BYTES, file);
    if (job->length == JOB_BYTES && getc(file) != EOF)
        fail(name, "is too long");
    if (ferror(file))
        fail(name, "cannot be read");
    fclose(file);
}

/* Opens the store. Of its memory only the index must be prepared: each byte of a fresh one is FF. */
static void open_store(void)
{
    check(hirunvel_store_open(WINDOW, head), "hirunvel_store_open");
    memset(chunk_index, 0xFF, sizeof chunk_index);
}

/* What a quote or a take answers: the recipe's length, new bytes, repeated bytes, and the cuts by the value of the
 * maximum point, in three counts; and the saving. */
struct terms {
    uint64_t counts[6];
    int64_t saving;
};

/* Prints the terms of a job. The charge is the bytes of its new chunks, those that the store did not hold. The saving
 * is the length less the charge and less 72 bytes for each packet of the recipe, which has a number for each chunk, 32
 * to a packet. A cut's value is the byte that causes it, at the maximum point of the chunk that the cut ends. */
static void print_terms(const struct job *job, const struct terms *terms)
{
    printf("  length: %zu bytes\n", job->length);
    printf("  charge: %" PRIu64 " new bytes\n", terms->counts[1]);
    printf("  repeated: %" PRIu64 " bytes\n", terms->counts[2]);
    printf("  chunks: %" PRIu64 "\n", terms->counts[0]);
    printf("  saving: %" PRId64 " bytes\n", terms->saving);
    printf("  cuts by value: %" PRIu64 " below 20, %" PRIu64 " from 20 to 7E, %" PRIu64 " above 7E (hexadecimal)\n",
           terms->counts[3], terms->counts[4], terms->counts[5]);
}

/* Quotes a job. Of all the lent memory only the recipe is written. */
static struct terms quote(struct job *job)
{
    struct terms terms;

    check(hirunvel_store_quote(head, pool, POOL_BYTES, directory, 2 * ENTRIES, chunk_index, INDEX_NUMBERS,
                               job->recipe, RECIPE_NUMBERS, job->bytes, job->length, terms.counts, &terms.saving),
          "hirunvel_store_quote");
    printf("%s, quoted\n", job->name);
    return terms;
}

/* Takes a job: its new chunks are stored. */
static struct terms take(struct job *job)
{
    struct terms terms;

    check(hirunvel_store_take(head, pool, POOL_BYTES, directory, 2 * ENTRIES, chunk_index, INDEX_NUMBERS,
                              job->recipe, RECIPE_NUMBERS, job->bytes, job->length, terms.counts, &terms.saving),
          "hirunvel_store_take");
    job->chunks = (size_t)terms.counts[0];
    printf("%s, taken\n", job->name);
    return terms;
}

/* Compares the terms of a take with those that were quoted for it. */
static void compare_terms(const struct job *job, const struct terms *quoted, const struct terms *taken)
{
    if (memcmp(quoted->counts, taken->counts, sizeof quoted->counts) != 0 || quoted->saving != taken->saving)
        fail(job->name, "the take differs from its quote");
    printf("  charge: %" PRIu64 " new bytes, as quoted\n", taken->counts[1]);
}

/* Prints the store's chunks from a number on. A take gives its new chunks the next numbers. */
static void print_chunks(uint32_t number)
{
    for (; number < head[1]; number++) {
        uint64_t stretch[2];

        check(hirunvel_store_look(head, pool, POOL_BYTES, directory, 2 * ENTRIES, number, stretch),
              "hirunvel_store_look");
        printf("  new chunk %" PRIu32 ": ", number);
        fwrite(pool + stretch[0], 1, (size_t)stretch[1], stdout);
        printf("\n");
    }
}

/* Rebuilds a job from its recipe and compares it with what was taken. */
static void rebuild(const struct job *job)
{
    static uint8_t output[JOB_BYTES];
    uint64_t written;

    check(hirunvel_rebuild(head, pool, POOL_BYTES, directory, 2 * ENTRIES, job->recipe, job->chunks, output,
                           JOB_BYTES, &written),
          "hirunvel_rebuild");
    if (written != job->length || memcmp(output, job->bytes, job->length) != 0)
        fail(job->name, "the rebuilt job differs");
    printf("%s rebuilt: %" PRIu64 " bytes, equal\n", job->name, written);
}

/* Feeds a part and returns the number of its cuts. A call stops after a cut: the rest of the part goes to the next. */
static size_t feed_part(uint32_t scanner[4], const uint8_t *part, size_t length)
{
    size_t cuts = 0;

    while (length > 0) {
        uint64_t fed[4];

        check(hirunvel_scanner_feed(scanner, part, length, fed), "hirunvel_scanner_feed");
        part += fed[0];
        length -= (size_t)fed[0];
        cuts += (size_t)fed[1];
    }
    return cuts;
}

/* Counts the chunks of a job that comes in parts, without a store. The cuts do not depend on where the parts end. */
static void scan_in_parts(const struct job *job)
{
    uint32_t scanner[4];
    uint64_t last;
    size_t chunks = 0;
    size_t start;

    check(hirunvel_scanner_open(WINDOW, scanner), "hirunvel_scanner_open");
    for (start = 0; start < job->length; start += PART_BYTES) {
        size_t left = job->length - start;

        chunks += feed_part(scanner, job->bytes + start, left < PART_BYTES ? left : PART_BYTES);
    }
    /* The bytes after the last cut are a chunk too. */
    check(hirunvel_scanner_finish(scanner, &last), "hirunvel_scanner_finish");
    if (last > 0)
        chunks++;
    if (chunks != job->chunks)
        fail(job->name, "the scanner and the recipe differ in the number of chunks");
    printf("  scanned in parts of %d bytes: %zu chunks\n", PART_BYTES, chunks);
}

int main(int argc, char **argv)
{
    struct terms quoted, taken;
    uint32_t chunks_before;

    if (argc != 3) {
        fprintf(stderr, "usage: label_revision JOB REVISION\n");
        return EXIT_FAILURE;
    }
    read_job(argv[1], &label);
    read_job(argv[2], &revision);

    open_store();
    taken = take(&label);
    print_terms(&label, &taken);
    scan_in_parts(&label);

    quoted = quote(&revision);
    print_terms(&revision, &quoted);
    chunks_before = head[1];
    taken = take(&revision);
    compare_terms(&revision, &quoted, &taken);
    print_chunks(chunks_before);

    rebuild(&label);
    rebuild(&revision);
    if (fflush(stdout) != 0)
        fail("standard output", "cannot be written");
    return EXIT_SUCCESS;
}

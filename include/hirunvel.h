/*
 * Hirunvel for C and C++: cut print jobs into chunks, keep each chunk once, rebuild the jobs.
 *
 * Every function is proved memory-safe and terminating for any numbers and bytes that it is handed. Its result, and
 * all that it leaves in lent memory, are proved equal to its specification, refused input included.
 *
 * The caller must guarantee, as for any C function:
 *
 *   - A pointer with a length points to that many elements, an array parameter to as many as it is declared with, and
 *     any other pointer to one. Each is aligned for its element and, unless it is const, writable. No pointer may be
 *     null, even with length 0 (it is then never read).
 *   - Memory that a call may write overlaps nothing else that is lent to the same call. Memory that it only reads may
 *     overlap other memory that it only reads.
 *   - While a call runs, nothing else writes the memory that is lent to it, and nothing else reads what it may write.
 *
 * The library has no memory of its own. Calls on different memory may run at the same time, and a store that was saved
 * and loaded again is the same store.
 *
 * The result is the number of the refusal, HIRUNVEL_ACCEPTED for none. Each function tests its grounds in the order
 * that is given with it and reports the first that holds. HIRUNVEL_WINDOW is about the window that is passed, or the
 * first number of the scanner or the head.
 *
 * Link with libhirunvel.a, which is for x86-64 with the System V calling convention. It needs no other library, not even
 * the C library. A quote or a take needs about 22 KiB of stack, any other call at most 1 KiB; this is measured, not
 * proved. The code uses the SSE2 registers and the red zone, the 128 bytes below the stack pointer. So in a kernel or
 * an interrupt handler, call it only if these registers are saved and no interrupt uses the same stack.
 */
#ifndef HIRUNVEL_H
#define HIRUNVEL_H

#include <stddef.h>
#include <stdint.h>

#ifdef __cplusplus
extern "C" {
#endif

/* The grounds for a refusal. */
#define HIRUNVEL_ACCEPTED 0u       /* none: the work is done */
#define HIRUNVEL_WINDOW 1u         /* the window is not from 1 to HIRUNVEL_WINDOW_LIMIT */
#define HIRUNVEL_UNSOUND 2u        /* the scanner is not sound, or its value is over 255 */
#define HIRUNVEL_JOB_LENGTH 3u     /* the job is empty or over HIRUNVEL_JOB_LIMIT */
#define HIRUNVEL_MEMORY_LIMIT 4u   /* pool, directory or recipe is over its limit, or the directory's length is odd */
#define HIRUNVEL_HEAD 5u           /* the head does not fit pool and directory */
#define HIRUNVEL_RECIPE_FULL 6u    /* at a chunk of the job, the recipe is full */
#define HIRUNVEL_DIRECTORY_FULL 7u /* a chunk of the job is new, and the directory has no unused entry */
#define HIRUNVEL_POOL_FULL 8u      /* a chunk of the job is new, and longer than the pool bytes that are left */
#define HIRUNVEL_CHUNK_NUMBER 9u   /* a chunk number is not below the number of chunks */
#define HIRUNVEL_OUTPUT_SHORT 10u  /* the output is shorter than the rebuilt job */
#define HIRUNVEL_INDEX_LENGTH 11u  /* the index has another length than HIRUNVEL_CHAINS + directory_len / 2 */
#define HIRUNVEL_INDEX 12u         /* its chains do not meet every chunk just once under its own sum, and nothing else */

/*
 * The largest accepted window, in bytes, and the largest accepted lengths. Every length counts elements: bytes for a
 * job and a pool, 32-bit numbers for a directory, an index and a recipe. A directory has two numbers per entry, so
 * 131,070 numbers are 65,535 entries. A part and an output may have any length.
 */
#define HIRUNVEL_WINDOW_LIMIT 64u
#define HIRUNVEL_JOB_LIMIT 16777216u
#define HIRUNVEL_POOL_LIMIT 67108864u
#define HIRUNVEL_DIRECTORY_LIMIT 131070u
#define HIRUNVEL_RECIPE_LIMIT 65535u

/*
 * The bytes of the longest chunk, whatever the window: memory of this length holds any one. With a window of w it is
 * 256 * w + 1 bytes; a last chunk that no cut ends is shorter by at least one.
 */
#define HIRUNVEL_CHUNK_LIMIT 16385u

/* The chains of an index. An index has HIRUNVEL_CHAINS + directory_len / 2 numbers. */
#define HIRUNVEL_CHAINS 1024u

/*
 * A scanner finds where the chunks of a job end. It is four numbers:
 *
 *   scanner[0]  the window
 *   scanner[1]  count: the number of bytes since the last cut
 *   scanner[2]  place: where the largest of these bytes is, counted from 1; on a tie, the first
 *   scanner[3]  value: that largest byte
 *
 * It is sound if count, place and value are all 0, or if 1 <= place <= count < place + window and
 * place <= value * window + 1.
 *
 * A maximum point is a place of a chunk, counted from 1, whose byte is the chunk's first or larger than every byte of
 * the chunk before it, and not smaller than any of the next window bytes, all of which exist. A chunk ends window
 * places after its first maximum point, and a cut follows; what is left at the end of a job is a last chunk that no cut
 * ends. The proofs rest on this definition; it is in crates/chunker/specs/Method.antt.
 */

/*
 * Opens a scanner. Tests HIRUNVEL_WINDOW.
 * Writes scanner: window, 0, 0, 0. Refused: all zeros.
 */
uint32_t hirunvel_scanner_open(uint32_t window, uint32_t scanner[4]);

/*
 * Moves the scanner on over a part of the job: up to and including the byte that ends a chunk, or over the whole part.
 * To go on after a cut, feed the rest of the part: an accepted feed of a part that is not empty consumes at least one
 * byte. Tests HIRUNVEL_WINDOW, HIRUNVEL_UNSOUND.
 * Reads part. Writes scanner; after a cut its count, place and value are 0. fed[0] is the bytes consumed; fed[1] is 1
 * if a cut follows them, else 0. At a cut fed[2] and fed[3] are the place and the value of the first maximum point of
 * the chunk that it ends. The place is counted from 1 in the chunk, bytes from earlier parts included; the value is the
 * byte there, 0 to 255. If earlier parts began the chunk and no byte consumed is larger than the scanner's value, these
 * are the scanner's place and value as it was handed in. Without a cut fed[2] and fed[3] are 0. Refused: scanner is
 * unchanged, all of fed is 0.
 */
uint32_t hirunvel_scanner_feed(uint32_t scanner[4], const uint8_t *part, size_t part_len, uint64_t fed[4]);

/*
 * Ends a job. Tests HIRUNVEL_WINDOW, HIRUNVEL_UNSOUND.
 * Writes count: the length of the last chunk, which no cut has ended, or 0 if there is none. Writes scanner: window, 0,
 * 0, 0. Refused: scanner is unchanged, count is 0.
 */
uint32_t hirunvel_scanner_finish(uint32_t scanner[4], uint64_t *count);

/*
 * A store is a head, a pool of chunk bytes, a directory, and an index. A directory entry is two numbers: a chunk's
 * offset in the pool, from 0, and its length. The head is three numbers:
 *
 *   head[0]  the window
 *   head[1]  chunks: the number of entries in use
 *   head[2]  filled: the number of pool bytes in use
 *
 * Chunks are numbered from 0 in the order of their entries. The head fits pool and directory if all of this holds:
 *
 *   - Entry 0 starts at 0, each further entry where the one before it ends, and the last ends at filled. Without chunks
 *     filled is 0.
 *   - Each length is from 1 to 256 * window + 1.
 *   - chunks is at most the directory's entries, and filled at most the pool's length.
 *
 * Each call that is lent a store tests this entry by entry, so its time grows with the number of chunks. What the pool
 * and the directory of a fresh store hold does not matter.
 *
 * The index leads from the bytes of a chunk to its number; only a quote and a take are lent it. It has HIRUNVEL_CHAINS
 * heads, then one link per directory entry, in use or not. A head holds the number of its chain's first chunk. The link
 * of chunk n, index[HIRUNVEL_CHAINS + n], holds the number of the chunk after it; 0xFFFFFFFF ends the chain. A chunk
 * belongs on the chain that the top ten bits of its Gear sum name, sum >> 22. The sum starts at 0, and each byte b makes
 * it 2 * sum + gear[b], kept to 32 bits. gear[0] is 270369; each further one of the 256 entries is made from a copy x of
 * the entry before it, in 32 bits, by x ^= x << 13, x ^= x >> 17, x ^= x << 5.
 *
 * To make the index of a fresh store, set each of its bytes to FF, as memset(index, 0xFF, sizeof index) does for an
 * array. Hand it on from call to call, as head, pool and directory: a take enters each new chunk at the front of its
 * chain. HIRUNVEL_INDEX_LENGTH and HIRUNVEL_INDEX are never reported of a store that was opened fresh with such an
 * index and that only takes have changed since. To make an index for a store that has none, start from a fresh one and
 * enter the chunks: for each n, index[HIRUNVEL_CHAINS + n] gets what the head of its chain holds, and the head n. Any
 * order will do; the index is tested faster if they are entered in the order of their numbers, as takes do.
 *
 * HIRUNVEL_INDEX holds unless the chains, each followed from its head to its end, meet every chunk of the store just
 * once, on the chain of its own sum, and nothing else. The order of the chunks on a chain does not matter, and links
 * of entries that are not in use are not read. Every quote and take tests this, which takes time in proportion to the
 * number of chunks in the store, however short the job is: about 10 nanoseconds a chunk, or some 50 if the chunks were
 * not entered in the order of their numbers. So a job of fewer than some 20 to 45 chunks is slower than a linear search
 * of the store for them would be.
 *
 * A chunk has at least window + 1 bytes, the last of a job at least 1. So a job of n bytes has at most
 * n / (window + 1) + 1 chunks. This room is enough for any job of n bytes: that many recipe numbers, that many unused
 * entries and n pool bytes after filled. With it, and if none of HIRUNVEL_WINDOW, HIRUNVEL_JOB_LENGTH,
 * HIRUNVEL_MEMORY_LIMIT, HIRUNVEL_HEAD, HIRUNVEL_INDEX_LENGTH and HIRUNVEL_INDEX holds, the job is accepted. With less
 * room it is refused only if it needs more than there is: HIRUNVEL_RECIPE_FULL is reported only if the recipe has fewer
 * numbers than the job has chunks, HIRUNVEL_DIRECTORY_FULL only if fewer entries are unused than the job has new
 * chunks, and HIRUNVEL_POOL_FULL only if fewer pool bytes are left after filled than its new chunks have. All of this
 * is proved, in crates/admission/proofs/theorems/Room.antt.
 */

/*
 * Opens a store. Tests HIRUNVEL_WINDOW.
 * Writes head: window, 0, 0. Refused: all zeros.
 */
uint32_t hirunvel_store_open(uint32_t window, uint32_t head[3]);

/*
 * Quotes a job: tells what a take of it would come to, and stores nothing. A chunk is repeated if the store holds it or
 * an earlier place of the job has it, and new otherwise. recipe_len is the room that the recipe has. Tests
 * HIRUNVEL_WINDOW, HIRUNVEL_JOB_LENGTH, HIRUNVEL_MEMORY_LIMIT, HIRUNVEL_HEAD, HIRUNVEL_INDEX_LENGTH, HIRUNVEL_INDEX;
 * then, for each chunk, HIRUNVEL_RECIPE_FULL, HIRUNVEL_DIRECTORY_FULL, HIRUNVEL_POOL_FULL, the last two as if the new
 * chunks before it were stored.
 * Reads head, pool, directory, index, job. Writes the first counts[0] numbers of the recipe, one per chunk of the job,
 * in order: the number that the chunk has in the store (the lowest, if it is there twice), or the one that it would
 * get. New chunks would get the numbers from head[1] on. The rest of the recipe is untouched. counts[0] is the recipe's
 * length, the job's number of chunks; counts[1] is the bytes of the new ones, counts[2] the bytes of the repeated ones.
 * saving[0] is job_len - counts[1] - 72 * packets, where packets is counts[0] / 32, rounded up: on the link a recipe
 * number has 2 bytes, and each packet of up to 64 such bytes is charged at 72. The saving can be negative; it is at
 * least -147456.
 * The last three counts are the job's cuts by the value of the maximum point, which a feed gives as fed[3]: counts[3]
 * those with a value below 0x20, counts[4] from 0x20 to 0x7E, counts[5] above 0x7E. All cuts of the job count, those of
 * repeated chunks too; the last chunk counts only if a cut ends it. So the three add up to the number of the job's
 * cuts: counts[0], or counts[0] - 1 if no cut ends the last chunk. They depend on the job and the window alone, and are
 * the same whatever the store holds.
 * Refused: all six counts and saving[0] are 0. After HIRUNVEL_RECIPE_FULL, HIRUNVEL_DIRECTORY_FULL and
 * HIRUNVEL_POOL_FULL the recipe holds the numbers of the chunks before the refused one, and the rest is untouched.
 * After the other grounds the whole recipe is untouched.
 */
uint32_t hirunvel_store_quote(const uint32_t head[3], const uint8_t *pool, size_t pool_len, const uint32_t *directory,
                              size_t directory_len, const uint32_t *index, size_t index_len, uint32_t *recipe,
                              size_t recipe_len, const uint8_t *job, size_t job_len, uint64_t counts[6],
                              int64_t saving[1]);

/*
 * Takes a job: its new chunks go into the pool, the directory and the index. Tests what hirunvel_store_quote tests, in
 * the same order. On the same head, pool, directory, index, recipe and job the two give the same result and leave the
 * same recipe, counts and saving, refused or not. No quote need come before a take.
 * Reads job. Writes head, the pool from the old filled to the new one, the directory entries of the new chunks, and
 * recipe, counts and saving as a quote does. Enters the new chunks into the index, in the order of their numbers, each
 * at the front of its chain: its link gets what the chain's head holds, and the head its number. The rest of pool,
 * directory, index and recipe is untouched.
 * Refused: head, pool, directory and index are untouched; recipe, counts and saving are as a quote leaves them.
 */
uint32_t hirunvel_store_take(uint32_t head[3], uint8_t *pool, size_t pool_len, uint32_t *directory,
                             size_t directory_len, uint32_t *index, size_t index_len, uint32_t *recipe,
                             size_t recipe_len, const uint8_t *job, size_t job_len, uint64_t counts[6],
                             int64_t saving[1]);

/*
 * Finds a chunk in the pool. Tests HIRUNVEL_WINDOW, HIRUNVEL_MEMORY_LIMIT, HIRUNVEL_HEAD, HIRUNVEL_CHUNK_NUMBER.
 * Reads head, pool, directory. stretch[0] is the chunk's offset in the pool, stretch[1] its length. Refused: both 0.
 */
uint32_t hirunvel_store_look(const uint32_t head[3], const uint8_t *pool, size_t pool_len, const uint32_t *directory,
                             size_t directory_len, uint32_t number, uint64_t stretch[2]);

/*
 * Writes the chunks that a recipe names to the output, one after another. Tests HIRUNVEL_WINDOW, HIRUNVEL_MEMORY_LIMIT,
 * HIRUNVEL_HEAD, HIRUNVEL_CHUNK_NUMBER, HIRUNVEL_OUTPUT_SHORT.
 * Reads head, pool, directory, recipe. written[0] is the number of bytes written, from the start of the output; the
 * rest of it is untouched. Refused: output is untouched, written[0] is 0.
 *
 * The recipe that an accepted take left, with its counts[0] as recipe_len, gives back the job that was taken if the
 * store was opened fresh and only takes have changed it since. Any other store whose head fits is accepted too, and
 * gives back whatever bytes its entries name. The recipe of a quote may name chunks that are not stored: take the job
 * before rebuilding it.
 *
 * Read the output only after the call: while it runs, bytes beyond a chunk but within the job may be written for a
 * moment and then written over.
 */
uint32_t hirunvel_rebuild(const uint32_t head[3], const uint8_t *pool, size_t pool_len, const uint32_t *directory,
                          size_t directory_len, const uint32_t *recipe, size_t recipe_len, uint8_t *output,
                          size_t output_len, uint64_t written[1]);

#ifdef __cplusplus
}
#endif

#endif

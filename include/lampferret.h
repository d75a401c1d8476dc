/* The calls of liblampferret.a, one for each call of documents 01 and 02.
 *
 * A set of states is four words: state s is bit s % 64 of word s / 64. Any other buffer is a place and its length in elements.
 * Each call that can refuse answers the refusal's number (docs/REFUSALS.md), 0 for none. Where it refuses, every lent place is
 * left as it was; only lampferret_read then sets its offset.
 *
 * The lent places of one call must not overlap, each must be as long as its length says, and none is NULL, even of length 0.
 */
#ifndef LAMPFERRET_H
#define LAMPFERRET_H

#include <stddef.h>
#include <stdint.h>

#ifdef __cplusplus
extern "C" {
#endif

enum {
    LAMPFERRET_RUN_WORDS = 2066,
    LAMPFERRET_MOVES_WORDS = 1024, /* the length of the move table and of the second table */
    LAMPFERRET_STATES = 256, /* the length of the angles, the modes and the walk */
    LAMPFERRET_FILE_BYTES = 18184, /* the longest file */
    LAMPFERRET_LISTING_BYTES = 5424, /* no listing has more */
    LAMPFERRET_NO_MEMBER = 256 /* lampferret_smallest of the empty set */
};

/* The first word of a run's answer. */
enum { LAMPFERRET_UNFINISHED = 0, LAMPFERRET_SAFE = 1, LAMPFERRET_REACHED = 2 };

/* The rule that a single rule fired, as document 01 numbers the rules. */
enum { LAMPFERRET_UNFOLD = 2, LAMPFERRET_CANDIDATE = 3, LAMPFERRET_DECIDE = 4, LAMPFERRET_CONFLICT = 5 };

/* The full set of N states. Refused with 2. */
uint8_t lampferret_full(uint16_t size, uint64_t set[4]);

/* The number of members. */
uint16_t lampferret_count(const uint64_t set[4]);

/* The smallest member, or LAMPFERRET_NO_MEMBER. */
uint16_t lampferret_smallest(const uint64_t set[4]);

/* The turn from angle a to angle b, -180 to 180; the half turn is 180 from an angle of 0 or more, -180 from a negative one.
 * There and back cancel. Refused with 3. */
uint8_t lampferret_turn(int16_t a, int16_t b, int16_t *turn);

/* f(x) and g(x). Refused with 7, 2, 13. */
uint8_t lampferret_f(const uint64_t *moves, size_t moves_length, uint16_t size, const uint64_t x[4], uint64_t result[4]);
uint8_t lampferret_g(const uint64_t *moves, size_t moves_length, uint16_t size, const uint64_t x[4], uint64_t result[4]);

/* The second table of a move table: row t holds the states with a move to t. Refused with 7, 2, 13. */
uint8_t lampferret_second(const uint64_t *moves, size_t moves_length, uint16_t size, uint64_t *second,
                          size_t second_length);

/* The states with a move to a state. Refused with 7, 2, 13, 14, 4. */
uint8_t lampferret_into(const uint64_t *moves, size_t moves_length, const uint64_t *second, size_t second_length,
                        uint16_t size, uint16_t state, uint64_t result[4]);

/* A move added or removed, in both tables. Refused with 7, 2, 13, 14, 4, 15. */
uint8_t lampferret_add(uint64_t *moves, size_t moves_length, uint64_t *second, size_t second_length, uint16_t size,
                       uint16_t from, uint16_t to);
uint8_t lampferret_remove(uint64_t *moves, size_t moves_length, uint64_t *second, size_t second_length, uint16_t size,
                          uint16_t from, uint16_t to);

/* g(x), worked out from the second table. Refused with 7, 2, 13, 14. */
uint8_t lampferret_g_by_second(const uint64_t *moves, size_t moves_length, const uint64_t *second,
                               size_t second_length, uint16_t size, const uint64_t x[4], uint64_t result[4]);

/* A fresh run buffer. Refused with 7, 2. */
uint8_t lampferret_fresh(uint16_t size, uint64_t *run, size_t run_length);

/* One rule, with a proposed set. Refused with 7, 2, 13, 8, 10, 11, 9. */
uint8_t lampferret_single(const uint64_t *moves, size_t moves_length, uint16_t size, const uint64_t starts[4],
                          const uint64_t safe[4], uint64_t *run, size_t run_length, const uint64_t proposal[4],
                          uint8_t *rule);

/* A run of at most budget rules. Refused with 7, 2, 13, 8, 11. A safe run writes its set, a reached run its walk.
 * The answer: the verdict; j of a safe run, the number of states of a reached one, else 0; the rules fired; the hints taken;
 * the hints used. */
uint8_t lampferret_run(const uint64_t *moves, size_t moves_length, uint16_t size, const uint64_t starts[4],
                       const uint64_t safe[4], uint64_t *run, size_t run_length, const uint64_t *hints,
                       size_t hints_length, uint64_t budget, uint64_t *set, size_t set_length, uint16_t *walk,
                       size_t walk_length, uint64_t answer[5]);

/* Reads a file. Refused with 7, and 1 to 6 at an offset, which is 0 for any other answer. The counts: states, moves. */
uint8_t lampferret_read(const uint8_t *file, size_t file_length, uint64_t *moves, size_t moves_length, int16_t *angles,
                        size_t angles_length, uint8_t *modes, size_t modes_length, uint64_t starts[4], uint64_t safe[4],
                        uint16_t counts[2], size_t *offset);

/* Writes a table's file to the front of out. Refused with 7, 2, 13, 3, 2, 12. */
uint8_t lampferret_write(uint16_t size, const uint64_t starts[4], const uint64_t safe[4], const uint64_t *moves,
                         size_t moves_length, const int16_t *angles, size_t angles_length, const uint8_t *modes,
                         size_t modes_length, uint8_t *out, size_t out_length, size_t *length);

/* The listing of a file, as the program `check` prints it, to the front of out. Refused with 12. */
uint8_t lampferret_check(const uint8_t *file, size_t file_length, uint8_t *out, size_t out_length, size_t *length);

#ifdef __cplusplus
}
#endif

#endif

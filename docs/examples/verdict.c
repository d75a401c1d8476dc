/* Prints the verdict on the table whose file is on standard input. */
#include "lampferret.h"
#include <stdio.h>

int main(void) {
    static uint8_t file[LAMPFERRET_FILE_BYTES + 1];
    static uint64_t moves[LAMPFERRET_MOVES_WORDS], run[LAMPFERRET_RUN_WORDS];
    int16_t angles[LAMPFERRET_STATES];
    uint8_t modes[LAMPFERRET_STATES];
    uint64_t starts[4], safe[4], set[4], answer[5];
    uint16_t counts[2], walk[LAMPFERRET_STATES];
    size_t offset;
    const uint64_t no_hints[1] = {0}; /* a place is never NULL, even of length 0 */

    size_t length = fread(file, 1, sizeof file, stdin);
    uint8_t refused = lampferret_read(file, length, moves, LAMPFERRET_MOVES_WORDS, angles, LAMPFERRET_STATES, modes,
                                      LAMPFERRET_STATES, starts, safe, counts, &offset);
    if (refused) {
        printf("refused %d at %zu\n", refused, offset);
        return 1;
    }
    uint64_t size = counts[0];
    refused = lampferret_fresh(counts[0], run, LAMPFERRET_RUN_WORDS);
    if (!refused)
        refused = lampferret_run(moves, LAMPFERRET_MOVES_WORDS, counts[0], starts, safe, run, LAMPFERRET_RUN_WORDS, no_hints,
                                 0, 2 * size * size + 2 * size, set, 4, walk, LAMPFERRET_STATES, answer);
    if (refused)
        printf("refused %d\n", refused);
    else if (answer[0] == LAMPFERRET_SAFE)
        printf("safe: no walk leaves a set of %d states\n", lampferret_count(set));
    else if (answer[0] == LAMPFERRET_REACHED)
        printf("reached: state %d, by a walk of %d states\n", walk[answer[1] - 1], (int)answer[1]);
    else
        printf("unfinished: the budget was too small\n");
    return 0;
}

/* The heater and the latch of docs/FORMAT.md, from C. At the top of the repository, once tools/archive has made the archive:
 *
 *     cc -Iinclude examples/heater.c target/staticlib/libfounded_calls.a -o heater
 */
#include "founded.h"

#include <stdio.h>

/* State 0, the heater, is on because state 1 is; state 1, the latch, is set because state 0 is. */
static const uint16_t graph[] = {1, 2, 2, 2, 2, 1, 0, 0, 1, 1, 0, 2, 1, 1, 2, 0, 0, 1, 0};
static const char *const names[] = {"heater", "latch"};
static uint16_t work[FOUNDED_WORK_WORDS];

int main(void) {
    const size_t length = sizeof graph / sizeof graph[0];
    const uint64_t never[FOUNDED_MASK_WORDS(2)] = {0}, atom_never[FOUNDED_MASK_WORDS(2)] = {0};
    uint64_t missing[FOUNDED_MASK_WORDS(2)];
    uint32_t code = founded_complete(graph, length, never, FOUNDED_MASK_WORDS(2), atom_never, FOUNDED_MASK_WORDS(2),
                                     missing, FOUNDED_MASK_WORDS(2), work, FOUNDED_WORK_WORDS);
    unsigned atom;

    if (code != 0) {
        fprintf(stderr, "refused %u %u\n", (unsigned)FOUNDED_NUMBER(code), (unsigned)FOUNDED_PLACE(code));
        return 1;
    }
    for (atom = 0; atom < 2; atom++)
        if (missing[atom / 64] >> atom % 64 & 1)
            printf("%s is missing\n", names[atom]);
    return 0;
}

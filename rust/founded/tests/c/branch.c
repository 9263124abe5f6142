/* A search branch through the C header: the heater with a fact (document 01's C3) under the masks of C3, C4 and C5, which are then changed in place; and refusals. */
#include "founded.h"

#include <stdio.h>
#include <string.h>

static const uint16_t c3[] = {1, 2, 2, 3, 2, 1, 0, 0, 1, 1, 0, 2, 1, 1, 2, 0, 1, 0, 0, 1, 0};
static const uint16_t absorbed[] = {1, 1, 2, 1, 1, 0, 0, 0, 7, 0, 0, 2, 1, 0, 0};
static const uint16_t empty[] = {1, 0, 0, 0, 0};
static uint16_t work[FOUNDED_BRANCH_WORK_WORDS];

#define LEN(words) (sizeof(words) / sizeof(words)[0])

/* One node mask, atom mask and list a pair: two nodes and two atoms take one word each. */
enum { PAIRS = 3 };

static uint64_t never[PAIRS], atom_never[PAIRS], lists[PAIRS];

static void say(const char *what, uint32_t code) {
    printf("%s: %u %u\n", what, (unsigned)FOUNDED_NUMBER(code), (unsigned)FOUNDED_PLACE(code));
}

static void run(void) {
    uint32_t code = founded_branch(c3, LEN(c3), PAIRS, never, PAIRS, atom_never, PAIRS, lists, PAIRS, work, FOUNDED_BRANCH_WORK_WORDS);
    printf("lists %u: %u %u %u\n", (unsigned)code, (unsigned)lists[0], (unsigned)lists[1], (unsigned)lists[2]);
}

int main(void) {
    memset(work, 0xff, sizeof work);
    atom_never[1] = 1;
    never[2] = 1;
    run();
    never[0] = 1;
    atom_never[1] = 0;
    never[2] = 0;
    run();
    say("no pair", founded_branch(c3, LEN(c3), 0, never, 0, atom_never, 0, lists, 0, work, FOUNDED_BRANCH_WORK_WORDS));
    say("65 pairs", founded_branch(c3, LEN(c3), FOUNDED_MOST_PAIRS + 1, never, 3, atom_never, 3, lists, 3, work, FOUNDED_WORK_WORDS));
    say("masks of one pair", founded_branch(c3, LEN(c3), 2, never, 1, atom_never, 1, lists, 1, work, FOUNDED_BRANCH_WORK_WORDS));
    say("a lone pass's work area", founded_branch(c3, LEN(c3), 2, never, 2, atom_never, 2, lists, 2, work, FOUNDED_WORK_WORDS));
    say("absorbed", founded_branch(absorbed, LEN(absorbed), 2, never, 2, atom_never, 2, lists, 2, work, FOUNDED_BRANCH_WORK_WORDS));
    say("64 pairs of a graph without atoms", founded_branch(empty, LEN(empty), FOUNDED_MOST_PAIRS, never, 0, atom_never, 0, lists, 0, work, FOUNDED_BRANCH_WORK_WORDS));
    say("65 pairs of it", founded_branch(empty, LEN(empty), 65, never, 0, atom_never, 0, lists, 0, work, FOUNDED_BRANCH_WORK_WORDS));
    return 0;
}

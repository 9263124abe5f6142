/* The heater and the latch with a fact, under an allowance: document 01's C3 counts 9. */
#include "founded.h"

#include <inttypes.h>
#include <stdio.h>

static const uint16_t c3[] = {1, 2, 2, 3, 2, 1, 0, 0, 1, 1, 0, 2, 1, 1, 2, 0, 1, 0, 0, 1, 0};
static const uint16_t absorbed[] = {1, 1, 2, 1, 1, 0, 0, 0, 7, 0, 0, 2, 1, 0, 0};
static uint16_t work[FOUNDED_WORK_WORDS];

#define LEN(words) (sizeof(words) / sizeof(words)[0])

static void try(const char *what, const uint16_t *graph, size_t len, uint64_t mask, uint64_t allowance) {
    const uint64_t none[1] = {0}, atoms[1] = {mask};
    uint64_t output[1] = {77};
    uint32_t code = founded_complete_within(graph, len, none, 1, atoms, 1, output, 1, work, FOUNDED_WORK_WORDS, &allowance);
    const char *said = FOUNDED_NUMBER(code) == FOUNDED_ALLOWANCE ? "too little" : FOUNDED_NUMBER(code) ? "refused" : "done";
    printf("%s: %s %u, output %" PRIu64 ", left %" PRIu64 "\n", what, said, (unsigned)FOUNDED_PLACE(code), output[0], allowance);
}

int main(void) {
    try("ten", c3, LEN(c3), 0, 10);
    try("nine", c3, LEN(c3), 0, 9);
    try("eight", c3, LEN(c3), 0, 8);
    try("nothing", c3, LEN(c3), 0, 0);
    try("most", c3, LEN(c3), 0, UINT64_MAX);
    try("heater cut", c3, LEN(c3), 1, 5);
    try("absorbed", absorbed, LEN(absorbed), 0, 0);
    return 0;
}

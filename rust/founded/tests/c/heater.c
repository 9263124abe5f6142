/* The heater and the latch through the C header: document 01's C2, C3 and C4, and one refusal of each buffer. */
#include "founded.h"

#include <stdio.h>
#include <string.h>

static const uint16_t c2[] = {1, 2, 2, 2, 2, 1, 0, 0, 1, 1, 0, 2, 1, 1, 2, 0, 0, 1, 0};
static const uint16_t c3[] = {1, 2, 2, 3, 2, 1, 0, 0, 1, 1, 0, 2, 1, 1, 2, 0, 1, 0, 0, 1, 0};
static const uint16_t absorbed[] = {1, 1, 2, 1, 1, 0, 0, 0, 7, 0, 0, 2, 1, 0, 0};
static const uint16_t circle[] = {1, 1, 2, 2, 2, 0, 0, 0, 3, 0, 0, 0, 0, 0, 2, 0, 2, 0, 1};
static uint16_t work[FOUNDED_WORK_WORDS];

#define LEN(words) (sizeof(words) / sizeof(words)[0])

static void say(const char *what, uint32_t code) {
    printf("%s: %u %u\n", what, (unsigned)FOUNDED_NUMBER(code), (unsigned)FOUNDED_PLACE(code));
}

int main(void) {
    const uint64_t none[1] = {0}, heater[1] = {1}, long_mask[2] = {0};
    uint64_t output[FOUNDED_MASK_WORDS(2)];
    uint32_t code;

    memset(work, 0xff, sizeof work);
    say("check", founded_check(c2, LEN(c2)));
    say("short", founded_check(c2, LEN(c2) - 1));
    printf("loops %u\n", (unsigned)founded_needed(c2, LEN(c2), work, FOUNDED_WORK_WORDS));
    code = founded_prepare(c2, LEN(c2), output, LEN(output), work, FOUNDED_WORK_WORDS);
    printf("cyclic %u %u\n", (unsigned)code, (unsigned)output[0]);
    code = founded_complete(c2, LEN(c2), none, 1, none, 1, output, LEN(output), work, FOUNDED_WORK_WORDS);
    printf("missing %u %u\n", (unsigned)code, (unsigned)output[0]);
    code = founded_complete(c3, LEN(c3), none, 1, none, 1, output, LEN(output), work, FOUNDED_WORK_WORDS);
    printf("with a fact %u %u\n", (unsigned)code, (unsigned)output[0]);
    code = founded_complete(c3, LEN(c3), none, 1, heater, 1, output, LEN(output), work, FOUNDED_WORK_WORDS);
    printf("heater cut %u %u\n", (unsigned)code, (unsigned)output[0]);
    code = founded_complete(c2, LEN(c2), none, 0, none, 0, output, LEN(output), work, FOUNDED_WORK_WORDS);
    printf("empty masks %u %u\n", (unsigned)code, (unsigned)output[0]);
    say("long mask", founded_complete(c2, LEN(c2), long_mask, 2, none, 1, output, LEN(output), work, FOUNDED_WORK_WORDS));
    say("short work area", founded_needed(c2, LEN(c2), work, FOUNDED_WORK_WORDS - 1));
    code = founded_prepare(absorbed, LEN(absorbed), output, LEN(output), work, FOUNDED_WORK_WORDS);
    say(FOUNDED_NUMBER(code) == FOUNDED_ABSORBED ? "absorbed" : "not absorbed", code);
    code = founded_check(circle, LEN(circle));
    say(FOUNDED_NUMBER(code) == FOUNDED_COMES_BACK ? "comes back" : "does not come back", code);
    return 0;
}

/* The heater and the latch in edition 2, and a ring of 100,000 heaters, through the C header. */
#include "founded.h"

#include <stdio.h>
#include <stdlib.h>
#include <string.h>

static const uint32_t c2[] = {2, 2, 2, 2, 2, 1, 0, 0, 1, 1, 0, 2, 1, 1, 2, 0, 0, 1, 0};
static const uint32_t c3[] = {2, 2, 2, 3, 2, 1, 0, 0, 1, 1, 0, 2, 1, 1, 2, 0, 1, 0, 0, 1, 0};
static const uint32_t absorbed[] = {2, 1, 2, 1, 1, 0, 0, 0, 7, 0, 0, 2, 1, 0, 0};

#define LEN(words) (sizeof(words) / sizeof(words)[0])

static void say(const char *what, uint64_t code) {
    printf("%s: %u %u\n", what, (unsigned)FOUNDED_WIDE_NUMBER(code), (unsigned)FOUNDED_WIDE_PLACE(code));
}

static void *some(size_t count, size_t size) {
    void *memory = malloc(count * size + 1);
    if (!memory)
        exit(1);
    memset(memory, 0xff, count * size);
    return memory;
}

static void small(void) {
    const uint64_t none[1] = {0}, heater[1] = {1}, long_mask[2] = {0};
    uint64_t output[FOUNDED_MASK_WORDS(2)];
    size_t words = founded_wide_work_words(c3, LEN(c3));
    uint32_t *work = some(words, sizeof *work);
    uint64_t code;

    printf("work area %u %u, refused %u\n", (unsigned)founded_wide_work_words(c2, LEN(c2)), (unsigned)words,
           (unsigned)founded_wide_work_words(c2, LEN(c2) - 1));
    words = founded_wide_work_words(c2, LEN(c2));
    say("check", founded_wide_check(c2, LEN(c2)));
    say("short", founded_wide_check(c2, LEN(c2) - 1));
    printf("loops %u\n", (unsigned)founded_wide_needed(c2, LEN(c2), work, words));
    code = founded_wide_prepare(c2, LEN(c2), output, LEN(output), work, words);
    printf("cyclic %u %u\n", (unsigned)code, (unsigned)output[0]);
    code = founded_wide_complete(c2, LEN(c2), none, 1, none, 1, output, LEN(output), work, words);
    printf("missing %u %u\n", (unsigned)code, (unsigned)output[0]);
    code = founded_wide_complete(c2, LEN(c2), none, 0, none, 0, output, LEN(output), work, words);
    printf("empty masks %u %u\n", (unsigned)code, (unsigned)output[0]);
    say("long mask", founded_wide_complete(c2, LEN(c2), long_mask, 2, none, 1, output, LEN(output), work, words));
    say("short work area", founded_wide_needed(c2, LEN(c2), work, words - 1));
    words = founded_wide_work_words(c3, LEN(c3));
    code = founded_wide_complete(c3, LEN(c3), none, 1, none, 1, output, LEN(output), work, words);
    printf("with a fact %u %u\n", (unsigned)code, (unsigned)output[0]);
    code = founded_wide_complete(c3, LEN(c3), none, 1, heater, 1, output, LEN(output), work, words);
    printf("heater cut %u %u\n", (unsigned)code, (unsigned)output[0]);
    words = founded_wide_work_words(absorbed, LEN(absorbed));
    code = founded_wide_prepare(absorbed, LEN(absorbed), output, LEN(output), work, words);
    say(FOUNDED_WIDE_NUMBER(code) == FOUNDED_ABSORBED ? "absorbed" : "not absorbed", code);
    free(work);
}

/* Each of n heaters is on because the one before it is. The last link's next is as given. */
static void ring(uint32_t n, uint32_t next) {
    size_t length = 5 + 7 * (size_t)n, masks = FOUNDED_MASK_WORDS(n), words, i;
    uint32_t *graph = some(length, sizeof *graph), *nodes = graph + 5, *producers = nodes + 3 * (size_t)n, *links = producers + 2 * (size_t)n, *work;
    uint64_t *never = some(masks, sizeof *never), *output = some(masks, sizeof *output);
    uint64_t code;
    unsigned long count = 0;

    graph[0] = 2;
    for (i = 1; i < 5; i++)
        graph[i] = n;
    for (i = 0; i < n; i++) {
        nodes[3 * i] = 1;
        nodes[3 * i + 1] = (uint32_t)i;
        nodes[3 * i + 2] = 0;
        producers[2 * i] = (uint32_t)i + 1;
        producers[2 * i + 1] = (uint32_t)i + 1;
        links[2 * i] = (uint32_t)(i + 1) % n;
        links[2 * i + 1] = 0;
    }
    links[2 * (size_t)n - 1] = next;

    words = founded_wide_work_words(graph, length);
    work = some(words, sizeof *work);
    memset(never, 0, masks * sizeof *never);
    code = founded_wide_complete(graph, length, never, masks, never, masks, output, masks, work, words);
    say("ring", code);
    for (i = 0; code == 0 && i < 64 * masks; i++)
        count += output[i / 64] >> (i % 64) & 1;
    printf("missing %lu with %lu words\n", count, (unsigned long)words);
    free(graph);
    free(never);
    free(output);
    free(work);
}

int main(void) {
    small();
    ring(100000, 0);
    ring(100000, 100001);
    ring(100000, 100000);
    return FOUNDED_WIDE_MOST < 100000 || FOUNDED_WIDE_MOST_ENTRIES < 100000;
}

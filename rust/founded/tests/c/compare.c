/* Graphs sorted by content through the C header. */
#include "founded.h"

#include <stdio.h>
#include <stdlib.h>

/* The heads of a fact: none; 0 and 1; the same with its links the other way round; 1; and a chain that comes back. */
static const uint16_t none[] = {1, 2, 0, 1, 0, 0, 0};
static const uint16_t both[] = {1, 2, 0, 1, 2, 0, 1, 0, 2, 1, 0};
static const uint16_t turned[] = {1, 2, 0, 1, 2, 0, 2, 1, 0, 0, 1};
static const uint16_t one[] = {1, 2, 0, 1, 1, 0, 1, 1, 0};
static const uint16_t circle[] = {1, 2, 0, 1, 1, 0, 1, 1, 1};

struct graph {
    const char *name;
    const uint16_t *words;
    size_t len;
};

#define GRAPH(words) {#words, words, sizeof(words) / sizeof(words)[0]}

static int by_content(const void *x, const void *y) {
    const struct graph *graph = x, *other = y;
    return FOUNDED_ORDER(founded_compare(graph->words, graph->len, other->words, other->len));
}

int main(void) {
    struct graph graphs[] = {GRAPH(one), GRAPH(both), GRAPH(none), GRAPH(turned)};
    size_t count = sizeof graphs / sizeof graphs[0], i;
    uint32_t code;

    qsort(graphs, count, sizeof graphs[0], by_content);
    for (i = 0; i < count; i++) {
        int next = i + 1 < count ? by_content(&graphs[i], &graphs[i + 1]) : 0;
        printf("%s%s", i == 1 || i == 2 ? "heads 0 1" : graphs[i].name, next < 0 ? " < " : i + 1 < count ? " = " : "\n");
    }
    printf("%d %d %d\n", FOUNDED_ORDER(0u), FOUNDED_ORDER(1u), FOUNDED_ORDER(2u));
    code = founded_compare(one, sizeof one / sizeof one[0], circle, sizeof circle / sizeof circle[0]);
    printf("comes back: %u %u\n", (unsigned)FOUNDED_NUMBER(code), (unsigned)FOUNDED_PLACE(code));
    return 0;
}

/* The founded-support check: the calls of target/staticlib/libfounded_calls.a, on graphs of edition 1, in 16-bit words, and, with `wide` in their names, on graphs of edition 2,
 * in 32-bit words. tools/archive makes the archive; at the top of the repository cc -Iinclude FILE.c target/staticlib/libfounded_calls.a links it
 * (examples/heater.c is a whole program). It is for x86-64 Linux, on processors of level x86-64-v2 (those with SSE4.2 and POPCNT), and needs C's memset and
 * nothing else.
 *
 * Each call is proved to end and to keep the promises below whatever the words hold. The proof takes for granted that the caller lends memory as follows, for
 * C checks none of it:
 * - Each pointer is valid for as many elements as the length after it says, is aligned to its type, and is not null, also where the length is 0.
 * - A buffer that is written (output, always, sometimes, work) overlaps no other buffer of the call. Those that are only read (graph, other, never, atom_never, open, atom_open) may overlap each other.
 * - Nobody else writes to any of them, or reads one that is written, while the call runs.
 * Nothing is remembered between calls, and so threads may call at once, each with its own output and work area.
 *
 * A graph is words: edition (1 in 16-bit words, 2 in 32-bit words), A atoms, N nodes, P producers, K links; N nodes of kind, operand, first link; P producers of
 * body + 1 (0 marks a fact), first link; K links of value, next, in any order. Atoms, nodes and producers are numbered from 0, links from 1; link 0 ends a chain.
 * docs/FORMAT.md has the layout, the rules and graphs worked by hand. (The program founded_support takes the atom mask before the node mask; founded_complete takes the node mask first.)
 *
 * Lengths that pass: graph 5 + 3N + 2P + 2K words; never (the node mask) and open up to FOUNDED_MASK_WORDS(N); atom_never (the atom mask) and atom_open up to
 * FOUNDED_MASK_WORDS(A); output, always and sometimes FOUNDED_MASK_WORDS(A); work FOUNDED_WORK_WORDS in edition 1, and in edition 2 what founded_wide_work_words gives for the graph. Every other length is an answer: 1 or 3
 * of the graph, 10 of masks and output, 11 of the work area. founded_branch has lengths of its own: see there.
 * Bit i of word w of a mask, lowest first, stands for 64w + i. A set bit is a cut: ruled out. A bit past the mask's end is no cut: trailing zero words may be left out,
 * all of them too. Bits past the last number are ignored where they are read and 0 where they are written.
 *
 * A refusal's code is number * 2^16 + place in 32 bits, and of a wide call number * 2^32 + place in 64 bits: FOUNDED_NUMBER and FOUNDED_PLACE take the one apart,
 * FOUNDED_WIDE_NUMBER and FOUNDED_WIDE_PLACE the other. Of several refusals that apply the first in the table's order is given: that of the numbers, but 14 stands
 * between 6 and 7, 13 between 9 and 10, and 21 between 10 and 11. What a call leaves:
 *
 *   outcome             output                  work area
 *   success             the list, each word     all zero
 *   1 to 11, 13, 14, 21 as it was               as it was
 *   12, 15              as it was               all zero
 *
 * What output and work area held before has no effect. Graph and masks are never written.
 */
#ifndef FOUNDED_H
#define FOUNDED_H

#include <stddef.h>
#include <stdint.h>

/* The limits: of atoms, nodes and producers, each; of links, leaf entries and head entries, each. */
#define FOUNDED_MOST 1024
#define FOUNDED_MOST_ENTRIES 4096
#define FOUNDED_WIDE_MOST 262144
#define FOUNDED_WIDE_MOST_ENTRIES 1048576

#define FOUNDED_WORK_WORDS 32768

/* Of a search branch: the most pairs of masks, and the words of its work area. */
#define FOUNDED_MOST_PAIRS 64
#define FOUNDED_BRANCH_WORK_WORDS 49152

#define FOUNDED_MASK_WORDS(count) (((size_t)(count) + 63) / 64)

/* 1 if the code has so many bytes; if not, it does not compile: no array has -1 elements. */
#define FOUNDED_IF_BYTES(code, bytes) sizeof(char[sizeof(code) == (bytes) ? 1 : -1])

/* Number and place of a code of 32 bits. Of the loop test 0 and 1 are no refusals, and of the comparison 0, 1 and 2: their number is 0. */
#define FOUNDED_NUMBER(code) ((uint32_t)(code) >> (16 * FOUNDED_IF_BYTES(code, 4)))
#define FOUNDED_PLACE(code) ((uint32_t)(code) & (0xffffu * (uint32_t)FOUNDED_IF_BYTES(code, 4)))

/* The same of a code of 64 bits. */
#define FOUNDED_WIDE_NUMBER(code) ((uint32_t)((uint64_t)(code) >> (32 * FOUNDED_IF_BYTES(code, 8))))
#define FOUNDED_WIDE_PLACE(code) ((uint32_t)((uint64_t)(code) & (0xffffffffu * FOUNDED_IF_BYTES(code, 8))))

/* -1, 0 or 1, as qsort's function gives it, of founded_compare's answer 1, 0 or 2: less, equal, greater. Not of a refusal's code. The answer is looked at once. */
#define FOUNDED_ORDER(answer) ((int)((2 * (uint32_t)(answer) + 1) % (3 * (uint32_t)FOUNDED_IF_BYTES(answer, 4))) - 1)

/* The numbers, as in the table of docs/FORMAT.md, for both editions. Where no place is named it is 0. */
enum founded_refusal {
    FOUNDED_NO_REFUSAL = 0,
    FOUNDED_EDITION = 1,   /* fewer than 5 words, or edition not 1; in 32-bit words, edition not 2 */
    FOUNDED_COUNTS = 2,    /* A, N or P above 1,024, or K above 4,096; in edition 2 above 262,144, or 1,048,576 */
    FOUNDED_SIZE = 3,      /* length isn't 5 + 3N + 2P + 2K */
    FOUNDED_NODE = 4,      /* kind above 7; operand of an Atom not below A; operand of another kind not 0; first link above K; first link not 0 outside And
                              and Or. Place: the first such node */
    FOUNDED_PRODUCER = 5,  /* body + 1 above N, or first link above K. Place: the first such producer */
    FOUNDED_LINK = 6,      /* next is above K. Place: the first such link */
    FOUNDED_LEAF = 7,      /* a leaf not below its own node's number. Place: the first such node */
    FOUNDED_HEAD = 8,      /* a head not below A. Place: the first such producer */
    FOUNDED_ENTRIES = 9,   /* more than 4,096 leaf entries or more than 4,096 head entries; in edition 2 more than 1,048,576 */
    FOUNDED_LENGTHS = 10,  /* the node mask has more than FOUNDED_MASK_WORDS(N) words, or the atom mask more than FOUNDED_MASK_WORDS(A), or the output not exactly so many;
                              of founded_branch each not exactly so many for each pair */
    FOUNDED_WORK = 11,     /* the work area is not exactly 32,768 16-bit words, of founded_branch 49,152; in edition 2 not exactly 16(A + N + P + 1) + 4(leaf entries + head entries)
                              32-bit words */
    FOUNDED_ABSORBED = 12, /* the body cone holds a node of kind 7. Place: the first such node */
    FOUNDED_PAIRS = 13,    /* founded_branch alone: no pair, or more than 64; given after 9 and before 10, whatever the lengths */
    FOUNDED_COMES_BACK = 14, /* a chain comes back to one of its own links; given after 6 and before 7. Place: the first node whose leaf chain does, or where none does,
                              the first producer whose head chain does. The code does not say which: it is a node if that node's chain has not ended after K links */
    FOUNDED_ALLOWANCE = 15, /* founded_complete_within alone: the count exceeds the allowance; given after 12 */
    FOUNDED_CUT_AND_OPEN = 21 /* founded_undecided alone: a node or an atom both ruled out and undecided; given right after 10 */
};

#ifdef __cplusplus
extern "C" {
#endif

/* The graph check: 0, or the code of a refusal of 1 to 9 or 14. All other calls begin with it.
 *
 * How long it takes: it looks at N + P + K records, and then walks at most 2(N + P)K links, half of them for 14 (where every next is 0 or greater than its own link, it
 * skips that half). On a graph that it accepts it walks each entry at most twice. The most is walked where all chains share one long tail, before 9 is given. In edition 1
 * that is a few hundredths of a second. In edition 2 it is 1.1 million million links: by the time that a part of them took, half an hour where the links lie in order,
 * and more than a day where they lie at random. A caller who takes wide graphs from outside can look for such a graph first, in time N + P + K and with memory for a number a
 * link: after the tests of 1 to 6, walk from each link until a link is met whose length is known, and give all links on the way their lengths; a walk that meets itself has
 * come back. Then add up the lengths of the chains of all nodes, and of all producers, leaving out those that come back. If neither sum is above
 * FOUNDED_WIDE_MOST_ENTRIES, the check walks at most twice both and K links more; if one is, the graph is refused anyhow. */
uint32_t founded_check(const uint16_t *graph, size_t graph_len);
uint64_t founded_wide_check(const uint32_t *graph, size_t graph_len);

/* How many 32-bit words of work area the other wide calls are to be lent for this graph: 16(A + N + P + 1) + 4(leaf entries + head entries), or 0 if the graph is
 * refused. It walks all chains: count its time like that of a graph check, and ask once for a graph that is used again. */
uint64_t founded_wide_work_words(const uint32_t *graph, size_t graph_len);

/* The loop test: 1 if there is a closed walk over all atoms and all nodes, 0 if there is none, or the code of a refusal of 1 to 9, 14 or 11. */
uint32_t founded_needed(const uint16_t *graph, size_t graph_len, uint16_t *work, size_t work_len);
uint64_t founded_wide_needed(const uint32_t *graph, size_t graph_len, uint32_t *work, size_t work_len);

/* Preparation: 0, and the output lists the cyclic atoms; or the code of a refusal of 1 to 12 or 14. */
uint32_t founded_prepare(const uint16_t *graph, size_t graph_len, uint64_t *output, size_t output_len, uint16_t *work, size_t work_len);
uint64_t founded_wide_prepare(const uint32_t *graph, size_t graph_len, uint64_t *output, size_t output_len, uint32_t *work, size_t work_len);

/* The pass: 0, and the output lists the missing atoms: all that lie in some unfounded set, whatever the masks cut; or the code of a refusal of 1 to 12 or
 * 14. */
uint32_t founded_complete(const uint16_t *graph, size_t graph_len, const uint64_t *never, size_t never_len, const uint64_t *atom_never,
                          size_t atom_never_len, uint64_t *output, size_t output_len, uint16_t *work, size_t work_len);
uint64_t founded_wide_complete(const uint32_t *graph, size_t graph_len, const uint64_t *never, size_t never_len, const uint64_t *atom_never,
                               size_t atom_never_len, uint64_t *output, size_t output_len, uint32_t *work, size_t work_len);

/* States that nothing produces: the pass with every atom marked, after the same rows. 0, and the output lists the uncut atoms that are left unfounded: those that no fact and no producer
 * with a true body has as a head, where an Atom is true only if its atom is founded. These are the uncut atoms of the greatest unfounded set of Van Gelder, Ross and Schlipf (1991), with
 * cut atoms and cut nodes taken as false and opaque nodes as true unless cut. Each atom on the pass's list is on this one. Or the code of a refusal of 1 to 12 or 14. */
uint32_t founded_unfounded(const uint16_t *graph, size_t graph_len, const uint64_t *never, size_t never_len, const uint64_t *atom_never,
                           size_t atom_never_len, uint64_t *output, size_t output_len, uint16_t *work, size_t work_len);

/* A search branch: the pass for 1 to FOUNDED_MOST_PAIRS pairs of masks on one graph, which is checked and prepared once. 0, and the output lists the missing atoms of each pair, each list as
 * founded_complete gives it for that pair alone; or the code of a refusal of 1 to 14. Node masks, atom masks and lists are laid end to end, each at its full length: never has exactly
 * pairs * FOUNDED_MASK_WORDS(N) words, atom_never and output exactly pairs * FOUNDED_MASK_WORDS(A) each, and work exactly FOUNDED_BRANCH_WORK_WORDS. Pair k has the words from
 * k * FOUNDED_MASK_WORDS(N) on of never, and so on. The number of pairs is told by the argument alone: with no node and no atom no length tells it.
 * A pair after the first takes a small part of a call of founded_complete. With more pairs than one call takes, fill a call before the next one: each checks and prepares anew. On graphs of edition 1 alone. */
uint32_t founded_branch(const uint16_t *graph, size_t graph_len, size_t pairs, const uint64_t *never, size_t never_len, const uint64_t *atom_never,
                        size_t atom_never_len, uint64_t *output, size_t output_len, uint16_t *work, size_t work_len);

/* One order for graphs of edition 1, by content: 0 if the two have the same content, 1 if the first comes before the second, 2 if it comes after it; or the code of a refusal of
 * 1 to 9 or 14: the first graph's, or where that is accepted the second's. The code does not say whose it is: founded_check does. The two may be the same memory. A and N and P are
 * compared, then node by node kind, operand and leaf list, then producer by producer body + 1 and head list. Lists go by first difference, a shorter beginning first. K, the
 * links' numbering and links in no chain play no part. It is a total order of the contents, and equal graphs get equal answers and lists from all other calls under equal masks.
 * It is lent no memory. On two equal graphs it takes about the time of two graph checks; where they differ, at most about that of three. */
uint32_t founded_compare(const uint16_t *graph, size_t graph_len, const uint16_t *other, size_t other_len);

/* The pass within a work allowance: as founded_complete, and *allowance falls by the count. It counts as it goes, and stops as soon as the count would exceed the allowance: that is 15,
 * and *allowance is 0. After every other refusal *allowance is as it was. A count equal to the allowance is a success, and leaves 0. allowance is not null, is aligned, and
 * overlaps no buffer of the call.
 *
 * The count: one for each head entry of the facts that have a cyclic head; one for each founded atom and each true node of the cyclic cone; for such an atom one for each node that names it; for such
 * a node one for each leaf entry that is this node, and one for each head entry of the producers with it as their body. It is at most A + 2N + leaf entries + head entries. Check, preparation and
 * start are not counted: README.md says how long they take. */
uint32_t founded_complete_within(const uint16_t *graph, size_t graph_len, const uint64_t *never, size_t never_len, const uint64_t *atom_never,
                                 size_t atom_never_len, uint64_t *output, size_t output_len, uint16_t *work, size_t work_len, uint64_t *allowance);

/* Telemetry not yet in. Beside each mask comes one of undecided bits, of the same length: open beside never, atom_open beside atom_never. A choice rules each undecided node and each
 * undecided atom out, or does not. The call answers 0, and always lists the atoms missing under every choice, sometimes those missing under at least one; or the code of a refusal of
 * 1 to 12, 14 or 21. An atom that is undecided itself may be in the second list and never in the first. With nothing undecided both are the list of founded_complete. It takes little more than two
 * passes, however many bits are undecided. On graphs of edition 1 alone. */
uint32_t founded_undecided(const uint16_t *graph, size_t graph_len, const uint64_t *never, size_t never_len, const uint64_t *atom_never,
                           size_t atom_never_len, const uint64_t *open, size_t open_len, const uint64_t *atom_open, size_t atom_open_len, uint64_t *always,
                           size_t always_len, uint64_t *sometimes, size_t sometimes_len, uint16_t *work, size_t work_len);

#ifdef __cplusplus
}
#endif

#endif

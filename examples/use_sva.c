/* Lowers `a ##1 b`, steps it over a few ticks, looks its register up, matches it over the same ticks, and has one tree refused. Status 0 where all went as it
 * should, 1 where a tree was not answered so, 2 where the output failed. From the repository's root:
 *
 *   programs/archive && gcc -std=c11 -Wall -Wextra -Iinclude examples/use_sva.c target/staticlib/libsva_c.a -o target/use_sva && target/use_sva
 *
 * SPDX-License-Identifier: MIT OR Apache-2.0
 */
#include <inttypes.h>
#include <stdio.h>
#include <string.h>

#include "sva.h"

#define COUNT(array) (sizeof(array) / sizeof(array)[0])

/* Atom a is 0 and atom b is 1; node 2 joins the nodes 0 and 1 by a delay of exactly one tick. */
static const uint32_t A_THEN_B[] = {
    1, 0, 0, 0, 0, /* node 0: a */
    1, 1, 0, 0, 0, /* node 1: b */
    2, 0, 1, 1, 1, /* node 2: node 0 ##1 node 1 */
};

/* The same with the range [2:1], which is empty. */
static const uint32_t EMPTY_RANGE[] = {
    1, 0, 0, 0, 0, 1, 1, 0, 0, 0, 2, 0, 1, 2, 1,
};

/* a and b at each tick. */
static const uint8_t ATOMS[][2] = {{1, 0}, {0, 1}, {0, 1}, {1, 1}, {1, 1}, {0, 0}};

/* A listing, and what lowering said of it. */
struct listing {
    uint32_t words[64];
    size_t registers, length, deepest;
};

/* Lowers a tree and prints the answer; whether there is a listing. */
static int lowered(const char *name, const uint32_t *tree, size_t tree_len, struct listing *l)
{
    uint32_t work[64] = {0};
    size_t place = 0;
    uint32_t number = sva_lower(tree, tree_len, work, COUNT(work), l->words, COUNT(l->words), &l->registers, &l->length,
                                &l->deepest, &place);
    if (number != 0) {
        printf("%s: refused with %" PRIu32 " at node %zu\n", name, number, place);
        return 0;
    }
    printf("%s: %zu register, %zu words, deepest stack %zu\n", name, l->registers, l->length, l->deepest);
    return 1;
}

/* Prints the words from the place on, each as operation and argument. */
static void print_words(const char *name, const struct listing *l, size_t place, size_t length)
{
    printf("%s:", name);
    for (size_t i = place; i < place + length; i++)
        printf(" %" PRIu32 ",%" PRIu32, SVA_OPERATION(l->words[i]), SVA_ARGUMENT(l->words[i]));
    printf("\n");
}

/* Steps the listing over ATOMS from registers that are 0, and prints each match bit; 0, or a refusal's number. */
static uint32_t run(const struct listing *l)
{
    uint8_t now[8] = {0}, next[8] = {0}, stack[8] = {0}, match = 0;
    size_t place = 0;
    for (size_t tick = 0; tick < COUNT(ATOMS); tick++) {
        uint32_t number = sva_tick(l->words, l->length, now, sizeof now, ATOMS[tick], sizeof ATOMS[tick], next, sizeof next,
                                   stack, sizeof stack, &match, &place);
        if (number != 0) {
            printf("tick %zu: refused with %" PRIu32 " at word %zu\n", tick, number, place);
            return number;
        }
        printf("tick %zu: a %d, b %d, match %d\n", tick, ATOMS[tick][0], ATOMS[tick][1], match);
        memcpy(now, next, sizeof now);
    }
    return 0;
}

/* Matches a tree over ATOMS as a recording, and prints the answers; 0, or a refusal's number. */
static uint32_t matched(const char *name, const uint32_t *tree, size_t tree_len)
{
    uint8_t answers[COUNT(ATOMS)] = {0}, work[3 * (COUNT(ATOMS) + 1) * (COUNT(ATOMS) + 1)] = {0};
    size_t ticks = 0, place = 0;
    uint32_t number = sva_matches(tree, tree_len, ATOMS[0], sizeof ATOMS, sizeof ATOMS[0], answers, sizeof answers, work, sizeof work, &ticks,
                                  &place);
    if (number != 0) {
        printf("%s: matching refused with %" PRIu32 " at %zu\n", name, number, place);
        return number;
    }
    printf("%s: over %zu recorded ticks a match ends at", name, ticks);
    for (size_t tick = 0; tick < ticks; tick++)
        if (answers[tick])
            printf(" %zu", tick);
    printf("\n");
    return 0;
}

int main(void)
{
    struct listing l = {0};
    size_t start = 0;
    if (!lowered("a ##1 b", A_THEN_B, COUNT(A_THEN_B), &l))
        return 1;
    print_words("words", &l, 0, l.length);
    if (run(&l) != 0)
        return 1;
    size_t length = sva_stretch(l.words, l.length, 0, &start);
    printf("register 0 is driven by %zu words from word %zu on\n", length, start);
    print_words("register 0", &l, start, length);
    if (matched("a ##1 b", A_THEN_B, COUNT(A_THEN_B)) != 0)
        return 1;
    if (lowered("a ##[2:1] b", EMPTY_RANGE, COUNT(EMPTY_RANGE), &l))
        return 1;
    if (fflush(stdout) != 0 || ferror(stdout)) {
        perror("use_sva: standard output");
        return 2;
    }
    return 0;
}

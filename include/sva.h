/* SPDX-License-Identifier: MIT OR Apache-2.0
 *
 * Temporal assertions as one-bit registers: a sequence, given as a tree of numbers, is lowered to a listing, and the
 * listing is stepped once a tick. Beside it a matcher, which tells at which recorded ticks a sequence ended a match, and
 * does not lean on the lowering. The functions are proved; what is promised here is what their contracts say
 * (crates/sva_c/specs/Boundary.antt). examples/use_sva.c has a whole use.
 *
 * The library keeps nothing between calls, takes no heap and writes only where a comment says so. Every content and every
 * length gets an answer. What a caller has to see to:
 *   - each pointer is good for as many elements as the length beside it says, is aligned, and is not NULL, also where
 *     the length is 0;
 *   - what it points to is initialised, also where it is only written;
 *   - what a call writes overlaps nothing else that the call is given;
 *   - SVA_STACK bytes of stack are free where it calls, what it passes on the stack among them.
 *
 * A tree: five words a node, 1 to 4,096 nodes. Operands have lower numbers than their node, the last node is the root, and
 * every other node is an operand exactly once. Words that a kind does not use are 0. SVA_UNBOUNDED is `$`, as max only.
 *
 *     kind                 p               q        min, max
 *     1 atom               atom, < 65536   0        0, 0
 *     2 left ##[m:n] right left            right    m, n; n may be $
 *     3 operand [*m:n]     operand         0        m, n; n may be $
 *     4 operand [->n]      operand         0        n, n; at least 1
 *     5 operand [=n]       operand         0        n, n; at least 1
 *     6 throughout         condition atom  operand  0, 0
 *     7 one within two     one             two      0, 0
 *
 * A listing: a word is operation * 16777216 + argument. Expressions are postfix, the left operand first; each ends in a
 * store, the stores of registers count 0, 1, 2 and so on, and the match is the last word.
 *
 *     1 atom a      the byte of atom a             8 or        two bits to one
 *     2 register r  register r before the tick     9 seq r     store of a delay
 *     3 zero        the bit 0                     10 arm r     store of the latch of an open delay
 *     4 one         the bit 1                     11 gto r     store of a [->n]
 *     5 any         reduction OR of a bit         12 ncx r     store of a [=n]
 *     6 not         one bit to one                13 crl r     store of a [*m:$]
 *     7 and         two bits to one               14 match     what the whole comes to
 */
#ifndef SVA_H
#define SVA_H

#include <stddef.h>
#include <stdint.h>

#ifdef __cplusplus
extern "C" {
#endif

/* `$`, as the max of a delay or of a consecutive repetition. */
#define SVA_UNBOUNDED UINT32_C(4294967295)

/* The bytes of stack that a call may take: sva_lower by the depth of the tree, the others far less. Counted over the archive's machine
 * code, not proved (docs/PROOFS.md). */
#define SVA_STACK 65536

/* The operation and the argument of a listing's word. */
#define SVA_OPERATION(word) ((uint32_t)(word) / UINT32_C(16777216))
#define SVA_ARGUMENT(word) ((uint32_t)(word) % UINT32_C(16777216))

/* Lowers a tree to a listing.
 *
 * tree   the tree's words.
 * work   room to work in, whatever it holds: an entry (a term or a guard of an alternative) takes 16 words, and more than
 *        65,536 entries are never used. All zero after every call.
 * out    takes the listing, from its first word on. Past the listing, and on a refusal, it is unchanged.
 *
 * Returns 0, with *registers, *words and *deepest the listing's registers, its words, and the deepest stack that a tick of it
 * reaches, and *place 0. Or returns the number of a refusal, with these three 0 and *place as the table says:
 *
 *      1  words not a multiple of five, no node, or more than 4,096 (place 0); an unknown kind, an unused word that
 *         is not 0, an atom too large, an operand not below its node, a min that is $ (the lowest such node)
 *      2  a node other than the root that is the operand of none or of several (the lowest)
 *      3  min above max; for [->] and [=] min not max, or 0 (the lowest)
 *      4  the tree is more than 256 deep (the node)
 *      5  a repetition of more than 256 (the node)
 *      6  [->], [=] or [*m:$] over what is no atom (the node)
 *      7  throughout over an alternative with an open delay, a [->], a [=], a [*m:$] or an empty term (the node)
 *      8  within below the root (the node)
 *      9  within over an alternative with a throughout, or with what 7 names (the root)
 *     10  more than 256 alternatives (the node)
 *     11  work has too few entries (the node)
 *     12  an empty term that leads, or that stands beside a delay that is open or 0 (the lowest alternative)
 *     13  more than 65,536 registers (0)
 *     14  out is too short (0)
 */
uint32_t sva_lower(const uint32_t *tree, size_t tree_len, uint32_t *work, size_t work_len, uint32_t *out, size_t out_len,
                   size_t *registers, size_t *words, size_t *deepest, size_t *place);

/* Steps the registers of a listing once.
 *
 * listing  the listing's words, and no more.
 * now      the registers before the tick, a byte each, 0 or 1; all 0 before the first tick.
 * atoms    the atoms at this tick, a byte each, 0 or 1, at their numbers. An atom that the listing does not name is not read.
 * next     takes the registers after the tick; past them it is unchanged.
 * stack    at least as many bytes as *deepest said, whatever they hold. All zero afterwards.
 *
 * Returns 0, with *match the match bit and *place 0. Or returns the number of a refusal, with *match, next and stack unchanged:
 *
 *     21  the listing is not as described above (the first faulty word; the word count if it ends too early)
 *     22  now, next, atoms or stack is too short (0)
 *     23  a register's byte of now, or the byte of an atom that the listing names, is above 1 (0)
 */
uint32_t sva_tick(const uint32_t *listing, size_t listing_len, const uint8_t *now, size_t now_len, const uint8_t *atoms,
                  size_t atoms_len, uint8_t *next, size_t next_len, uint8_t *stack, size_t stack_len, uint8_t *match,
                  size_t *place);

/* Finds the part of a listing that drives a register: its expression, with the store.
 *
 * Returns the part's length, with *start the place of its first word. Both are 0 if the listing is not as described, or has no
 * such register.
 */
size_t sva_stretch(const uint32_t *listing, size_t listing_len, uint32_t reg, size_t *start);

/* Tells at which recorded ticks a match of a tree ends, as IEEE 1800 defines a match. It looks at the tree and at the recording alone, so
 * that it can judge the lowering too. A tree has at most 64 nodes here; all kinds may stand anywhere, and counts and delays of up to
 * 4,294,967,294 are answered like small ones.
 *
 * tree     the tree's words.
 * rows     the recording: ticks times width bytes, row by row; the byte of atom a at tick t is rows[t * width + a], 0 or 1.
 * width    how many atoms a row has.
 * answers  takes a byte a tick: 1 exactly where some match that has a tick, and began at tick 0 or later, ends at that tick, and else 0. Past the
 *          ticks, and on a refusal, it is unchanged.
 * work     nodes * (ticks + 1) * (ticks + 1) bytes or more, whatever they hold. All zero after every call.
 *
 * Returns 0, with *ticks the ticks of the recording and *place 0; no tick at all is no fault. Or returns the number of a refusal, with
 * *ticks 0 and *place as the table says, the first that applies:
 *
 *      1  as in sva_lower; also more than 64 nodes (place 0)
 *      2  as in sva_lower
 *      3  as in sva_lower
 *      6  [->] or [=] over what is no atom (the lowest node)
 *     17  a width of 0, rows that are no multiple of it, more than 256 ticks, a byte of rows above 1, or an atom or condition of the
 *         tree that is not below the width (0)
 *     18  answers shorter than the ticks, or too little work (0)
 */
uint32_t sva_matches(const uint32_t *tree, size_t tree_len, const uint8_t *rows, size_t rows_len, size_t width, uint8_t *answers,
                     size_t answers_len, uint8_t *work, size_t work_len, size_t *ticks, size_t *place);

#ifdef __cplusplus
}
#endif

#endif

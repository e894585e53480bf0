/* A plain interpreter of a listing's words, to hold this project's tick against: the check that refusals 21 to 23 ask for, and one tick
 * that checks nothing. Written as one would without proofs: a switch on the operation, a stack of bytes. */
#include <stddef.h>
#include <stdint.h>

enum { ATOM = 1, REGISTER, ZERO, ONE, ANY, NOT, AND, OR, SEQ, ARM, GTO, NCX, CRL, MATCH };

/* What 22 and 23 need to know of a listing: how many registers and atoms it has, its deepest stack, the largest byte of a named atom. */
struct needs {
    size_t registers;
    size_t atoms;
    size_t deepest;
    uint8_t byte;
};

/* 21: the first faulty word, or the word count if the listing ends early; SIZE_MAX if there is no fault. */
static size_t fault(const uint32_t *listing, size_t len, const uint8_t *atoms, size_t atoms_len, struct needs *needs)
{
    size_t all = 0, stored = 0, height = 0, named = 0, deepest = 0;
    uint8_t byte = 0;
    for (size_t i = 0; i < len; i++)
        all += (listing[i] >> 24) - SEQ <= CRL - SEQ;
    for (size_t i = 0; i < len; i++) {
        uint32_t operation = listing[i] >> 24, argument = listing[i] & 0xffffff;
        switch (operation) {
        case ATOM:
            if (argument >= 65536)
                return i;
            if (argument >= named)
                named = argument + 1;
            if (argument < atoms_len && atoms[argument] > byte)
                byte = atoms[argument];
            height++;
            break;
        case REGISTER:
            if (argument >= 65536 || argument >= all)
                return i;
            height++;
            break;
        case ZERO:
        case ONE:
            if (argument)
                return i;
            height++;
            break;
        case ANY:
        case NOT:
            if (argument || height < 1)
                return i;
            break;
        case AND:
        case OR:
            if (argument || height < 2)
                return i;
            height--;
            break;
        case SEQ:
        case ARM:
        case GTO:
        case NCX:
        case CRL:
            if (argument >= 65536 || argument != stored || height != 1)
                return i;
            stored++;
            height = 0;
            break;
        case MATCH:
            if (argument || height != 1)
                return i;
            *needs = (struct needs){all, named, deepest, byte};
            return i + 1 == len ? SIZE_MAX : i + 1;
        default:
            return i;
        }
        if (height > deepest)
            deepest = height;
    }
    return len;
}

/* 21, 22 and 23, in this order: 0, or the number with its place. */
uint32_t plain_check(const uint32_t *listing, size_t len, const uint8_t *now, size_t now_len, const uint8_t *atoms, size_t atoms_len,
                     size_t next_len, size_t stack_len, size_t *place)
{
    struct needs needs;
    size_t faulty = fault(listing, len, atoms, atoms_len, &needs);
    *place = 0;
    if (faulty != SIZE_MAX) {
        *place = faulty;
        return 21;
    }
    if (now_len < needs.registers || next_len < needs.registers || atoms_len < needs.atoms || stack_len < needs.deepest)
        return 22;
    uint8_t byte = needs.byte;
    for (size_t r = 0; r < needs.registers; r++)
        if (now[r] > byte)
            byte = now[r];
    return byte > 1 ? 23 : 0;
}

/* One tick of a listing that passes the check: the match bit. */
uint8_t plain_tick(const uint32_t *listing, size_t len, const uint8_t *now, const uint8_t *atoms, uint8_t *next, uint8_t *stack)
{
    size_t height = 0;
    for (size_t i = 0; i < len; i++) {
        uint32_t operation = listing[i] >> 24, argument = listing[i] & 0xffffff;
        switch (operation) {
        case ATOM:
            stack[height++] = atoms[argument];
            break;
        case REGISTER:
            stack[height++] = now[argument];
            break;
        case ZERO:
            stack[height++] = 0;
            break;
        case ONE:
            stack[height++] = 1;
            break;
        case ANY:
            break;
        case NOT:
            stack[height - 1] ^= 1;
            break;
        case AND:
            height--;
            stack[height - 1] &= stack[height];
            break;
        case OR:
            height--;
            stack[height - 1] |= stack[height];
            break;
        case MATCH:
            return stack[--height];
        default:
            next[argument] = stack[--height];
            break;
        }
    }
    return 0;
}

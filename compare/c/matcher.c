/* A plain matcher, to hold this project's against: it fills the same tables, a byte for each start and end of a node's runs. Written as one
 * would without proofs: a loop over the nodes, operands first, and nothing checked. */
#include <stddef.h>
#include <stdint.h>
#include <string.h>

enum { ATOM = 1, DELAY, CONSECUTIVE, GOTO, NONCONSECUTIVE, THROUGHOUT, WITHIN };
enum { LONGEST_SIDE = 257 };

/* The recording, and the side of its tables. */
struct rows {
    const uint8_t *bytes;
    size_t width, side;
};

static size_t lower(size_t x, size_t y)
{
    return x < y ? x : y;
}

/* Adds to a row the ends of a table's row from `first` on. */
static void add(uint8_t *row, const uint8_t *ends, size_t first, size_t side)
{
    for (size_t j = first; j < side; j++)
        row[j] |= ends[j];
}

static void delay(const uint8_t *left, const uint8_t *right, uint32_t min, uint32_t max, size_t i, size_t side, uint8_t *row)
{
    uint8_t starts[LONGEST_SIDE] = {0};
    const uint8_t *ends = left + i * side;
    size_t least = min ? min : 1;
    for (size_t k = i; k < side; k++)
        if (ends[k] && k + least <= side && least <= max)
            memset(starts + k + least - 1, 1, lower(side, k + max) - (k + least - 1));
    for (size_t k = i; k < side; k++)
        if (starts[k])
            add(row, right + k * side, k, side);
    for (size_t k = i; min == 0 && k + 1 < side; k++)
        if (ends[k + 1])
            add(row, right + k * side, k + 1, side);
}

static void repetition(const uint8_t *operand, uint32_t min, uint32_t max, size_t i, size_t side, uint8_t *row)
{
    uint8_t ends[LONGEST_SIDE] = {0}, next[LONGEST_SIDE];
    size_t low = lower(min, side), high = lower(max, side);
    ends[i] = 1;
    for (size_t copies = 0; copies < high; copies++) {
        if (low <= copies)
            add(row, ends, i, side);
        memset(next, 0, sizeof next);
        for (size_t k = i; k < side; k++)
            if (ends[k])
                add(next, operand + k * side, k, side);
        if (memcmp(ends, next, side) == 0)
            break;
        memcpy(ends, next, side);
    }
    add(row, ends, i, side);
}

static void count(const struct rows *rows, uint32_t atom, uint32_t n, int goes_on, size_t i, uint8_t *row)
{
    uint32_t seen = 0;
    for (size_t t = i; t + 1 < rows->side; t++) {
        uint8_t here = rows->bytes[t * rows->width + atom];
        seen += here;
        if (seen == n && (here || goes_on))
            row[t + 1] = 1;
    }
}

static void throughout(const uint8_t *operand, const struct rows *rows, uint32_t condition, size_t i, uint8_t *row)
{
    for (size_t j = i; j < rows->side; j++) {
        row[j] = operand[i * rows->side + j];
        if (j + 1 < rows->side && !rows->bytes[j * rows->width + condition])
            return;
    }
}

static void within(const uint8_t *one, const uint8_t *two, size_t i, size_t side, uint8_t *row)
{
    size_t end = side;
    for (size_t k = i; k < side; k++)
        for (size_t j = k; j < end; j++)
            if (one[k * side + j])
                end = j;
    add(row, two + i * side, end, side);
}

/* The ends of node n's runs from i on. */
static void fill_row(const uint32_t *tree, size_t n, const struct rows *rows, const uint8_t *tables, size_t i, uint8_t *row)
{
    const uint32_t *node = tree + 5 * n;
    size_t side = rows->side, size = side * side;
    switch (node[0]) {
    case ATOM:
        count(rows, node[1], 1, 0, i, row);
        memset(row + lower(i + 2, side), 0, side - lower(i + 2, side));
        break;
    case DELAY:
        delay(tables + node[1] * size, tables + node[2] * size, node[3], node[4], i, side, row);
        break;
    case CONSECUTIVE:
        repetition(tables + node[1] * size, node[3], node[4], i, side, row);
        break;
    case GOTO:
    case NONCONSECUTIVE:
        count(rows, tree[5 * node[1] + 1], node[3], node[0] == NONCONSECUTIVE, i, row);
        break;
    case THROUGHOUT:
        throughout(tables + node[2] * size, rows, node[1], i, row);
        break;
    case WITHIN:
        within(tables + node[1] * size, tables + node[2] * size, i, side, row);
    }
}

/* The answers of a good tree over good rows, in work of nodes times (ticks + 1) squared bytes, which is cleared afterwards. */
void plain_matches(const uint32_t *tree, size_t nodes, const uint8_t *bytes, size_t width, size_t ticks, uint8_t *answers, uint8_t *work)
{
    struct rows rows = {bytes, width, ticks + 1};
    size_t side = ticks + 1, size = side * side;
    memset(work, 0, nodes * size);
    for (size_t n = 0; n < nodes; n++)
        for (size_t i = 0; i < side; i++)
            fill_row(tree, n, &rows, work, i, work + n * size + i * side);
    const uint8_t *root = work + (nodes - 1) * size;
    for (size_t t = 0; t < ticks; t++) {
        answers[t] = 0;
        for (size_t i = 0; i <= t; i++)
            answers[t] |= root[i * side + t + 1];
    }
    memset(work, 0, nodes * size);
}

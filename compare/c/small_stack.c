/* Calls the archive's functions on a thread that has just so many bytes of stack left, with a page below them that may not be touched, and
 * tells how many of them were written to. A call that needs more than is left ends the program. */
#define _GNU_SOURCE
#include "../../include/sva.h"
#include <alloca.h>
#include <pthread.h>
#include <string.h>
#include <sys/mman.h>
#include <unistd.h>

/* What stands on the stack before a call, and what the thread itself may take of it above the bytes that are left. */
enum { UNTOUCHED = 0xa5, OWN = 131072 };

/* A call, what it answered, and how many bytes of stack it had and wrote to; `which` is 0 for lower, 1 for tick, 2 for stretch,
 * 3 for matches. */
struct call {
    uint32_t which;
    uint32_t number;
    const uint32_t *words;
    size_t words_len;
    uint32_t *work;
    size_t work_len;
    uint32_t *out;
    size_t out_len;
    const uint8_t *now;
    size_t now_len;
    const uint8_t *atoms;
    size_t atoms_len;
    uint8_t *next;
    size_t next_len;
    uint8_t *stack;
    size_t stack_len;
    const uint8_t *rows;
    size_t rows_len, width;
    uint8_t *answers;
    size_t answers_len;
    uint8_t *tables;
    size_t tables_len;
    size_t registers, counted, deepest, place;
    uint8_t matched;
    unsigned char *floor;
    size_t left;
};

/* What include/sva.h promises to be enough. */
size_t promised_stack(void)
{
    return SVA_STACK;
}

/* The thread: gives away what it has above the bytes that are to be left, and calls. What the call passes on the stack is taken from them. */
static void *called(void *given)
{
    struct call *c = given;
    unsigned char *here = alloca(16);
    unsigned char *low = alloca(here - c->floor - c->left);
    c->left = low - c->floor;
    if (c->which == 0)
        c->number = sva_lower(c->words, c->words_len, c->work, c->work_len, c->out, c->out_len, &c->registers, &c->counted, &c->deepest,
                              &c->place);
    else if (c->which == 1)
        c->number = sva_tick(c->words, c->words_len, c->now, c->now_len, c->atoms, c->atoms_len, c->next, c->next_len, c->stack,
                             c->stack_len, &c->matched, &c->place);
    else if (c->which == 2)
        c->counted = sva_stretch(c->words, c->words_len, c->number, &c->place);
    else
        c->number = sva_matches(c->words, c->words_len, c->rows, c->rows_len, c->width, c->answers, c->answers_len, c->tables,
                                c->tables_len, &c->counted, &c->place);
    return NULL;
}

/* Calls with so many bytes left; how many of them were written to, or SIZE_MAX if there is no such thread. */
size_t call_with_stack(struct call *c, size_t bytes)
{
    size_t page = sysconf(_SC_PAGESIZE), size = (bytes + OWN + page - 1) / page * page;
    unsigned char *memory = mmap(NULL, page + size, PROT_READ | PROT_WRITE, MAP_PRIVATE | MAP_ANONYMOUS, -1, 0);
    if (memory == MAP_FAILED || mprotect(memory, page, PROT_NONE) != 0)
        return SIZE_MAX;
    c->floor = memory + page;
    c->left = bytes;
    memset(c->floor, UNTOUCHED, size);
    pthread_attr_t attributes;
    pthread_t thread;
    int failed = pthread_attr_init(&attributes) || pthread_attr_setstack(&attributes, c->floor, size) ||
                 pthread_create(&thread, &attributes, called, c) || pthread_join(thread, NULL);
    size_t clean = 0;
    while (!failed && clean < c->left && c->floor[clean] == UNTOUCHED)
        clean++;
    munmap(memory, page + size);
    return failed || c->left > bytes ? SIZE_MAX : c->left - clean;
}

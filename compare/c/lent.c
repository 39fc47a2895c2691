#include "lent.h"

#include <inttypes.h>
#include <stdarg.h>
#include <stdio.h>
#include <stdlib.h>
#include <string.h>

/* the bytes of a guard, a multiple of every item's alignment, and what each is */
enum { GUARD = 64, GUARDED = 0x5A };

struct block {
    struct block *next;
    const char *name;
    size_t size;
    uint8_t *memory; /* a guard, the table, a guard */
    uint8_t *kept;   /* what the table must hold, or null */
};

static struct block *blocks;

unsigned long expectations;

/* ---- lending ---- */

static void *allocated(size_t size)
{
    void *memory = malloc(size > 0 ? size : 1);
    if (memory == NULL) {
        printf("c: FAILED: no memory\n");
        exit(1);
    }
    return memory;
}

static uint8_t *table_of(const struct block *b)
{
    return b->memory + GUARD;
}

static void *lend(const char *name, size_t size)
{
    struct block *b = allocated(sizeof *b);
    *b = (struct block){blocks, name, size, allocated(size + 2 * GUARD), NULL};
    memset(b->memory, GUARDED, size + 2 * GUARD);
    memset(table_of(b), DIRT, size);
    blocks = b;
    return table_of(b);
}

#define LENDER(table, item)                                             \
    struct table lend_##table(const char *name, size_t len)             \
    {                                                                   \
        return (struct table){lend(name, len * sizeof(item)), len};     \
    }

LENDER(bytes, uint8_t)
LENDER(shorts, uint16_t)
LENDER(words, uint32_t)
LENDER(longs, uint64_t)
LENDER(sizes, size_t)
LENDER(floats, float)

void keep(void)
{
    for (struct block *b = blocks; b != NULL; b = b->next)
        if (b->kept == NULL) {
            b->kept = allocated(b->size);
            memcpy(b->kept, table_of(b), b->size);
        }
}

void soil(void)
{
    for (struct block *b = blocks; b != NULL; b = b->next)
        if (b->kept == NULL)
            memset(table_of(b), DIRT, b->size);
}

uint64_t lent_held(void)
{
    uint64_t held = 0; /* a polynomial of the bytes: a change of a single one always shows */
    for (struct block *b = blocks; b != NULL; b = b->next)
        for (size_t i = 0; b->kept == NULL && i < b->size; i++)
            held = held * UINT64_C(0x100000001B3) + table_of(b)[i];
    return held;
}

void give_back(void)
{
    while (blocks != NULL) {
        struct block *b = blocks;
        blocks = b->next;
        free(b->kept);
        free(b->memory);
        free(b);
    }
}

/* ---- expecting ---- */

bool same(const void *a, const void *b, size_t size)
{
    return memcmp(a, b, size) == 0;
}

bool all(const void *at, uint8_t value, size_t size)
{
    const uint8_t *bytes = at;
    for (size_t i = 0; i < size; i++)
        if (bytes[i] != value)
            return false;
    return true;
}

/* whether a guard was changed, or what is kept */
static bool changed(const struct block *b)
{
    bool guarded = all(b->memory, GUARDED, GUARD) && all(table_of(b) + b->size, GUARDED, GUARD);
    return !guarded || (b->kept != NULL && !same(b->kept, table_of(b), b->size));
}

void expect(bool holds, const char *what, ...)
{
    const struct block *b = blocks;
    while (b != NULL && !changed(b))
        b = b->next;
    expectations++;
    if (holds && b == NULL)
        return;
    va_list args;
    va_start(args, what);
    printf("c: FAILED: ");
    vprintf(what, args);
    va_end(args);
    if (b != NULL)
        printf("; %s was written to, or beside it", b->name);
    putchar('\n');
    exit(1);
}

void expect_number(uint64_t got, uint64_t wanted, const char *what, ...)
{
    char name[200];
    va_list args;
    va_start(args, what);
    vsnprintf(name, sizeof name, what, args);
    va_end(args);
    if (got == wanted)
        expect(true, "%s", name);
    else
        expect(false, "%s: %" PRIu64 ", not %" PRIu64, name, got, wanted);
}

void expect_zero(const struct span *tables, size_t n, const char *after)
{
    for (size_t i = 0; i < n; i++)
        expect(all(tables[i].at, 0, tables[i].size), "%s after %s: not zero", tables[i].name, after);
}

void expect_same(const struct span *tables, const struct span *wanted, size_t n, const char *after)
{
    for (size_t i = 0; i < n; i++)
        expect(same(tables[i].at, wanted[i].at, tables[i].size), "%s after %s: other words", tables[i].name, after);
}

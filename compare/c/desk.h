/* What the calls that take a skeleton's section or its bones are lent, and these calls. */
#ifndef DESK_H
#define DESK_H

#include "lent.h"
#include "rig.h"

struct section {
    struct bytes sys, gfx;
};

struct reading {
    struct words bones, buckets, entries, inverse, local;
    struct shorts parents, children;
    struct longs pool;
};

struct derived {
    struct words buckets, entries, inverse, local;
    struct shorts parents, children;
    struct words pending;
};

/* a section, and all that its calls are lent */
struct desk {
    struct section s;
    struct reading r;
    struct derived d;
    struct sizes fields, count, position;
    uint32_t free[4]; /* the free words to write */
};

/* the arguments, in the order of every call */
#define SECTION(s) LENT((s).sys), LENT((s).gfx)
#define READING(t)                                                                                                         \
    LENT((t).bones), LENT((t).buckets), LENT((t).entries), LENT((t).inverse), LENT((t).local), LENT((t).parents),          \
        LENT((t).children), LENT((t).pool)
#define DERIVED(t)                                                                                                         \
    LENT((t).buckets), LENT((t).entries), LENT((t).inverse), LENT((t).local), LENT((t).parents), LENT((t).children),       \
        LENT((t).pending)

/* words more than the rows of a reading need, to see the zeros behind them */
enum { MORE = 5 };

/* So many system bytes, dirty, or those of a file; no graphics bytes. */
struct section lend_section(size_t bytes);
struct section load(const char *path);

/* Keeps what is lent, the section among it, and lends all else: by its counts for reading, for deriving from n bones. */
struct desk lend_desk(struct section s, size_t n);

/* Each with dirty tables. Lookup and search are at the root of a written section; search takes the name. */
uint32_t read_skeleton(const struct desk *k, uint64_t root);
uint32_t check_skeleton(const struct desk *k, uint64_t root);
uint32_t look_up(const struct desk *k, uint16_t tag);
uint32_t search_name(const struct desk *k, const char *name);
uint32_t write_bones(const struct desk *k, struct words bones, size_t n, struct bytes out);

/* Derives all tables from the first n bones of a table, and expects this status each time, and these counts. */
void derive_all(const struct desk *k, struct words bones, size_t n, uint32_t status, size_t buckets, size_t children);

/* Expects the tables of the reading to hold these rows, or none; those of deriving to be zero. */
void expect_read(const struct desk *k, const struct reading *read, const char *after);
void expect_no_reading(const struct desk *k, const char *after);
void expect_no_derived(const struct desk *k, const char *after);

#endif

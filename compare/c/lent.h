/* Tables to lend, each between two guards, and expectations. Each expectation is counted; the first that fails prints a line
 * that names it, and the program ends with status 1. */
#ifndef LENT_H
#define LENT_H

#include <stdbool.h>
#include <stddef.h>
#include <stdint.h>

struct bytes { uint8_t *at; size_t len; };
struct shorts { uint16_t *at; size_t len; };
struct words { uint32_t *at; size_t len; };
struct longs { uint64_t *at; size_t len; };
struct sizes { size_t *at; size_t len; };
struct floats { float *at; size_t len; };

/* a table as the two arguments that the library takes */
#define LENT(table) (table).at, (table).len

/* Tables of so many items, dirty. They stay lent until `give_back`. */
struct bytes lend_bytes(const char *name, size_t len);
struct shorts lend_shorts(const char *name, size_t len);
struct words lend_words(const char *name, size_t len);
struct longs lend_longs(const char *name, size_t len);
struct sizes lend_sizes(const char *name, size_t len);
struct floats lend_floats(const char *name, size_t len);

/* From now on all that is lent is for reading: every expectation also asks that it is as it is now. */
void keep(void);

/* All else that is lent is dirty again. */
void soil(void);

/* What all else holds, as one number: another where a byte is another. */
uint64_t lent_held(void);

/* what each byte of a dirty table is */
enum { DIRT = 0xA5 };

/* Frees all that is lent. */
void give_back(void);

/* Each asks besides that all guards stand, and all that is kept. The words behind name what is asked, as in printf. */
void expect(bool holds, const char *what, ...);
void expect_number(uint64_t got, uint64_t wanted, const char *what, ...);

/* how many there were */
extern unsigned long expectations;

bool same(const void *a, const void *b, size_t size);
bool all(const void *at, uint8_t value, size_t size);

/* the bytes of a table, to go through many */
struct span { const char *name; const void *at; size_t size; };

#define SPAN(table) {#table, (table).at, sizeof *(table).at * (table).len}

void expect_zero(const struct span *tables, size_t n, const char *after);
void expect_same(const struct span *tables, const struct span *wanted, size_t n, const char *after);

#endif

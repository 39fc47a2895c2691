// The header in C++: each of its macros, and the function that it defines itself. compare/c/run compiles it, and does not link it.
#include "rig.h"

static_assert(RIG_ABI >= 2, "the number of the exports");
static_assert(RIG_SYSTEM_BASE == 0x50000000u && RIG_GRAPHICS_BASE == 0x60000000u && RIG_WRITTEN_ROOT == RIG_SYSTEM_BASE, "bases");
static_assert(RIG_LOWER(0x12345678u) == 0x5678 && RIG_UPPER(0x12345678u) == 0x1234, "halves");
static_assert(RIG_PAIR(-1, 0x1234) == 0x1234FFFFu && RIG_LOWER(-2) == 0xFFFE, "a pair");
static_assert(RIG_BONES_LENT(3) == 63 && RIG_MATRICES_LENT(3) == 48 && RIG_PARENTS_LENT(3) == 3, "tables of n rows");
static_assert(RIG_CHILDREN_LENT(3) == 32 && RIG_PENDING_LENT(3) == 32 && RIG_POOL_LENT(3, 2) == 56, "tables of more rows");
static_assert(RIG_ENTRIES_LENT(1) == 0 && RIG_ENTRIES_LENT(2) == 6 && RIG_BUCKETS_LENT(1) == 0, "chains");
static_assert(RIG_FILLED(0) == 0 && RIG_FILLED(1) == 16 && RIG_FILLED(16) == 16, "what is filled up");
static_assert(RIG_SECTION_BYTES(1, 0, 0) == 352 && RIG_SECTION_MOST == 32243232 && RIG_JOINTS_BYTES(1, 1) == 320, "sections");
static_assert(RIG_LIMIT_OTHER + RIG_ROTATION_OTHERS == RIG_ROTATION_SECOND && RIG_ROTATION_WORDS == RIG_ROTATION_SECOND + 1, "rotation");
static_assert(RIG_LIMIT_OTHER + RIG_TRANSLATION_OTHERS == RIG_TRANSLATION_WORDS, "translation");
static_assert(RIG_ROTATION_BYTES == 4 * RIG_ROTATION_SECOND && RIG_TRANSLATION_BYTES == 4 * RIG_TRANSLATION_WORDS, "records");
static_assert(RIG_AS(uint16_t, 65537) == 1, "a cast");

// with numbers that only the run knows, of a size and of an int
size_t lent(size_t n, int i)
{
    return RIG_BUCKETS_LENT(n) + RIG_SECTION_BYTES(n, n, n) + RIG_PAIR(i, n) + RIG_POOL_LENT(i, n) + RIG_JOINTS_BYTES(i, n);
}

const char *text(uint32_t status)
{
    return rig_status_text(status);
}

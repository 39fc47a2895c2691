/* The horse with odd pointers and counts: what include/rig.h says of them. */
#include "checks.h"
#include "desk.h"

#include <string.h>

/* ---- changes of its bytes ---- */

enum { BONES = 13, CHILDREN = 40, SECTION_BYTES = 3472, BONE = 3 };

/* where the record's pointers and counts stand, and a bone's name address in the bone */
enum {
    BUCKETS_AT = 16,
    BUCKET_COUNT_AT = RIG_SKELETON_BUCKET_COUNT_AT,
    BONES_AT = 32,
    INVERSE_AT = 40,
    LOCAL_AT = 48,
    PARENTS_AT = 56,
    CHILDREN_AT = 64,
    BONE_COUNT_AT = RIG_SKELETON_BONE_COUNT_AT,
    CHILD_COUNT_AT = RIG_SKELETON_CHILD_COUNT_AT,
    NAME_IN_BONE = 56
};

/* a number to put into the record: a count, or a pointer, to which the one that stands at `by` is added where that is not 0 */
struct put {
    size_t at, by;
    uint64_t value;
};

static void put(struct bytes sys, struct put p)
{
    bool count = p.at == BUCKET_COUNT_AT || p.at == BONE_COUNT_AT || p.at == CHILD_COUNT_AT;
    uint64_t value = p.value + (p.by != 0 ? rig_u64_at(LENT(sys), p.by) : 0);
    bool stored = count ? rig_put16(LENT(sys), p.at, (uint16_t)value) : rig_put64(LENT(sys), p.at, value);
    expect(stored, "putting a number at %zu", p.at);
}

static struct section changed(const char *path, const struct put *puts, size_t n)
{
    struct section s = load(path);
    for (size_t i = 0; i < n; i++)
        if (puts[i].at != 0)
            put(s.sys, puts[i]);
    return s;
}

/* ---- what is read and what is refused ---- */

/* how many numbers are put at most; the bones pointer whose block lies at the section's end, the last address that is legal */
enum { PUTS = 6, END = 16 + SECTION_BYTES };

#define NO_BONES {BONE_COUNT_AT, 0, 0}, {BUCKET_COUNT_AT, 0, 0}

static const struct {
    const char *what;
    struct put puts[PUTS];
    uint32_t read, check;
    struct {
        size_t field, value;
    } fields[4]; /* up to a field 0 */
} odd[] = {
    /* a count of 0: the pointer is not examined */
    {"no children, wherever they are",
     {{CHILD_COUNT_AT, 0, 0}, {CHILDREN_AT, 0, UINT64_MAX}}, RIG_OK, RIG_CHILDREN_DIFFER,
     {{RIG_READ_CHILDREN, 1}, {RIG_READ_CHILDREN_LENGTH, 0}, {RIG_READ_CHILD_COUNT, 0}}},
    {"one child, nowhere", {{CHILD_COUNT_AT, 0, 1}, {CHILDREN_AT, 0, UINT64_MAX}}, RIG_BAD_ADDRESS, RIG_BAD_ADDRESS, {{0, 0}}},
    {"no buckets, wherever they are",
     {{BUCKET_COUNT_AT, 0, 0}, {BUCKETS_AT, 0, 7}}, RIG_OK, RIG_CHAINS_DIFFER,
     {{RIG_READ_BUCKETS, 1}, {RIG_READ_BUCKETS_LENGTH, 0}, {RIG_READ_BONES_LENGTH, BONES}}},
    {"one bucket, nowhere", {{BUCKET_COUNT_AT, 0, 1}, {BUCKETS_AT, 0, 7}}, RIG_BAD_ADDRESS, RIG_BAD_ADDRESS, {{0, 0}}},
    {"no buckets, where the bones are",
     {{BUCKET_COUNT_AT, 0, 0}, {BUCKETS_AT, BONES_AT, (uint64_t)-16}}, RIG_OTHER_KIND, RIG_OTHER_KIND, {{0, 0}}},
    {"no bones, and lists wherever they are",
     {NO_BONES, {CHILD_COUNT_AT, 0, 0}, {INVERSE_AT, 0, 1}, {LOCAL_AT, 0, 2}, {PARENTS_AT, 0, UINT64_C(0x5FFFFFFF)}}, RIG_OK, RIG_OK,
     {{RIG_READ_INVERSE, 1}, {RIG_READ_LOCAL, 1}, {RIG_READ_PARENTS, 1}, {RIG_READ_PARENTS_LENGTH, 0}}},
    /* the bones' block is sought at the pointer - 16, also with no bones */
    {"bones pointer 50000000", {{BONES_AT, 0, RIG_SYSTEM_BASE}}, RIG_BAD_ADDRESS, RIG_BAD_ADDRESS, {{0, 0}}},
    {"bones pointer 5000000F", {{BONES_AT, 0, RIG_SYSTEM_BASE + 15}}, RIG_BAD_ADDRESS, RIG_BAD_ADDRESS, {{0, 0}}},
    {"no bones at 5000000F", {NO_BONES, {BONES_AT, 0, RIG_SYSTEM_BASE + 15}}, RIG_BAD_ADDRESS, RIG_BAD_ADDRESS, {{0, 0}}},
    {"no bones at 50000010", {NO_BONES, {BONES_AT, 0, RIG_SYSTEM_BASE + 16}}, RIG_OK, RIG_CHILDREN_DIFFER,
     {{RIG_READ_BONES, 1}, {RIG_READ_BONES_LENGTH, 0}}},
    {"no bones at 60000000", {NO_BONES, {BONES_AT, 0, RIG_GRAPHICS_BASE}}, RIG_PAST_THE_END, RIG_PAST_THE_END, {{0, 0}}},
    {"no bones at 6000000F", {NO_BONES, {BONES_AT, 0, RIG_GRAPHICS_BASE + 15}}, RIG_PAST_THE_END, RIG_PAST_THE_END, {{0, 0}}},
    {"no bones at 60000010", {NO_BONES, {BONES_AT, 0, RIG_GRAPHICS_BASE + 16}}, RIG_OK, RIG_CHILDREN_DIFFER, {{RIG_READ_BONES, 1}}},
    {"no bones at the end", {NO_BONES, {BONES_AT, 0, RIG_SYSTEM_BASE + END}}, RIG_OK, RIG_CHILDREN_DIFFER, {{RIG_READ_BONES, 1}}},
    {"no bones behind it", {NO_BONES, {BONES_AT, 0, RIG_SYSTEM_BASE + END + 1}}, RIG_PAST_THE_END, RIG_PAST_THE_END, {{0, 0}}},
    {"no bones at 1", {NO_BONES, {BONES_AT, 0, 1}}, RIG_BONES_POINTER, RIG_BONES_POINTER, {{0, 0}}},
    {"bones pointer 16", {{BONES_AT, 0, 16}}, RIG_OK, RIG_CHAINS_DIFFER,
     {{RIG_READ_BONES, 0}, {RIG_READ_BONES_LENGTH, 0}, {RIG_READ_BONE_COUNT, BONES}, {RIG_READ_PARENTS_LENGTH, BONES}}},
    {"bones pointer 0", {{BONES_AT, 0, 0}}, RIG_OK, RIG_CHAINS_DIFFER,
     {{RIG_READ_BONES, 0}, {RIG_READ_BONES_LENGTH, 0}, {RIG_READ_BONE_COUNT, BONES}, {RIG_READ_PARENTS_LENGTH, BONES}}},
};

static void odd_pointer(const char *path, size_t i)
{
    struct desk k = lend_desk(changed(path, odd[i].puts, PUTS), BONES);
    const struct span fields[] = {SPAN(k.fields)};
    expect_number(read_skeleton(&k, RIG_WRITTEN_ROOT), odd[i].read, "rig_read of a horse with %s", odd[i].what);
    if (odd[i].read != RIG_OK)
        expect_zero(fields, 1, odd[i].what);
    for (size_t f = 0; odd[i].read == RIG_OK && f < 4 && odd[i].fields[f].field != 0; f++)
        expect_number(k.fields.at[odd[i].fields[f].field], odd[i].fields[f].value, "field %zu of a horse with %s",
                      odd[i].fields[f].field, odd[i].what);
    expect_number(check_skeleton(&k, RIG_WRITTEN_ROOT), odd[i].check, "rig_check of a horse with %s", odd[i].what);
    give_back();
}

/* ---- lists at one address ---- */

/* Children at the parents' address, with these child counts. */
static void children_are_parents(const char *path)
{
    static const uint64_t counts[] = {0, 1, BONES, CHILDREN, RIG_MOST};
    for (size_t i = 0; i < sizeof counts / sizeof *counts; i++) {
        const struct put puts[] = {{CHILDREN_AT, PARENTS_AT, 0}, {CHILD_COUNT_AT, 0, counts[i]}};
        struct desk k = lend_desk(changed(path, puts, 2), BONES);
        expect_number(read_skeleton(&k, RIG_WRITTEN_ROOT), RIG_OK, "rig_read of children that are the parents");
        expect_number(k.fields.at[RIG_READ_CHILD_COUNT], counts[i], "the stored count of children that are the parents");
        expect_number(k.fields.at[RIG_READ_CHILDREN_LENGTH], BONES, "the number of children that are the parents");
        expect(same(k.r.children.at, k.r.parents.at, BONES * sizeof(uint16_t)), "the children that are the parents");
        expect(all(k.r.children.at + BONES, 0, (k.r.children.len - BONES) * sizeof(uint16_t)), "what lies behind them");
        expect_number(check_skeleton(&k, RIG_WRITTEN_ROOT), RIG_CHILDREN_DIFFER, "rig_check of children that are the parents");
        give_back();
    }
}

static void local_is_inverse(const char *path)
{
    const struct put puts[] = {{LOCAL_AT, INVERSE_AT, 0}};
    struct desk k = lend_desk(changed(path, puts, 1), BONES);
    expect_number(read_skeleton(&k, RIG_WRITTEN_ROOT), RIG_OK, "rig_read of local matrices that are the inverse ones");
    expect_number(k.fields.at[RIG_READ_LOCAL_LENGTH], RIG_MATRICES_LENT(BONES), "how many they are");
    expect(same(k.r.local.at, k.r.inverse.at, k.r.local.len * sizeof *k.r.local.at), "the local matrices that are the inverse ones");
    expect_number(check_skeleton(&k, RIG_WRITTEN_ROOT), RIG_LOCAL_DIFFER, "rig_check of local matrices that are the inverse ones");
    give_back();
}

/* ---- no buckets, no name ---- */

static void lookup_without_buckets(const char *path)
{
    const struct put puts[][2] = {
        {{BUCKET_COUNT_AT, 0, 0}, {BUCKETS_AT, 0, UINT64_MAX}},
        {{BUCKET_COUNT_AT, 0, UINT16_MAX}, {BUCKETS_AT, 0, 0}},
    };
    for (size_t i = 0; i < sizeof puts / sizeof *puts; i++) {
        struct desk k = lend_desk(changed(path, puts[i], 2), BONES);
        expect_number(look_up(&k, 0), RIG_NONE, "rig_lookup with no buckets");
        expect_number(*k.position.at, 0, "the position with no buckets");
        give_back();
    }
}

/* A bone that stores name address 0 is read with size 0, and accepted. */
static void expect_unnamed(const struct desk *k, const char *what)
{
    const uint32_t *row = k->r.bones.at + RIG_BONE_WORDS * BONE;
    expect_number(check_skeleton(k, RIG_WRITTEN_ROOT), RIG_OK, "rig_check of %s", what);
    expect_number(search_name(k, "neck"), RIG_NONE, "rig_search of the name of %s", what);
    expect_number(read_skeleton(k, RIG_WRITTEN_ROOT), RIG_OK, "rig_read of %s", what);
    expect(all(row + RIG_BONE_NAME_ADDRESS, 0, 4 * sizeof *row), "the place of the name of %s", what);
}

static void unnamed_bone_is_read(const char *path)
{
    struct section s = load(path);
    size_t bone = (size_t)(rig_u64_at(LENT(s.sys), BONES_AT) - RIG_SYSTEM_BASE) + 80 * BONE;
    expect(rig_put64(LENT(s.sys), bone + NAME_IN_BONE, 0), "putting name address 0");
    struct desk k = lend_desk(s, BONES);
    expect_unnamed(&k, "a bone that stores no name");
    give_back();
}

/* With name address 0 any size gives the same section; its row is read with size 0. */
static void unnamed_bone_is_written(const char *path)
{
    static const uint32_t sizes[][2] = {{0, 0}, {4, 0}, {RIG_LONGEST_NAME + 1, 0}, {UINT32_MAX, UINT32_MAX}};
    struct desk k = lend_desk(load(path), BONES);
    struct words bones = k.r.bones;
    struct bytes out = lend_bytes("out", SECTION_BYTES);
    uint8_t once[SECTION_BYTES];
    for (size_t i = 0; i < sizeof sizes / sizeof *sizes; i++) {
        expect_number(read_skeleton(&k, RIG_WRITTEN_ROOT), RIG_OK, "rig_read of the horse");
        uint32_t *row = bones.at + RIG_BONE_WORDS * BONE;
        memset(row + RIG_BONE_NAME_ADDRESS, 0, 2 * sizeof *row);
        memcpy(row + RIG_BONE_NAME_SIZE, sizes[i], sizeof sizes[i]);
        uint32_t status = rig_write(LENT(bones), BONES, SECTION(k.s), k.free, DERIVED(k.d), LENT(out), k.count.at);
        expect_number(status, RIG_OK, "rig_write of a bone without a name, size %zu", i);
        expect_number(*k.count.at, out.len, "the bytes with a bone without a name, size %zu", i);
        if (i == 0)
            memcpy(once, out.at, SECTION_BYTES);
        expect(same(out.at, once, SECTION_BYTES), "the section of a bone without a name, size %zu", i);
    }
    k = lend_desk((struct section){out, k.s.gfx}, BONES);
    expect_unnamed(&k, "a bone written without a name");
    give_back();
}

void odd_pointers(const char *path)
{
    for (size_t i = 0; i < sizeof odd / sizeof *odd; i++)
        odd_pointer(path, i);
    children_are_parents(path);
    local_is_inverse(path);
    lookup_without_buckets(path);
    unnamed_bone_is_read(path);
    unnamed_bone_is_written(path);
}

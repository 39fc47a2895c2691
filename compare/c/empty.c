/* Tables of no items: each call answers and leaves the same whatever their pointer is, also null. */
#include "checks.h"
#include "desk.h"

#include <string.h>

/* ---- the calls that are lent a table ---- */

struct slice {
    void *at;
    size_t len;
};

/* all that they are lent by a pointer and a number */
enum {
    SYS, GFX, ROWS, BONES, BUCKETS, ENTRIES, INVERSE, LOCAL, PARENTS, CHILDREN, POOL, DERIVED_BUCKETS, DERIVED_ENTRIES,
    DERIVED_INVERSE, DERIVED_LOCAL, DERIVED_PARENTS, DERIVED_CHILDREN, PENDING, OUT, NUMBERS, ROTATION, TRANSLATION, LIMIT, SLICES
};

/* and by a pointer alone */
struct lone {
    size_t n; /* bones, of which the rows are lent */
    size_t *fields, *count, *position;
    uint32_t *joint_fields;
    const uint32_t *limit; /* a row */
};

#define LEND(i) s[i].at, s[i].len
#define LEND_READING                                                                                                       \
    LEND(BONES), LEND(BUCKETS), LEND(ENTRIES), LEND(INVERSE), LEND(LOCAL), LEND(PARENTS), LEND(CHILDREN), LEND(POOL)
#define LEND_DERIVED                                                                                                       \
    LEND(DERIVED_BUCKETS), LEND(DERIVED_ENTRIES), LEND(DERIVED_INVERSE), LEND(DERIVED_LOCAL), LEND(DERIVED_PARENTS),       \
        LEND(DERIVED_CHILDREN), LEND(PENDING)

#define CALL(name, call)                                                                                                   \
    static uint64_t call_##name(const struct slice *s, const struct lone *o)                                               \
    {                                                                                                                      \
        (void)o;                                                                                                           \
        return call;                                                                                                       \
    }

static const uint32_t free_words[4] = {1, 2, 3, 4};

CALL(u16_at, rig_u16_at(LEND(SYS), 0))
CALL(u32_at, rig_u32_at(LEND(SYS), 0))
CALL(u64_at, rig_u64_at(LEND(SYS), 0))
CALL(put16, rig_put16(LEND(OUT), 0, 1))
CALL(put32, rig_put32(LEND(OUT), 0, 1))
CALL(put64, rig_put64(LEND(OUT), 0, 1))
CALL(cursor, rig_cursor(LEND(SYS), 0, RIG_SYSTEM_BASE, 1, LEND(NUMBERS)))
CALL(build_bone_tags, rig_build_bone_tags(LEND(ROWS), o->n, LEND(DERIVED_BUCKETS), LEND(DERIVED_ENTRIES), o->count))
CALL(build_indices,
     rig_build_indices(LEND(ROWS), o->n, LEND(DERIVED_PARENTS), LEND(DERIVED_CHILDREN), LEND(PENDING), o->count))
CALL(build_transformations, rig_build_transformations(LEND(ROWS), o->n, LEND(DERIVED_INVERSE), LEND(DERIVED_LOCAL)))
CALL(read, rig_read(LEND(SYS), LEND(GFX), RIG_WRITTEN_ROOT, LEND_READING, o->fields))
CALL(read_none, rig_read(LEND(SYS), LEND(GFX), 0, LEND_READING, o->fields))
CALL(read_gfx, rig_read(LEND(SYS), LEND(GFX), RIG_GRAPHICS_BASE, LEND_READING, o->fields))
CALL(write, rig_write(LEND(ROWS), o->n, LEND(SYS), LEND(GFX), free_words, LEND_DERIVED, LEND(OUT), o->count))
CALL(lookup, rig_lookup(LEND(SYS), LEND(GFX), RIG_WRITTEN_ROOT, 839, o->position))
CALL(lookup_gfx, rig_lookup(LEND(SYS), LEND(GFX), RIG_GRAPHICS_BASE, 839, o->position))
CALL(check, rig_check(LEND(SYS), LEND(GFX), RIG_WRITTEN_ROOT, LEND_READING, LEND_DERIVED, o->count))
CALL(check_none, rig_check(LEND(SYS), LEND(GFX), 0, LEND_READING, LEND_DERIVED, o->count))
CALL(joaat, rig_rage_joaat(LEND(SYS)))
CALL(search, rig_search(LEND(SYS), LEND(GFX), RIG_WRITTEN_ROOT, 0x84533F51, LEND_READING, o->position))
CALL(joints_read, rig_joints_read(LEND(SYS), LEND(GFX), RIG_WRITTEN_ROOT, LEND(ROTATION), LEND(TRANSLATION), o->joint_fields))
CALL(joints_write, rig_joints_write(LEND(LIMIT), 1, LEND(TRANSLATION), 1, LEND(OUT), o->count))
CALL(wide_joints_write, rig_joints_write(LEND(ROTATION), 1, LEND(TRANSLATION), 1, LEND(OUT), o->count))
CALL(no_joints_write, rig_joints_write(LEND(ROTATION), 0, LEND(TRANSLATION), 0, LEND(OUT), o->count))
CALL(rotation_limit_write, rig_rotation_limit_write(o->limit, LEND(OUT)))
CALL(translation_limit_write, rig_translation_limit_write(o->limit, LEND(OUT)))

static const struct {
    const char *name;
    uint64_t (*make)(const struct slice *s, const struct lone *o);
} calls[] = {
    {"rig_u16_at", call_u16_at},
    {"rig_u32_at", call_u32_at},
    {"rig_u64_at", call_u64_at},
    {"rig_put16", call_put16},
    {"rig_put32", call_put32},
    {"rig_put64", call_put64},
    {"rig_cursor", call_cursor},
    {"rig_build_bone_tags", call_build_bone_tags},
    {"rig_build_indices", call_build_indices},
    {"rig_build_transformations", call_build_transformations},
    {"rig_read", call_read},
    {"rig_read at root 0", call_read_none},
    {"rig_read in the graphics half", call_read_gfx},
    {"rig_write", call_write},
    {"rig_lookup", call_lookup},
    {"rig_lookup in the graphics half", call_lookup_gfx},
    {"rig_check", call_check},
    {"rig_check at root 0", call_check_none},
    {"rig_rage_joaat", call_joaat},
    {"rig_search", call_search},
    {"rig_joints_read", call_joints_read},
    {"rig_joints_write", call_joints_write},
    {"rig_joints_write of a wide id", call_wide_joints_write},
    {"rig_joints_write of no limits", call_no_joints_write},
    {"rig_rotation_limit_write", call_rotation_limit_write},
    {"rig_translation_limit_write", call_translation_limit_write},
};

enum { CALLS = sizeof calls / sizeof *calls };

/* ---- what they answer and leave ---- */

struct left {
    uint64_t answer, held;
};

static struct left call(size_t c, const struct slice *s, const struct lone *o)
{
    soil();
    uint64_t answer = calls[c].make(s, o);
    return (struct left){answer, lent_held()};
}

/* The slices of which `empty` says so have no items: the call is the same with each pointer as with one into a table. */
static void any_pointer(const struct slice lent[SLICES], const bool empty[SLICES], const struct lone *o, const char *which)
{
    const uintptr_t pointers[] = {0, 1, 8, UINTPTR_MAX};
    struct slice s[SLICES];
    for (size_t c = 0; c < CALLS; c++) {
        for (size_t i = 0; i < SLICES; i++)
            s[i] = (struct slice){lent[i].at, empty[i] ? 0 : lent[i].len};
        struct left wanted = call(c, s, o);
        for (size_t p = 0; p < sizeof pointers / sizeof *pointers; p++) {
            for (size_t i = 0; i < SLICES; i++)
                if (s[i].len == 0)
                    s[i].at = (void *)pointers[p];
            struct left got = call(c, s, o);
            expect_number(got.answer, wanted.answer, "%s with no items at pointer %zu, %s", calls[c].name, p, which);
            expect(got.held == wanted.held, "what %s leaves with no items at pointer %zu, %s", calls[c].name, p, which);
        }
    }
}

/* each slice empty alone, then all but one, then all */
static void each_pointer(const struct slice lent[SLICES], const struct lone *o, const char *which)
{
    bool empty[SLICES];
    for (size_t i = 0; i < SLICES; i++) {
        for (size_t j = 0; j < SLICES; j++)
            empty[j] = j == i;
        any_pointer(lent, empty, o, which);
        for (size_t j = 0; j < SLICES; j++)
            empty[j] = j != i;
        any_pointer(lent, empty, o, which);
    }
    for (size_t j = 0; j < SLICES; j++)
        empty[j] = true;
    any_pointer(lent, empty, o, which);
}

/* ---- what is lent ---- */

#define OF(table) {(table).at, (table).len}

/* a limit of id 0; a dirty row has an id that a rotation limit's record cannot hold */
static struct words lend_limit(void)
{
    struct words limit = lend_words("a limit", RIG_ROTATION_WORDS);
    memset(limit.at, 0, limit.len * sizeof *limit.at);
    return limit;
}

/* the section with its rows, and tables to read it into and to derive from n bones */
static void lend_all(const struct desk *k, struct words rows, struct words limit, size_t n, const char *which)
{
    struct bytes out = lend_bytes("out", k->s.sys.len + MORE);
    struct longs numbers = lend_longs("numbers", RIG_CURSOR_NUMBERS);
    struct words rotation = lend_words("rotation", RIG_ROTATION_WORDS), translation = lend_words("translation", RIG_TRANSLATION_WORDS);
    struct words joint_fields = lend_words("joint fields", RIG_JOINTS_READ_FIELDS);
    const struct slice lent[SLICES] = {
        [SYS] = OF(k->s.sys),
        [GFX] = OF(k->s.gfx),
        [ROWS] = OF(rows),
        [BONES] = OF(k->r.bones),
        [BUCKETS] = OF(k->r.buckets),
        [ENTRIES] = OF(k->r.entries),
        [INVERSE] = OF(k->r.inverse),
        [LOCAL] = OF(k->r.local),
        [PARENTS] = OF(k->r.parents),
        [CHILDREN] = OF(k->r.children),
        [POOL] = OF(k->r.pool),
        [DERIVED_BUCKETS] = OF(k->d.buckets),
        [DERIVED_ENTRIES] = OF(k->d.entries),
        [DERIVED_INVERSE] = OF(k->d.inverse),
        [DERIVED_LOCAL] = OF(k->d.local),
        [DERIVED_PARENTS] = OF(k->d.parents),
        [DERIVED_CHILDREN] = OF(k->d.children),
        [PENDING] = OF(k->d.pending),
        [OUT] = OF(out),
        [NUMBERS] = OF(numbers),
        [ROTATION] = OF(rotation),
        [TRANSLATION] = OF(translation),
        [LIMIT] = OF(limit),
    };
    const struct lone o = {n, k->fields.at, k->count.at, k->position.at, joint_fields.at, limit.at};
    each_pointer(lent, &o, which);
}

/* The horse: a table of no items is too short for it, but its graphics bytes are none. */
static void of_the_horse(const char *path)
{
    enum { N = 13 };
    struct desk first = lend_desk(load(path), N);
    expect_number(read_skeleton(&first, RIG_WRITTEN_ROOT), RIG_OK, "rig_read of the horse");
    struct words limit = lend_limit();
    struct desk k = lend_desk(first.s, N);
    lend_all(&k, first.r.bones, limit, N, "the horse");
    give_back();
}

/* No bones: with null for all but the section, the pool, the children, the pending list and the output they are written, read and
 * accepted. */
static void of_no_bones(void)
{
    struct words none = {NULL, 0}, limit = lend_limit();
    struct desk k = lend_desk(lend_section(0), 0);
    struct shorts no_shorts = {NULL, 0};
    struct bytes out = lend_bytes("out", RIG_SECTION_BYTES(0, 0, 0)), no_bytes = {NULL, 0};
    k.s = (struct section){no_bytes, no_bytes};
    k.d.buckets = k.d.entries = k.d.inverse = k.d.local = none;
    k.d.parents = no_shorts;
    expect_number(write_bones(&k, none, 0, out), RIG_OK, "rig_write of no bones and null");
    expect_number(*k.count.at, out.len, "the bytes of no bones");
    struct desk r = lend_desk((struct section){out, no_bytes}, 0), nulls = r;
    nulls.d.buckets = nulls.d.entries = nulls.d.inverse = nulls.d.local = none;
    nulls.d.parents = no_shorts;
    nulls.r.bones = nulls.r.buckets = nulls.r.entries = nulls.r.inverse = nulls.r.local = none;
    nulls.r.parents = nulls.r.children = no_shorts;
    expect_number(read_skeleton(&nulls, RIG_WRITTEN_ROOT), RIG_OK, "rig_read of no bones and null");
    expect_number(check_skeleton(&nulls, RIG_WRITTEN_ROOT), RIG_OK, "rig_check of no bones and null");
    expect_number(search_name(&nulls, "head"), RIG_NONE, "rig_search of no bones and null");
    expect_number(look_up(&nulls, 0), RIG_NONE, "rig_lookup of no bones and null");
    lend_all(&r, none, limit, 0, "no bones");
    give_back();
}

void empty_tables(const char *path)
{
    of_the_horse(path);
    of_no_bones();
}

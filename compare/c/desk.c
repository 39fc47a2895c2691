#include "desk.h"

#include <stdio.h>
#include <string.h>

/* ---- lending ---- */

struct section lend_section(size_t bytes)
{
    return (struct section){lend_bytes("sys", bytes), lend_bytes("gfx", 0)};
}

struct section load(const char *path)
{
    static uint8_t held[65536];
    FILE *file = fopen(path, "rb");
    expect(file != NULL, "opening %s", path);
    struct section s = lend_section(fread(held, 1, sizeof held, file));
    fclose(file);
    memcpy(s.sys.at, held, s.sys.len);
    return s;
}

static struct reading lend_reading(struct bytes sys)
{
    size_t buckets = rig_u16_at(LENT(sys), RIG_SKELETON_BUCKET_COUNT_AT);
    size_t n = rig_u16_at(LENT(sys), RIG_SKELETON_BONE_COUNT_AT);
    size_t stored = rig_u16_at(LENT(sys), RIG_SKELETON_CHILD_COUNT_AT), children = stored > n ? stored : n;
    return (struct reading){
        .bones = lend_words("bones", RIG_BONES_LENT(n) + MORE),
        .buckets = lend_words("buckets", buckets + MORE),
        .entries = lend_words("entries", RIG_ENTRIES_LENT(n) + MORE),
        .inverse = lend_words("inverse", RIG_MATRICES_LENT(n) + MORE),
        .local = lend_words("local", RIG_MATRICES_LENT(n) + MORE),
        .parents = lend_shorts("parents", RIG_PARENTS_LENT(n) + MORE),
        .children = lend_shorts("children", children + MORE),
        .pool = lend_longs("pool", RIG_POOL_LENT(n, n)),
    };
}

static struct derived lend_derived(size_t n)
{
    return (struct derived){
        .buckets = lend_words("derived_buckets", RIG_BUCKETS_LENT(n)),
        .entries = lend_words("derived_entries", RIG_ENTRIES_LENT(n)),
        .inverse = lend_words("derived_inverse", RIG_MATRICES_LENT(n)),
        .local = lend_words("derived_local", RIG_MATRICES_LENT(n)),
        .parents = lend_shorts("derived_parents", RIG_PARENTS_LENT(n)),
        .children = lend_shorts("derived_children", RIG_CHILDREN_LENT(n)),
        .pending = lend_words("pending", RIG_PENDING_LENT(n)),
    };
}

struct desk lend_desk(struct section s, size_t n)
{
    keep();
    return (struct desk){
        .s = s,
        .r = lend_reading(s.sys),
        .d = lend_derived(n),
        .fields = lend_sizes("fields", RIG_READ_FIELDS),
        .count = lend_sizes("count", 1),
        .position = lend_sizes("position", 1),
    };
}

/* ---- calls ---- */

uint32_t read_skeleton(const struct desk *k, uint64_t root)
{
    soil();
    return rig_read(SECTION(k->s), root, READING(k->r), k->fields.at);
}

uint32_t check_skeleton(const struct desk *k, uint64_t root)
{
    soil();
    return rig_check(SECTION(k->s), root, READING(k->r), DERIVED(k->d), k->count.at);
}

uint32_t search_name(const struct desk *k, const char *name)
{
    uint32_t key = rig_rage_joaat((const uint8_t *)name, strlen(name));
    soil();
    return rig_search(SECTION(k->s), RIG_WRITTEN_ROOT, key, READING(k->r), k->position.at);
}

uint32_t look_up(const struct desk *k, uint16_t tag)
{
    *k->position.at = SIZE_MAX;
    return rig_lookup(SECTION(k->s), RIG_WRITTEN_ROOT, tag, k->position.at);
}

uint32_t write_bones(const struct desk *k, struct words bones, size_t n, struct bytes out)
{
    soil();
    return rig_write(LENT(bones), n, SECTION(k->s), k->free, DERIVED(k->d), LENT(out), k->count.at);
}

void derive_all(const struct desk *k, struct words bones, size_t n, uint32_t status, size_t buckets, size_t children)
{
    const struct derived *d = &k->d;
    soil();
    expect_number(rig_build_bone_tags(LENT(bones), n, LENT(d->buckets), LENT(d->entries), k->count.at), status,
                  "rig_build_bone_tags of %zu bones", n);
    expect_number(*k->count.at, buckets, "the buckets of %zu bones", n);
    expect_number(rig_build_indices(LENT(bones), n, LENT(d->parents), LENT(d->children), LENT(d->pending), k->count.at), status,
                  "rig_build_indices of %zu bones", n);
    expect_number(*k->count.at, children, "the child entries of %zu bones", n);
    expect_number(rig_build_transformations(LENT(bones), n, LENT(d->inverse), LENT(d->local)), status,
                  "rig_build_transformations of %zu bones", n);
}

/* ---- what the tables hold ---- */

/* the bytes of the tables; the pool, zero after every call, comes last */
#define READING_SPANS(t)                                                                                                   \
    {                                                                                                                      \
        SPAN((t).bones), SPAN((t).buckets), SPAN((t).entries), SPAN((t).inverse), SPAN((t).local), SPAN((t).parents),      \
            SPAN((t).children), SPAN((t).pool)                                                                             \
    }
#define DERIVED_SPANS(t)                                                                                                   \
    {                                                                                                                      \
        SPAN((t).buckets), SPAN((t).entries), SPAN((t).inverse), SPAN((t).local), SPAN((t).parents), SPAN((t).children),   \
            SPAN((t).pending)                                                                                              \
    }

void expect_read(const struct desk *k, const struct reading *read, const char *after)
{
    const struct span tables[] = READING_SPANS(k->r), wanted[] = READING_SPANS(*read);
    expect_same(tables, wanted, 7, after);
    expect_zero(tables + 7, 1, after);
}

void expect_no_reading(const struct desk *k, const char *after)
{
    const struct span tables[] = READING_SPANS(k->r);
    expect_zero(tables, 8, after);
}

void expect_no_derived(const struct desk *k, const char *after)
{
    const struct span tables[] = DERIVED_SPANS(k->d);
    expect_zero(tables, 7, after);
}

/* The two sections of examples/, and the first of them damaged. */
#include "checks.h"
#include "desk.h"

#include <stdio.h>
#include <string.h>

/* ---- the horse, as compare/horse lays it ---- */

static const struct {
    const char *name;
    int16_t parent, next_sibling;
    uint16_t tag;
    float translation[3];
} horse[] = {
    {"root", -1, -1, 0, {0.0f, 0.0f, 0.0f}},
    {"pelvis", 0, -1, 11816, {0.0f, 1.4f, -0.5f}},
    {"spine", 1, 10, 23553, {0.0f, 0.1f, 0.8f}},
    {"neck", 2, 8, 39317, {0.0f, 0.5f, 0.4f}},
    {"head", 3, -1, 31086, {0.0f, 0.4f, 0.3f}},
    {"jaw", 4, 6, 46240, {0.0f, -0.2f, 0.2f}},
    {"rein_l", 4, 7, 2057, {-0.1f, -0.1f, 0.1f}},
    {"rein_r", 4, -1, 2086, {0.1f, -0.1f, 0.1f}},
    {"fore_l", 2, 9, 45509, {-0.2f, -0.6f, 0.2f}},
    {"fore_r", 2, -1, 40269, {0.2f, -0.6f, 0.2f}},
    {"hind_l", 1, 11, 58271, {-0.2f, -0.6f, -0.1f}},
    {"hind_r", 1, 12, 51826, {0.2f, -0.6f, -0.1f}},
    {"tail", 1, -1, 839, {0.0f, 0.1f, -0.4f}},
};

enum { BONES = 13, BUCKETS = 29, CHILDREN = 40 };

/* a chain goes from the tail over the right and the left rein to the head; where the link of its first entry lies */
enum { HEAD = 4, REIN_L = 6, REIN_R = 7, TAIL = 12, TAIL_LINK_AT = 504 };

/* ---- rows ---- */

static const uint32_t *bone_at(const struct reading *t, size_t position)
{
    return t->bones.at + RIG_BONE_WORDS * position;
}

/* a row of the horse, its name at this offset of the system bytes */
static void fill_row(uint32_t row[RIG_BONE_WORDS], size_t position, size_t name_at)
{
    static const float rotation[4] = {0.0f, 0.0f, 0.0f, 1.0f}, scale[3] = {1.0f, 1.0f, 1.0f};
    memset(row, 0, RIG_BONE_WORDS * sizeof *row);
    memcpy(row + RIG_BONE_ROTATION, rotation, sizeof rotation);
    memcpy(row + RIG_BONE_TRANSLATION, horse[position].translation, sizeof horse[position].translation);
    memcpy(row + RIG_BONE_SCALE, scale, sizeof scale);
    row[RIG_BONE_PARENT] = RIG_PAIR(horse[position].next_sibling, horse[position].parent);
    row[RIG_BONE_INDEX] = RIG_PAIR(0, position);
    row[RIG_BONE_TAG] = horse[position].tag;
    row[RIG_BONE_NAME_ADDRESS] = (uint32_t)(RIG_SYSTEM_BASE + name_at);
    row[RIG_BONE_NAME_SIZE] = (uint32_t)strlen(horse[position].name);
}

/* ---- the whole horse ---- */

static void horse_is_read(const struct desk *k)
{
    static const size_t fields[RIG_READ_FIELDS] = {
        [RIG_READ_KIND] = RIG_SKELETON_KIND,
        [RIG_READ_BUCKET_COUNT] = BUCKETS,
        [RIG_READ_BONE_COUNT] = BONES,
        [RIG_READ_CHILD_COUNT] = CHILDREN,
        [RIG_READ_BUCKETS] = 1,
        [RIG_READ_BUCKETS_LENGTH] = BUCKETS,
        [RIG_READ_BONES] = 1,
        [RIG_READ_BONES_LENGTH] = BONES,
        [RIG_READ_INVERSE] = 1,
        [RIG_READ_INVERSE_LENGTH] = RIG_MATRICES_LENT(BONES),
        [RIG_READ_LOCAL] = 1,
        [RIG_READ_LOCAL_LENGTH] = RIG_MATRICES_LENT(BONES),
        [RIG_READ_PARENTS] = 1,
        [RIG_READ_PARENTS_LENGTH] = BONES,
        [RIG_READ_CHILDREN] = 1,
        [RIG_READ_CHILDREN_LENGTH] = CHILDREN,
    };
    expect_number(read_skeleton(k, RIG_WRITTEN_ROOT), RIG_OK, "rig_read of the horse");
    expect(same(k->fields.at, fields, sizeof fields), "the fields of the horse");
    expect(all(bone_at(&k->r, BONES), 0, MORE * sizeof(uint32_t)), "what lies behind the horse's bones");
}

/* Expects each bone as it stands above, its name ended by a zero, and prints it. */
static void print_bones(const struct desk *k)
{
    for (size_t p = 0; p < BONES; p++) {
        const uint32_t *row = bone_at(&k->r, p);
        size_t name_at = (size_t)(row[RIG_BONE_NAME_ADDRESS] - RIG_SYSTEM_BASE), size = strlen(horse[p].name) + 1;
        uint32_t wanted[RIG_BONE_WORDS];
        fill_row(wanted, p, name_at);
        expect(same(row, wanted, sizeof wanted), "the row of bone %zu", p);
        expect(name_at < k->s.sys.len - size, "the place of the name of bone %zu", p);
        const char *name = (const char *)k->s.sys.at + name_at;
        expect(same(name, horse[p].name, size), "the name of bone %zu", p);
        printf("%2zu %-6s tag %5u, parent %d\n", p, name, (unsigned)RIG_LOWER(row[RIG_BONE_TAG]),
               (int)(int16_t)RIG_UPPER(row[RIG_BONE_PARENT]));
    }
}

static void horse_is_accepted(const struct desk *k, const struct reading *read)
{
    expect_number(check_skeleton(k, RIG_WRITTEN_ROOT), RIG_OK, "rig_check of the horse");
    expect_number(*k->count.at, BONES, "the bones that rig_check counts");
    expect_read(k, read, "rig_check of the horse");
    expect_no_derived(k, "rig_check of the horse");
}

/* Each of the 65,536 tags gives the greatest position of a bone with it, or none. */
static void every_tag_is_found(const struct desk *k, const struct reading *read)
{
    for (unsigned tag = 0; tag <= UINT16_MAX; tag++) {
        size_t above = BONES; /* one more than the position, or 0 */
        while (above > 0 && RIG_LOWER(bone_at(read, above - 1)[RIG_BONE_TAG]) != tag)
            above--;
        expect_number(look_up(k, (uint16_t)tag), above > 0 ? RIG_OK : RIG_NONE, "rig_lookup of tag %u", tag);
        expect_number(*k->position.at, above > 0 ? above - 1 : 0, "the position of tag %u", tag);
    }
}

static void every_name_is_found(const struct desk *k, const struct reading *read)
{
    for (size_t p = 0; p < BONES; p++) {
        expect_number(search_name(k, horse[p].name), RIG_OK, "rig_search of %s", horse[p].name);
        expect_number(*k->position.at, p, "the position of %s", horse[p].name);
        expect_read(k, read, "rig_search of a name");
    }
    expect_number(search_name(k, "saddle"), RIG_NONE, "rig_search of saddle");
    expect_number(*k->position.at, 0, "the position of saddle");
    expect_read(k, read, "rig_search of saddle");
}

/* The rows of the chains read and of those derived stand in other orders: the links are followed. */
static void expect_chains(const struct derived *d, const struct reading *read)
{
    for (size_t b = 0; b < BUCKETS; b++) {
        uint32_t i = d->buckets.at[b], j = read->buckets.at[b];
        for (size_t steps = 0; i != 0 && j != 0; steps++) {
            expect(i <= BONES && j <= BONES && steps < BONES, "a link in the chain of bucket %zu", b);
            const uint32_t *got = d->entries.at + RIG_ENTRY_WORDS * (i - 1);
            const uint32_t *wanted = read->entries.at + RIG_ENTRY_WORDS * (j - 1);
            expect(same(got, wanted, RIG_ENTRY_LINK * sizeof *got), "an entry in the chain of bucket %zu", b);
            expect_number(got[RIG_ENTRY_TAG], horse[got[RIG_ENTRY_POSITION]].tag, "a tag in the chain of bucket %zu", b);
            i = got[RIG_ENTRY_LINK];
            j = wanted[RIG_ENTRY_LINK];
        }
        expect(i == 0 && j == 0, "the length of the chain of bucket %zu", b);
    }
}

static void horse_is_derived(const struct desk *k, const struct reading *read)
{
    const struct derived *d = &k->d;
    derive_all(k, read->bones, BONES, RIG_OK, BUCKETS, CHILDREN);
    expect_chains(d, read);
    const struct span wanted[] = {SPAN(read->parents), SPAN(read->inverse), SPAN(read->local)};
    const struct span tables[] = {SPAN(d->parents), SPAN(d->inverse), SPAN(d->local), SPAN(d->pending)};
    expect_same(tables, wanted, 3, "deriving from the horse");
    expect_zero(tables + 3, 1, "deriving from the horse");
    expect(same(d->children.at, read->children.at, CHILDREN * sizeof(uint16_t)), "the child list derived");
    expect(all(d->children.at + CHILDREN, 0, (d->children.len - CHILDREN) * sizeof(uint16_t)), "what lies behind it");
}

static void horse_is_written(const struct desk *k, const struct reading *read)
{
    size_t names = 0, len = k->s.sys.len;
    for (size_t p = 0; p < BONES; p++)
        names += strlen(horse[p].name) + 1;
    struct bytes out = lend_bytes("out", len + MORE), short_out = {out.at, len - 1};
    expect_number(write_bones(k, read->bones, BONES, out), RIG_OK, "rig_write of the horse");
    expect_number(*k->count.at, len, "the bytes of rig_write");
    expect_number(*k->count.at, RIG_SECTION_BYTES(BONES, names, CHILDREN), "the bytes by RIG_SECTION_BYTES");
    expect(same(out.at, k->s.sys.at, len), "the section that rig_write writes");
    expect(all(out.at + len, DIRT, MORE), "what lies behind it");
    expect_no_derived(k, "rig_write of the horse");
    expect_number(write_bones(k, read->bones, BONES, short_out), RIG_BUFFER_TOO_SHORT, "rig_write into a byte too few");
    expect_number(*k->count.at, 0, "the bytes of rig_write into a byte too few");
    expect(all(out.at, DIRT, out.len), "out after rig_write into a byte too few");
}

static void expect_not_read(const struct desk *k, uint64_t root, uint32_t status, const char *what)
{
    const struct span fields[] = {SPAN(k->fields)};
    expect_number(read_skeleton(k, root), status, "rig_read of %s", what);
    expect_no_reading(k, what);
    expect_zero(fields, 1, what);
}

/* Tables that hold just what is read do, and none of them may be an item shorter. */
static void tables_just_do(const struct desk *k)
{
    struct desk small = *k;
    struct reading *r = &small.r;
    const struct {
        const char *name;
        size_t *len, just;
    } tables[] = {
        {"a bones table", &r->bones.len, RIG_BONES_LENT(BONES)},
        {"a bucket table", &r->buckets.len, rig_u16_at(LENT(k->s.sys), RIG_SKELETON_BUCKET_COUNT_AT)},
        {"an entry table", &r->entries.len, RIG_ENTRIES_LENT(BONES)},
        {"an inverse table", &r->inverse.len, RIG_MATRICES_LENT(BONES)},
        {"a local table", &r->local.len, RIG_MATRICES_LENT(BONES)},
        {"a parents table", &r->parents.len, RIG_PARENTS_LENT(BONES)},
        {"a child table", &r->children.len, rig_u16_at(LENT(k->s.sys), RIG_SKELETON_CHILD_COUNT_AT)},
        {"a pool", &r->pool.len, RIG_POOL_LENT(BONES, BONES)},
    };
    for (size_t i = 0; i < sizeof tables / sizeof *tables; i++) {
        *tables[i].len = tables[i].just - 1;
        expect_not_read(&small, RIG_WRITTEN_ROOT, RIG_TABLE_TOO_SHORT, tables[i].name);
        *tables[i].len = tables[i].just;
    }
    expect(all(r->bones.at + r->bones.len, DIRT, MORE * sizeof(uint32_t)), "what lies behind a bones table");
    expect_number(read_skeleton(&small, RIG_WRITTEN_ROOT), RIG_OK, "rig_read in tables that just do");
}

static void derived_tables_just_do(const struct desk *k)
{
    struct desk small = *k;
    struct derived *d = &small.d;
    size_t *const lens[] = {&d->buckets.len, &d->entries.len, &d->inverse.len, &d->local.len, &d->parents.len, &d->children.len,
                            &d->pending.len};
    for (size_t i = 0; i < sizeof lens / sizeof *lens; i++) {
        *lens[i] -= 1;
        expect_number(check_skeleton(&small, RIG_WRITTEN_ROOT), RIG_TABLE_TOO_SHORT, "rig_check in derived table %zu", i);
        expect_no_reading(&small, "rig_check in too short a table");
        expect_no_derived(&small, "rig_check in too short a table");
        *lens[i] += 1;
    }
}

static void horse_is_not_read(const struct desk *k)
{
    expect_not_read(k, 0, RIG_NONE, "root 0");
    expect_not_read(k, RIG_SYSTEM_BASE + k->s.sys.len, RIG_PAST_THE_END, "a root behind the section");
    expect_number(check_skeleton(k, 0), RIG_NONE, "rig_check at root 0");
    expect_number(rig_lookup(SECTION(k->s), 0, 0, k->position.at), RIG_NONE, "rig_lookup at root 0");
}

void whole_horse(const char *path)
{
    struct desk first = lend_desk(load(path), BONES);
    horse_is_read(&first);
    print_bones(&first);
    struct desk k = lend_desk(first.s, BONES);
    horse_is_accepted(&k, &first.r);
    every_tag_is_found(&k, &first.r);
    every_name_is_found(&k, &first.r);
    horse_is_derived(&k, &first.r);
    horse_is_written(&k, &first.r);
    horse_is_not_read(&k);
    tables_just_do(&k);
    derived_tables_just_do(&k);
    give_back();
}

/* ---- sections that are refused ---- */

static void expect_refused(const struct desk *k, uint32_t status, const char *what)
{
    expect_number(check_skeleton(k, RIG_WRITTEN_ROOT), status, "rig_check of %s", what);
    expect_number(*k->count.at, 0, "the bones that rig_check counts in %s", what);
    expect_no_reading(k, what);
    expect_no_derived(k, what);
}

/* It can be read, but of the chain only the tail is found. */
void cut_horse(const char *path)
{
    static const size_t lost[] = {HEAD, REIN_L, REIN_R};
    struct desk k = lend_desk(load(path), BONES);
    expect_number(read_skeleton(&k, RIG_WRITTEN_ROOT), RIG_OK, "rig_read of the cut horse");
    expect_refused(&k, RIG_CHAINS_DIFFER, "the cut horse");
    expect_number(look_up(&k, horse[TAIL].tag), RIG_OK, "rig_lookup of the cut horse's tail");
    expect_number(*k.position.at, TAIL, "the position of the cut horse's tail");
    for (size_t i = 0; i < sizeof lost / sizeof *lost; i++)
        expect_number(look_up(&k, horse[lost[i]].tag), RIG_NONE, "rig_lookup of the cut horse's %s", horse[lost[i]].name);
    give_back();
}

/* The horse with 8 bytes changed: those that lie `at` bytes behind where the record's pointer leads, or into the record itself. */
void damaged_horses(const char *path)
{
    static const struct {
        const char *what;
        size_t pointer, at;
        uint64_t value;
        uint32_t status;
    } changes[] = {
        {"a horse whose buckets lie in neither half", 0, 16, UINT64_C(0x40000000), RIG_BAD_ADDRESS},
        {"a horse whose parents run past the end", 0, 56, UINT64_C(0x50000D80), RIG_PAST_THE_END},
        {"a horse whose bones are its buckets", 0, 32, UINT64_C(0x50000080), RIG_OTHER_KIND},
        {"a horse with bones pointer 15", 0, 32, 15, RIG_BONES_POINTER},
        {"a horse with a circular chain", 0, TAIL_LINK_AT, RIG_SYSTEM_BASE + TAIL_LINK_AT - 8, RIG_CHAINS_DIFFER},
        {"a horse with other parents", 56, 0, 0, RIG_PARENTS_DIFFER},
        {"a horse with other children", 64, 0, 0, RIG_CHILDREN_DIFFER},
        {"a horse with another inverse matrix", 40, 0, 0, RIG_INVERSE_DIFFER},
        {"a horse with another local matrix", 48, 0, 0, RIG_LOCAL_DIFFER},
    };
    for (size_t i = 0; i < sizeof changes / sizeof *changes; i++) {
        struct section s = load(path);
        uint64_t pointer = rig_u64_at(LENT(s.sys), changes[i].pointer);
        size_t from = changes[i].pointer == 0 ? 0 : (size_t)(pointer - RIG_SYSTEM_BASE);
        expect(rig_put64(LENT(s.sys), from + changes[i].at, changes[i].value), "rig_put64 for %s", changes[i].what);
        struct desk k = lend_desk(s, BONES);
        expect_refused(&k, changes[i].status, changes[i].what);
        bool circular = changes[i].at == TAIL_LINK_AT;
        expect_number(look_up(&k, horse[REIN_R].tag) == RIG_CHAIN_TOO_LONG, circular, "rig_lookup of %s", changes[i].what);
        give_back();
    }
}

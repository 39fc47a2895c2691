/* The number of the exports, fields, a cursor, texts of statuses, bucket counts, hashes, matrices and joints. */
#include "checks.h"
#include "lent.h"
#include "rig.h"

#include <string.h>

void number_of_exports(void)
{
    expect_number(rig_abi(), RIG_ABI, "rig_abi");
}

/* ---- fields: each offset of a slice, and one that would wrap ---- */

static void field_at(struct bytes d, size_t at)
{
    static const uint8_t stored[8] = {0xEF, 0xCD, 0xAB, 0x89, 0x67, 0x45, 0x23, 0x01};
    const uint64_t v = UINT64_C(0x0123456789ABCDEF);
    for (size_t width = 2; width <= 8; width *= 2) {
        bool stands = at <= d.len && width <= d.len - at;
        size_t start = stands ? at : 0, end = stands ? at + width : 0;
        soil();
        bool put = width == 2 ? rig_put16(LENT(d), at, (uint16_t)v)
                 : width == 4 ? rig_put32(LENT(d), at, (uint32_t)v)
                              : rig_put64(LENT(d), at, v);
        expect_number(put, stands, "rig_put%zu at %zu", 8 * width, at);
        expect(same(d.at + start, stored, end - start), "the bytes of rig_put%zu at %zu", 8 * width, at);
        expect(all(d.at, DIRT, start) && all(d.at + end, DIRT, d.len - end), "the bytes beside rig_put%zu at %zu", 8 * width, at);
        uint64_t got = width == 2 ? rig_u16_at(LENT(d), at) : width == 4 ? rig_u32_at(LENT(d), at) : rig_u64_at(LENT(d), at);
        uint64_t wanted = stands ? v & UINT64_MAX >> (64 - 8 * width) : 0;
        expect_number(got, wanted, "rig_u%zu_at %zu", 8 * width, at);
    }
}

void fields(void)
{
    for (size_t len = 0; len <= 12; len++) {
        struct bytes d = lend_bytes("bytes", len);
        for (size_t at = 0; at <= len + 1; at++)
            field_at(d, at);
        field_at(d, SIZE_MAX);
    }
    give_back();
}

/* ---- a cursor over bytes 1, 2, 3 and so on ---- */

static void cursor_from(struct bytes s, size_t pos, size_t n, const uint64_t wanted[RIG_CURSOR_NUMBERS])
{
    struct longs out = lend_longs("the numbers", RIG_CURSOR_NUMBERS + 1);
    expect_number(rig_cursor(LENT(s), pos, RIG_SYSTEM_BASE, n, LENT(out)), true, "rig_cursor from %zu", pos);
    expect(same(out.at, wanted, RIG_CURSOR_NUMBERS * sizeof *wanted), "the numbers of rig_cursor from %zu", pos);
    expect(all(out.at + RIG_CURSOR_NUMBERS, DIRT, sizeof *out.at), "the word behind the numbers of rig_cursor from %zu", pos);
    soil();
    expect_number(rig_cursor(LENT(s), pos, RIG_SYSTEM_BASE, n, out.at, RIG_CURSOR_NUMBERS - 1), false, "rig_cursor without room");
    expect(all(out.at, DIRT, out.len * sizeof *out.at), "the words of rig_cursor without room");
}

void cursor(void)
{
    static const uint64_t whole[RIG_CURSOR_NUMBERS] = {
        [RIG_CURSOR_U8] = 0x01,
        [RIG_CURSOR_U16] = 0x0302,
        [RIG_CURSOR_I16] = 0x0504,
        [RIG_CURSOR_U32] = 0x09080706,
        [RIG_CURSOR_U64] = UINT64_C(0x11100F0E0D0C0B0A),
        [RIG_CURSOR_F32] = 0x15141312,
        [RIG_CURSOR_VEC3] = 0x19181716, 0x1D1C1B1A, 0x21201F1E,
        [RIG_CURSOR_VEC4] = 0x25242322, 0x29282726, 0x2D2C2B2A, 0x31302F2E,
        [RIG_CURSOR_VA] = RIG_SYSTEM_BASE + 52,
        [RIG_CURSOR_STATUS] = RIG_OK,
    };
    static const uint64_t past[RIG_CURSOR_NUMBERS] = {
        [RIG_CURSOR_U8] = 0x31,
        [RIG_CURSOR_VA] = RIG_SYSTEM_BASE + 100,
        [RIG_CURSOR_STATUS] = RIG_PAST_THE_END,
    };
    struct bytes s = lend_bytes("bytes", 49);
    for (size_t i = 0; i < s.len; i++)
        s.at[i] = (uint8_t)(i + 1);
    keep();
    cursor_from(s, 0, 3, whole);
    cursor_from(s, 48, 3, past);
    give_back();
}

/* ---- the texts of statuses; bindings/refusals has read those of the refusals ---- */

static void expect_text(uint32_t status, const char *wanted)
{
    expect(strcmp(rig_status_text(status), wanted) == 0, "the text of status %lu", (unsigned long)status);
}

/* Each status has a text of its own, and every other number that of none. */
void status_texts(void)
{
    static const uint32_t statuses[] = {
        RIG_OK, RIG_TABLE_TOO_SHORT, RIG_BUFFER_TOO_SHORT, RIG_TOO_MANY_BONES, RIG_TOO_MANY_CHILDREN, RIG_BAD_NAME,
        RIG_TOO_MANY_LIMITS, RIG_BAD_ADDRESS, RIG_PAST_THE_END, RIG_OTHER_KIND, RIG_BONES_POINTER, RIG_CHAIN_TOO_LONG,
        RIG_CHAINS_DIFFER, RIG_PARENTS_DIFFER, RIG_CHILDREN_DIFFER, RIG_INVERSE_DIFFER, RIG_LOCAL_DIFFER, RIG_BAD_LIMIT_ID,
        RIG_NONE,
    };
    const char *none = rig_status_text(UINT32_MAX);
    bool known[RIG_NONE + 1] = {false};
    for (size_t i = 0; i < sizeof statuses / sizeof *statuses; i++) {
        known[statuses[i]] = true;
        for (size_t j = 0; j < i; j++)
            expect(strcmp(rig_status_text(statuses[i]), rig_status_text(statuses[j])) != 0, "texts %zu and %zu are one", j, i);
        expect(strcmp(rig_status_text(statuses[i]), none) != 0, "text %zu is that of none", i);
    }
    for (uint32_t status = 0; status <= 2 * RIG_NONE; status++)
        if (status > RIG_NONE || !known[status])
            expect_text(status, none);
    expect_text(RIG_OK, "nothing is refused: the call did what was asked");
    expect_text(RIG_BONES_POINTER, "the pointer to the bones is from 1 to 15, where no bones can be");
    expect_text(RIG_NONE, "there is nothing: the root address is 0, or no bone is found");
    expect_text(UINT32_MAX, "this number is no status of the library");
}

/* ---- bucket counts and hashes ---- */

void bucket_counts(void)
{
    static const size_t counts[][2] = {{0, 11}, {10, 11}, {11, 29}, {13, 29}, {65166, 65167}, {65167, 65521}, {SIZE_MAX, 65521}};
    for (size_t i = 0; i < sizeof counts / sizeof *counts; i++)
        expect_number(rig_num_hash_buckets(counts[i][0]), counts[i][1], "rig_num_hash_buckets of %zu", counts[i][0]);
}

void hashes(void)
{
    static const struct {
        const char *name;
        uint32_t hash;
    } known[] = {{"", 0}, {"a", 0xCA2E9442}, {"The quick brown fox jumps over the lazy dog", 0x519E91F5}};
    for (size_t i = 0; i < sizeof known / sizeof *known; i++) {
        struct bytes s = lend_bytes("a name", strlen(known[i].name));
        memcpy(s.at, known[i].name, s.len);
        keep();
        expect_number(rig_rage_joaat(LENT(s)), known[i].hash, "rig_rage_joaat of \"%s\"", known[i].name);
    }
    give_back();
}

/* ---- matrices ---- */

/* Expects the vector at these places of the matrix, and all else dirty. */
static void expect_set(struct floats m, struct floats v, const size_t *places, size_t n, const char *call)
{
    float wanted[RIG_MATRIX_WORDS];
    memset(wanted, DIRT, sizeof wanted);
    for (size_t i = 0; i < n; i++)
        wanted[places[i]] = v.at[i];
    expect(same(m.at, wanted, sizeof wanted), "the matrix after %s", call);
}

void matrices(void)
{
    static const size_t diagonal[] = {0, 5, 10}, column4[] = {3, 7, 11, 15};
    struct floats v = lend_floats("a vector", 4);
    for (size_t i = 0; i < v.len; i++)
        v.at[i] = 0.5f + (float)i;
    keep();
    struct floats m = lend_floats("a matrix", RIG_MATRIX_WORDS);
    rig_set_scale_vector(m.at, v.at);
    expect_set(m, v, diagonal, 3, "rig_set_scale_vector");
    soil();
    rig_set_column4(m.at, v.at);
    expect_set(m, v, column4, 4, "rig_set_column4");
    give_back();
}

/* ---- joints ---- */

/* how many limits, and more words behind them */
enum { ROTATIONS = 2, TRANSLATIONS = 3, MORE = 5 };

/* Gives a row its id, and its bounds, each word another. */
static void name_fields(uint32_t *row, uint32_t id)
{
    static uint32_t next = 0x10001;
    row[RIG_LIMIT_ID] = id;
    for (size_t i = RIG_LIMIT_LEAST; i < RIG_LIMIT_OTHER; i++)
        row[i] = next++;
}

/* the greatest ids, falling */
static struct words lend_rotations(void)
{
    struct words rows = lend_words("rotation limits", ROTATIONS * RIG_ROTATION_WORDS);
    for (size_t i = 0; i < ROTATIONS; i++) {
        uint32_t *row = rows.at + RIG_ROTATION_WORDS * i;
        rig_fresh_rotation_limit(row);
        name_fields(row, (uint32_t)(65535 - i));
        row[RIG_ROTATION_SECOND] = (uint32_t)(0xABCD + i);
    }
    return rows;
}

/* the same with an id in the last row that a record cannot hold */
static struct words lend_wide(struct words rotations)
{
    struct words wide = lend_words("rotation limits with a wide id", rotations.len);
    memcpy(wide.at, rotations.at, rotations.len * sizeof *rotations.at);
    wide.at[RIG_ROTATION_WORDS * (ROTATIONS - 1) + RIG_LIMIT_ID] = 65536;
    return wide;
}

static struct words lend_translations(void)
{
    struct words rows = lend_words("translation limits", TRANSLATIONS * RIG_TRANSLATION_WORDS);
    for (size_t i = 0; i < TRANSLATIONS; i++)
        name_fields(rows.at + RIG_TRANSLATION_WORDS * i, (uint32_t)(UINT32_MAX - i));
    return rows;
}

/* Writes the limits, after refusals that leave the buffer as it was. */
static struct bytes write_limits(struct words rotations, struct words wide, struct words translations)
{
    const size_t bytes = RIG_JOINTS_BYTES(ROTATIONS, TRANSLATIONS);
    const struct {
        struct words rotations;
        size_t r, t, room;
        uint32_t status;
    } calls[] = {
        {rotations, RIG_MOST + 1, 0, 0, RIG_TOO_MANY_LIMITS},
        {rotations, RIG_MOST, 0, 0, RIG_TABLE_TOO_SHORT},
        {rotations, ROTATIONS + 1, RIG_MOST + 1, 0, RIG_TOO_MANY_LIMITS},
        {rotations, ROTATIONS + 1, 0, 0, RIG_TABLE_TOO_SHORT},
        {rotations, 0, TRANSLATIONS + 1, 0, RIG_TABLE_TOO_SHORT},
        {wide, ROTATIONS, RIG_MOST + 1, bytes, RIG_TOO_MANY_LIMITS},
        {wide, ROTATIONS + 1, 0, bytes, RIG_TABLE_TOO_SHORT},
        {wide, ROTATIONS, TRANSLATIONS + 1, bytes, RIG_TABLE_TOO_SHORT},
        {wide, ROTATIONS, TRANSLATIONS, bytes + MORE, RIG_BAD_LIMIT_ID},
        {wide, ROTATIONS, TRANSLATIONS, 0, RIG_BAD_LIMIT_ID},
        {wide, ROTATIONS - 1, TRANSLATIONS, 0, RIG_BUFFER_TOO_SHORT},
        {rotations, ROTATIONS, TRANSLATIONS, bytes - 1, RIG_BUFFER_TOO_SHORT},
        {rotations, ROTATIONS, TRANSLATIONS, bytes + MORE, RIG_OK},
    };
    struct bytes out = lend_bytes("out", bytes + MORE);
    struct sizes count = lend_sizes("count", 1);
    for (size_t i = 0; i < sizeof calls / sizeof *calls; i++) {
        size_t r = calls[i].r, t = calls[i].t, written = calls[i].status == RIG_OK ? bytes : 0;
        soil();
        uint32_t status = rig_joints_write(LENT(calls[i].rotations), r, LENT(translations), t, out.at, calls[i].room, count.at);
        expect_number(status, calls[i].status, "rig_joints_write %zu of %zu and %zu limits", i, r, t);
        expect_number(*count.at, written, "the bytes of writing %zu of %zu and %zu limits", i, r, t);
        expect(all(out.at + written, DIRT, out.len - written), "out behind writing %zu of %zu and %zu limits", i, r, t);
    }
    return out;
}

struct joints {
    struct bytes sys, gfx;
    struct words rotation, translation, fields;
};

static uint32_t read_joints(const struct joints *j, uint64_t root)
{
    soil();
    return rig_joints_read(LENT(j->sys), LENT(j->gfx), root, LENT(j->rotation), LENT(j->translation), j->fields.at);
}

static void limits_are_read(const struct joints *j, struct words rotations, struct words translations)
{
    static const uint32_t fields[RIG_JOINTS_READ_FIELDS] = {
        [RIG_JOINTS_READ_KIND] = RIG_JOINTS_KIND,
        [RIG_JOINTS_READ_ROTATION_COUNT] = ROTATIONS,
        [RIG_JOINTS_READ_TRANSLATION_COUNT] = TRANSLATIONS,
        [RIG_JOINTS_READ_ROTATION] = 1,
        [RIG_JOINTS_READ_ROTATION_LENGTH] = ROTATIONS,
        [RIG_JOINTS_READ_TRANSLATION] = 1,
        [RIG_JOINTS_READ_TRANSLATION_LENGTH] = TRANSLATIONS,
    };
    const struct span wanted[] = {SPAN(rotations), SPAN(translations)};
    struct span tables[] = {SPAN(j->rotation), SPAN(j->translation)};
    expect_number(read_joints(j, RIG_WRITTEN_ROOT), RIG_OK, "rig_joints_read");
    expect(same(j->fields.at, fields, sizeof fields), "the fields of rig_joints_read");
    tables[0].size = wanted[0].size;
    tables[1].size = wanted[1].size;
    expect_same(tables, wanted, 2, "rig_joints_read");
    expect(all(j->rotation.at + rotations.len, 0, MORE * sizeof(uint32_t)), "what lies behind the rotation limits read");
    expect(all(j->translation.at + translations.len, 0, MORE * sizeof(uint32_t)), "what lies behind the translation limits read");
}

static void limits_are_not_read(const struct joints *j, uint64_t root, uint32_t status, const char *what)
{
    const struct span tables[] = {SPAN(j->rotation), SPAN(j->translation), SPAN(j->fields)};
    expect_number(read_joints(j, root), status, "rig_joints_read of %s", what);
    expect_zero(tables, 3, what);
}

/* Lists of count 0, whose pointers lead nowhere: they stand, and are not examined. */
static void empty_limits_are_read(struct joints j, struct bytes written)
{
    static const uint32_t fields[RIG_JOINTS_READ_FIELDS] = {
        [RIG_JOINTS_READ_KIND] = RIG_JOINTS_KIND,
        [RIG_JOINTS_READ_ROTATION] = 1,
        [RIG_JOINTS_READ_TRANSLATION] = 1,
    };
    const struct span tables[] = {SPAN(j.rotation), SPAN(j.translation)};
    j.sys = lend_bytes("sys", written.len);
    memcpy(j.sys.at, written.at, written.len);
    expect(rig_put64(LENT(j.sys), 16, 1) && rig_put64(LENT(j.sys), 24, UINT64_MAX), "rig_put64 of the pointers to limits");
    expect(rig_put32(LENT(j.sys), 48, 0), "rig_put32 of the counts of limits");
    struct bytes copy = lend_bytes("a copy", j.sys.len);
    memcpy(copy.at, j.sys.at, j.sys.len);
    uint32_t status = rig_joints_read(LENT(j.sys), LENT(j.gfx), RIG_WRITTEN_ROOT, LENT(j.rotation), LENT(j.translation), j.fields.at);
    expect_number(status, RIG_OK, "rig_joints_read of no limits");
    expect(same(j.fields.at, fields, sizeof fields), "the fields of rig_joints_read of no limits");
    expect_zero(tables, 2, "rig_joints_read of no limits");
    expect(same(copy.at, j.sys.at, j.sys.len), "the section of no limits");
}

void joints(void)
{
    struct words rotations = lend_rotations(), wide = lend_wide(rotations), translations = lend_translations();
    keep();
    struct bytes sys = write_limits(rotations, wide, translations);
    keep();
    struct joints j = {
        .sys = sys,
        .gfx = lend_bytes("gfx", 0),
        .rotation = lend_words("rotation", rotations.len + MORE),
        .translation = lend_words("translation", translations.len + MORE),
        .fields = lend_words("fields", RIG_JOINTS_READ_FIELDS),
    };
    limits_are_read(&j, rotations, translations);
    empty_limits_are_read(j, sys);
    limits_are_not_read(&j, 0, RIG_NONE, "root 0");
    limits_are_not_read(&j, RIG_GRAPHICS_BASE, RIG_PAST_THE_END, "a root in an empty half");
    j.translation.len = translations.len - 1;
    limits_are_not_read(&j, RIG_WRITTEN_ROOT, RIG_TABLE_TOO_SHORT, "limits in a word too few");
    give_back();
}

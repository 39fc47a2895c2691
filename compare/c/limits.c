/* Single limits: a record read and written, what writing refuses, and a fresh limit. */
#include "checks.h"
#include "lent.h"
#include "rig.h"

#include <string.h>

/* bytes behind a record */
enum { MORE = 5 };

/* the slot that each word of a row is; a rotation limit's id is the lower half of slot 2, its second number the upper */
static const size_t rotation_slots[RIG_ROTATION_SECOND] = {2,  23, 24, 25, 26, 27, 28, 0,  1,  3,  4,  5,  6,  7,  8,  9,
                                                           10, 11, 12, 13, 14, 15, 16, 17, 18, 19, 20, 21, 22, 29, 30, 31,
                                                           32, 33, 34, 35, 36, 37, 38, 39, 40, 41, 42, 43, 44, 45, 46, 47};
static const size_t translation_slots[RIG_TRANSLATION_WORDS] = {2, 8, 9, 10, 12, 13, 14, 0, 1, 3, 4, 5, 6, 7, 11, 15};

/* a record whose bytes are all different */
static struct bytes lend_record(size_t bytes)
{
    struct bytes record = lend_bytes("a record", bytes);
    for (size_t i = 0; i < bytes; i++)
        record.at[i] = (uint8_t)(UINT8_MAX - i);
    return record;
}

/* a row with another word in one place */
static struct words lend_row(const char *name, struct words row, size_t at, uint32_t word)
{
    struct words other = lend_words(name, row.len);
    memcpy(other.at, row.at, row.len * sizeof *row.at);
    other.at[at] = word;
    return other;
}

/* Expects the words of a row, from one to before another, to be those of their slots. */
static void expect_slots(struct words row, size_t from, size_t to, struct bytes record, const size_t *slots, const char *call)
{
    for (size_t i = from; i < to; i++)
        expect_number(row.at[i], rig_u32_at(LENT(record), 4 * slots[i]), "word %zu of %s", i, call);
}

/* Expects the record at the front of `out` after RIG_OK, else nothing, and all else as it was. */
static void expect_out(uint32_t status, uint32_t wanted, struct bytes out, struct bytes record, const char *call, const char *which)
{
    size_t written = wanted == RIG_OK ? record.len : 0;
    expect_number(status, wanted, "%s, %s", call, which);
    expect(same(out.at, record.at, written), "the record of %s, %s", call, which);
    expect(all(out.at + written, DIRT, out.len - written), "out behind the record of %s, %s", call, which);
}

/* ---- rotation ---- */

static void write_rotation(struct words row, struct bytes out, size_t room, uint32_t wanted, struct bytes record, const char *which)
{
    soil();
    uint32_t status = rig_rotation_limit_write(row.at, out.at, room);
    expect_out(status, wanted, out, record, "rig_rotation_limit_write", which);
}

static void rotation_limit(void)
{
    struct bytes record = lend_record(RIG_ROTATION_BYTES);
    keep();
    struct words row = lend_words("a rotation limit", RIG_ROTATION_WORDS);
    rig_rotation_limit_read(record.at, row.at);
    expect_number(row.at[RIG_LIMIT_ID], rig_u16_at(LENT(record), 8), "the id of rig_rotation_limit_read");
    expect_slots(row, RIG_LIMIT_LEAST, RIG_ROTATION_SECOND, record, rotation_slots, "rig_rotation_limit_read");
    expect_number(row.at[RIG_ROTATION_SECOND], rig_u16_at(LENT(record), 10), "the second number of rig_rotation_limit_read");

    struct words wide = lend_row("a wide id", row, RIG_LIMIT_ID, 65536);
    struct words widest = lend_row("the widest id", row, RIG_LIMIT_ID, UINT32_MAX);
    struct words unused = lend_row("an unused half", row, RIG_ROTATION_SECOND, row.at[RIG_ROTATION_SECOND] | 0xFFFF0000);
    keep();
    struct bytes out = lend_bytes("out", RIG_ROTATION_BYTES + MORE);
    write_rotation(row, out, out.len, RIG_OK, record, "as it was read");
    write_rotation(row, out, RIG_ROTATION_BYTES, RIG_OK, record, "into just the bytes");
    write_rotation(unused, out, out.len, RIG_OK, record, "with the unused half filled");
    write_rotation(row, out, RIG_ROTATION_BYTES - 1, RIG_BUFFER_TOO_SHORT, record, "without room");
    write_rotation(wide, out, out.len, RIG_BAD_LIMIT_ID, record, "with a wide id");
    write_rotation(widest, out, RIG_ROTATION_BYTES - 1, RIG_BAD_LIMIT_ID, record, "with the widest id and without room");
    give_back();
}

/* A fresh limit, given an id and bounds, is read back as it is. */
static void fresh_limit(void)
{
    const uint32_t o = 0x3F800000, p = 0x40490FDB, m = 0xC0490FDB; /* 1, pi, -pi */
    const uint32_t fresh[RIG_ROTATION_WORDS] = {
        [RIG_LIMIT_OTHER] = 0, 0, 1, 3, 0, 0, 0, 0, 0, 0, o, 0, 0, 0, 0, o, 0, 0, 0, m, p,
        o, p, m, p, p, m, p, p, m, p, p, m, p, p, m, p, p, m, p, 256,
    };
    struct words row = lend_words("a fresh limit", RIG_ROTATION_WORDS);
    rig_fresh_rotation_limit(row.at);
    expect(same(row.at, fresh, sizeof fresh), "the row of rig_fresh_rotation_limit");

    row.at[RIG_LIMIT_ID] = 65535;
    for (size_t i = 0; i < 3; i++) {
        row.at[RIG_LIMIT_LEAST + i] = m;
        row.at[RIG_LIMIT_GREATEST + i] = p;
    }
    keep();
    struct bytes record = lend_bytes("a record", RIG_ROTATION_BYTES);
    expect_number(rig_rotation_limit_write(row.at, LENT(record)), RIG_OK, "rig_rotation_limit_write of a fresh limit");
    keep();
    struct words back = lend_words("the limit read back", RIG_ROTATION_WORDS);
    rig_rotation_limit_read(record.at, back.at);
    expect(same(back.at, row.at, row.len * sizeof *row.at), "a fresh limit written and read");
    give_back();
}

/* ---- translation ---- */

static void write_translation(struct words row, struct bytes out, size_t room, uint32_t wanted, struct bytes record, const char *which)
{
    soil();
    uint32_t status = rig_translation_limit_write(row.at, out.at, room);
    expect_out(status, wanted, out, record, "rig_translation_limit_write", which);
}

/* Any id is written. */
static void translation_limit(void)
{
    struct bytes record = lend_record(RIG_TRANSLATION_BYTES), widest = lend_record(RIG_TRANSLATION_BYTES);
    memset(widest.at + 8, 0xFF, 4);
    keep();
    struct words row = lend_words("a translation limit", RIG_TRANSLATION_WORDS);
    rig_translation_limit_read(record.at, row.at);
    expect_slots(row, RIG_LIMIT_ID, RIG_TRANSLATION_WORDS, record, translation_slots, "rig_translation_limit_read");

    struct words wide = lend_row("the widest id", row, RIG_LIMIT_ID, UINT32_MAX);
    keep();
    struct bytes out = lend_bytes("out", RIG_TRANSLATION_BYTES + MORE);
    write_translation(row, out, out.len, RIG_OK, record, "as it was read");
    write_translation(row, out, RIG_TRANSLATION_BYTES, RIG_OK, record, "into just the bytes");
    write_translation(wide, out, out.len, RIG_OK, widest, "with the widest id");
    write_translation(wide, out, RIG_TRANSLATION_BYTES - 1, RIG_BUFFER_TOO_SHORT, record, "without room");
    give_back();
}

void limits(void)
{
    rotation_limit();
    fresh_limit();
    translation_limit();
}

/* Bones made by hand: where the words of their rows go, and which are refused. */
#include "checks.h"
#include "desk.h"

#include <string.h>

/* ---- bones that are written ---- */

/* Roots without a name, every word of their rows another, nobody's children. */
static struct words lend_roots(size_t n)
{
    struct words bones = lend_words("bones", RIG_BONES_LENT(n));
    for (size_t i = 0; i < bones.len; i++)
        bones.at[i] = RIG_PAIR(0x100 + i, 0x8200 + i);
    for (size_t p = 0; p < n; p++) {
        uint32_t *row = bones.at + RIG_BONE_WORDS * p;
        row[RIG_BONE_TAG] = RIG_LOWER(row[RIG_BONE_TAG]);
        memset(row + RIG_BONE_NAME_ADDRESS, 0, 4 * sizeof *row);
    }
    return bones;
}

static void expect_field(const struct bytes *s, size_t at, uint16_t wanted, const char *what)
{
    expect_number(rig_u16_at(LENT(*s), at), wanted, "a bone's %s as it is written", what);
}

/* the words of a row, where the bone and its local matrix have them in the section of one bone */
static void expect_laid(const struct bytes *s, const uint32_t *row)
{
    const size_t bone = (size_t)(rig_u64_at(LENT(*s), 32) - RIG_SYSTEM_BASE);
    const size_t local = (size_t)(rig_u64_at(LENT(*s), 48) - RIG_SYSTEM_BASE);
    expect(same(s->at + bone, row + RIG_BONE_ROTATION, 16), "a bone's rotation as it is written");
    expect(same(s->at + bone + 16, row + RIG_BONE_TRANSLATION, 12), "a bone's translation as it is written");
    expect(same(s->at + bone + 32, row + RIG_BONE_SCALE, 12), "a bone's scale as it is written");
    expect_field(s, bone + 48, RIG_LOWER(row[RIG_BONE_NEXT_SIBLING]), "next sibling");
    expect_field(s, bone + 50, RIG_UPPER(row[RIG_BONE_PARENT]), "parent");
    expect_field(s, bone + 64, RIG_LOWER(row[RIG_BONE_FLAGS]), "flags");
    expect_field(s, bone + 66, RIG_UPPER(row[RIG_BONE_INDEX]), "index");
    expect_field(s, bone + 68, RIG_LOWER(row[RIG_BONE_TAG]), "tag");
    for (size_t i = 0; i < 4; i++)
        expect_number(rig_u32_at(LENT(*s), local + 16 * i + 12), row[RIG_BONE_KEPT + i], "kept word %zu as it is written", i);
}

/* The section of n of them has so many bytes, is accepted, and keeps the bones and the free words. */
static void few_bones(size_t n, size_t bytes)
{
    static const size_t free_words[4] = {28, 80, 84, 88};
    struct words bones = lend_roots(n);
    struct desk k = lend_desk(lend_section(0), n);
    struct bytes out = lend_bytes("out", bytes);
    for (size_t i = 0; i < 4; i++)
        k.free[i] = (uint32_t)free_words[i];
    expect_number(write_bones(&k, bones, n, out), RIG_OK, "rig_write of %zu roots", n);
    expect_number(*k.count.at, bytes, "the bytes of %zu roots", n);
    expect_number(RIG_SECTION_BYTES(n, 0, 0), bytes, "the bytes of %zu roots by RIG_SECTION_BYTES", n);
    k = lend_desk((struct section){out, k.s.gfx}, n);
    expect_number(check_skeleton(&k, RIG_WRITTEN_ROOT), RIG_OK, "rig_check of %zu roots", n);
    expect_number(*k.count.at, n, "the bones that rig_check counts, of %zu roots", n);
    expect_number(read_skeleton(&k, RIG_WRITTEN_ROOT), RIG_OK, "rig_read of %zu roots", n);
    expect(same(k.r.bones.at, bones.at, bones.len * sizeof *bones.at), "the rows of %zu roots", n);
    expect(same(k.fields.at + RIG_READ_FREE, free_words, sizeof free_words), "the free words of %zu roots", n);
    if (n == 1)
        expect_laid(&out, bones.at);
    give_back();
}

/* ---- bones that are refused ---- */

/* Bones with index and parent -1, each a child of every one: 8 * (n + 1) child entries. */
static struct words lend_tangle(size_t n)
{
    struct words bones = lend_words("bones", RIG_BONES_LENT(n));
    memset(bones.at, 0, bones.len * sizeof *bones.at);
    for (size_t p = 0; p < n; p++) {
        bones.at[RIG_BONE_WORDS * p + RIG_BONE_PARENT] = RIG_PAIR(0, -1);
        bones.at[RIG_BONE_WORDS * p + RIG_BONE_INDEX] = RIG_PAIR(0, -1);
    }
    return bones;
}

static void expect_not_written(const struct desk *k, struct words bones, size_t n, struct bytes out, uint32_t status)
{
    expect_number(write_bones(k, bones, n, out), status, "rig_write of %zu bones", n);
    expect_number(*k->count.at, 0, "the bytes of %zu bones that are refused", n);
    expect(all(out.at, DIRT, out.len), "out after %zu bones that are refused", n);
    expect_no_derived(k, "bones that are refused");
}

static void refused_bones(void)
{
    enum { MOST = 8190 }; /* their 65,528 child entries can be counted, 8 more cannot */
    struct words bones = lend_tangle(MOST + 1);
    struct desk k = lend_desk(lend_section(0), MOST + 1);
    struct bytes out = lend_bytes("out", RIG_SECTION_BYTES(MOST, 0, RIG_CHILDREN_LENT(MOST)));
    derive_all(&k, bones, MOST + 2, RIG_TABLE_TOO_SHORT, 0, 0);
    expect_no_derived(&k, "deriving from more bones than the table has");
    derive_all(&k, bones, RIG_MOST + 1, RIG_TOO_MANY_BONES, 0, 0);
    expect_no_derived(&k, "deriving from 65,536 bones");
    expect_not_written(&k, bones, MOST + 2, out, RIG_TABLE_TOO_SHORT);
    expect_not_written(&k, bones, RIG_MOST + 1, out, RIG_TOO_MANY_BONES);
    expect_not_written(&k, bones, MOST + 1, out, RIG_TOO_MANY_CHILDREN);
    expect_number(write_bones(&k, bones, MOST, out), RIG_OK, "rig_write of %d bones", MOST);
    expect_number(*k.count.at, out.len, "the bytes of %d bones", MOST);
    expect_number(RIG_SECTION_BYTES(RIG_MOST, (RIG_LONGEST_NAME + 1) * RIG_MOST, 65528), RIG_SECTION_MOST, "RIG_SECTION_MOST");
    give_back();
}

/* one bone with the longest name, and one byte longer */
static void refused_name(void)
{
    struct words bones = lend_tangle(2);
    struct section names = lend_section(RIG_LONGEST_NAME + 1); /* dirty, and so without a zero */
    for (size_t p = 0; p < 2; p++) {
        bones.at[RIG_BONE_WORDS * p + RIG_BONE_NAME_ADDRESS] = (uint32_t)RIG_SYSTEM_BASE;
        bones.at[RIG_BONE_WORDS * p + RIG_BONE_NAME_SIZE] = (uint32_t)(RIG_LONGEST_NAME + p);
    }
    struct desk k = lend_desk(names, 2);
    struct bytes out = lend_bytes("out", RIG_SECTION_BYTES(1, RIG_LONGEST_NAME + 1, RIG_CHILDREN_LENT(1)));
    expect_not_written(&k, bones, 2, out, RIG_BAD_NAME);
    expect_number(write_bones(&k, bones, 1, out), RIG_OK, "rig_write of a name of 255 bytes");
    expect_number(*k.count.at, out.len, "the bytes with a name of 255 bytes");
    give_back();
}

void bones_by_hand(void)
{
    few_bones(0, 112);
    few_bones(1, 352);
    few_bones(2, 688);
    refused_bones();
    refused_name();
}

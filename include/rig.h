/* The skeleton half of a rig exporter, for C and C++: reads, derives, writes, looks up in and checks the skeleton sections
 * that the game loads. Link librig.a (`rt lib` in crates/rig; x86-64 Linux) and the C library. What a call answers and leaves is proved
 * of the library; that these declarations fit it is not proved, but compared by bindings/exports and run by compare/c.
 *
 * What the caller must see to, since C cannot:
 * - A table or buffer is lent as a pointer and, behind it, the number of its items. The pointer is aligned for its items and valid
 *   for that many. Where the number is 0 the pointer may be any, also null: this is not proved, but tried of every call. A pointer
 *   without a number is never null, and leads to as many items as its parameter says, or to one.
 * - What a call may change (a pointer that is not const) overlaps nothing else that the call is lent.
 * - Nobody else writes what is lent, or reads what the call may change, until the call returns.
 * - The float environment is the default one: round to nearest, keep subnormal numbers (no flush-to-zero, no denormals-are-zero),
 *   do not trap. In another, good sections may be refused with 24 or 25, and what is written may be refused so in the default one;
 *   a trap is a signal in the midst of a call. A call may raise the float exception flags, and leaves the modes as they were.
 * Nothing else is asked: whatever the bytes, addresses, numbers and lengths, a call ends with a result or a refusal. The library
 * allocates nothing and keeps nothing from one call to the next. A lent table may be longer than is needed. */
#ifndef RIG_H
#define RIG_H

#include <stdbool.h>
#include <stddef.h>
#include <stdint.h>

#ifdef __cplusplus
extern "C" {
#endif

/* ---- the number of the exports ---- */

/* It rises with each change of a declaration, of the layout of a row or of fields, or of what a status means. */
#define RIG_ABI 2

/* The number of the library that is linked. A caller compares the two once, before any other call, and makes none where they
 * differ: `if (rig_abi() != RIG_ABI) abort();`. A library without this function is older than number 1 and does not link. */
uint32_t rig_abi(void);

/* ---- answers ---- */

/* What a call with a status answers: RIG_OK exactly for a result, RIG_NONE exactly for none, else the refusal, by which one knows
 * whose fault it is. Which refusals a call can give is proved: deriving 1 and 2; rig_write 1 to 5; rig_read and rig_search 1 and 10 to
 * 13; rig_check those and 21 to 25; rig_lookup 10, 11 and 14; rig_joints_read 1, 10 and 11; rig_joints_write 1, 5, 6 and 35;
 * rig_rotation_limit_write 5 and 35; rig_translation_limit_write 5. */
enum rig_status {
    RIG_OK = 0,

    /* the caller's */
    RIG_TABLE_TOO_SHORT = 1,  /* a lent table has no room for a row that belongs in it: lend a longer one */
    RIG_BUFFER_TOO_SHORT = 5, /* the output buffer is shorter than the section or record to write: lend a longer one */

    /* of whoever made the bones or the limits */
    RIG_TOO_MANY_BONES = 2,    /* more than 65,535 bones, which a section cannot count */
    RIG_TOO_MANY_CHILDREN = 3, /* more than 65,535 child entries follow from the bones, which a section cannot count; in writing only */
    RIG_BAD_NAME = 4,          /* a bone's name has over 255 bytes, holds a zero byte or lies outside the name bytes; in writing only */
    RIG_TOO_MANY_LIMITS = 6,   /* more than 65,535 rotation limits, or translation limits */
    RIG_BAD_LIMIT_ID = 35,     /* a rotation limit's id is above 65,535: its record has 16 bits for it; in writing only */

    /* of whoever wrote the section */
    RIG_BAD_ADDRESS = 10,    /* an address that is not 0 and in neither half of the section: not 5xxxxxxx or 6xxxxxxx hex */
    RIG_PAST_THE_END = 11,   /* an address past the end of its half, or something there that runs past it: the section may be cut off */
    RIG_OTHER_KIND = 12,     /* an address that was read as one kind of thing before and now as another: two pointers share it */
    RIG_BONES_POINTER = 13,  /* a bones pointer from 1 to 15: the header in front of the first bone cannot stand */
    RIG_CHAIN_TOO_LONG = 14, /* a hash chain with more entries than the stored bone count, perhaps a circle; in lookup only */

    /* of whoever derived the section's tables; in the check only. They are to be derived again from the bones. */
    RIG_CHAINS_DIFFER = 21,   /* the hash chains differ from those of the bones' tags: the game may not find some bone by its tag */
    RIG_PARENTS_DIFFER = 22,  /* the parents list differs from the parents that the bones name */
    RIG_CHILDREN_DIFFER = 23, /* the child list differs from the one that the bones' indices and parents give */
    RIG_INVERSE_DIFFER = 24,  /* an inverse (bind) matrix differs from the one that the bone and its parents give */
    RIG_LOCAL_DIFFER = 25,    /* a local matrix differs from the one that the bone's rotation, translation and scale give */

    /* no refusal: the root address is 0, or no bone is found */
    RIG_NONE = 100
};

/* What a status means, in a sentence for whoever made the rig; of a number that is no status, that it is none. Never null, and not
 * to be freed. It is no function of the library. */
static inline const char *rig_status_text(uint32_t status)
{
    switch (status) {
    case RIG_OK:
        return "nothing is refused: the call did what was asked";
    case RIG_TABLE_TOO_SHORT:
        return "a table lent to the library is too short";
    case RIG_TOO_MANY_BONES:
        return "there are more than 65,535 bones";
    case RIG_TOO_MANY_CHILDREN:
        return "the child list of these bones would have more than 65,535 entries: too many bones have a parent";
    case RIG_BAD_NAME:
        return "a bone's name is longer than 255 bytes, holds a zero byte or lies outside the lent name bytes";
    case RIG_BUFFER_TOO_SHORT:
        return "the buffer to write into is too short";
    case RIG_TOO_MANY_LIMITS:
        return "there are more than 65,535 rotation limits or translation limits";
    case RIG_BAD_ADDRESS:
        return "a pointer leads to neither the system nor the graphics section";
    case RIG_PAST_THE_END:
        return "a pointer, or what it leads to, runs past the end of its section: the file is cut short, or the pointer is wrong";
    case RIG_OTHER_KIND:
        return "two pointers lead to one place and take it for different things";
    case RIG_BONES_POINTER:
        return "the pointer to the bones is from 1 to 15, where no bones can be";
    case RIG_CHAIN_TOO_LONG:
        return "the tag's chain has more entries than the stored bone count: it runs in a circle, or the count or a link is wrong";
    case RIG_CHAINS_DIFFER:
        return "the tag chains differ from those that follow from the bones: the game would not find each bone by its tag";
    case RIG_PARENTS_DIFFER:
        return "the parent list differs from the parents that the bones store";
    case RIG_CHILDREN_DIFFER:
        return "the child list differs from the one that follows from the bones' indices and parents";
    case RIG_INVERSE_DIFFER:
        return "the inverse matrices differ from those that follow from the bones' rotations, translations and parents";
    case RIG_LOCAL_DIFFER:
        return "the local matrices differ from those that follow from each bone's rotation, translation and scale";
    case RIG_BAD_LIMIT_ID:
        return "a rotation limit's bone id is above 65,535, the greatest that its record holds: give the limit an id from 0 to 65,535";
    case RIG_NONE:
        return "there is nothing: the root address is 0, or no bone is found";
    default:
        return "this number is no status of the library";
    }
}

/* ---- sections ---- */

/* A section is its system bytes (`sys`) and its graphics bytes (`gfx`, often none). An address leads to a byte of one of them:
 * base plus offset, the offset below 10000000 hex. Stored numbers are little-endian. */
#define RIG_SYSTEM_BASE UINT64_C(0x50000000)
#define RIG_GRAPHICS_BASE UINT64_C(0x60000000)

/* where a written section has its skeleton or its joints: the root address to read it by */
#define RIG_WRITTEN_ROOT RIG_SYSTEM_BASE

enum {
    /* in a skeleton's record, how far into it the 16-bit counts stand by which the tables for reading are sized */
    RIG_SKELETON_BUCKET_COUNT_AT = 24,
    RIG_SKELETON_BONE_COUNT_AT = 94,
    RIG_SKELETON_CHILD_COUNT_AT = 96,

    /* the kind words that are written; reading takes any */
    RIG_SKELETON_KIND = 1080114336,
    RIG_JOINTS_KIND = 1080130656,

    /* the most bones, child entries, or limits of a kind */
    RIG_MOST = 65535,
    /* the longest name that is written, in bytes, its ending zero not counted */
    RIG_LONGEST_NAME = 255
};

/* ---- rows of the lent tables ---- */

/* a cast, for the macros below */
#ifdef __cplusplus
#define RIG_AS(type, value) static_cast<type>(value)
#else
#define RIG_AS(type, value) ((type)(value))
#endif

/* Floats are held as their 32 bits. Signed 16-bit numbers are held as patterns: from 32768 on they are negative, 65535 is -1.
 * Two of them share a word, one in the lower and one in the upper half. */
#define RIG_LOWER(word) RIG_AS(uint16_t, RIG_AS(uint32_t, word) & 0xFFFFu)
#define RIG_UPPER(word) RIG_AS(uint16_t, RIG_AS(uint32_t, word) >> 16)
#define RIG_PAIR(lower, upper) (RIG_AS(uint32_t, RIG_AS(uint16_t, lower)) | RIG_AS(uint32_t, RIG_AS(uint16_t, upper)) << 16)

/* A bone's row: which word holds what. Any words are a bone. */
enum {
    RIG_BONE_ROTATION = 0,      /* 4 words, a quaternion x, y, z, w */
    RIG_BONE_TRANSLATION = 4,   /* 3 words */
    RIG_BONE_SCALE = 7,         /* 3 words */
    RIG_BONE_NEXT_SIBLING = 10, /* lower half, signed */
    RIG_BONE_PARENT = 10,       /* upper half, signed; negative: a root */
    RIG_BONE_FLAGS = 11,        /* lower half */
    RIG_BONE_INDEX = 11,        /* upper half, signed */
    RIG_BONE_TAG = 12,          /* lower half; the upper half is stored as 0 and not looked at */
    RIG_BONE_KEPT = 13,         /* 4 words, column 4 of the bone's local matrix */
    RIG_BONE_NAME_ADDRESS = 17, /* 2 words, the lower first; 0: the bone has no name */
    RIG_BONE_NAME_SIZE = 19,    /* 2 words, the lower first: the bytes of the name, its ending zero not counted; with name address 0
                                   it is not looked at, and 0 is read */
    RIG_BONE_WORDS = 21
};

/* A bucket is one word, a link. An entry's row is three words. A link is 0, or one more than the row that it leads to. */
enum {
    RIG_ENTRY_TAG = 0,
    RIG_ENTRY_POSITION = 1,
    RIG_ENTRY_LINK = 2,
    RIG_ENTRY_WORDS = 3
};

/* A matrix is four rows of four words, one behind the other: the diagonal is words 0, 5, 10 (and 15), the translation words 12,
 * 13, 14, and column 4 words 3, 7, 11, 15. Parents and children are one 16-bit word each. A row of the pool is four words of
 * 64 bits and a row of the pending list two of 32; both are for the library alone. */
enum {
    RIG_MATRIX_WORDS = 16,
    RIG_POOL_WORDS = 4,
    RIG_PENDING_WORDS = 2
};

/* A limit's row: which word holds what. Id, least, greatest and the others begin at the same words in both kinds. The others are
 * the 4-byte slots of the record that no field names, in their order; slot n is at offset 4 * n. Nothing is held twice: rows that
 * were read are equal exactly when their records are, and a row written and read is as it was (of a rotation limit's last word the
 * lower half). */
enum {
    RIG_LIMIT_ID = 0,       /* all 32 bits; a rotation limit's record has 16 for it, and writing refuses one above 65,535 */
    RIG_LIMIT_LEAST = 1,    /* 3 words */
    RIG_LIMIT_GREATEST = 4, /* 3 words */
    RIG_LIMIT_OTHER = 7,    /* 41 or 9 words */

    /* of a rotation limit: slot 2 of its record is the id and the second number, 23 to 25 are least, 26 to 28 greatest */
    RIG_ROTATION_OTHERS = 41, /* slots 0, 1, 3 to 22 and 29 to 47 */
    RIG_ROTATION_SECOND = 48, /* lower half, a second 16-bit number; the upper half is stored as 0 and not looked at */
    RIG_ROTATION_WORDS = 49,
    RIG_ROTATION_BYTES = 192, /* its record */

    /* of a translation limit: slot 2 of its record is the id, 8 to 10 are least, 12 to 14 greatest */
    RIG_TRANSLATION_OTHERS = 9, /* slots 0, 1, 3 to 7, 11 and 15 */
    RIG_TRANSLATION_WORDS = 16,
    RIG_TRANSLATION_BYTES = 64 /* its record */
};

/* ---- how much to lend, in items of the table ---- */

/* For deriving from n bones, and so for writing and checking them. Buckets and entries are not used below two bones. */
#define RIG_BONES_LENT(n) (RIG_BONE_WORDS * RIG_AS(size_t, n))
#define RIG_BUCKETS_LENT(n) ((n) < 2 ? RIG_AS(size_t, 0) : rig_num_hash_buckets(n))
#define RIG_ENTRIES_LENT(n) ((n) < 2 ? RIG_AS(size_t, 0) : RIG_ENTRY_WORDS * RIG_AS(size_t, n))
#define RIG_MATRICES_LENT(n) (RIG_MATRIX_WORDS * RIG_AS(size_t, n))
#define RIG_PARENTS_LENT(n) RIG_AS(size_t, n)
#define RIG_CHILDREN_LENT(n) (8 * (RIG_AS(size_t, n) + 1))
#define RIG_PENDING_LENT(n) (RIG_PENDING_WORDS * 4 * (RIG_AS(size_t, n) + 1))

/* For reading: buckets, bones, matrices and parents by the record's counts, children by the greater of its child and bone counts,
 * entries by how many the chains reach (in an accepted section RIG_ENTRIES_LENT of its bones). The pool wants a row for each
 * distinct address that is read: these words are always enough, where the entry table has `entries` rows. */
#define RIG_POOL_LENT(entries, bones) (RIG_POOL_WORDS * (RIG_AS(size_t, entries) + 2 * RIG_AS(size_t, bones) + 7))

/* The bytes of a written section of n bones: `names` is the sum of the names' sizes, one more for each name, and `children` the
 * number of child entries (by rig_build_indices; at most RIG_CHILDREN_LENT(n)). None has more than RIG_SECTION_MOST. */
#define RIG_FILLED(bytes) ((RIG_AS(size_t, bytes) + 15) / 16 * 16)
#define RIG_SECTION_BYTES(n, names, children)                                                                                     \
    (112 + RIG_FILLED(8 * RIG_BUCKETS_LENT(n)) + 16 * (RIG_ENTRIES_LENT(n) / RIG_ENTRY_WORDS) +                                   \
     ((n) == 0 ? RIG_AS(size_t, 0) : 16 + 80 * RIG_AS(size_t, n)) + RIG_FILLED(names) + 2 * 64 * RIG_AS(size_t, n) +              \
     RIG_FILLED(2 * RIG_AS(size_t, n)) + RIG_FILLED(2 * RIG_AS(size_t, children)))
#define RIG_SECTION_MOST RIG_AS(size_t, 32243232)

/* the bytes of a written section of r rotation and t translation limits */
#define RIG_JOINTS_BYTES(r, t) (64 + RIG_ROTATION_BYTES * RIG_AS(size_t, r) + RIG_TRANSLATION_BYTES * RIG_AS(size_t, t))

/* ---- fields: little-endian numbers in bytes ---- */

/* The number at offset `at`, or 0 where it does not lie wholly in the `s_len` bytes. */
uint16_t rig_u16_at(const uint8_t *s, size_t s_len, size_t at);
uint32_t rig_u32_at(const uint8_t *s, size_t s_len, size_t at);
uint64_t rig_u64_at(const uint8_t *s, size_t s_len, size_t at);

/* Stores the number at offset `at` and gives true; or gives false where it would not lie wholly in the `d_len` bytes, all of
 * which are then as they were. */
bool rig_put16(uint8_t *d, size_t d_len, size_t at, uint16_t v);
bool rig_put32(uint8_t *d, size_t d_len, size_t at, uint32_t v);
bool rig_put64(uint8_t *d, size_t d_len, size_t at, uint64_t v);

/* What rig_cursor puts into `out`, in the order of the reads. A float is its 32 bits; a signed number is its pattern. */
enum {
    RIG_CURSOR_U8 = 0,
    RIG_CURSOR_U16 = 1,
    RIG_CURSOR_I16 = 2,
    RIG_CURSOR_U32 = 3,
    RIG_CURSOR_U64 = 4,
    RIG_CURSOR_F32 = 5,
    RIG_CURSOR_VEC3 = 6,    /* 3 numbers */
    RIG_CURSOR_VEC4 = 9,    /* 4 numbers */
    RIG_CURSOR_VA = 13,     /* the address, `base` and the position, n bytes behind the last read */
    RIG_CURSOR_STATUS = 14, /* RIG_OK, or RIG_PAST_THE_END where a read ran past the end */
    RIG_CURSOR_NUMBERS = 15
};

/* Reads by a cursor over the `s_len` bytes, which starts at offset `pos`: each kind of read once, then a skip of n bytes. A read
 * that runs past the end gives 0, of a vector for each of its numbers; a skip past the end does no harm. Gives true, and the words of
 * `out` behind the fifteen numbers are as they were; or false where it has no room for them, and every word of it is as it was. A
 * position, or an address, above 2^64 - 1 is 2^64 - 1. */
bool rig_cursor(const uint8_t *s, size_t s_len, size_t pos, uint64_t base, size_t n, uint64_t *out, size_t out_len);

/* ---- deriving: the tables that follow from the first n bones of a table ---- */

/* Each call with a status refuses 2 for n above 65,535, then 1 where `bones` has fewer than n rows or another table is shorter than
 * the macros above say. After RIG_OK a result table holds its rows, with zeros behind them; after a refusal it is all zero, and
 * `*count` is 0. */

/* How many buckets n bones have, of two bones on: the first of 11, 29, 59, 107, 191, 331, 563, 953, 1609, 2729, 4621, 7841,
 * 13297, 22571, 38351, 65167 that is greater than n, else 65521. */
size_t rig_num_hash_buckets(size_t n);

/* The hash chains. `*count` is the number of buckets, 0 below two bones. Bucket b links to the chain of all positions whose tag
 * modulo `*count` is b, falling; row p of `entries` is the entry of position p. */
uint32_t rig_build_bone_tags(const uint32_t *bones, size_t bones_len, size_t n, uint32_t *buckets, size_t buckets_len,
                             uint32_t *entries, size_t entries_len, size_t *count);

/* The parents list, each bone's parent in position order, and the child list: layers of up to four (index, parent) pairs, the last
 * pair repeated up to four. `*count` is the number of child entries, eight for each layer. `pending` is a working table, zero after
 * every call. */
uint32_t rig_build_indices(const uint32_t *bones, size_t bones_len, size_t n, uint16_t *parents, size_t parents_len,
                           uint16_t *children, size_t children_len, uint32_t *pending, size_t pending_len, size_t *count);

/* The matrices. Inverse: of the bone with its parents' rotations and translations applied, up to a parent that is no position
 * below n, for n steps at most; sixteen +0 where the determinant comes out as 0; column 4 is +0. Local: of the bone alone, its
 * diagonal multiplied by the scale; column 4 is the bone's kept words. Another word that is NaN is 7FC00000 hex. */
uint32_t rig_build_transformations(const uint32_t *bones, size_t bones_len, size_t n, uint32_t *inverse, size_t inverse_len,
                                   uint32_t *local, size_t local_len);

/* ---- matrices ---- */

/* Sets the diagonal of a matrix: floats 0, 5 and 10 of `m` are `s`, and every other is as it was. */
void rig_set_scale_vector(float m[RIG_MATRIX_WORDS], const float s[3]);

/* Sets column 4 of a matrix: floats 3, 7, 11 and 15 of `m` are `v`, and every other is as it was. */
void rig_set_column4(float m[RIG_MATRIX_WORDS], const float v[4]);

/* ---- a skeleton's section ---- */

/* What rig_read puts into `fields`. A part whose pointer is 0 does not stand (of the bones: 0 or 16). One whose count is 0 stands,
 * empty: its pointer is not examined, whatever it is (of the bones it is), but counts as read: a bones' block there is 12. */
enum {
    RIG_READ_KIND = 0, /* the kind word, as it is stored */
    RIG_READ_FREE = 1, /* 4 numbers: the words at 28, 80, 84 and 88 of the record */
    /* the counts that the record stores */
    RIG_READ_BUCKET_COUNT = 5,
    RIG_READ_BONE_COUNT = 6,
    RIG_READ_CHILD_COUNT = 7,
    /* of each part 1 if it stands, else 0, and behind it how long it is: rows, but words of the two lists of matrices */
    RIG_READ_BUCKETS = 8,
    RIG_READ_BUCKETS_LENGTH = 9,
    RIG_READ_BONES = 10,
    RIG_READ_BONES_LENGTH = 11,
    RIG_READ_INVERSE = 12,
    RIG_READ_INVERSE_LENGTH = 13,
    RIG_READ_LOCAL = 14,
    RIG_READ_LOCAL_LENGTH = 15,
    RIG_READ_PARENTS = 16,
    RIG_READ_PARENTS_LENGTH = 17,
    RIG_READ_CHILDREN = 18,
    RIG_READ_CHILDREN_LENGTH = 19,
    RIG_READ_FIELDS = 20
};

/* Reads the skeleton at `root`. RIG_OK: each table holds the rows read, from its first row on, with zeros behind them; bone p is row
 * p, and its name's place is where the bytes lie in `sys` or `gfx`. RIG_NONE: root 0. Refuses the first that is met in reading
 * order: 10, 11 for the record's 98 bytes; then buckets with their chains, bones (13 first) with their names, inverse, local,
 * parents, children; at each address 12 (the last four never), 10, 11; and 1 where a row would go into a full table, the pool among
 * them: a bone after its name, a bucket after its chain, a list after its bytes. Unless RIG_OK, all tables and `fields` are zero.
 * The bones' block is sought at their pointer - 16, and that address alone is examined: 50000000 to 5000000F hex are 10, 60000000
 * to 6000000F 11 (unless `sys` is so long). Children at the parents' address are the parents, as many as there are, whatever the
 * child count; local matrices at the inverse matrices' address are these. `pool` is a working table, zero after every call. */
uint32_t rig_read(const uint8_t *sys, size_t sys_len, const uint8_t *gfx, size_t gfx_len, uint64_t root, uint32_t *bones,
                  size_t bones_len, uint32_t *buckets, size_t buckets_len, uint32_t *entries, size_t entries_len,
                  uint32_t *inverse, size_t inverse_len, uint32_t *local, size_t local_len, uint16_t *parents, size_t parents_len,
                  uint16_t *children, size_t children_len, uint64_t *pool, size_t pool_len, size_t fields[RIG_READ_FIELDS]);

/* Writes the section of the first n bones at the front of `out`, its skeleton at its start. Their names lie in `sys` and `gfx`, by
 * the places in their rows; `free` are the record's words at 28, 80, 84 and 88. RIG_OK: `*count` is the number of bytes, a
 * multiple of 16, and what lies behind them is as it was; the section is accepted by rig_check in tables that hold it, and
 * rig_read gives the same bones, bit for bit, their names now lying in it. Refuses 2, 1 where `bones` has fewer than n rows, 4, 1
 * for another table, 3, 5; then `*count` is 0 and `out` as it was. The seven tables between `free` and `out` are working tables,
 * zero after every call. */
uint32_t rig_write(const uint32_t *bones, size_t bones_len, size_t n, const uint8_t *sys, size_t sys_len, const uint8_t *gfx,
                   size_t gfx_len, const uint32_t free[4], uint32_t *buckets, size_t buckets_len, uint32_t *entries,
                   size_t entries_len, uint32_t *inverse, size_t inverse_len, uint32_t *local, size_t local_len,
                   uint16_t *parents, size_t parents_len, uint16_t *children, size_t children_len, uint32_t *pending,
                   size_t pending_len, uint8_t *out, size_t out_len, size_t *count);

/* Looks up a tag, down the chain of the bucket whose number is the tag modulo the bucket count. RIG_OK: `*position` is that of the
 * first entry with the tag; in a section that rig_check accepts, the greatest position of a bone with it. RIG_NONE: root 0, no
 * buckets (pointer or count 0, whatever the other), or no entry with the tag; in an accepted section of two or more bones, no bone
 * has it. Refuses 10, 11 for the record's 98 bytes, then for the whole bucket array; then of each entry 14 where as many as the
 * stored bone count were visited, 10, 11. Unless RIG_OK, `*position` is 0. */
uint32_t rig_lookup(const uint8_t *sys, size_t sys_len, const uint8_t *gfx, size_t gfx_len, uint64_t root, uint16_t tag,
                    size_t *position);

/* Checks the skeleton at `root`. RIG_OK: it reads, and its chains, parents, children and matrices equal, word by word, those
 * derived from the bones read; `*count` is the number of bones, and the tables from `bones` to `children` are as rig_read leaves
 * them. RIG_NONE: root 0. Refuses what rig_read refuses, then 1 where a table from `derived_buckets` on is too short for deriving
 * from the bones read, then 21, 22, 23, 24, 25. Unless RIG_OK, `*count` and all tables are zero. `pool` and the tables from
 * `derived_buckets` to `pending` are working tables, zero after every call. */
uint32_t rig_check(const uint8_t *sys, size_t sys_len, const uint8_t *gfx, size_t gfx_len, uint64_t root, uint32_t *bones,
                   size_t bones_len, uint32_t *buckets, size_t buckets_len, uint32_t *entries, size_t entries_len,
                   uint32_t *inverse, size_t inverse_len, uint32_t *local, size_t local_len, uint16_t *parents,
                   size_t parents_len, uint16_t *children, size_t children_len, uint64_t *pool, size_t pool_len,
                   uint32_t *derived_buckets, size_t derived_buckets_len, uint32_t *derived_entries, size_t derived_entries_len,
                   uint32_t *derived_inverse, size_t derived_inverse_len, uint32_t *derived_local, size_t derived_local_len,
                   uint16_t *derived_parents, size_t derived_parents_len, uint16_t *derived_children,
                   size_t derived_children_len, uint32_t *pending, size_t pending_len, size_t *count);

/* ---- names ---- */

/* The hash of a name's bytes, exactly as they stand: where the game lowers a name's case first, the caller must. */
uint32_t rig_rage_joaat(const uint8_t *s, size_t s_len);

/* Reads the skeleton at `root` and searches its bones by name. RIG_OK: `*position` is that of the first bone whose name's bytes
 * hash to `key`; bones without a name are passed over. RIG_NONE: root 0, or no such bone. Refuses what rig_read refuses. Unless
 * RIG_OK, `*position` is 0. The tables are as rig_read leaves them, also where no bone has the key. */
uint32_t rig_search(const uint8_t *sys, size_t sys_len, const uint8_t *gfx, size_t gfx_len, uint64_t root, uint32_t key,
                    uint32_t *bones, size_t bones_len, uint32_t *buckets, size_t buckets_len, uint32_t *entries,
                    size_t entries_len, uint32_t *inverse, size_t inverse_len, uint32_t *local, size_t local_len,
                    uint16_t *parents, size_t parents_len, uint16_t *children, size_t children_len, uint64_t *pool,
                    size_t pool_len, size_t *position);

/* ---- joints ---- */

/* What rig_joints_read puts into `fields`. A list whose pointer is 0 does not stand. One whose count is 0 stands, empty, and its
 * pointer is not examined, whatever it is. */
enum {
    RIG_JOINTS_READ_KIND = 0, /* the kind word, as it is stored */
    /* the counts that the record stores */
    RIG_JOINTS_READ_ROTATION_COUNT = 1,
    RIG_JOINTS_READ_TRANSLATION_COUNT = 2,
    /* of each list 1 if it stands, else 0, and behind it how many limits it has: the rows of its table */
    RIG_JOINTS_READ_ROTATION = 3,
    RIG_JOINTS_READ_ROTATION_LENGTH = 4,
    RIG_JOINTS_READ_TRANSLATION = 5,
    RIG_JOINTS_READ_TRANSLATION_LENGTH = 6,
    RIG_JOINTS_READ_FIELDS = 7
};

/* Reads the joints at `root`. RIG_OK: the tables hold the limits' rows with zeros behind them. RIG_NONE: root 0. Refuses 10, 11 for
 * the record's 52 bytes, then for the rotation limits 10, 11, and 1 for their table, then the same for the translation limits.
 * Unless RIG_OK, both tables and `fields` are zero. */
uint32_t rig_joints_read(const uint8_t *sys, size_t sys_len, const uint8_t *gfx, size_t gfx_len, uint64_t root,
                         uint32_t *rotation, size_t rotation_len, uint32_t *translation, size_t translation_len,
                         uint32_t fields[RIG_JOINTS_READ_FIELDS]);

/* Writes the section of the first r rows of `rotation` and t of `translation` at the front of `out`, its record at its start.
 * RIG_OK: `*count` is RIG_JOINTS_BYTES(r, t), and what lies behind these bytes is as it was. Refuses 6 for r or t above 65,535, 1
 * where a table has fewer rows, 35 where one of the r rotation limits has an id above 65,535, 5; then `*count` is 0 and `out` as it
 * was. */
uint32_t rig_joints_write(const uint32_t *rotation, size_t rotation_len, size_t r, const uint32_t *translation,
                          size_t translation_len, size_t t, uint8_t *out, size_t out_len, size_t *count);

/* The row of a fresh rotation limit: id, second number, least and greatest are 0, the others as docs/FORMAT.md lists them. */
void rig_fresh_rotation_limit(uint32_t row[RIG_ROTATION_WORDS]);

/* One limit. Reading gives the row of a record, whatever its bytes. Writing gives RIG_OK and the record at the front of `out`, behind
 * which all is as it was; a record read and written has the bytes that it had. It refuses 35 for a rotation limit's id above 65,535,
 * then 5 for a buffer shorter than the record; then `out` is as it was. */
void rig_rotation_limit_read(const uint8_t bytes[RIG_ROTATION_BYTES], uint32_t row[RIG_ROTATION_WORDS]);
uint32_t rig_rotation_limit_write(const uint32_t row[RIG_ROTATION_WORDS], uint8_t *out, size_t out_len);
void rig_translation_limit_read(const uint8_t bytes[RIG_TRANSLATION_BYTES], uint32_t row[RIG_TRANSLATION_WORDS]);
uint32_t rig_translation_limit_write(const uint32_t row[RIG_TRANSLATION_WORDS], uint8_t *out, size_t out_len);

#ifdef __cplusplus
}
#endif

#endif

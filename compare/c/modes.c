/* The float environment: what is asked of the caller, and what another one does. No float work is done here between a change of it
 * and its return, so that the compiler need not know of it. */
#include "checks.h"
#include "desk.h"

#include <fenv.h>
#include <string.h>

#if defined(__SSE2__)
#include <setjmp.h>
#include <signal.h>
#include <xmmintrin.h>
#endif

enum { BONES = 13 };

/* ---- rounding ---- */

static const struct {
    const char *name;
    int mode;
} roundings[] = {{"upward", FE_UPWARD}, {"downward", FE_DOWNWARD}, {"toward zero", FE_TOWARDZERO}};

static void expect_check(const struct desk *k, uint32_t status, const char *what)
{
    expect_number(check_skeleton(k, RIG_WRITTEN_ROOT), status, "rig_check of %s", what);
}

/* With another rounding the horse is refused with 24, and with the default one it is accepted again. */
static void rounded_check(const char *path, size_t i)
{
    struct desk k = lend_desk(load(path), BONES);
    expect(fesetround(roundings[i].mode) == 0, "rounding %s", roundings[i].name);
    uint32_t status = check_skeleton(&k, RIG_WRITTEN_ROOT);
    expect(fegetround() == roundings[i].mode, "the rounding after rig_check");
    expect(fesetround(FE_TONEAREST) == 0, "rounding to nearest");
    expect_number(status, RIG_INVERSE_DIFFER, "rig_check of the horse, rounding %s", roundings[i].name);
    expect_check(&k, RIG_OK, "the horse, rounding to nearest again");
    give_back();
}

/* What is written with another rounding is another section, which is refused with the default one. */
static void rounded_write(const char *path, size_t i)
{
    struct desk k = lend_desk(load(path), BONES);
    struct bytes out = lend_bytes("out", k.s.sys.len);
    expect_number(read_skeleton(&k, RIG_WRITTEN_ROOT), RIG_OK, "rig_read of the horse");
    expect(fesetround(roundings[i].mode) == 0, "rounding %s", roundings[i].name);
    uint32_t status = rig_write(LENT(k.r.bones), BONES, SECTION(k.s), k.free, DERIVED(k.d), LENT(out), k.count.at);
    expect(fesetround(FE_TONEAREST) == 0, "rounding to nearest");
    expect_number(status, RIG_OK, "rig_write of the horse, rounding %s", roundings[i].name);
    expect_number(*k.count.at, out.len, "the bytes of the horse, rounding %s", roundings[i].name);
    k = lend_desk((struct section){out, k.s.gfx}, BONES);
    expect_check(&k, RIG_INVERSE_DIFFER, "a horse that was written with another rounding");
    give_back();
}

/* The check of the horse rounds, and leaves the flag of it. */
static void flags_are_raised(const struct desk *k)
{
    expect(feclearexcept(FE_ALL_EXCEPT) == 0, "clearing the float exception flags");
    expect_check(k, RIG_OK, "the horse, with no flag raised");
    expect(fetestexcept(FE_INEXACT) != 0, "the flag that a result was rounded");
}

#if defined(__SSE2__)

/* ---- subnormal numbers ---- */

/* bits of the control word */
enum { FLUSH_TO_ZERO = 0x8000, DENORMALS_ARE_ZERO = 0x0040, INEXACT_DOES_NOT_TRAP = 0x1000, FLAGS = 0x3F };

/* The section of one root, the identity but for a subnormal number in this word of its row, is refused so with other modes. */
static void subnormal(size_t word, uint32_t refusal)
{
    static const unsigned modes[] = {FLUSH_TO_ZERO, DENORMALS_ARE_ZERO, FLUSH_TO_ZERO | DENORMALS_ARE_ZERO};
    const unsigned usual = _mm_getcsr();
    struct words bones = lend_words("bones", RIG_BONES_LENT(1));
    memset(bones.at, 0, bones.len * sizeof *bones.at);
    bones.at[RIG_BONE_ROTATION + 3] = 0x3F800000;
    for (size_t i = 0; i < 3; i++)
        bones.at[RIG_BONE_SCALE + i] = 0x3F800000;
    bones.at[RIG_BONE_PARENT] = RIG_PAIR(-1, -1);
    bones.at[word] = 5;
    struct desk k = lend_desk(lend_section(0), 1);
    struct bytes out = lend_bytes("out", RIG_SECTION_BYTES(1, 0, 0));
    expect_number(write_bones(&k, bones, 1, out), RIG_OK, "rig_write of a subnormal number");
    k = lend_desk((struct section){out, k.s.gfx}, 1);
    for (size_t i = 0; i < sizeof modes / sizeof *modes; i++) {
        _mm_setcsr(usual | modes[i]);
        uint32_t status = check_skeleton(&k, RIG_WRITTEN_ROOT);
        unsigned after = _mm_getcsr();
        _mm_setcsr(usual);
        expect_number(after | FLAGS, usual | modes[i] | FLAGS, "the mode after rig_check");
        expect_number(status, refusal, "rig_check of a subnormal number, mode %x", modes[i]);
        expect_check(&k, RIG_OK, "a subnormal number, in the usual mode again");
    }
    give_back();
}

/* ---- traps ---- */

static jmp_buf back;

static void trapped(int number)
{
    (void)number;
    longjmp(back, 1);
}

/* Where a rounded result traps, the check of the horse does not return. */
static void trap(const struct desk *k)
{
    const unsigned usual = _mm_getcsr();
    volatile bool returned = false;
    expect(signal(SIGFPE, trapped) != SIG_ERR, "handling a trap");
    if (setjmp(back) == 0) {
        _mm_setcsr(usual & ~(unsigned)INEXACT_DOES_NOT_TRAP);
        check_skeleton(k, RIG_WRITTEN_ROOT);
        returned = true;
    }
    _mm_setcsr(usual);
    expect(signal(SIGFPE, SIG_DFL) != SIG_ERR, "handling no trap");
    expect(!returned, "rig_check of the horse where a rounded result traps");
    expect_check(k, RIG_OK, "the horse, where nothing traps again");
}

#endif

void float_modes(const char *path)
{
    expect(fegetround() == FE_TONEAREST, "the rounding that the program begins with");
    for (size_t i = 0; i < sizeof roundings / sizeof *roundings; i++) {
        rounded_check(path, i);
        rounded_write(path, i);
    }
    struct desk k = lend_desk(load(path), BONES);
    flags_are_raised(&k);
#if defined(__SSE2__)
    trap(&k);
    give_back();
    subnormal(RIG_BONE_TRANSLATION, RIG_INVERSE_DIFFER);
    subnormal(RIG_BONE_SCALE, RIG_LOCAL_DIFFER);
#else
    give_back();
#endif
}

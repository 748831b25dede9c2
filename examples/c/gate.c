/* The verdict on a job by gates: enough is matched, little enough is unread, and nothing passes where there is
 * nothing. Floats must be as IEEE 754 has them: where a thread has others, as fesetround and -ffast-math leave
 * them, no gate is asked. What would be answered then is shown last. */
#include "xapool.h"
#include <inttypes.h>
#include <stdio.h>
#include <stdlib.h>
#include <string.h>
#include <xmmintrin.h>

/* Bits of MXCSR: rounding (0 is to nearest), and subnormals read as 0 or written as 0. */
#define ROUND_DOWN 0x2000u
#define ROUND_UP 0x4000u
#define ROUND_TO_ZERO 0x6000u
#define SUBNORMALS_LOST 0x8040u

enum verdict { PASS, FAIL, REFUSED, NOT_ASKED };

static const char *const verdict_text[] = { "pass", "fail", "refused", "not asked: these floats are not IEEE 754's" };

/* The only way to ask: first whether the answer is worth anything. */
static enum verdict gate(uint64_t kind, double a, double b, uint32_t part, uint32_t total)
{
    if (!xapool_floats_are_ieee())
        return NOT_ASKED;
    xapool_result r = xapool_gate(kind, a, b, part, total);
    if (r.answer != XAPOOL_DONE) {
        printf("  (%s)\n", xapool_answer_text(r.answer));
        return REFUSED;
    }
    return r.number == 1 ? PASS : FAIL;
}

static void expect(const char *what, enum verdict found, enum verdict wanted)
{
    printf("%s: %s\n", what, verdict_text[found]);
    if (found != wanted) {
        fprintf(stderr, "gate: %s: wanted %s\n", what, verdict_text[wanted]);
        exit(1);
    }
}

static double of_bits(uint64_t bits)
{
    double d;
    memcpy(&d, &bits, sizeof d);
    return d;
}

static void a_job(void)
{
    const double nan = of_bits(UINT64_C(0x7FF8000000000000));
    expect("9,990 of 10,000 matched, at least 0.999", gate(XAPOOL_MATCHED_AT_LEAST, 0.999, 0, 9990, 10000), PASS);
    expect("9,989 of 10,000 matched, at least 0.999", gate(XAPOOL_MATCHED_AT_LEAST, 0.999, 0, 9989, 10000), FAIL);
    expect("all but one of 4,294,967,295 matched, at least 1",
           gate(XAPOOL_MATCHED_AT_LEAST, 1, 0, UINT32_MAX - 1, UINT32_MAX), FAIL);
    expect("1 of 4,294,967,295 unread, at most 0", gate(XAPOOL_UNREAD_AT_MOST, 0, 0, 1, UINT32_MAX), FAIL);
    expect("none of 10,000 unread, at most 0", gate(XAPOOL_UNREAD_AT_MOST, nan, 0, 0, 10000), PASS);
    expect("half matched, between a half and itself", gate(XAPOOL_MATCHED_BETWEEN, 0.5, 0.5, 5000, 10000), PASS);
    expect("none of none unread, at most 0", gate(XAPOOL_UNREAD_AT_MOST, 0, 0, 0, 0), REFUSED);
    expect("11 of 10 matched", gate(XAPOOL_MATCHED_AT_LEAST, 0, 0, 11, 10), REFUSED);
    expect("a limit that is not a number", gate(XAPOOL_MATCHED_AT_LEAST, nan, 0, 10, 10), REFUSED);
    expect("no such kind", gate(4, 0, 1, 10, 10), REFUSED);
}

/* One of three against the next float above 1/3, and none of one against the least float above 0: both fail. */
static xapool_result above_a_third(void)
{
    return xapool_gate(XAPOOL_MATCHED_AT_LEAST, of_bits(UINT64_C(0x3FD5555555555556)), 0, 1, 3);
}

static xapool_result above_nothing(void)
{
    return xapool_gate(XAPOOL_MATCHED_AT_LEAST, of_bits(1), 0, 0, 1);
}

static void with_mode(const char *name, unsigned bits, uint64_t third, uint64_t nothing)
{
    unsigned before = _mm_getcsr();
    _mm_setcsr(before | bits);
    enum verdict asked = gate(XAPOOL_MATCHED_AT_LEAST, 0.5, 0, 1, 1);
    xapool_result t = above_a_third(), n = above_nothing();
    _mm_setcsr(before);
    expect(name, asked, NOT_ASKED);
    printf("  unasked it says %" PRIu64 " of the float above a third and %" PRIu64 " of the least above 0\n", t.number,
           n.number);
    if (t.number != third || n.number != nothing) {
        fprintf(stderr, "gate: %s: wanted %" PRIu64 " and %" PRIu64 "\n", name, third, nothing);
        exit(1);
    }
}

int main(void)
{
    a_job();
    if (above_a_third().number != 0 || above_nothing().number != 0)
        return 1;
    with_mode("rounding up", ROUND_UP, 1, 0); /* a pass that is none */
    with_mode("subnormals lost", SUBNORMALS_LOST, 0, 1); /* and another */
    with_mode("rounding down", ROUND_DOWN, 0, 0);
    with_mode("rounding to zero", ROUND_TO_ZERO, 0, 0);
    expect("and as it was", gate(XAPOOL_MATCHED_AT_LEAST, 0.5, 0, 1, 1), PASS);
    return 0;
}

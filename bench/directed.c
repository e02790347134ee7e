/* The loads of documents 01 and 02 with MPFR and directed rounding: the same promise as silo_loads. A filling pressure is worked out with
 * every step rounded to the side that makes it greater, and rounded up to a whole number; each step is correctly rounded, so that none
 * falls where its argument grows, and the pressure never falls with depth. The loads made from filling are whole-number arithmetic. */
#include "sheet.h"
#include <mpfr.h>

enum { BITS = 64 };

/* P and q for each mm of depth, rounded up, in a row of document 01's factors. */
struct curve {
    mpfr_t limit, step;
};

static uint64_t up(uint64_t n, uint64_t divisor) {
    return (n + divisor - 1) / divisor;
}

static void set_quotient(mpfr_t to, uint64_t n, uint64_t divisor, mpfr_rnd_t rounding) {
    mpfr_init2(to, BITS);
    mpfr_set_ui(to, n, MPFR_RNDN);
    mpfr_div_ui(to, to, divisor, rounding);
}

/* Tops and bottoms of q for each mm: 2(a+b)·Ks·μ with their factors, over a·b·10^8. */
static uint64_t step_top(const struct silo *s, uint64_t ratio_factor, uint64_t friction_factor) {
    return 2 * ((uint64_t)s->a + s->b) * (s->ratio * ratio_factor) * (s->friction * friction_factor);
}

static uint64_t step_bottom(const struct silo *s) {
    return (uint64_t)s->a * s->b * 100000000;
}

/* limit·(1 - e^(-step·z)), rounded up. */
static uint64_t pressure(const struct curve *curve, uint32_t z, mpfr_t t) {
    mpfr_mul_ui(t, curve->step, z, MPFR_RNDU);
    mpfr_neg(t, t, MPFR_RNDN);
    mpfr_exp(t, t, MPFR_RNDD);
    mpfr_ui_sub(t, 1, t, MPFR_RNDU);
    mpfr_mul(t, curve->limit, t, MPFR_RNDU);
    return mpfr_get_ui(t, MPFR_RNDU);
}

/* What P_w takes besides γR: the step of q rounded down, and z0 in mm rounded down. */
struct wall {
    mpfr_t step, z0;
};

/* γR·(z - z0·(1 - e^(-q))), with the part that is taken away rounded down, and the rest up. */
static uint64_t wall_load(const struct curve *friction, const struct wall *wall, uint32_t z, mpfr_t t) {
    mpfr_mul_ui(t, wall->step, z, MPFR_RNDD);
    mpfr_neg(t, t, MPFR_RNDN);
    mpfr_exp(t, t, MPFR_RNDU);
    mpfr_ui_sub(t, 1, t, MPFR_RNDD);
    mpfr_mul(t, wall->z0, t, MPFR_RNDD);
    mpfr_ui_sub(t, z, t, MPFR_RNDU);
    mpfr_mul(t, friction->limit, t, MPFR_RNDU);
    mpfr_div_ui(t, t, 1000, MPFR_RNDU);
    return mpfr_get_ui(t, MPFR_RNDU);
}

/* The loads at one depth. */
static void directed_depth(const struct silo *s, const struct curve curves[3], const struct wall *wall, struct factors factors,
                           uint32_t i, uint32_t *answers, mpfr_t t) {
    uint32_t z = load_depth(s, s->depths[i]);
    uint64_t d_c = width_of(s), e = s->e_i > s->e_o ? s->e_i : s->e_o;
    uint64_t p_hf = pressure(&curves[0], z, t), p_wf = pressure(&curves[2], z, t), p_he = up(factors.c_h * p_hf, factors.bottom);
    answers[place(s, SILO_Z, i)] = s->depths[i];
    answers[place(s, SILO_P_HF, i)] = (uint32_t)p_hf;
    answers[place(s, SILO_P_WF, i)] = (uint32_t)p_wf;
    answers[place(s, SILO_P_VF, i)] = (uint32_t)pressure(&curves[1], z, t);
    answers[place(s, SILO_P_W, i)] = (uint32_t)wall_load(&curves[2], wall, z, t);
    answers[place(s, SILO_P_HE, i)] = (uint32_t)p_he;
    answers[place(s, SILO_P_WE, i)] = (uint32_t)up(factors.c_w * p_wf, factors.bottom);
    answers[place(s, SILO_P_P, i)] = (uint32_t)up(p_he * (d_c + 4 * e), 5 * d_c);
}

/* The least n with 0.9·μ·n² >= B², B = up(3·R·γ·1.15·Ks·sin²α). */
static uint64_t hopper_filling(const struct silo *s, uint64_t height, uint64_t slope) {
    unsigned __int128 top = (unsigned __int128)3 * s->a * s->b * s->weight * 115 * s->ratio * height;
    unsigned __int128 bottom = (unsigned __int128)2 * (s->a + s->b) * 10000000 * slope;
    uint64_t base = (uint64_t)((top + bottom - 1) / bottom), low = 0, high = 4 * base;
    while (low < high) {
        uint64_t n = low + (high - low) / 2;
        if ((unsigned __int128)90 * s->friction * n * n >= (unsigned __int128)10000 * base * base)
            high = n;
        else
            low = n + 1;
    }
    return low;
}

static void directed_bottom(const struct silo *s, uint64_t p_vf, uint32_t *bottom) {
    for (int i = 0; i < BOTTOM; i++)
        bottom[i] = 0;
    if (s->run == 0) {
        bottom[0] = (uint32_t)up(12 * p_vf, 10);
        return;
    }
    uint64_t height = (uint64_t)s->hopper * s->hopper, run = (uint64_t)s->run * s->run, slope = height + run;
    uint64_t n3 = hopper_filling(s, height, slope);
    for (uint64_t k = 0; k < 5; k++) {
        uint64_t normal = n3 + up(p_vf * (24 * run + 5 * k * height), 20 * slope);
        bottom[k] = (uint32_t)normal;
        bottom[5 + k] = (uint32_t)up(normal * 115 * s->friction, 10000);
    }
}

static void prepare(const struct silo *s, struct curve curves[3], struct wall *wall) {
    uint64_t area = (uint64_t)s->a * s->b * s->weight, sides = 2 * ((uint64_t)s->a + s->b), under = step_bottom(s);
    set_quotient(curves[0].limit, area * 10, sides * s->friction * 90, MPFR_RNDU);
    set_quotient(curves[0].step, step_top(s, 115, 90), under, MPFR_RNDU);
    set_quotient(curves[1].limit, area * 100000, sides * s->friction * 90 * s->ratio * 90, MPFR_RNDU);
    set_quotient(curves[1].step, step_top(s, 90, 90), under, MPFR_RNDU);
    set_quotient(curves[2].limit, area, sides * 1000, MPFR_RNDU);
    set_quotient(curves[2].step, step_top(s, 115, 115), under, MPFR_RNDU);
    set_quotient(wall->step, step_top(s, 115, 115), under, MPFR_RNDD);
    set_quotient(wall->z0, under, step_top(s, 115, 115), MPFR_RNDD);
}

static void fill(const struct silo *s, const struct curve curves[3], const struct wall *wall, uint32_t *answers) {
    struct factors factors = factors_of(s);
    mpfr_t t;
    mpfr_init2(t, BITS);
    for (uint32_t i = 0; i < s->depth_count; i++)
        directed_depth(s, curves, wall, factors, i, answers, t);
    uint32_t *bottom = bottom_of(s, answers), edge = 0;
    directed_bottom(s, pressure(&curves[1], load_depth(s, foot_of(s)), t), bottom);
    for (uint32_t i = 0; i < s->strake_count; i++) {
        edge += s->strakes[i];
        bottom[BOTTOM + i] = (uint32_t)up(factors.c_h * pressure(&curves[0], load_depth(s, edge), t), factors.bottom);
    }
    mpfr_clear(t);
}

uint32_t directed_loads(const uint8_t *sheet, size_t sheet_len, uint32_t *answers, size_t answers_len) {
    struct silo s;
    uint32_t refusal = read_call(sheet, sheet_len, answers_len, &s);
    if (refusal != 0)
        return refusal;
    struct curve curves[3];
    struct wall wall;
    prepare(&s, curves, &wall);
    fill(&s, curves, &wall, answers);
    for (int i = 0; i < 3; i++)
        mpfr_clears(curves[i].limit, curves[i].step, (mpfr_ptr)0);
    mpfr_clears(wall.step, wall.z0, (mpfr_ptr)0);
    return 0;
}

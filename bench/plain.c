/* The loads of documents 01 and 02 in double arithmetic with libm, for comparison of times only. */
#include "sheet.h"
#include <math.h>

/* P, and z0 in m. */
struct curve {
    double limit, z0;
};

static double pressure(struct curve curve, double z) {
    return ceil(curve.limit * (1 - exp(-z / curve.z0)));
}

struct discharge {
    double c_h, c_w;
};

static struct discharge discharge_of(const struct silo *s) {
    struct factors factors = factors_of(s);
    return (struct discharge){(double)factors.c_h / factors.bottom, (double)factors.c_w / factors.bottom};
}

/* The loads at one depth. */
static void plain_depth(const struct silo *s, struct discharge discharge, uint32_t i, const struct curve curves[3], uint32_t *answers) {
    double d_c = width_of(s), e = s->e_i > s->e_o ? s->e_i : s->e_o;
    double z = load_depth(s, s->depths[i]) / 1e3, bracket = 1 - exp(-z / curves[2].z0);
    double p_hf = pressure(curves[0], z), p_wf = ceil(curves[2].limit * bracket), p_he = ceil(discharge.c_h * p_hf);
    answers[place(s, SILO_Z, i)] = s->depths[i];
    answers[place(s, SILO_P_HF, i)] = (uint32_t)p_hf;
    answers[place(s, SILO_P_WF, i)] = (uint32_t)p_wf;
    answers[place(s, SILO_P_VF, i)] = (uint32_t)pressure(curves[1], z);
    answers[place(s, SILO_P_W, i)] = (uint32_t)ceil(curves[2].limit * (z - curves[2].z0 * bracket));
    answers[place(s, SILO_P_HE, i)] = (uint32_t)p_he;
    answers[place(s, SILO_P_WE, i)] = (uint32_t)ceil(discharge.c_w * p_wf);
    answers[place(s, SILO_P_P, i)] = (uint32_t)ceil(0.2 * (1 + 4 * e / d_c) * p_he);
}

static void plain_bottom(const struct silo *s, double radius, double p_vf, uint32_t *bottom) {
    double height = s->hopper, run = s->run, friction = s->friction / 1e2;
    for (int i = 0; i < BOTTOM; i++)
        bottom[i] = 0;
    if (run == 0) {
        bottom[0] = (uint32_t)ceil(1.2 * p_vf);
        return;
    }
    double sine = height * height / (height * height + run * run);
    double base = ceil(3 * radius * s->weight * 1.15 * (s->ratio / 1e2) * sine), n3 = ceil(base / sqrt(0.9 * friction));
    for (int k = 0; k < 5; k++) {
        double normal = n3 + ceil(p_vf * (1.2 * (1 - sine) + sine * k / 4));
        bottom[k] = (uint32_t)normal;
        bottom[5 + k] = (uint32_t)ceil(normal * 1.15 * friction);
    }
}

uint32_t plain_loads(const uint8_t *sheet, size_t sheet_len, uint32_t *answers, size_t answers_len) {
    struct silo s;
    uint32_t refusal = read_call(sheet, sheet_len, answers_len, &s);
    if (refusal != 0)
        return refusal;
    double radius = (double)s.a * s.b / (2e3 * ((double)s.a + s.b)), ratio = s.ratio / 1e2, friction = s.friction / 1e2;
    const struct curve curves[3] = {
        {s.weight * radius / (0.9 * friction), radius / (1.15 * ratio * 0.9 * friction)},
        {s.weight * radius / (0.9 * friction * 0.9 * ratio), radius / (0.9 * ratio * 0.9 * friction)},
        {s.weight * radius, radius / (1.15 * ratio * 1.15 * friction)},
    };
    struct discharge discharge = discharge_of(&s);
    for (uint32_t i = 0; i < s.depth_count; i++)
        plain_depth(&s, discharge, i, curves, answers);
    uint32_t *bottom = bottom_of(&s, answers), edge = 0;
    plain_bottom(&s, radius, pressure(curves[1], load_depth(&s, foot_of(&s)) / 1e3), bottom);
    for (uint32_t i = 0; i < s.strake_count; i++) {
        edge += s.strakes[i];
        bottom[BOTTOM + i] = (uint32_t)ceil(discharge.c_h * pressure(curves[0], load_depth(&s, edge) / 1e3));
    }
    return 0;
}

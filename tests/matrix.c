/*
 * The entries that collect rows and move a position, from C: every refusal and every order of rows, buffers that are one short, just
 * long enough and longer; then drawn rows and positions, doubles of every sort among them, beside C's own doubles in the same order.
 * Prints what differs from what the header says, and its status is then 1.
 *
 *     matrix [POSITIONS [SEED]]
 *
 * POSITIONS are drawn, a million if the number isn't given.
 */
#include <saltighedda.h>

#include <float.h>
#include <inttypes.h>
#include <math.h>
#include <stdio.h>
#include <stdlib.h>
#include <string.h>

enum { MOST_TOLD = 20, LONGER = 2 };

static int failures;

static int hold(int fact, const char *what)
{
    if (!fact && failures++ < MOST_TOLD)
        printf("matrix: %s\n", what);
    return fact;
}

static uint64_t refusal(uint64_t number, uint64_t length)
{
    return (number << 48) + length;
}

static uint64_t bits(double x)
{
    uint64_t b;
    memcpy(&b, &x, sizeof b);
    return b;
}

static double from_bits(uint64_t b)
{
    double x;
    memcpy(&x, &b, sizeof x);
    return x;
}

/* The same double, to the bit; which NaN comes of an operation is left open. */
static int same(double x, double y)
{
    return bits(x) == bits(y) || (x != x && y != y);
}

/* ---- What is lent, with some room behind it that has to stay as it is. ---- */

struct lent {
    double rows[SALTIGHEDDA_ROWS + LONGER];
    uint8_t set[SALTIGHEDDA_SET + LONGER];
};

static struct lent fresh(void)
{
    struct lent l;
    for (size_t i = 0; i < SALTIGHEDDA_ROWS + LONGER; i++)
        l.rows[i] = 1000.0 + (double)i;
    memset(l.set, 0, sizeof l.set);
    l.set[SALTIGHEDDA_SET] = 7;
    return l;
}

static int lent_same(const struct lent *a, const struct lent *b)
{
    for (size_t i = 0; i < SALTIGHEDDA_ROWS + LONGER; i++)
        if (bits(a->rows[i]) != bits(b->rows[i]))
            return 0;
    return memcmp(a->set, b->set, sizeof a->set) == 0;
}

static void rows_collected(void)
{
    static const uint64_t far[] = {3, 4, 255, 256, UINT64_C(1) << 32, UINT64_C(1) << 62, UINT64_MAX};
    for (size_t i = 0; i < sizeof far / sizeof *far; i++) {
        struct lent l = fresh(), old = l;
        hold(saltighedda_matrix_row(far[i], 1, 2, 3, 4, l.rows, 12, l.set, 3) == refusal(13, 0), "a row above 2 isn't 13");
        hold(saltighedda_matrix_row(far[i], 1, 2, 3, 4, NULL, 0, NULL, 0) == refusal(13, 0), "13 doesn't come before 8");
        hold(lent_same(&l, &old), "a row above 2 changed something");
    }
    for (uint64_t row = 0; row < 3; row++) {
        for (size_t doubles = 0; doubles < 12; doubles++) {
            struct lent l = fresh(), old = l;
            hold(saltighedda_matrix_row(row, 1, 2, 3, 4, l.rows, doubles, l.set, 0) == refusal(8, 12), "too few doubles aren't 8 and 12");
            hold(lent_same(&l, &old), "too few doubles changed something");
        }
        for (size_t marks = 0; marks < 3; marks++) {
            struct lent l = fresh(), old = l;
            hold(saltighedda_matrix_row(row, 1, 2, 3, 4, l.rows, 12, l.set, marks) == refusal(8, 3), "too few bytes aren't 8 and 3");
            hold(lent_same(&l, &old), "too few bytes changed something");
        }
        for (size_t more = 0; more <= LONGER; more++) {
            struct lent l = fresh(), wanted = l;
            hold(saltighedda_matrix_row(row, 1, -0.0, NAN, INFINITY, l.rows, 12 + more, l.set, 3 + more) == 0, "a good row was refused");
            wanted.rows[4 * row] = 1;
            wanted.rows[4 * row + 1] = -0.0;
            wanted.rows[4 * row + 2] = NAN;
            wanted.rows[4 * row + 3] = INFINITY;
            wanted.set[row] = 1;
            hold(lent_same(&l, &wanted), "a row wasn't put as the header says");
            hold(saltighedda_matrix_row(row, 5, 6, 7, 8, l.rows, 12 + more, l.set, 3 + more) == 0, "a later row was refused");
            for (size_t i = 0; i < 4; i++)
                wanted.rows[4 * row + i] = 5.0 + (double)i;
            hold(lent_same(&l, &wanted), "a later row didn't replace the earlier one");
        }
    }
}

static void refused_positions(void)
{
    struct lent l = fresh();
    for (unsigned sets = 0; sets < 8; sets++) {
        for (size_t i = 0; i < 3; i++)
            l.set[i] = sets >> i & 1 ? (uint8_t)(i == 2 ? 255 : 1 + i) : 0;
        double out[5] = {-1, -2, -3, -4, -5};
        uint64_t told = saltighedda_apply(l.rows, 12, l.set, 3, 1, 2, 3, out, 3);
        hold(told == (sets == 7 ? 0 : refusal(14, 0)), "a matrix with a row unset isn't 14");
        hold((out[0] == -1 && out[1] == -2 && out[2] == -3) == (sets != 7), "14 changed the output");
        hold(out[3] == -4 && out[4] == -5, "what is behind the three changed");
    }
    memset(l.set, 1, 3);
    for (size_t doubles = 0; doubles < 12; doubles++)
        hold(saltighedda_apply(l.rows, doubles, l.set, 3, 1, 2, 3, NULL, 0) == refusal(14, 0), "under twelve doubles aren't 14");
    for (size_t marks = 0; marks < 3; marks++)
        hold(saltighedda_apply(l.rows, 12, l.set, marks, 1, 2, 3, NULL, 0) == refusal(14, 0), "under three bytes aren't 14");
    for (size_t room = 0; room < 5; room++) {
        double out[5] = {-1, -2, -3, -4, -5};
        uint64_t told = saltighedda_apply(l.rows, 14, l.set, 5, 1, 2, 3, out, room);
        hold(told == (room < 3 ? refusal(8, 3) : 0), "an output under three doubles isn't 8 and 3");
        hold((out[0] == -1 && out[1] == -2 && out[2] == -3) == (room < 3), "8 changed the output");
        hold(out[3] == -4 && out[4] == -5, "what is behind the three changed");
    }
}

/* ---- Drawn. ---- */

static uint64_t state;

static uint64_t draw(void)
{
    state += UINT64_C(0x9E3779B97F4A7C15);
    uint64_t z = state;
    z = (z ^ z >> 30) * UINT64_C(0xBF58476D1CE4E5B9);
    z = (z ^ z >> 27) * UINT64_C(0x94D049BB133111EB);
    return z ^ z >> 31;
}

/* Half of them as in files; else any bits, few bits, or one of those at an edge. */
static double draw_double(void)
{
    static const double edges[] = {0.0, -0.0, 1.0, -1.0, DBL_MIN, DBL_MAX, -DBL_MAX, DBL_TRUE_MIN, INFINITY, -INFINITY, NAN, 0x1p1023, 0x1p-1074};
    switch (draw() % 8) {
    case 0:
        return from_bits(draw());
    case 1:
        return edges[draw() % (sizeof edges / sizeof *edges)];
    case 2:
        return ldexp((double)(int64_t)(draw() % 2001) - 1000, (int)(draw() % 120) - 60);
    case 3:
        return ((double)(int64_t)(draw() % 2000001) - 1000000) / 1e6;
    default:
        return ((double)(int64_t)(draw() % 20000001) - 10000000) / 1e3;
    }
}

/* By C, each operation into a double of its own, so that nothing is fused. */
static double by_c(const double *row, const double *p)
{
    volatile double ax = row[0] * p[0], by = row[1] * p[1], cz = row[2] * p[2];
    volatile double two = ax + by;
    volatile double three = two + cz;
    return three + row[3];
}

static void drawn(unsigned long count)
{
    unsigned long moved = 0, numbers = 0;
    struct lent l = fresh();
    for (unsigned long n = 0; n < count; n++) {
        if (n % 4 == 0) {
            size_t first = (size_t)(draw() % 3);
            for (size_t i = 0; i < 3; i++) {
                double v[4];
                for (size_t k = 0; k < 4; k++)
                    v[k] = draw_double();
                hold(saltighedda_matrix_row((first + i) % 3, v[0], v[1], v[2], v[3], l.rows, 12, l.set, 3) == 0, "a drawn row was refused");
                for (size_t k = 0; k < 4; k++)
                    hold(same(l.rows[4 * ((first + i) % 3) + k], v[k]), "a drawn row isn't there");
            }
        }
        double p[3] = {draw_double(), draw_double(), draw_double()}, out[3];
        hold(saltighedda_apply(l.rows, 12, l.set, 3, p[0], p[1], p[2], out, 3) == 0, "a drawn position was refused");
        for (size_t i = 0; i < 3; i++) {
            double wanted = by_c(l.rows + 4 * i, p);
            if (!hold(same(out[i], wanted), "a coordinate isn't C's own") && failures <= MOST_TOLD)
                printf("matrix: %a, C has %a\n", out[i], wanted);
            numbers += wanted == wanted;
            moved++;
        }
    }
    hold(count < 1000 || (numbers > moved / 8 && numbers < moved), "the drawn coordinates are all of one sort");
}

int main(int argc, char **argv)
{
    unsigned long count = argc > 1 ? strtoul(argv[1], NULL, 10) : 1000000;
    state = argc > 2 ? strtoull(argv[2], NULL, 10) : 2026;
    rows_collected();
    refused_positions();
    drawn(count);
    return failures == 0 ? 0 : 1;
}

/*
 * Hands drawn rows to the port, those that differential/rows.rs hands to the Rust, and prints for each whether there is a matrix, and which. The
 * two have to print the same.
 */
#include <saltighedda.h>

#include <inttypes.h>
#include <stdio.h>
#include <string.h>

/* Marsaglia's xorshift, as in the Rust program. */
static uint64_t next(void)
{
    static uint64_t state = UINT64_C(88172645463325252);
    state ^= state << 13;
    state ^= state >> 7;
    state ^= state << 17;
    return state;
}

static double drawn(void)
{
    uint64_t bits = next();
    double x;
    memcpy(&x, &bits, sizeof x);
    return x;
}

static void tell(const double *rows, const uint8_t *set)
{
    double moved[3];
    uint64_t bits[SALTIGHEDDA_ROWS];
    if (saltighedda_apply(rows, SALTIGHEDDA_ROWS, set, SALTIGHEDDA_SET, 0, 0, 0, moved, 3) != 0) {
        puts("none");
        return;
    }
    memcpy(bits, rows, sizeof bits);
    for (int i = 0; i < SALTIGHEDDA_ROWS; i++)
        printf("%016" PRIX64 "%c", bits[i], i + 1 < SALTIGHEDDA_ROWS ? ' ' : '\n');
}

int main(void)
{
    for (int i = 0; i < 20000; i++) {
        double rows[SALTIGHEDDA_ROWS] = { 0 };
        uint8_t set[SALTIGHEDDA_SET] = { 0 };
        for (uint64_t left = next() % 8; left > 0; left--) {
            uint64_t row = next() % 3;
            double a = drawn(), b = drawn(), c = drawn(), d = drawn();
            if (saltighedda_matrix_row(row, a, b, c, d, rows, SALTIGHEDDA_ROWS, set, SALTIGHEDDA_SET) != 0)
                return 1;
            tell(rows, set);
        }
    }
    return 0;
}

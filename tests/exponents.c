/*
 * Exponents, from C: texts that are drawn at every width of a real field, with the option on, against a reader of their own that works with
 * whole numbers alone, and against strtod. The reader takes a text apart by the rule (a decimal, `e` or `E`, a sign or none, digits), and finds
 * the nearest double by dividing whole numbers of 128 bits, a tie to the even last bit. Held to it are the double, the count of decimals and
 * the fault; with the option off the same line has to have its default and a fault there. Before them the edges: both limits from both
 * sides at every count of decimals that ten bytes leave room for, and texts by name. Prints what differs, and its status is then 1.
 *
 *     exponents [TEXTS [SEED [SHOWN]]]
 *
 * TEXTS is how many are drawn, ten million if it isn't given. The first SHOWN of them are printed with what was read, for whoever has another
 * judge: the text between bars, then the bits and the count, or `-`.
 */
#include <saltighedda.h>

#include "draw.h"

#include <inttypes.h>
#include <stdio.h>
#include <stdlib.h>
#include <string.h>

enum { MOST_TOLD = 20, WIDEST = 10 };

static int failures;
static uint8_t remarks[SALTIGHEDDA_REMARKS];

/* ---- What a text says, by whole numbers. ---- */

struct said {
    int is_read;
    uint64_t bits;
    int places;
    int has_exponent;
};

static int is_digit(char c)
{
    return c >= '0' && c <= '9';
}

static int is_white(char c)
{
    return c == ' ' || (c >= 9 && c <= 13);
}

static unsigned __int128 ten(int k)
{
    unsigned __int128 n = 1;
    while (k-- > 0)
        n *= 10;
    return n;
}

/* The double nearest to n over d: 53 digits in base 2, the rest told by the remainder. n isn't 0, and neither reaches 2^107. */
static uint64_t nearest(unsigned __int128 n, unsigned __int128 d)
{
    int power = 0; /* the number is n / d times 2^power, and n / d lies from 2^52 to below 2^53 at the end */
    while (n / d >= (unsigned __int128)1 << 53) {
        d *= 2;
        power++;
    }
    while (n / d < (unsigned __int128)1 << 52) {
        n *= 2;
        power--;
    }
    unsigned __int128 q = n / d, rest = n % d;
    if (rest * 2 > d || (rest * 2 == d && q % 2 == 1))
        q++;
    if (q == (unsigned __int128)1 << 53) {
        q /= 2;
        power++;
    }
    return ((uint64_t)(power + 1075) << 52) + ((uint64_t)q - ((uint64_t)1 << 52));
}

static struct said says(const char *text, int length)
{
    struct said s = {0, 0, 0, 0};
    while (length > 0 && is_white(text[0]))
        text++, length--;
    while (length > 0 && is_white(text[length - 1]))
        length--;
    int at = 0, digits = 0, behind = 0, point = 0, minus = 0;
    uint64_t m = 0;
    if (at < length && (text[at] == '+' || text[at] == '-'))
        minus = text[at++] == '-';
    for (; at < length; at++) {
        if (text[at] == '.' && !point) {
            point = 1;
        } else if (is_digit(text[at])) {
            m = m * 10 + (uint64_t)(text[at] - '0');
            digits++;
            behind += point;
        } else {
            break;
        }
    }
    if (digits == 0)
        return s;
    long x = 0;
    if (at < length) {
        int below = 0, some = 0;
        if (text[at] != 'e' && text[at] != 'E')
            return s;
        at++;
        if (at < length && (text[at] == '+' || text[at] == '-'))
            below = text[at++] == '-';
        for (; at < length && is_digit(text[at]); at++, some++)
            x = x * 10 + (text[at] - '0');
        if (some == 0 || at < length)
            return s;
        if (below)
            x = -x;
        s.has_exponent = 1;
    }
    long k = x - behind;
    if (m != 0 && (k < -22 || k > 22))
        return s;
    s.is_read = 1;
    s.places = behind;
    if (m != 0)
        s.bits = k < 0 ? nearest(m, ten((int)-k)) : nearest(m * ten((int)k), 1);
    s.bits |= (uint64_t)minus << 63;
    return s;
}

/* What C's own reader makes of it. */
static uint64_t by_strtod(const char *text, int length)
{
    char copy[WIDEST + 1];
    memcpy(copy, text, (size_t)length);
    copy[length] = 0;
    return bits_of(strtod(copy, NULL));
}

/* ---- The fields: a line without faults, and a real's columns in it. ---- */

struct place {
    const char *line;
    int at, width;
    uint64_t otherwise; /* the default's bits */
};

#define ATOM "ATOM      1  N   ALA A   1      11.104   6.134  -6.504  1.00  0.00      A    N1+"
#define CELL "CRYST1   52.000   58.600   61.900  90.00  90.00  90.00 P 21 21 21    8          "
#define ROWS "SCALE1      0.019231  0.000000  0.000000        0.00000                         "
#define BOND "SSBOND   1 CYS A    6    CYS A  127                          1555   1555  2.03  "

static const struct place places[] = {
    {BOND, 73, 5, 0}, {ATOM, 54, 6, UINT64_C(0x3FF0000000000000)}, {ATOM, 60, 6, 0}, {CELL, 40, 7, 0}, {ATOM, 30, 8, 0},
    {ATOM, 46, 8, 0}, {CELL, 15, 9, 0}, {ROWS, 20, 10, 0}, {ROWS, 45, 10, 0},
};
enum { PLACES = sizeof places / sizeof *places };

struct told {
    uint64_t bits;
    int faults, has_fault, places;
};

/* What the listing says of the field, and how many decimals it has. */
static struct told ask(const struct place *p, const char *text, uint32_t options)
{
    struct told t = {0, -1, 0, -1};
    uint8_t line[81], out[2048], counts[8];
    char row[24], fault[32];
    size_t length = strlen(p->line);
    memcpy(line, p->line, length);
    memcpy(line + p->at, text, (size_t)p->width);
    size_t n = saltighedda_list(line, length, 1, options, remarks, sizeof remarks, out, sizeof out - 1);
    out[n] = 0;
    int size = sprintf(row, "\nf%d=", p->at);
    const char *found = strstr((const char *)out, row);
    if (found == NULL || n == 0)
        return t;
    t.bits = strtoull(found + size, NULL, 16);
    found = strstr((const char *)out, "\nfaults=");
    t.faults = found == NULL ? -1 : atoi(found + 8);
    sprintf(fault, "\nfault=2,%d,%d\n", p->at, p->width);
    t.has_fault = strstr((const char *)out, fault) != NULL;
    size_t reals = saltighedda_places(line, length, 1, options, remarks, sizeof remarks, counts, sizeof counts);
    static const int atom[] = {30, 38, 46, 54, 60}, cell[] = {6, 15, 24, 33, 40, 47}, row_at[] = {10, 20, 30, 45}, bond[] = {73};
    const int *columns = line[0] == 'A' ? atom : line[0] == 'C' ? cell : line[1] == 'C' ? row_at : bond;
    for (size_t i = 0; i < reals; i++)
        if (columns[i] == p->at)
            t.places = counts[i];
    return t;
}

static uint64_t plain, with_exponent, refused;

/* Holds one text, as wide as its field, to what it says. */
static struct said hold(const struct place *p, const char *text)
{
    struct said s = says(text, p->width);
    struct told on = ask(p, text, SALTIGHEDDA_EXPONENTS);
    struct told off = ask(p, text, 0);
    int plainly = s.is_read && !s.has_exponent;
    uint64_t bits = s.is_read ? s.bits : p->otherwise;
    int fine = on.bits == bits && on.places == (s.is_read ? s.places : 0) && on.faults == !s.is_read && on.has_fault == !s.is_read;
    fine = fine && off.bits == (plainly ? s.bits : p->otherwise) && off.places == (plainly ? s.places : 0);
    fine = fine && off.faults == !plainly && off.has_fault == !plainly;
    if (s.is_read && by_strtod(text, p->width) != s.bits)
        fine = 0;
    plain += (uint64_t)plainly;
    with_exponent += (uint64_t)(s.is_read && s.has_exponent);
    refused += (uint64_t)!s.is_read;
    if (!fine && failures++ < MOST_TOLD)
        printf("exponents: `%.*s` at %d: wanted %016" PRIX64 " with %d places (%s), told %016" PRIX64 " with %d and %d faults; off %016" PRIX64
               "\n", p->width, text, p->at, bits, s.places, s.is_read ? "read" : "not read", on.bits, on.places, on.faults, off.bits);
    return s;
}

/* A text in its field, at the right. */
static struct said hold_short(const struct place *p, const char *text)
{
    char wide[WIDEST];
    size_t length = strlen(text);
    memset(wide, ' ', sizeof wide);
    memcpy(wide + (size_t)p->width - length, text, length);
    return hold(p, wide);
}

static void expect(int fact, const char *what, const char *text)
{
    if (!fact && failures++ < MOST_TOLD)
        printf("exponents: %s: `%s`\n", what, text);
}

/* ---- The edges. ---- */

static void edges(void)
{
    static const struct {
        const char *text;
        int is_read;
        uint64_t bits;
    } named[] = {
        {"0e99999999", 1, 0}, {"-0E5", 1, UINT64_C(0x8000000000000000)}, {"1e", 0, 0}, {"1e+", 0, 0}, {"1e-", 0, 0}, {"e5", 0, 0},
        {".e1", 0, 0}, {"1e1.0", 0, 0}, {"1E+05", 1, UINT64_C(0x40F86A0000000000)}, {"1.2E2", 1, UINT64_C(0x405E000000000000)},
        {"1e22", 1, UINT64_C(0x4480F0CF064DD592)}, {"1e23", 0, 0}, {"1e-22", 1, UINT64_C(0x3B5E392010175EE6)}, {"1e-23", 0, 0},
        {"9999999e15", 1, UINT64_C(0x4480F0CEE9E1E06C)}, {"1e5e", 0, 0}, {"1 e5", 0, 0}, {"1e 5", 0, 0}, {"inf", 0, 0}, {"nan", 0, 0},
        {"-inf", 0, 0}, {"infinity", 0, 0}, {"1e999", 0, 0}, {"0e-9999999", 1, 0}, {"1d5", 0, 0}, {"0x1p5", 0, 0}, {"+1e+1", 1, UINT64_C(0x4024000000000000)},
        {"5.e0", 1, UINT64_C(0x4014000000000000)}, {".5e1", 1, UINT64_C(0x4014000000000000)}, {"1e00000001", 1, UINT64_C(0x4024000000000000)},
    };
    for (size_t i = 0; i < sizeof named / sizeof *named; i++)
        for (int k = 0; k < PLACES; k++) {
            if ((int)strlen(named[i].text) > places[k].width)
                continue;
            struct said s = hold_short(&places[k], named[i].text);
            expect(s.is_read == named[i].is_read && (!s.is_read || s.bits == named[i].bits), "the reader says something else", named[i].text);
        }

    /* Both limits from both sides, at each count of decimals; the most digits that leave room for the exponent. */
    int reached[2][10] = {{0}};
    for (int p = 0; p <= 9; p++)
        for (int side = 0; side < 2; side++)
            for (int past = 0; past < 2; past++) {
                char text[32];
                int x = side == 0 ? p + 22 + past : p - 22 - past;
                int length = sprintf(text, "%s%.*s%s%d", p == 0 ? "7" : ".", p, "314159265", p == 0 ? "e" : "E", x);
                if (length > WIDEST)
                    continue;
                reached[side][p]++;
                for (int k = 0; k < PLACES; k++)
                    if (length <= places[k].width) {
                        struct said s = hold_short(&places[k], text);
                        expect(s.is_read == !past && (past || s.places == p), "a limit isn't where it should be", text);
                    }
            }
    for (int p = 0; p <= 9; p++)
        expect(reached[0][p] == (p <= 6 ? 2 : 0) && reached[1][p] == (p <= 5 ? 2 : 0), "other counts of decimals reach the limits", "");
}

/* ---- Drawn texts. ---- */

static int put_digits(char *text, int count)
{
    for (int i = 0; i < count; i++)
        text[i] = (char)('0' + random_below(10));
    return count;
}

/* A decimal and an exponent in so many columns, mostly about the limits; some are spoiled, and some have no exponent. */
static void draw(char *text, int width)
{
    char decimal[WIDEST + 1], exponent[16];
    int size = 0, e = 0;
    if (random_below(16) != 0) {
        exponent[e++] = "eE"[random_below(2)];
        uint64_t sign = random_below(4);
        if (sign != 0)
            exponent[e++] = sign == 1 ? '+' : '-';
        uint64_t x = random_below(8) == 0 ? random_below(1000) : random_below(3) == 0 ? random_below(10) : 10 + random_below(24);
        e += sprintf(exponent + e, random_below(8) == 0 ? "0%" PRIu64 : "%" PRIu64, x);
    }
    if (e >= width)
        e = width - 1;
    int room = width - e;
    if (random_below(2) == 0)
        room = 1 + (int)random_below((uint64_t)room);
    if (room > 1 && random_below(3) == 0)
        decimal[size++] = "-+"[random_below(4) == 0];
    int left = room - size;
    if (left > 1 && random_below(4) != 0) {
        int before = (int)random_below((uint64_t)left);
        size += put_digits(decimal + size, before);
        decimal[size++] = '.';
        size += put_digits(decimal + size, left - 1 - before);
    } else {
        size += put_digits(decimal + size, left);
    }
    if (random_below(32) == 0)
        for (int i = 0; i < size; i++)
            if (is_digit(decimal[i]))
                decimal[i] = '0';
    memset(text, random_below(16) == 0 ? '\t' : ' ', (size_t)width);
    int at = (int)random_below((uint64_t)(width - size - e) + 1);
    memcpy(text + at, decimal, (size_t)size);
    memcpy(text + at + size, exponent, (size_t)e);
    if (random_below(16) == 0)
        text[random_below((uint64_t)width)] = "0.eE+- x"[random_below(8)];
}

int main(int count, char **word)
{
    uint64_t texts = count > 1 ? strtoull(word[1], NULL, 10) : 10000000;
    if (count > 2)
        seed = strtoull(word[2], NULL, 10);
    uint64_t shown = count > 3 ? strtoull(word[3], NULL, 10) : 0;
    memset(remarks, 1, sizeof remarks);
    edges();
    plain = with_exponent = refused = 0;
    for (uint64_t i = 0; i < texts; i++) {
        const struct place *p = &places[i % PLACES];
        char text[WIDEST + 1];
        draw(text, p->width);
        struct said s = hold(p, text);
        if (i < shown) {
            struct told t = ask(p, text, SALTIGHEDDA_EXPONENTS);
            if (t.has_fault)
                printf("|%.*s| -\n", p->width, text);
            else
                printf("|%.*s| %016" PRIX64 " %d\n", p->width, text, t.bits, t.places);
        }
        (void)s;
    }
    if (shown == 0)
        printf("exponents: %" PRIu64 " texts drawn: %" PRIu64 " with an exponent and %" PRIu64 " without are read, %" PRIu64 " aren't\n", texts,
               with_exponent, plain, refused);
    return failures != 0;
}

/*
 * The entries that write a line, from C: every field at its limits and one past them, every refusal, outputs of 79, 80 and 81
 * bytes, slices without bytes; then doubles of every sort in every width and number of places, beside the C library's own printf,
 * which rounds exactly. What was written is listed again. Prints what differs from what the header says, and its status is then 1.
 *
 *     write [DOUBLES [SEED]]
 *
 * Every line of the second part has one double of any sort, and beside it some that mostly fit, so that it can be written at all:
 * DOUBLES counts the former, a million if it isn't given.
 */
#include <saltighedda.h>

#include "draw.h"

#include <float.h>
#include <inttypes.h>
#include <stdio.h>
#include <stdlib.h>
#include <string.h>

enum { MOST_TOLD = 20 };

static int failures;

static int hold(int fact, const char *what)
{
    if (!fact && failures++ < MOST_TOLD)
        printf("write: %s\n", what);
    return fact;
}

static struct saltighedda_slice text(const char *bytes)
{
    struct saltighedda_slice slice = {(const uint8_t *)bytes, strlen(bytes)};
    return slice;
}

/* The header's structs have one character where the entries take texts of any length, so the entries get structs of their own here. */
struct atom {
    uint32_t hetero;
    uint64_t serial;
    struct saltighedda_slice name, alternate, residue, chain;
    int64_t number;
    struct saltighedda_slice insertion;
    double x, y, z, occupancy, bfactor;
    struct saltighedda_slice segment, element;
    int64_t charge;
    struct saltighedda_slice places;
};

struct anisou {
    uint64_t serial;
    struct saltighedda_slice name, alternate, residue, chain;
    int64_t number;
    struct saltighedda_slice insertion;
    double u11, u22, u33, u12, u13, u23;
    struct saltighedda_slice segment, element;
    int64_t charge;
};

static uint64_t refusal(uint64_t number, uint64_t place, uint64_t length)
{
    return (number << 48) + (place << 32) + length;
}

/* ---- What a record should give: a line, or the first field that doesn't fit it. ---- */

struct wanted {
    char line[SALTIGHEDDA_LINE];
    uint64_t answer;
};

static void want_name(struct wanted *w, const char *name)
{
    memset(w->line, ' ', sizeof w->line);
    memcpy(w->line, name, strlen(name));
    w->answer = 0;
}

/* Fields come by ascending columns, so the first that doesn't fit stays. */
static void want_miss(struct wanted *w, size_t place, size_t width)
{
    if (w->answer == 0)
        w->answer = refusal(9, place, width);
}

static int is_printable(const uint8_t *bytes, size_t count)
{
    for (size_t i = 0; i < count; i++)
        if (bytes[i] < 32 || bytes[i] > 126)
            return 0;
    return 1;
}

enum side { LEFT, RIGHT };

static void want_text(struct wanted *w, size_t place, size_t width, struct saltighedda_slice t, enum side side)
{
    if (t.length > width || !is_printable(t.bytes, t.length))
        want_miss(w, place, width);
    else if (t.length > 0)
        memcpy(w->line + place + (side == LEFT ? 0 : width - t.length), t.bytes, t.length);
}

static void want_unsigned(struct wanted *w, size_t place, size_t width, uint64_t n)
{
    char bytes[32];
    snprintf(bytes, sizeof bytes, "%" PRIu64, n);
    want_text(w, place, width, text(bytes), RIGHT);
}

static void want_signed(struct wanted *w, size_t place, size_t width, int64_t n)
{
    char bytes[32];
    snprintf(bytes, sizeof bytes, "%" PRId64, n);
    want_text(w, place, width, text(bytes), RIGHT);
}

static int is_finite(double x)
{
    return x >= -DBL_MAX && x <= DBL_MAX;
}

/* 309 digits before the point and 255 behind it are the most. */
enum { LONGEST_REAL = 640 };

static void want_real(struct wanted *w, size_t place, size_t width, unsigned places, double x)
{
    char bytes[LONGEST_REAL];
    if (is_finite(x) && snprintf(bytes, sizeof bytes, "%*.*f", (int)width, (int)places, x) == (int)width)
        memcpy(w->line + place, bytes, width);
    else
        want_miss(w, place, width);
}

/* Four places without the point: the digits that printf gives, without the zeros in front. */
static void want_factor(struct wanted *w, size_t place, size_t width, double x)
{
    char printed[LONGEST_REAL], bytes[LONGEST_REAL];
    size_t count = 0;
    if (!is_finite(x)) {
        want_miss(w, place, width);
        return;
    }
    snprintf(printed, sizeof printed, "%.4f", x);
    const char *digits = printed + strspn(printed, "-0.");
    if (printed[0] == '-' && *digits != '\0')
        bytes[count++] = '-';
    for (; *digits != '\0'; digits++)
        if (*digits != '.')
            bytes[count++] = *digits;
    if (count == 0)
        bytes[count++] = '0';
    bytes[count] = '\0';
    want_text(w, place, width, text(bytes), RIGHT);
}

static void want_charge(struct wanted *w, int64_t charge)
{
    if (charge < -9 || charge > 9) {
        want_miss(w, 78, 2);
    } else if (charge != 0) {
        w->line[78] = (char)('0' + (charge < 0 ? -charge : charge));
        w->line[79] = charge < 0 ? '-' : '+';
    }
}

static unsigned places_of(struct saltighedda_slice places, size_t n, unsigned format)
{
    return n < places.length ? places.bytes[n] : format;
}

/* ATOM, HETATM and ANISOU have their first and their last fields in common. */
static void want_label(struct wanted *w, const struct atom *v)
{
    want_unsigned(w, 6, 5, v->serial);
    if (v->name.length == 4)
        want_text(w, 12, 4, v->name, LEFT);
    else
        want_miss(w, 12, 4);
    want_text(w, 16, 1, v->alternate, RIGHT);
    want_text(w, 17, 3, v->residue, RIGHT);
    want_text(w, 21, 1, v->chain, RIGHT);
    want_signed(w, 22, 4, v->number);
    want_text(w, 26, 1, v->insertion, RIGHT);
}

static void want_tail(struct wanted *w, const struct atom *v)
{
    want_text(w, 72, 4, v->segment, LEFT);
    want_text(w, 76, 2, v->element, RIGHT);
    want_charge(w, v->charge);
}

static void want_atom(struct wanted *w, const void *record)
{
    const struct atom *v = record;
    want_name(w, v->hetero ? "HETATM" : "ATOM");
    want_label(w, v);
    want_real(w, 30, 8, places_of(v->places, 0, 3), v->x);
    want_real(w, 38, 8, places_of(v->places, 1, 3), v->y);
    want_real(w, 46, 8, places_of(v->places, 2, 3), v->z);
    want_real(w, 54, 6, places_of(v->places, 3, 2), v->occupancy);
    want_real(w, 60, 6, places_of(v->places, 4, 2), v->bfactor);
    want_tail(w, v);
}

static void want_anisou(struct wanted *w, const void *record)
{
    const struct anisou *v = record;
    struct atom label = {0};
    label.serial = v->serial;
    label.name = v->name;
    label.alternate = v->alternate;
    label.residue = v->residue;
    label.chain = v->chain;
    label.number = v->number;
    label.insertion = v->insertion;
    label.segment = v->segment;
    label.element = v->element;
    label.charge = v->charge;
    want_name(w, "ANISOU");
    want_label(w, &label);
    want_factor(w, 28, 7, v->u11);
    want_factor(w, 35, 7, v->u22);
    want_factor(w, 42, 7, v->u33);
    want_factor(w, 49, 7, v->u12);
    want_factor(w, 56, 7, v->u13);
    want_factor(w, 63, 7, v->u23);
    want_tail(w, &label);
}

static void want_cell(struct wanted *w, const void *record)
{
    const struct saltighedda_cell *v = record;
    want_name(w, "CRYST1");
    want_real(w, 6, 9, places_of(v->places, 0, 3), v->a);
    want_real(w, 15, 9, places_of(v->places, 1, 3), v->b);
    want_real(w, 24, 9, places_of(v->places, 2, 3), v->c);
    want_real(w, 33, 7, places_of(v->places, 3, 2), v->alpha);
    want_real(w, 40, 7, places_of(v->places, 4, 2), v->beta);
    want_real(w, 47, 7, places_of(v->places, 5, 2), v->gamma);
    want_text(w, 55, 11, v->group, LEFT);
    want_unsigned(w, 66, 4, v->z);
}

enum { MTRIX = 2 };

static void want_row(struct wanted *w, const void *record)
{
    static const char *const names[] = {"SCALE", "ORIGX", "MTRIX"};
    const struct saltighedda_row *v = record;
    want_name(w, v->family <= MTRIX ? names[v->family] : "");
    if (v->family > MTRIX)
        want_miss(w, 0, 6);
    if (v->row <= 2)
        w->line[5] = (char)('1' + v->row);
    else
        want_miss(w, 5, 1);
    if (v->family == MTRIX)
        want_unsigned(w, 7, 3, v->serial);
    want_real(w, 10, 10, places_of(v->places, 0, 6), v->a);
    want_real(w, 20, 10, places_of(v->places, 1, 6), v->b);
    want_real(w, 30, 10, places_of(v->places, 2, 6), v->c);
    want_real(w, 45, 10, places_of(v->places, 3, 5), v->d);
    if (v->family == MTRIX && v->given)
        w->line[59] = '1';
}

static void want_model(struct wanted *w, const void *record)
{
    const uint64_t *number = record;
    want_name(w, "MODEL");
    want_unsigned(w, 10, 4, *number);
}

static void want_bare(struct wanted *w, const void *record)
{
    static const char *const names[] = {"TER", "ENDMDL", "END"};
    const uint32_t *which = record;
    want_name(w, *which <= 2 ? names[*which] : "");
    if (*which > 2)
        want_miss(w, 0, 6);
}

/* ---- The entries by family, and one call of them beside what it should give. ---- */

static uint64_t put_atom(const void *record, uint8_t *out, size_t room)
{
    const struct atom *v = record;
    return saltighedda_write_atom(v->hetero, v->serial, SALTIGHEDDA_LENT(name), SALTIGHEDDA_LENT(alternate), SALTIGHEDDA_LENT(residue),
                                  SALTIGHEDDA_LENT(chain), v->number, SALTIGHEDDA_LENT(insertion), v->x, v->y, v->z, v->occupancy,
                                  v->bfactor, SALTIGHEDDA_LENT(segment), SALTIGHEDDA_LENT(element), v->charge, SALTIGHEDDA_LENT(places),
                                  out, room);
}

static uint64_t put_anisou(const void *record, uint8_t *out, size_t room)
{
    const struct anisou *v = record;
    return saltighedda_write_anisou(v->serial, SALTIGHEDDA_LENT(name), SALTIGHEDDA_LENT(alternate), SALTIGHEDDA_LENT(residue),
                                    SALTIGHEDDA_LENT(chain), v->number, SALTIGHEDDA_LENT(insertion), v->u11, v->u22, v->u33, v->u12,
                                    v->u13, v->u23, SALTIGHEDDA_LENT(segment), SALTIGHEDDA_LENT(element), v->charge, out, room);
}

static uint64_t put_cell(const void *record, uint8_t *out, size_t room)
{
    return saltighedda_put_cell(record, out, room);
}

static uint64_t put_row(const void *record, uint8_t *out, size_t room)
{
    return saltighedda_put_row(record, out, room);
}

static uint64_t put_model(const void *record, uint8_t *out, size_t room)
{
    const uint64_t *number = record;
    return saltighedda_write_model(*number, out, room);
}

static uint64_t put_bare(const void *record, uint8_t *out, size_t room)
{
    const uint32_t *which = record;
    return saltighedda_write_bare(*which, out, room);
}

struct family {
    uint64_t (*put)(const void *record, uint8_t *out, size_t room);
    void (*want)(struct wanted *w, const void *record);
};

static const struct family atoms = {put_atom, want_atom};
static const struct family anisous = {put_anisou, want_anisou};
static const struct family cells = {put_cell, want_cell};
static const struct family rows = {put_row, want_row};
static const struct family models = {put_model, want_model};
static const struct family bares = {put_bare, want_bare};

/* The largest output that is lent, and as many bytes behind it that nobody lent. */
static uint8_t out[2 * (SALTIGHEDDA_LINE + 1)];

static int is_untouched(size_t from)
{
    for (size_t i = from; i < sizeof out; i++)
        if (out[i] != '#')
            return 0;
    return 1;
}

/* One call with so many bytes of output: its answer, the line, and every byte that isn't the line's. */
static int is_answered(const struct family *f, const void *record, const struct wanted *w, size_t room)
{
    uint64_t answer = w->answer;
    memset(out, '#', sizeof out);
    if (answer == 0 && room < SALTIGHEDDA_LINE)
        answer = refusal(8, 0, SALTIGHEDDA_LINE);
    if (f->put(record, room == 0 ? NULL : out, room) != answer)
        return 0;
    if (answer != 0)
        return is_untouched(0);
    return memcmp(out, w->line, sizeof w->line) == 0 && is_untouched(SALTIGHEDDA_LINE);
}

static void try_rooms(const struct family *f, const void *record, const char *what)
{
    static const size_t rooms[] = {0, 1, SALTIGHEDDA_LINE - 1, SALTIGHEDDA_LINE, SALTIGHEDDA_LINE + 1};
    struct wanted w;
    f->want(&w, record);
    for (size_t i = 0; i < sizeof rooms / sizeof *rooms; i++)
        if (!hold(is_answered(f, record, &w, rooms[i]), what))
            return;
}

/* With one output only, where there are many records to try. */
static void try_once(const struct family *f, const void *record, const char *what)
{
    struct wanted w;
    f->want(&w, record);
    hold(is_answered(f, record, &w, SALTIGHEDDA_LINE), what);
}

/* With every output, and this file says itself which columns are told: none if there are 0 of them. */
static void try_told(const struct family *f, const void *record, size_t place, size_t width, const char *what)
{
    struct wanted w;
    f->want(&w, record);
    hold(w.answer == (width == 0 ? 0 : refusal(9, place, width)), what);
    try_rooms(f, record, what);
}

/* With every output, and this file says itself which line is written. */
static void try_line(const struct family *f, const void *record, const char *line)
{
    struct wanted w;
    f->want(&w, record);
    hold(strlen(line) == sizeof w.line && memcmp(w.line, line, sizeof w.line) == 0 && w.answer == 0, line);
    try_rooms(f, record, line);
}

/* A record with one member that is another. */
#define TRY(family, type, base, member, value, place, width) \
    do { \
        struct type v = base; \
        v.member = (value); \
        try_told(&family, &v, place, width, #type " with " #member " " #value); \
    } while (0)

/* ---- Whole lines. ---- */

static struct atom zinc;
static struct anisou sulphur;
static struct saltighedda_cell cell;
static struct saltighedda_row matrix;

static void make_records(void)
{
    zinc.hetero = 1;
    zinc.serial = 18;
    zinc.name = text("ZN  ");
    zinc.residue = text("ZN");
    zinc.chain = text("A");
    zinc.number = 101;
    zinc.x = 11.639;
    zinc.y = 6.071;
    zinc.z = -5.147;
    zinc.occupancy = 1;
    zinc.bfactor = 17.9;
    zinc.element = text("ZN");
    zinc.charge = 2;

    sulphur.serial = 6;
    sulphur.name = text(" SG ");
    sulphur.residue = text("CYS");
    sulphur.chain = text("A");
    sulphur.number = 1;
    sulphur.u11 = 0.2551;
    sulphur.u22 = 0.2403;
    sulphur.u33 = 0.2702;
    sulphur.u12 = 0.0112;
    sulphur.u13 = -0.0087;
    sulphur.u23 = 0.0031;
    sulphur.element = text("S");

    cell.a = 42.57;
    cell.b = 42.57;
    cell.c = 61.93;
    cell.alpha = 90;
    cell.beta = 90;
    cell.gamma = 120;
    cell.group = text("P 31 2 1");
    cell.z = 6;

    matrix.family = MTRIX;
    matrix.row = 1;
    matrix.serial = 12;
    matrix.a = -0.023491;
    matrix.b = 0.013562;
    matrix.c = 1;
    matrix.d = 12.345;
    matrix.given = 1;
}

static void try_atom_lines(void)
{
    static const uint8_t places[] = {0, 1, 6, 0, 3};
    struct atom v = zinc;
    try_line(&atoms, &v, "HETATM   18 ZN    ZN A 101      11.639   6.071  -5.147  1.00 17.90          ZN2+");
    v.hetero = 0;
    v.charge = 0;
    try_line(&atoms, &v, "ATOM     18 ZN    ZN A 101      11.639   6.071  -5.147  1.00 17.90          ZN  ");
    v.alternate = text("B");
    v.chain = text(" ");
    v.number = -999;
    v.insertion = text("C");
    v.x = -0.0004;
    v.y = -999.9994;
    v.z = 9999.9994;
    v.occupancy = 0.125;
    v.bfactor = 0.375;
    v.segment = text("S1");
    v.charge = -9;
    try_line(&atoms, &v, "ATOM     18 ZN  B ZN  -999C     -0.000-999.9999999.999  0.12  0.38      S1  ZN9-");
    v.x = 10000.5;
    v.y = -99999.95;
    v.z = 0.5;
    v.occupancy = 1.5;
    v.bfactor = -0.0004;
    v.places.bytes = places;
    v.places.length = sizeof places;
    try_line(&atoms, &v, "ATOM     18 ZN  B ZN  -999C      10000-99999.90.500000     2-0.000      S1  ZN9-");
}

static void try_other_lines(void)
{
    static const uint64_t model = 2;
    static const uint32_t which[] = {0, 1, 2};
    struct saltighedda_row v = matrix;
    struct anisou u = sulphur;
    try_line(&anisous, &u, "ANISOU    6  SG  CYS A   1     2551   2403   2702    112    -87     31       S  ");
    u.u11 = -0.00004;
    u.u22 = -0.00006;
    u.u33 = -0.0;
    u.u12 = 999.9999;
    u.u13 = -99.9999;
    u.u23 = 1;
    u.segment = text("SEG");
    try_line(&anisous, &u, "ANISOU    6  SG  CYS A   1        0     -1      09999999-999999  10000  SEG  S  ");
    try_line(&cells, &cell, "CRYST1   42.570   42.570   61.930  90.00  90.00 120.00 P 31 2 1      6          ");
    try_line(&rows, &v, "MTRIX2  12 -0.023491  0.013562  1.000000       12.34500    1                    ");
    v.given = 0;
    try_line(&rows, &v, "MTRIX2  12 -0.023491  0.013562  1.000000       12.34500                         ");
    v.given = 256;
    v.family = 1;
    v.row = 2;
    try_line(&rows, &v, "ORIGX3     -0.023491  0.013562  1.000000       12.34500                         ");
    v.family = 0;
    v.row = 0;
    v.serial = 1000;
    try_line(&rows, &v, "SCALE1     -0.023491  0.013562  1.000000       12.34500                         ");
    try_line(&models, &model, "MODEL        2                                                                  ");
    try_line(&bares, &which[0], "TER                                                                             ");
    try_line(&bares, &which[1], "ENDMDL                                                                          ");
    try_line(&bares, &which[2], "END                                                                             ");
}

/* The flat entries by their own arguments, and slices without bytes by NULL. */
static void try_flat(void)
{
    uint8_t line[SALTIGHEDDA_LINE];
    const uint8_t *name = (const uint8_t *)" CA ";
    uint64_t r = saltighedda_write_atom(0, 1, name, 4, NULL, 0, NULL, 0, NULL, 0, 2, NULL, 0, 1, 2, 3, 4, 5, NULL, 0, NULL, 0, 0,
                                        NULL, 0, line, sizeof line);
    hold(r == 0 && !memcmp(line, "ATOM      1  CA          2       1.000   2.000   3.000  4.00  5.00              ", sizeof line),
         "an atom with texts and places of no bytes");
    r = saltighedda_write_anisou(1, name, 4, NULL, 0, NULL, 0, NULL, 0, 2, NULL, 0, 1, 2, 3, 4, 5, 6, NULL, 0, NULL, 0, 0, line,
                                 sizeof line);
    hold(r == 0 && !memcmp(line, "ANISOU    1  CA          2    10000  20000  30000  40000  50000  60000          ", sizeof line),
         "an ANISOU with texts of no bytes");
    r = saltighedda_write_cell(1, 2, 3, 4, 5, 6, NULL, 0, 7, NULL, 0, line, sizeof line);
    hold(r == 0 && !memcmp(line, "CRYST1    1.000    2.000    3.000   4.00   5.00   6.00               7          ", sizeof line),
         "a cell with a group and places of no bytes");
    r = saltighedda_write_row(2, 0, 3, 1, 2, 3, 4, 1, NULL, 0, line, sizeof line);
    hold(r == 0 && !memcmp(line, "MTRIX1   3  1.000000  2.000000  3.000000        4.00000    1                    ", sizeof line),
         "a row with places of no bytes");
    r = saltighedda_write_atom(0, 1, NULL, 0, NULL, 0, NULL, 0, NULL, 0, 2, NULL, 0, 1, 2, 3, 4, 5, NULL, 0, NULL, 0, 0, NULL, 0,
                               NULL, 0);
    hold(SALTIGHEDDA_REFUSAL(r) == 9 && SALTIGHEDDA_PLACE(r) == 12 && SALTIGHEDDA_LENGTH(r) == 4, "a name of no bytes");
    r = saltighedda_write_bare(0, NULL, 0);
    hold(SALTIGHEDDA_REFUSAL(r) == 8 && SALTIGHEDDA_PLACE(r) == 0 && SALTIGHEDDA_LENGTH(r) == 80, "no output at all");
    hold(SALTIGHEDDA_REFUSAL(0) == 0 && SALTIGHEDDA_PLACE(0) == 0 && SALTIGHEDDA_LENGTH(0) == 0, "0 is no refusal");
    hold(SALTIGHEDDA_LENGTH(refusal(2, 1024, 0xFFFFFFFF)) == 0xFFFFFFFF && SALTIGHEDDA_PLACE(refusal(2, 1024, 0xFFFFFFFF)) == 1024,
         "the longest length");
}

/* ---- Each field at its limits, and one past them. ---- */

static void try_whole_numbers(void)
{
    TRY(atoms, atom, zinc, hetero, 256, 0, 0);
    TRY(atoms, atom, zinc, hetero, UINT32_MAX, 0, 0);
    TRY(atoms, atom, zinc, serial, 0, 0, 0);
    TRY(atoms, atom, zinc, serial, 99999, 0, 0);
    TRY(atoms, atom, zinc, serial, 100000, 6, 5);
    TRY(atoms, atom, zinc, serial, UINT64_C(1) << 32, 6, 5);
    TRY(atoms, atom, zinc, serial, UINT64_MAX, 6, 5);
    TRY(atoms, atom, zinc, number, 0, 0, 0);
    TRY(atoms, atom, zinc, number, 9999, 0, 0);
    TRY(atoms, atom, zinc, number, 10000, 22, 4);
    TRY(atoms, atom, zinc, number, -999, 0, 0);
    TRY(atoms, atom, zinc, number, -1000, 22, 4);
    TRY(atoms, atom, zinc, number, INT64_MAX, 22, 4);
    TRY(atoms, atom, zinc, number, INT64_MIN, 22, 4);
    TRY(atoms, atom, zinc, charge, 9, 0, 0);
    TRY(atoms, atom, zinc, charge, 10, 78, 2);
    TRY(atoms, atom, zinc, charge, -9, 0, 0);
    TRY(atoms, atom, zinc, charge, -10, 78, 2);
    TRY(atoms, atom, zinc, charge, INT64_MAX, 78, 2);
    TRY(atoms, atom, zinc, charge, INT64_MIN, 78, 2);
    TRY(anisous, anisou, sulphur, serial, 99999, 0, 0);
    TRY(anisous, anisou, sulphur, serial, 100000, 6, 5);
    TRY(anisous, anisou, sulphur, number, -999, 0, 0);
    TRY(anisous, anisou, sulphur, number, -1000, 22, 4);
    TRY(anisous, anisou, sulphur, charge, -9, 0, 0);
    TRY(anisous, anisou, sulphur, charge, 10, 78, 2);
    TRY(cells, saltighedda_cell, cell, z, 0, 0, 0);
    TRY(cells, saltighedda_cell, cell, z, 9999, 0, 0);
    TRY(cells, saltighedda_cell, cell, z, 10000, 66, 4);
    TRY(cells, saltighedda_cell, cell, z, UINT64_MAX, 66, 4);
    TRY(rows, saltighedda_row, matrix, family, 3, 0, 6);
    TRY(rows, saltighedda_row, matrix, family, 256, 0, 6);
    TRY(rows, saltighedda_row, matrix, family, UINT32_MAX, 0, 6);
    TRY(rows, saltighedda_row, matrix, row, 0, 0, 0);
    TRY(rows, saltighedda_row, matrix, row, 2, 0, 0);
    TRY(rows, saltighedda_row, matrix, row, 3, 5, 1);
    TRY(rows, saltighedda_row, matrix, row, 256, 5, 1);
    TRY(rows, saltighedda_row, matrix, row, UINT64_C(1) << 32, 5, 1);
    TRY(rows, saltighedda_row, matrix, row, UINT64_MAX, 5, 1);
    TRY(rows, saltighedda_row, matrix, serial, 999, 0, 0);
    TRY(rows, saltighedda_row, matrix, serial, 1000, 7, 3);
    TRY(rows, saltighedda_row, matrix, serial, UINT64_MAX, 7, 3);
    TRY(rows, saltighedda_row, matrix, given, 256, 0, 0);
    TRY(rows, saltighedda_row, matrix, given, UINT32_MAX, 0, 0);
}

static void try_names(void)
{
    static const uint64_t numbers[] = {0, 9999, 10000, UINT64_MAX};
    static const uint32_t which[] = {3, 256, UINT32_MAX};
    for (size_t i = 0; i < sizeof numbers / sizeof *numbers; i++)
        try_told(&models, &numbers[i], 10, numbers[i] < 10000 ? 0 : 4, "the number of a MODEL");
    for (size_t i = 0; i < sizeof which / sizeof *which; i++)
        try_told(&bares, &which[i], 0, 6, "a name that isn't there");
}

/* On either side of the last that fits. The doubles further down come as near to it as there are any. */
static void try_reals(void)
{
    double infinity = DBL_MAX * 2, none = infinity - infinity;
    TRY(atoms, atom, zinc, x, 9999.9994, 0, 0);
    TRY(atoms, atom, zinc, x, 9999.9996, 30, 8);
    TRY(atoms, atom, zinc, x, -999.9994, 0, 0);
    TRY(atoms, atom, zinc, x, -999.9996, 30, 8);
    TRY(atoms, atom, zinc, x, none, 30, 8);
    TRY(atoms, atom, zinc, y, -none, 38, 8);
    TRY(atoms, atom, zinc, y, infinity, 38, 8);
    TRY(atoms, atom, zinc, z, -infinity, 46, 8);
    TRY(atoms, atom, zinc, z, DBL_MAX, 46, 8);
    TRY(atoms, atom, zinc, z, DBL_MIN / 2, 0, 0);
    TRY(atoms, atom, zinc, z, -DBL_MIN / 2, 0, 0);
    TRY(atoms, atom, zinc, occupancy, 999.994, 0, 0);
    TRY(atoms, atom, zinc, occupancy, 999.996, 54, 6);
    TRY(atoms, atom, zinc, bfactor, -99.994, 0, 0);
    TRY(atoms, atom, zinc, bfactor, -99.996, 60, 6);
    TRY(anisous, anisou, sulphur, u11, 999.9999, 0, 0);
    TRY(anisous, anisou, sulphur, u11, 999.99996, 28, 7);
    TRY(anisous, anisou, sulphur, u22, -99.9999, 0, 0);
    TRY(anisous, anisou, sulphur, u22, -99.99996, 35, 7);
    TRY(anisous, anisou, sulphur, u33, none, 42, 7);
    TRY(anisous, anisou, sulphur, u12, infinity, 49, 7);
    TRY(anisous, anisou, sulphur, u13, -infinity, 56, 7);
    TRY(anisous, anisou, sulphur, u23, 1000, 63, 7);
    TRY(cells, saltighedda_cell, cell, a, 99999.9994, 0, 0);
    TRY(cells, saltighedda_cell, cell, a, 99999.9996, 6, 9);
    TRY(cells, saltighedda_cell, cell, b, none, 15, 9);
    TRY(cells, saltighedda_cell, cell, c, -10000, 24, 9);
    TRY(cells, saltighedda_cell, cell, alpha, 9999.994, 0, 0);
    TRY(cells, saltighedda_cell, cell, alpha, 9999.996, 33, 7);
    TRY(cells, saltighedda_cell, cell, beta, -1000, 40, 7);
    TRY(cells, saltighedda_cell, cell, gamma, infinity, 47, 7);
    TRY(rows, saltighedda_row, matrix, a, 999.9999994, 0, 0);
    TRY(rows, saltighedda_row, matrix, a, 999.9999996, 10, 10);
    TRY(rows, saltighedda_row, matrix, b, -100, 20, 10);
    TRY(rows, saltighedda_row, matrix, c, none, 30, 10);
    TRY(rows, saltighedda_row, matrix, d, 9999.999994, 0, 0);
    TRY(rows, saltighedda_row, matrix, d, 9999.999996, 45, 10);
}

/* Texts of every length up to a few bytes too many, with every byte in every place. Their blocks are just as long as is said. */
static void try_text(const struct family *f, const void *record, struct saltighedda_slice *member, size_t width, const char *what)
{
    struct saltighedda_slice before = *member;
    for (size_t count = 0; count <= width + 2; count++) {
        uint8_t *bytes = count == 0 ? NULL : malloc(count);
        if (count != 0 && bytes == NULL)
            abort();
        member->bytes = bytes;
        member->length = count;
        for (size_t i = 0; i < count; i++)
            bytes[i] = (uint8_t)('a' + i);
        try_rooms(f, record, what);
        for (size_t i = 0; i < count; i++) {
            for (unsigned byte = 0; byte < 256; byte++) {
                bytes[i] = (uint8_t)byte;
                try_once(f, record, what);
            }
            bytes[i] = (uint8_t)('a' + i);
        }
        free(bytes);
    }
    *member = before;
}

static void try_long_texts(void)
{
    static uint8_t bytes[100000];
    struct saltighedda_slice longer = {bytes, sizeof bytes};
    memset(bytes, 'x', sizeof bytes);
    TRY(atoms, atom, zinc, name, longer, 12, 4);
    TRY(atoms, atom, zinc, name, text(" ZN"), 12, 4);
    TRY(atoms, atom, zinc, name, text("ZN   "), 12, 4);
    TRY(atoms, atom, zinc, alternate, text("AB"), 16, 1);
    TRY(atoms, atom, zinc, residue, text("ZINC"), 17, 3);
    TRY(atoms, atom, zinc, chain, text("AA"), 21, 1);
    TRY(atoms, atom, zinc, insertion, text("\t"), 26, 1);
    TRY(atoms, atom, zinc, segment, text("SEGID"), 72, 4);
    TRY(atoms, atom, zinc, element, text("ZNC"), 76, 2);
    TRY(atoms, atom, zinc, element, longer, 76, 2);
    TRY(anisous, anisou, sulphur, name, text("SG"), 12, 4);
    TRY(anisous, anisou, sulphur, alternate, longer, 16, 1);
    TRY(anisous, anisou, sulphur, residue, text("C\377S"), 17, 3);
    TRY(anisous, anisou, sulphur, chain, text("\177"), 21, 1);
    TRY(anisous, anisou, sulphur, insertion, longer, 26, 1);
    TRY(anisous, anisou, sulphur, segment, longer, 72, 4);
    TRY(anisous, anisou, sulphur, element, text("\037"), 76, 2);
    TRY(cells, saltighedda_cell, cell, group, text("P 21 21 21 "), 0, 0);
    TRY(cells, saltighedda_cell, cell, group, text("P 21 21 21 2"), 55, 11);
    TRY(cells, saltighedda_cell, cell, group, longer, 55, 11);
}

static void try_texts(void)
{
    try_text(&atoms, &zinc, &zinc.name, 4, "the name of an atom");
    try_text(&atoms, &zinc, &zinc.alternate, 1, "an alternate location");
    try_text(&atoms, &zinc, &zinc.residue, 3, "a residue");
    try_text(&atoms, &zinc, &zinc.chain, 1, "a chain");
    try_text(&atoms, &zinc, &zinc.insertion, 1, "an insertion code");
    try_text(&atoms, &zinc, &zinc.segment, 4, "a segment");
    try_text(&atoms, &zinc, &zinc.element, 2, "an element");
    try_text(&anisous, &sulphur, &sulphur.name, 4, "the name of an ANISOU");
    try_text(&anisous, &sulphur, &sulphur.alternate, 1, "an ANISOU's alternate location");
    try_text(&anisous, &sulphur, &sulphur.residue, 3, "an ANISOU's residue");
    try_text(&anisous, &sulphur, &sulphur.chain, 1, "an ANISOU's chain");
    try_text(&anisous, &sulphur, &sulphur.insertion, 1, "an ANISOU's insertion code");
    try_text(&anisous, &sulphur, &sulphur.segment, 4, "an ANISOU's segment");
    try_text(&anisous, &sulphur, &sulphur.element, 2, "an ANISOU's element");
    try_text(&cells, &cell, &cell.group, 11, "a space group");
    try_long_texts();
}

/* Every count of places for every real, and fewer and more of them than there are reals. */
static void try_places(const struct family *f, const void *record, struct saltighedda_slice *member, size_t reals)
{
    uint8_t places[8];
    for (size_t count = 0; count <= sizeof places; count++)
        for (size_t at = 0; at < count; at++)
            for (unsigned n = 0; n < 256; n++) {
                memset(places, 2, reals);
                memset(places + reals, 255, sizeof places - reals);
                places[at] = (uint8_t)n;
                member->bytes = places;
                member->length = count;
                try_once(f, record, "places");
            }
    member->bytes = NULL;
    member->length = 0;
}

/* Every choice of fields that don't fit: the first by column is told. */
static void spoil_atoms(void)
{
    for (unsigned fields = 0; fields < 1u << 15; fields++) {
        struct atom v = zinc;
        if (fields >> 0 & 1) v.serial = 100000;
        if (fields >> 1 & 1) v.name = text("ZN");
        if (fields >> 2 & 1) v.alternate = text("AB");
        if (fields >> 3 & 1) v.residue = text("ZINC");
        if (fields >> 4 & 1) v.chain = text("\n");
        if (fields >> 5 & 1) v.number = -1000;
        if (fields >> 6 & 1) v.insertion = text("\200");
        if (fields >> 7 & 1) v.x = 10000;
        if (fields >> 8 & 1) v.y = -1000;
        if (fields >> 9 & 1) v.z = 1e10;
        if (fields >> 10 & 1) v.occupancy = 1000;
        if (fields >> 11 & 1) v.bfactor = -100;
        if (fields >> 12 & 1) v.segment = text("SEGID");
        if (fields >> 13 & 1) v.element = text("ZNC");
        if (fields >> 14 & 1) v.charge = 10;
        try_once(&atoms, &v, "the first field of an atom that doesn't fit");
    }
}

static void spoil_anisous(void)
{
    for (unsigned fields = 0; fields < 1u << 16; fields++) {
        struct anisou v = sulphur;
        if (fields >> 0 & 1) v.serial = 100000;
        if (fields >> 1 & 1) v.name = text("");
        if (fields >> 2 & 1) v.alternate = text("\001");
        if (fields >> 3 & 1) v.residue = text("CYSS");
        if (fields >> 4 & 1) v.chain = text("AB");
        if (fields >> 5 & 1) v.number = 10000;
        if (fields >> 6 & 1) v.insertion = text("AB");
        if (fields >> 7 & 1) v.u11 = 1000;
        if (fields >> 8 & 1) v.u22 = -100;
        if (fields >> 9 & 1) v.u33 = 1e10;
        if (fields >> 10 & 1) v.u12 = 999.99996;
        if (fields >> 11 & 1) v.u13 = -99.99996;
        if (fields >> 12 & 1) v.u23 = -1e22;
        if (fields >> 13 & 1) v.segment = text("S\200");
        if (fields >> 14 & 1) v.element = text("SSS");
        if (fields >> 15 & 1) v.charge = -10;
        try_once(&anisous, &v, "the first field of an ANISOU that doesn't fit");
    }
}

static void spoil_cells(void)
{
    for (unsigned fields = 0; fields < 1u << 8; fields++) {
        struct saltighedda_cell v = cell;
        if (fields >> 0 & 1) v.a = 100000;
        if (fields >> 1 & 1) v.b = -10000;
        if (fields >> 2 & 1) v.c = 1e10;
        if (fields >> 3 & 1) v.alpha = 10000;
        if (fields >> 4 & 1) v.beta = -1000;
        if (fields >> 5 & 1) v.gamma = 1e22;
        if (fields >> 6 & 1) v.group = text("P 21 21 21 21");
        if (fields >> 7 & 1) v.z = 10000;
        try_once(&cells, &v, "the first field of a cell that doesn't fit");
    }
}

static void spoil_rows(void)
{
    for (unsigned fields = 0; fields < 3u << 7; fields++) {
        struct saltighedda_row v = matrix;
        v.family = fields >> 7;
        if (fields >> 0 & 1) v.family = 3;
        if (fields >> 1 & 1) v.row = 3;
        if (fields >> 2 & 1) v.serial = 1000;
        if (fields >> 3 & 1) v.a = 1000;
        if (fields >> 4 & 1) v.b = -100;
        if (fields >> 5 & 1) v.c = 1e10;
        if (fields >> 6 & 1) v.d = 10000;
        try_once(&rows, &v, "the first field of a row that doesn't fit");
    }
}

/* ---- Doubles of every sort. ---- */

static uint64_t ten_to(size_t n)
{
    uint64_t power = 1;
    while (n-- > 0)
        power *= 10;
    return power;
}

/* The double itself, or one of two neighbours on either side. */
static double beside(double x)
{
    return of_bits(bits_of(x) + random_below(5) - 2);
}

static double either_sign(double x)
{
    return random_below(2) ? -x : x;
}

/* As far from one decimal as from the next: an odd number of halves of a place, of which only these are doubles. */
static double tie(size_t digits, unsigned places)
{
    uint64_t parts = UINT64_C(2) << places;
    return (double)(random_below(ten_to(digits) * parts) | 1) / (double)parts;
}

/* The double that is nearest to the middle of two decimals. */
static double middle(size_t digits, unsigned places)
{
    return (double)(2 * random_below(ten_to(digits)) + 1) / (double)(2 * ten_to(places));
}

static double decimal(size_t digits, unsigned places)
{
    return (double)random_below(ten_to(digits)) / (double)ten_to(places);
}

/* Where a number of so many columns ends: above it a digit more is wanted. One with a minus has a column less. */
static double edge(size_t width, unsigned places)
{
    size_t minus = random_below(2), taken = minus + (places != 0) + places;
    size_t digits = width > taken ? width - taken : 0;
    double x = (double)(2 * ten_to(digits + places) - 1) / (double)(2 * ten_to(places));
    return minus ? -x : x;
}

/* Every power of two from 2^low on to 2^high is as likely. */
static double scaled(int low, int high)
{
    uint64_t power = (uint64_t)(1023 + low) + random_below((uint64_t)(high - low + 1));
    return of_bits(power << 52 | random_bits() >> 12);
}

static double special(void)
{
    static const uint64_t patterns[] = {
        0, 1, 2, /* zero and the smallest */
        UINT64_C(0x000FFFFFFFFFFFFF), UINT64_C(0x0010000000000000), /* the last subnormal, and the first behind it */
        UINT64_C(0x7FEFFFFFFFFFFFFF), /* the largest */
        UINT64_C(0x7FF0000000000000), UINT64_C(0x7FF0000000000001), /* infinity and NaN */
        UINT64_C(0x7FF8000000000000), UINT64_C(0x7FFFFFFFFFFFFFFF),
        UINT64_C(0x3FE0000000000000), UINT64_C(0x3FF8000000000000), UINT64_C(0x4004000000000000), /* 0.5, 1.5, 2.5 */
        UINT64_C(0x4202A05F20000000), UINT64_C(0x4202A05F1FF00000), /* 10^10, and a half less */
        UINT64_C(0x4330000000000000), UINT64_C(0x43E0000000000000), UINT64_C(0x43F0000000000000), /* 2^52, 2^63, 2^64 */
    };
    uint64_t minus = random_below(2) << 63;
    return of_bits(patterns[random_below(sizeof patterns / sizeof *patterns)] | minus);
}

static double wild(size_t width, unsigned places)
{
    size_t digits = random_below(width + 2);
    size_t most = digits + places < 15 ? digits + places : 15;
    switch (random_below(12)) {
    case 0: return of_bits(random_bits());
    case 1: return of_bits(random_bits() & UINT64_C(0x800FFFFFFFFFFFFF));
    case 2: return either_sign(tie(digits, places));
    case 3: return beside(either_sign(tie(digits, places)));
    case 4: return beside(either_sign(middle(most, places)));
    case 5: return either_sign(decimal(most, places));
    case 6: return beside(either_sign(decimal(most, places)));
    case 7: return edge(width, places);
    case 8: return beside(edge(width, places));
    case 9: return either_sign(scaled(-60, 40));
    case 10: return either_sign(scaled(-10, 100));
    default: return special();
    }
}

/* One that fits unless it is rounded up to a digit more, so that the line of the wild one can be written. */
static double tame(size_t width, unsigned places)
{
    size_t digits = random_below(width - places - 1);
    return either_sign((double)random_below(ten_to(digits + 4) * ten_to(places)) / (double)ten_to(places + 4));
}

/* The reals of a record, with their first columns and widths. */
struct reals {
    const struct family *family;
    void *record;
    struct saltighedda_slice *places;
    size_t count;
    double *real[6];
    size_t place[6], width[6];
};

enum { FACTOR_PLACES = 4, MOST_PLACES = 12, WIDEST = 10, NARROWEST = 6 };

static int tried[WIDEST + 1][MOST_PLACES + 1][2];

static void tell_doubles(const struct reals *r, const uint8_t *places)
{
    printf("write: these reals, with their places:");
    for (size_t i = 0; i < r->count; i++)
        printf(" %016" PRIX64 " (%.17g) %u", bits_of(*r->real[i]), *r->real[i], places[i]);
    printf("\n");
}

static uint8_t remarks[SALTIGHEDDA_REMARKS];

/* The line in `out`, listed: no fault, and each real as its columns say. */
static int is_read_back(const struct reals *r)
{
    static char listing[SALTIGHEDDA_LONGEST + 1];
    static const char end[] = "\nfaults=0\n";
    size_t n = saltighedda_list(out, SALTIGHEDDA_LINE, 1, 0, remarks, sizeof remarks, (uint8_t *)listing, SALTIGHEDDA_LONGEST);
    listing[n] = '\0';
    if (n < sizeof end - 1 || strcmp(listing + n - (sizeof end - 1), end) != 0)
        return 0;
    for (size_t i = 0; i < r->count; i++) {
        char columns[WIDEST + 1], row[48];
        memcpy(columns, out + r->place[i], r->width[i]);
        columns[r->width[i]] = '\0';
        double x = r->places == NULL ? (double)strtol(columns, NULL, 10) / 10000.0 : strtod(columns, NULL);
        snprintf(row, sizeof row, "\nf%zu=%016" PRIX64 "\n", r->place[i], bits_of(x));
        if (strstr(listing, row) == NULL)
            return 0;
    }
    return 1;
}

/* A line whose real number `at` is wild. */
static void try_doubles(const struct reals *r, size_t at, unsigned asked)
{
    uint8_t places[6];
    struct wanted w;
    for (size_t i = 0; i < r->count; i++) {
        unsigned n = r->places == NULL ? FACTOR_PLACES : i == at ? asked : (unsigned)random_below(r->width[i] - 2);
        places[i] = (uint8_t)n;
        *r->real[i] = i == at ? wild(r->width[i], n) : tame(r->width[i], n);
    }
    if (r->places != NULL) {
        r->places->bytes = places;
        /* Now and then no more than it wants itself: the format's serve for those behind it. */
        r->places->length = random_below(8) == 0 ? at + 1 : r->count;
    }
    r->family->want(&w, r->record);
    if (!hold(is_answered(r->family, r->record, &w, SALTIGHEDDA_LINE + random_below(2)), "a double goes out as printf has it"))
        tell_doubles(r, places);
    else if (w.answer == 0 && random_below(16) == 0 && !hold(is_read_back(r), "what was written is read"))
        tell_doubles(r, places);
    if (r->places != NULL)
        tried[r->width[at]][asked][w.answer == 0]++;
}

/* Every width and every number of places has had doubles that fit and doubles that don't, where there are any. */
static void hold_tried(void)
{
    for (size_t width = NARROWEST; width <= WIDEST; width++)
        for (unsigned places = 0; places <= MOST_PLACES; places++) {
            hold(tried[width][places][0] > 0, "no double was refused in some columns");
            hold((tried[width][places][1] > 0) == (places + 2 <= width), "no double was written in some columns, or one too wide");
        }
}

static void try_all_doubles(uint64_t count)
{
    struct atom a = zinc;
    struct anisou u = sulphur;
    struct saltighedda_cell c = cell;
    struct saltighedda_row m = matrix;
    const struct reals sorts[] = {
        {&rows, &m, &m.places, 4, {&m.a, &m.b, &m.c, &m.d}, {10, 20, 30, 45}, {10, 10, 10, 10}},
        {&cells, &c, &c.places, 6, {&c.a, &c.b, &c.c, &c.alpha, &c.beta, &c.gamma}, {6, 15, 24, 33, 40, 47}, {9, 9, 9, 7, 7, 7}},
        {&atoms, &a, &a.places, 5, {&a.x, &a.y, &a.z, &a.occupancy, &a.bfactor}, {30, 38, 46, 54, 60}, {8, 8, 8, 6, 6}},
        {&anisous, &u, NULL, 6, {&u.u11, &u.u22, &u.u33, &u.u12, &u.u13, &u.u23}, {28, 35, 42, 49, 56, 63}, {7, 7, 7, 7, 7, 7}},
    };
    /* Each width in turn, and in it each number of places: which reals of which sort have it. */
    static const struct {
        size_t sort, first, count;
    } widths[] = {{0, 0, 4}, {1, 0, 3}, {1, 3, 3}, {2, 0, 3}, {2, 3, 2}, {3, 0, 6}};
    const size_t turns = sizeof widths / sizeof *widths;
    for (uint64_t i = 0; i < count; i++) {
        size_t turn = i % turns, at = widths[turn].first + random_below(widths[turn].count);
        m.family = (uint32_t)random_below(3);
        m.row = random_below(3);
        try_doubles(&sorts[widths[turn].sort], at, (unsigned)(i / turns % (MOST_PLACES + 1)));
    }
    /* With fewer of them a limit is easily missed. */
    if (count >= 100000)
        hold_tried();
}

int main(int argc, char **argv)
{
    uint64_t count = argc > 1 ? strtoull(argv[1], NULL, 10) : 1000000;
    seed = argc > 2 ? strtoull(argv[2], NULL, 10) : 330;
    /* A long run that is stopped has told what it found. */
    setvbuf(stdout, NULL, _IOLBF, 0);
    memset(remarks, 1, sizeof remarks);
    make_records();
    try_atom_lines();
    try_other_lines();
    try_flat();
    try_whole_numbers();
    try_names();
    try_reals();
    try_texts();
    try_places(&atoms, &zinc, &zinc.places, 5);
    try_places(&cells, &cell, &cell.places, 6);
    try_places(&rows, &matrix, &matrix.places, 4);
    spoil_atoms();
    spoil_anisous();
    spoil_cells();
    spoil_rows();
    try_all_doubles(count);
    if (failures > MOST_TOLD)
        printf("write: %d more\n", failures - MOST_TOLD);
    return failures != 0;
}

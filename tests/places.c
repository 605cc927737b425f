/*
 * How many decimals were written, from C: saltighedda_places for every kind, for lines that are cut anywhere and for those that are
 * refused, for texts of every sort in the columns of every real, and for outputs of every length. Then drawn lines: each real is
 * put together of a sign or none, digits, a point or none, and digits, with blanks around it, so that its count is known without
 * reading it; some are spoiled, and have none. The count, the double and the faults are held against that. What was read is then
 * written with the counts as places, and has to be the same digits in the format's form, or to be refused exactly where these are
 * too long; read again it gives the same counts and bits. Prints what differs from what the header says, and its status is then 1.
 *
 *     places [FIELDS [SEED]]
 *
 * FIELDS is how many reals are drawn, a million if it isn't given.
 */
#include <saltighedda.h>

#include "draw.h"

#include <inttypes.h>
#include <stdio.h>
#include <stdlib.h>
#include <string.h>

enum { MOST_TOLD = 20 };

static int failures;

static int hold(int fact, const char *what)
{
    if (!fact && failures++ < MOST_TOLD)
        printf("places: %s\n", what);
    return fact;
}

static void tell_line(const char *line, size_t length)
{
    if (failures <= MOST_TOLD)
        printf("places: the line is `%.*s`\n", (int)length, line);
}

static struct saltighedda_slice text(const char *bytes)
{
    struct saltighedda_slice slice = {(const uint8_t *)bytes, strlen(bytes)};
    return slice;
}

/* ---- The kinds with reals: a line in the format's form, where its reals are, and how it is written. ---- */

enum { MOST_REALS = 6, WIDEST = 10, NARROWEST = 5 };

struct reals {
    size_t count;
    size_t place[MOST_REALS], width[MOST_REALS];
};

static const struct reals atom_reals = {5, {30, 38, 46, 54, 60}, {8, 8, 8, 6, 6}};
static const struct reals cell_reals = {6, {6, 15, 24, 33, 40, 47}, {9, 9, 9, 7, 7, 7}};
static const struct reals row_reals = {4, {10, 20, 30, 45}, {10, 10, 10, 10}};
static const struct reals bond_reals = {1, {73}, {5}};

static uint64_t put_atom(const char *line, const double *real, struct saltighedda_slice places, uint8_t *out)
{
    struct saltighedda_atom v = {0};
    v.hetero = line[0] == 'H';
    v.serial = 1;
    v.name = text(" CA ");
    v.residue = text("GLY");
    v.chain = 'A';
    v.number = 1;
    v.x = real[0];
    v.y = real[1];
    v.z = real[2];
    v.occupancy = real[3];
    v.bfactor = real[4];
    v.element = text("C");
    v.places = places;
    return saltighedda_put_atom(&v, out, SALTIGHEDDA_LINE);
}

static uint64_t put_cell(const char *line, const double *real, struct saltighedda_slice places, uint8_t *out)
{
    struct saltighedda_cell v = {0};
    (void)line;
    v.a = real[0];
    v.b = real[1];
    v.c = real[2];
    v.alpha = real[3];
    v.beta = real[4];
    v.gamma = real[5];
    v.group = text("P 31 2 1");
    v.z = 6;
    v.places = places;
    return saltighedda_put_cell(&v, out, SALTIGHEDDA_LINE);
}

static uint64_t put_row(const char *line, const double *real, struct saltighedda_slice places, uint8_t *out)
{
    struct saltighedda_row v = {0};
    v.family = line[0] == 'S' ? 0 : line[0] == 'O' ? 1 : 2;
    v.row = (uint64_t)(line[5] - '1');
    v.serial = 12;
    v.a = real[0];
    v.b = real[1];
    v.c = real[2];
    v.d = real[3];
    v.given = 1;
    v.places = places;
    return saltighedda_put_row(&v, out, SALTIGHEDDA_LINE);
}

struct kind {
    const char *line;
    const char *counts; /* of its reals, each as a digit */
    size_t least; /* the bytes of the shortest line that has its reals */
    const struct reals *reals;
    uint64_t (*put)(const char *line, const double *real, struct saltighedda_slice places, uint8_t *out);
};

static const struct kind kinds[] = {
    {"ATOM      1  CA  GLY A   1      11.639    6.07    -5.1  1.00     1           C  ", "32120", 7, &atom_reals, put_atom},
    {"HETATM    1  CA  GLY A   1       1.500     1.5      15  1.50 17.90           C  ", "31022", 7, &atom_reals, put_atom},
    {"CRYST1   42.570    42.57     61.9  90.00   90.0    120 P 31 2 1      6          ", "321210", 55, &cell_reals, put_cell},
    {"SCALE1      0.023491   0.01000         0           12.5                         ", "6501", 7, &row_reals, put_row},
    {"SCALE2      0.023491   0.01000         0           12.5                         ", "6501", 7, &row_reals, put_row},
    {"ORIGX2      1.000000  0.000000 -0.000000        0.00000                         ", "6665", 7, &row_reals, put_row},
    {"ORIGX3      1.000000  0.000000 -0.000000        0.00000                         ", "6665", 7, &row_reals, put_row},
    {"MTRIX1  12  0.000000   -1.0000       1.0     0.12345678    1                    ", "6418", 7, &row_reals, put_row},
    {"MTRIX3  12  0.000000   -1.0000       1.0     0.12345678    1                    ", "6418", 7, &row_reals, put_row},
    {"SSBOND   1 CYS A    6    CYS A   11                          1555   1555  2.03  ", "2", 78, &bond_reals, NULL},
};

enum { KINDS = sizeof kinds / sizeof *kinds };

/* ---- One call beside what it should give. ---- */

/* One byte more than it should have, for a table that is too long. */
static uint8_t remarks[SALTIGHEDDA_REMARKS + 1];

/* The largest output that is lent, and as many bytes behind it that nobody lent. */
enum { LARGEST = SALTIGHEDDA_PLACES + 2 };

static uint8_t out[2 * LARGEST];

struct call {
    const char *line;
    size_t length, number;
    uint32_t options;
    size_t remarks_length;
};

static int is_counted(const struct call *c, const char *counts, size_t room)
{
    size_t wanted = strlen(counts) <= room ? strlen(counts) : 0;
    memset(out, '#', sizeof out);
    if (saltighedda_places((const uint8_t *)c->line, c->length, c->number, c->options, c->remarks_length == 0 ? NULL : remarks,
                           c->remarks_length, room == 0 ? NULL : out, room) != wanted)
        return 0;
    for (size_t i = 0; i < sizeof out; i++)
        if (out[i] != (i < wanted ? counts[i] - '0' : '#'))
            return 0;
    return 1;
}

/* With every output. The line's block is just as long as is said. */
static void try_call(struct call c, const char *counts, const char *what)
{
    char *line = c.length == 0 ? NULL : malloc(c.length);
    if (c.length != 0 && line == NULL)
        abort();
    if (c.length != 0)
        memcpy(line, c.line, c.length);
    c.line = line;
    for (size_t room = 0; room <= LARGEST; room++)
        if (!hold(is_counted(&c, counts, room), what)) {
            tell_line(line, c.length);
            break;
        }
    free(line);
}

static struct call plain(const char *line, size_t length)
{
    struct call c = {line, length, 1, 0, SALTIGHEDDA_REMARKS};
    return c;
}

static void try_line(const char *line, const char *counts, const char *what)
{
    try_call(plain(line, strlen(line)), counts, what);
}

/* ---- The edges. ---- */

enum { LONGEST_LINE = 1024 };

/* The good line of each kind, cut at every length and with blanks behind it: a real that isn't there whole counts none. */
static void try_lengths(const struct kind *k)
{
    char line[LONGEST_LINE + 2], counts[MOST_REALS + 1];
    memset(line, ' ', sizeof line);
    memcpy(line, k->line, strlen(k->line));
    for (size_t length = 0; length <= LONGEST_LINE + 1; length++) {
        strcpy(counts, k->counts);
        for (size_t i = 0; i < k->reals->count; i++)
            if (k->reals->place[i] + k->reals->width[i] > length)
                counts[i] = '0';
        try_call(plain(line, length), length < k->least || length > LONGEST_LINE ? "" : counts, "a line of some length");
    }
}

/* Any options and any number; a table of another size; a byte of 128 or more anywhere. */
static void try_arguments(const struct kind *k)
{
    static const size_t sizes[] = {0, 1, SALTIGHEDDA_REMARKS - 1, SALTIGHEDDA_REMARKS + 1};
    char line[SALTIGHEDDA_LINE + 1];
    size_t length = strlen(k->line);
    struct call c = plain(k->line, length);
    c.options = SALTIGHEDDA_ATOMS_ONLY;
    try_call(c, k->reals == &atom_reals ? k->counts : "", "atoms only");
    c.options = UINT32_MAX;
    try_call(c, k->reals == &atom_reals ? k->counts : "", "atoms only, with all options");
    c.options = SALTIGHEDDA_LOOSE;
    try_call(c, k->counts, "a loose reading");
    c.options = UINT32_MAX - SALTIGHEDDA_ATOMS_ONLY;
    c.number = SIZE_MAX;
    try_call(c, k->counts, "all other options, and the last number");
    c = plain(k->line, length);
    c.number = 0;
    try_call(c, k->counts, "the number 0");
    for (size_t i = 0; i < sizeof sizes / sizeof *sizes; i++) {
        c.remarks_length = sizes[i];
        try_call(c, "", "a remark table of a wrong size");
    }
    for (size_t at = 0; at < length; at++)
        for (unsigned byte = 128; byte < 256; byte += 127) {
            strcpy(line, k->line);
            line[at] = (char)byte;
            try_line(line, "", "a byte of 128 or more");
        }
}

/* Each text at every place of every real's columns that it fits, beside the others as they were. */
static void try_texts(const struct kind *k)
{
    static const struct {
        const char *text;
        char count;
    } texts[] = {
        {"1.50", '2'}, {"1.5", '1'}, {".50", '2'}, {"5.", '0'}, {"-0.", '0'}, {"+1.0", '1'}, {"12", '0'}, {"0", '0'}, {"-0", '0'},
        {"+.5", '1'}, {"-.50", '2'}, {"-0.0", '1'}, {"0.000", '3'}, {"007.5", '1'}, {"00.00", '2'}, {"-1.50", '2'}, {"+0.00", '2'},
        {".0000", '4'}, {"1234.", '0'}, {".12345", '5'}, {"0.1234", '4'}, {".123456", '6'}, {"0.123450", '6'}, {".1234567", '7'},
        {".12345678", '8'}, {"0.1234567", '7'}, {".123456789", '9'}, {".000000000", '9'}, {"0.12345678", '8'}, {"+.12345670", '8'},
        {"-1234567.8", '1'}, {"1234567890", '0'}, {"123456789.", '0'},
        /* No numbers of this sort. */
        {"1.5.0", '0'}, {"1..5", '0'}, {"1e5", '0'}, {"1.5E1", '0'}, {"1.e5", '0'}, {"nan", '0'}, {"-NaN", '0'}, {"inf", '0'},
        {"0x1.8", '0'}, {"1,50", '0'}, {"1.5_0", '0'}, {"1 .5", '0'}, {"1. 5", '0'}, {"- 1.5", '0'}, {"--1.5", '0'}, {"+-.5", '0'},
        {"1.5-", '0'}, {"1.50x", '0'}, {"x1.50", '0'}, {".", '0'}, {"-.", '0'}, {"+", '0'}, {"-", '0'}, {"*.**", '0'}, {"", '0'},
        {"1.5\001", '0'}, {"1.5\034", '0'},
        /* White space of every sort is trimmed. */
        {"\t1.50", '2'}, {"1.50\t", '2'}, {"\v.5\f", '1'}, {"\r1.0\n", '1'},
    };
    for (size_t i = 0; i < k->reals->count; i++)
        for (size_t t = 0; t < sizeof texts / sizeof *texts; t++) {
            size_t length = strlen(texts[t].text), width = k->reals->width[i];
            for (size_t at = 0; at + length <= width; at++) {
                char line[SALTIGHEDDA_LINE + 1], counts[MOST_REALS + 1];
                strcpy(line, k->line);
                strcpy(counts, k->counts);
                memset(line + k->reals->place[i], ' ', width);
                memcpy(line + k->reals->place[i] + at, texts[t].text, length);
                counts[i] = texts[t].count;
                try_line(line, counts, "a text in the columns of a real");
            }
        }
}

static void try_others(void)
{
    static const char *const lines[] = {
        "",
        "ATOM",
        "HETATM",
        "CRYST1",
        "SSBOND",
        "atom      1  CA  GLY A   1      11.639    6.07    -5.1  1.00     1           C  ",
        " ATOM     1  CA  GLY A   1      11.639    6.07    -5.1  1.00     1           C  ",
        "ATOMS     1  CA  GLY A   1      11.639    6.07    -5.1  1.00     1           C  ",
        "CRYST2   42.570    42.57     61.9  90.00   90.0    120 P 31 2 1      6          ",
        "SCALE0      0.023491   0.01000         0           12.5                         ",
        "SCALE4      0.023491   0.01000         0           12.5                         ",
        "ORIGX       1.000000  0.000000 -0.000000        0.00000                         ",
        "MTRIX4  12  0.000000   -1.0000       1.0     0.12345678    1                    ",
        "ANISOU    1  CA  GLY A   1     2551   2403   2702    112    -87     31       C  ",
        "ANISOU    1  CA  GLY A   1     1.50   2.50   3.50   4.50   5.50   6.50       C  ",
        "MODEL        1",
        "MODEL      1.5",
        "TER       1      GLY A   1      11.639    6.07    -5.1  1.00     1           C  ",
        "TER",
        "ENDMDL",
        "ENDMDL    1.50",
        "END",
        "END       1.50",
        "HEADER    METAL BINDING PROTEIN 1.50              14-MAR-24   9ZNF              ",
        "HEADER    1.50",
        "REMARK   2 RESOLUTION.    1.85 ANGSTROMS.",
        "REMARK   2 RESOLUTION.    1.85 ANGSTROMS, IN A REMARK THAT IS REFUSED UNLESS READING IS LOOSE.",
        "REMARK 1.5 1.50",
        "SEQRES   1 A    6  CYS GLU LYS CYS HIS HIS                                      ",
        "SEQADV 9ZNF GLY A    1  UNP  P12345    ALA     1 1.50                            ",
        "MODRES 9ZNF MSE A    1  MET  1.50                                               ",
        "DBREF  9ZNF A    1     6  UNP    P12345   1.50             1      6             ",
        "DBREF1 9ZNF A    1     6  UNP                   1.50                             ",
        "DBREF2 9ZNF A     1.50                             1           6                 ",
        "MASTER        0    0    0    0    0    0    0    6   18    1    0    1          ",
        "HELIX    1   1 CYS A    1  HIS A    6  1                                  1.50  ",
        "TITLE     11.639    6.07    -5.1  1.00",
    };
    for (size_t i = 0; i < sizeof lines / sizeof *lines; i++)
        try_line(lines[i], "", "a line without reals");
}

static void try_edges(void)
{
    try_others();
    for (size_t i = 0; i < KINDS; i++) {
        try_line(kinds[i].line, kinds[i].counts, "a good line");
        try_lengths(&kinds[i]);
        try_arguments(&kinds[i]);
        try_texts(&kinds[i]);
    }
}

/* ---- Drawn reals. ---- */

/* A byte of a string. */
static char any_of(const char *bytes)
{
    return bytes[random_below(strlen(bytes))];
}

/* Zeros are so many that some stand in front and some at the end. */
static void draw_digits(char *to, size_t count)
{
    for (size_t i = 0; i < count; i++)
        to[i] = random_below(3) == 0 ? '0' : any_of("0123456789");
    to[count] = '\0';
}

struct drawn {
    char text[2 * WIDEST + 4];  /* as it stands in the line, without the blanks around it */
    char again[2 * WIDEST + 4]; /* as it is to be written */
    int is_read;
    size_t count;
    double real;
};

/* The text of a number that fits the columns, and the same as it is written: by its digits, without reading them. */
static void draw_number(struct drawn *d, size_t width)
{
    char sign[2] = "", before[WIDEST + 1], behind[WIDEST + 1];
    size_t length = random_below(3) == 0 ? width : 1 + random_below(width);
    size_t has_sign = length > 1 && random_below(2) == 0, has_point = length > 1 + has_sign && random_below(5) != 0;
    size_t digits = length - has_sign - has_point;
    size_t count = !has_point ? 0 : random_below(4) == 0 ? digits : random_below(digits + 1);
    if (has_sign)
        sign[0] = any_of("--+");
    draw_digits(before, digits - count);
    draw_digits(behind, count);
    const char *whole = before + strspn(before, "0");
    snprintf(d->text, sizeof d->text, "%s%s%s%s", sign, before, has_point ? "." : "", behind);
    snprintf(d->again, sizeof d->again, "%s%s%s%s", sign[0] == '-' ? "-" : "", *whole == '\0' ? "0" : whole, count == 0 ? "" : ".",
             behind);
    d->is_read = 1;
    d->count = count;
    d->real = strtod(d->text, NULL);
}

/* Makes a text that is no number of one that is. */
static void spoil(char *number, size_t width)
{
    static const char *const words[] = {"",   "nan", "-inf", "1e5", "1.E1", "+",   "-",  ".",
                                        "+.", "-.",  "0x1",  "1_0", "1,5",  "1 5", "--1"};
    size_t length = strlen(number);
    switch (random_below(5)) {
    case 0: number[random_below(length)] = any_of("eEdxX,_:/*%\001\034"); return;
    case 1: number[length - 1] = any_of("+-"); return;
    case 2:
        if (length > 2) {
            number[1 + random_below(length - 2)] = ' ';
            return;
        }
        break;
    case 3:
        /* Two points, whether it had one or not. */
        if (length + 2 <= width)
            strcat(number, "..");
        else
            number[0] = number[length - 1] = '.';
        return;
    default: break;
    }
    strcpy(number, words[random_below(sizeof words / sizeof *words)]);
}

/* What a field has that wasn't read: its default, which is 1 for an occupancy and else 0. */
static void unread(struct drawn *d, const struct reals *r, size_t i)
{
    int is_occupancy = r == &atom_reals && i == 3;
    d->is_read = 0;
    d->count = 0;
    d->real = is_occupancy;
    strcpy(d->again, is_occupancy ? "1" : "0");
}

/* Puts a text into its columns of a line, with white space around it. */
static void place(char *columns, size_t width, const char *number)
{
    size_t length = strlen(number);
    for (size_t i = 0; i < width; i++)
        columns[i] = random_below(16) == 0 ? any_of("\t\n\v\f\r") : ' ';
    memcpy(columns + random_below(width - length + 1), number, length);
}

/* Which counts have been written, and which refused, in columns of each width. */
enum fate { REFUSED, WRITTEN };

static int tried[WIDEST + 1][WIDEST][2];

/* A line of a kind with drawn reals: `length` is where it was cut, and `again` what is to be written. */
struct trial {
    const struct kind *kind;
    struct drawn drawn[MOST_REALS];
    char line[SALTIGHEDDA_LINE + 1], again[SALTIGHEDDA_LINE + 1], counts[MOST_REALS + 1];
    size_t length;
    uint64_t answer;
};

static void draw_trial(struct trial *t)
{
    const struct kind *k = t->kind;
    strcpy(t->line, k->line);
    strcpy(t->again, k->line);
    t->length = strlen(k->line);
    if (random_below(8) == 0)
        t->length = k->least + random_below(t->length - k->least + 1);
    t->answer = 0;
    for (size_t i = 0; i < k->reals->count; i++) {
        struct drawn *d = &t->drawn[i];
        size_t start = k->reals->place[i], width = k->reals->width[i];
        draw_number(d, width);
        if (random_below(8) == 0) {
            spoil(d->text, width);
            unread(d, k->reals, i);
        }
        if (start + width > t->length)
            unread(d, k->reals, i);
        place(t->line + start, width, d->text);
        t->counts[i] = (char)('0' + d->count);
        size_t wanted = strlen(d->again);
        if (wanted > width && t->answer == 0)
            t->answer = (uint64_t)9 << 48 | (uint64_t)start << 32 | width;
        if (wanted <= width) {
            memset(t->again + start, ' ', width);
            memcpy(t->again + start + width - wanted, d->again, wanted);
        }
    }
    t->counts[k->reals->count] = '\0';
}

static char listing[SALTIGHEDDA_LONGEST + 1];

static int list(const char *line, size_t length)
{
    size_t n = saltighedda_list((const uint8_t *)line, length, 1, 0, remarks, SALTIGHEDDA_REMARKS, (uint8_t *)listing,
                                SALTIGHEDDA_LONGEST);
    listing[n] = '\0';
    return n != 0;
}

static int has_fault(unsigned number, size_t start, size_t width)
{
    char row[64];
    snprintf(row, sizeof row, "\nfault=%u,%zu,%zu\n", number, start, width);
    return strstr(listing, row) != NULL;
}

/* Each real of the listing has the bits of the drawn one. */
static int has_bits(const struct trial *t)
{
    for (size_t i = 0; i < t->kind->reals->count; i++) {
        char row[64];
        snprintf(row, sizeof row, "\nf%zu=%016" PRIX64 "\n", t->kind->reals->place[i], bits_of(t->drawn[i].real));
        if (strstr(listing, row) == NULL)
            return 0;
    }
    return 1;
}

/* The line is listed with these bits, and with a fault for each real that is to have one and for no other. */
static int is_listed(const struct trial *t)
{
    if (!list(t->line, t->length) || !has_bits(t))
        return 0;
    for (size_t i = 0; i < t->kind->reals->count; i++) {
        size_t start = t->kind->reals->place[i], width = t->kind->reals->width[i];
        int is_cut = start + width > t->length;
        if (has_fault(1, start, width) != is_cut || has_fault(2, start, width) != (!is_cut && !t->drawn[i].is_read))
            return 0;
    }
    return 1;
}

/* What was read, written with the counts that the entry told, is the line in the format's form, or is refused. */
static int is_written(const struct trial *t, uint8_t *written)
{
    uint8_t places[SALTIGHEDDA_PLACES];
    double real[MOST_REALS];
    size_t n = saltighedda_places((const uint8_t *)t->line, t->length, 1, 0, remarks, SALTIGHEDDA_REMARKS, places, sizeof places);
    struct saltighedda_slice slice = {places, n};
    for (size_t i = 0; i < t->kind->reals->count; i++)
        real[i] = t->drawn[i].real;
    return t->kind->put(t->line, real, slice, written) == t->answer
           && (t->answer != 0 || memcmp(written, t->again, SALTIGHEDDA_LINE) == 0);
}

static int is_read_again(const struct trial *t, const uint8_t *written)
{
    static const char end[] = "\nfaults=0\n";
    struct call c = plain((const char *)written, SALTIGHEDDA_LINE);
    return is_counted(&c, t->counts, LARGEST) && list(c.line, c.length) && strstr(listing, end) != NULL && has_bits(t);
}

static void note_tried(const struct trial *t)
{
    for (size_t i = 0; i < t->kind->reals->count; i++) {
        size_t width = t->kind->reals->width[i];
        if (t->answer == 0)
            tried[width][t->drawn[i].count][WRITTEN]++;
        else if (SALTIGHEDDA_PLACE(t->answer) == t->kind->reals->place[i])
            tried[width][t->drawn[i].count][REFUSED]++;
    }
}

static void try_trial(const struct trial *t)
{
    struct call c = plain(t->line, t->length);
    uint8_t written[SALTIGHEDDA_LINE];
    int holds = hold(is_counted(&c, t->counts, random_below(LARGEST + 1)) && is_counted(&c, t->counts, LARGEST),
                     "a drawn field has another count")
                && hold(is_listed(t), "a drawn field has other bits or another fault");
    if (holds && t->kind->put != NULL) {
        holds = hold(is_written(t, written), "a drawn field is written otherwise")
                && (t->answer != 0 || hold(is_read_again(t, written), "a written field is read otherwise"));
        note_tried(t);
    }
    if (!holds)
        tell_line(t->line, t->length);
}

/*
 * In columns of every width every count was written that can be, and every one refused that can be: a digit and the point take two
 * columns, so two places less than columns may still fit, and don't with a minus.
 */
static void hold_tried(void)
{
    for (size_t width = NARROWEST + 1; width <= WIDEST; width++)
        for (size_t count = 0; count < width; count++) {
            hold((tried[width][count][WRITTEN] > 0) == (count + 2 <= width), "a count was never written, or one too large");
            hold((tried[width][count][REFUSED] > 0) == (count + 2 >= width), "a count was never refused, or one that fits");
        }
}

static void try_drawn(uint64_t count)
{
    static struct trial t;
    uint64_t fields = 0;
    for (size_t i = 0; fields < count; i++) {
        t.kind = &kinds[i % KINDS];
        draw_trial(&t);
        try_trial(&t);
        fields += t.kind->reals->count;
    }
    /* With fewer of them a limit is easily missed. */
    if (count >= 100000)
        hold_tried();
}

int main(int argc, char **argv)
{
    uint64_t count = argc > 1 ? strtoull(argv[1], NULL, 10) : 1000000;
    seed = argc > 2 ? strtoull(argv[2], NULL, 10) : 330;
    /* A long run that is stopped has told what it found. */
    setvbuf(stdout, NULL, _IOLBF, 0);
    memset(remarks, 1, sizeof remarks);
    try_edges();
    try_drawn(count);
    if (failures > MOST_TOLD)
        printf("places: %d more\n", failures - MOST_TOLD);
    return failures != 0;
}

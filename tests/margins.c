/*
 * The columns that docs/MARGINS.md calls free, held against the library from both sides. For each kind and mode: of each free column below 90,
 * drawn pairs of lines that differ there alone, and pairs that differ in any of the free ones, all with the same listing or the same refusal;
 * of each column that isn't free, a pair that differs there alone and is answered differently. Prints what fails, and its status is then 1.
 *
 *     margins MARGINS.md [PAIRS [SEED]]
 *
 * PAIRS is how many are drawn for a column, a thousand if it isn't given.
 */
#include <saltighedda.h>

#include "draw.h"

#include <stdio.h>
#include <stdlib.h>
#include <string.h>

enum { MOST_TOLD = 20, COLUMNS = 90, NAME = 6, MOST_ROWS = 40 };

static int failures;
static uint8_t remarks[SALTIGHEDDA_REMARKS];

/* How many pairs were answered the same, and for how many columns a pair was found that isn't. */
static uint64_t same_pairs, told_columns;

/* ---- The table. ---- */

struct row {
    char kind[16], mode[8];
    uint8_t is_free[COLUMNS];
};

static struct row rows[MOST_ROWS];
static size_t row_count;

/* `11, 27..30, 80..` or `none`; anything else is no list of columns. */
static int read_columns(const char *text, uint8_t *is_free)
{
    if (strcmp(text, "none") == 0)
        return 1;
    for (;;) {
        char *end;
        size_t a = strtoul(text, &end, 10), b;
        if (end == text)
            return 0;
        text = end;
        b = a + 1;
        if (strncmp(text, "..", 2) == 0) {
            text += 2;
            b = strtoul(text, &end, 10);
            if (end == text)
                b = COLUMNS;
            text = end;
        }
        for (; a < b && a < COLUMNS; a++)
            is_free[a] = 1;
        if (*text == 0)
            return 1;
        if (strncmp(text, ", ", 2) != 0)
            return 0;
        text += 2;
    }
}

static int read_table(const char *path)
{
    char line[512], columns[256];
    FILE *file = fopen(path, "r");
    if (!file)
        return 0;
    while (row_count < MOST_ROWS && fgets(line, sizeof line, file)) {
        struct row *row = &rows[row_count];
        if (sscanf(line, "| %15[A-Z0-9] | %7[a-zA-Z] | %255[^|] |", row->kind, row->mode, columns) != 3)
            continue;
        columns[strlen(columns) - 1] = 0;
        if (!read_columns(columns, row->is_free)) {
            printf("margins: no columns: `%s`\n", columns);
            failures++;
        }
        row_count++;
    }
    fclose(file);
    return 1;
}

/* The table's row of a kind in a mode. */
static const struct row *row_of(const char *kind, uint32_t mode)
{
    for (size_t i = 0; i < row_count; i++)
        if (strcmp(rows[i].kind, kind) == 0
            && (strcmp(rows[i].mode, "both") == 0 || strcmp(rows[i].mode, mode == SALTIGHEDDA_WWPDB ? "wwPDB" : "crate") == 0))
            return &rows[i];
    return NULL;
}

/* ---- What is asked. ---- */

struct answer {
    uint8_t out[SALTIGHEDDA_LONGEST];
    size_t length, number, place, columns;
};

static void ask(struct answer *to, const uint8_t *line, size_t n, uint32_t options)
{
    to->length = saltighedda_list(line, n, 7, options, remarks, sizeof remarks, to->out, sizeof to->out);
    to->number = to->place = to->columns = 0;
    if (to->length == 0) {
        to->number = saltighedda_list_refusal(line, n, 7, options, remarks, sizeof remarks, to->out, sizeof to->out);
        to->place = saltighedda_list_place(line, n, 7, options, remarks, sizeof remarks, to->out, sizeof to->out);
        to->columns = saltighedda_list_length(line, n, 7, options, remarks, sizeof remarks, to->out, sizeof to->out);
    }
}

static int is_same(const uint8_t *one, const uint8_t *other, size_t n, uint32_t options)
{
    static struct answer a, b;
    ask(&a, one, n, options);
    ask(&b, other, n, options);
    return a.length == b.length && a.number == b.number && a.place == b.place && a.columns == b.columns
           && memcmp(a.out, b.out, a.length) == 0;
}

static void tell(const char *what, const char *kind, uint32_t options, size_t column, const uint8_t *line, size_t n)
{
    if (failures++ < MOST_TOLD)
        printf("margins: %s: %s, options %u, column %zu, `%.*s`\n", what, kind, options, column, (int)n, (const char *)line);
}

/* ---- Which lines. ---- */

struct kind {
    const char *kind;
    const char *good[3];
};

/* Lines that are read without a fault, filled up with blanks to 90 bytes; a second one where a part stands only in some. */
static const struct kind kinds[] = {
    {"EMPTY", {"HELIX    1   A SER A    2  GLN A   12  1", "FORMUL  2   ZN    ZN 2+"}},
    {"HEADER", {"HEADER    HYDROLASE                               30-MAR-07   2JHQ"}},
    {"REMARK", {"REMARK   2 RESOLUTION.    1.50 ANGSTROMS."}},
    {"ATOM", {"ATOM      1  CA AGLY A   1B     11.639   6.071  -5.147  1.00 17.90      SEG ZN2+"}},
    {"HETATM", {"HETATM   18 ZN  B ZN A 101C     11.639   6.071  -5.147  1.00 17.90      SEG ZN2+"}},
    {"ANISOU", {"ANISOU    1  CA BGLY A   1C    2551   2403   2702    112    -87     31  SEG  C1-"}},
    {"CRYST1", {"CRYST1   52.000   58.600   61.900  90.00  90.00  90.00 P 21 21 21    8"}},
    {"SCALE", {"SCALE1      0.019231  0.000000  0.000000        0.00000",
               "SCALE2      0.000000  0.017065  0.000000        0.00000",
               "SCALE3      0.000000  0.000000  0.016155        0.00000"}},
    {"ORIGX", {"ORIGX1      1.000000  0.000000  0.000000        0.00000",
               "ORIGX2      0.000000  1.000000  0.000000        0.00000",
               "ORIGX3      0.000000  0.000000  1.000000        0.00000"}},
    {"MTRIX", {"MTRIX1   1 -1.000000  0.000000  0.000000        0.00000    1",
               "MTRIX2   1  0.000000  1.000000  0.000000        0.00000    1",
               "MTRIX3   1  0.000000  0.000000 -1.000000        0.00000"}},
    {"MODEL", {"MODEL        2", "MODEL     1234"}},
    {"MASTER", {"MASTER       42    0    3    2    5    0    0    6  404    2   21   11"}},
    {"DBREF", {"DBREF  2JHQ A    1I  226J UNP    Q9KPK8   UNG_VIBCH        1K   226L"}},
    {"DBREF1", {"DBREF1 2J83 A   61I  322J UNIMES               UPI000148A153"}},
    {"DBREF2", {"DBREF2 1ABC A     MES00005880000           61         322"}},
    {"SEQRES", {"SEQRES   1 A  226  MET SER GLU SER LEU THR TRP HIS ASP VAL ILE GLY ASN"}},
    {"SEQADV", {"SEQADV 3ABC MET A   -1B UNP  P10725              EXPRESSION TAG",
                "SEQADV 3ABC GLY A   50  UNP  P10725    VAL    50 ENGINEERED MUTATION"}},
    {"MODRES", {"MODRES 2R0L ASN A   74B ASN  GLYCOSYLATION SITE"}},
    {"SSBOND", {"SSBOND   1 CYS A    6B   CYS A  127C                         1555   1555  2.03"}},
    {"ENDMDL", {"ENDMDL"}},
    {"TER", {"TER      18      ALA A 100"}},
    {"END", {"END"}},
};

static size_t good_count(const struct kind *kind)
{
    size_t n = 0;
    while (n < sizeof kind->good / sizeof *kind->good && kind->good[n])
        n++;
    return n;
}

static void put_good(uint8_t *line, const char *good)
{
    memset(line, ' ', COLUMNS);
    memcpy(line, good, strlen(good));
}

static uint8_t drawn_byte(void)
{
    static const char alphabet[] = "0123456789 0123456789  1  +-+-.xA%\t\r\177";
    return random_below(4) ? (uint8_t)alphabet[random_below(sizeof alphabet - 1)] : (uint8_t)random_below(128);
}

/* A good line with some of its columns drawn anew behind the name, and how long it is cut: so that it reaches a column, often the whole. */
static size_t draw_line(uint8_t *line, const struct kind *kind, size_t column)
{
    put_good(line, kind->good[random_below(good_count(kind))]);
    for (uint64_t k = random_below(2) ? random_below(8) : random_below(60); k > 0; k--)
        line[NAME + random_below(COLUMNS - NAME)] = drawn_byte();
    return random_below(3) ? COLUMNS : column + 1 + random_below(COLUMNS - column);
}

/* ---- The two sides. ---- */

static void try_free(const struct kind *kind, const struct row *row, uint32_t mode, size_t column, uint64_t pairs)
{
    uint8_t one[COLUMNS], other[COLUMNS];
    for (uint64_t i = 0; i < pairs; i++) {
        uint32_t options = mode | (uint32_t)random_below(4);
        size_t n = draw_line(one, kind, column);
        memcpy(other, one, sizeof one);
        do
            other[column] = drawn_byte();
        while (other[column] == one[column]);
        if (i % 8 == 7)
            for (size_t at = NAME; row && at < COLUMNS; at++)
                if (row->is_free[at])
                    other[at] = drawn_byte();
        if (is_same(one, other, n, options))
            same_pairs++;
        else
            tell("a free column matters", kind->kind, options, column, other, n);
    }
}

/* Any byte in the column of a good line, and of drawn ones if that isn't enough. */
static int is_told(const struct kind *kind, uint32_t mode, size_t column)
{
    uint8_t one[COLUMNS], other[COLUMNS];
    for (size_t attempt = 0; attempt < 1000; attempt++) {
        if (attempt < good_count(kind))
            put_good(one, kind->good[attempt]);
        else
            draw_line(one, kind, COLUMNS - 1);
        memcpy(other, one, sizeof one);
        for (unsigned byte = 0; byte < 128; byte++) {
            other[column] = (uint8_t)byte;
            if (!is_same(one, other, COLUMNS, mode))
                return 1;
        }
    }
    return 0;
}

/* 02 counts SEQRES's columns from 19 to 69 as the triples', and nothing is read from those between two of them. */
static int is_between_triples(const struct kind *kind, size_t column)
{
    return strcmp(kind->kind, "SEQRES") == 0 && 19 < column && column < 70 && (column - 19) % 4 == 3;
}

static void try_kind(const struct kind *kind, uint32_t mode, uint64_t pairs)
{
    const struct row *row = row_of(kind->kind, mode);
    if (!row) {
        tell("no row of the table", kind->kind, mode, 0, (const uint8_t *)"", 0);
        return;
    }
    for (size_t column = NAME; column < COLUMNS; column++) {
        uint8_t line[COLUMNS];
        if (row->is_free[column])
            try_free(kind, row, mode, column, pairs);
        else if (is_between_triples(kind, column))
            try_free(kind, NULL, mode, column, pairs);
        else if (is_told(kind, mode, column))
            told_columns++;
        else
            put_good(line, kind->good[0]), tell("a column that isn't free doesn't matter", kind->kind, mode, column, line, COLUMNS);
    }
}

int main(int argc, char **argv)
{
    uint64_t pairs = argc > 2 ? strtoull(argv[2], NULL, 10) : 1000;
    if (argc > 3)
        seed = strtoull(argv[3], NULL, 10);
    setvbuf(stdout, NULL, _IOLBF, 0);
    memset(remarks, 1, sizeof remarks);
    if (argc < 2 || !read_table(argv[1]) || row_count == 0) {
        printf("margins: there is no table\n");
        return 1;
    }
    for (size_t i = 0; i < sizeof kinds / sizeof *kinds; i++) {
        try_kind(&kinds[i], 0, pairs);
        try_kind(&kinds[i], SALTIGHEDDA_WWPDB, pairs);
    }
    if (same_pairs == 0 || told_columns == 0) {
        printf("margins: nothing was tried\n");
        failures++;
    }
    if (failures > MOST_TOLD)
        printf("margins: %d more\n", failures - MOST_TOLD);
    return failures != 0;
}

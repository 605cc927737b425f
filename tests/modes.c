/*
 * wwPDB mode from C, held against a reading of its three rules that shares no code with the library: DBREF1's end in 20..24, MODEL's
 * serial in 10..14, and a line that is the six bytes ENDMDL. The listings of these kinds are worked out here from their columns; every
 * other line has to be listed or refused as in crate mode. Every cut of good lines, every byte in every column of the three kinds, and
 * drawn lines, under all options. Prints what differs, and its status is then 1.
 *
 *     modes [LINES [SEED]]
 *
 * LINES is how many are drawn, a quarter of a million if it isn't given.
 */
#include <saltighedda.h>

#include "draw.h"

#include <inttypes.h>
#include <stdarg.h>
#include <stdio.h>
#include <stdlib.h>
#include <string.h>

enum { MOST_TOLD = 20, MOST_LINE = 90 };

static int failures;
static uint8_t remarks[SALTIGHEDDA_REMARKS];

/* How often a rule made the answer another than crate mode's: with none of them nothing would be tested. */
static uint64_t ends, serials, models;

/* ---- A listing, put together row by row, with its faults kept until the end. ---- */

struct listing {
    char bytes[SALTIGHEDDA_LONGEST + 1], faults[SALTIGHEDDA_LONGEST];
    size_t length, faulted;
    unsigned count;
};

static void add(struct listing *to, const char *form, ...)
{
    va_list words;
    va_start(words, form);
    to->length += (size_t)vsnprintf(to->bytes + to->length, sizeof to->bytes - to->length, form, words);
    va_end(words);
}

static void fault(struct listing *to, int kind, size_t place, size_t length)
{
    to->faulted += (size_t)snprintf(to->faults + to->faulted, sizeof to->faults - to->faulted, "fault=%d,%zu,%zu\n", kind, place,
                                    length);
    to->count++;
}

static void begin(struct listing *to, const char *name)
{
    memset(to, 0, sizeof *to);
    add(to, "record=%s\nline=7\n", name);
}

static void end(struct listing *to)
{
    add(to, "faults=%u\n%s", to->count, to->faults);
}

/* ---- Fields in the columns from a to b, of a line of n bytes. ---- */

static int is_white(uint8_t byte)
{
    return byte == ' ' || (9 <= byte && byte <= 13);
}

static void add_bytes(struct listing *to, const uint8_t *bytes, size_t n)
{
    for (size_t i = 0; i < n; i++)
        add(to, bytes[i] < 32 || bytes[i] > 126 || bytes[i] == '%' ? "%%%02X" : "%c", bytes[i]);
}

static void text(struct listing *to, const uint8_t *line, size_t n, size_t a, size_t b)
{
    add(to, "f%zu=", a);
    if (n < b) {
        fault(to, 1, a, b - a);
    } else {
        size_t first = a, last = b;
        while (first < last && is_white(line[first]))
            first++;
        while (first < last && is_white(line[last - 1]))
            last--;
        add_bytes(to, line + first, last - first);
    }
    add(to, "\n");
}

static void character(struct listing *to, const uint8_t *line, size_t n, size_t at)
{
    add(to, "f%zu=", at);
    if (n <= at) {
        fault(to, 1, at, 1);
        add(to, " ");
    } else {
        add_bytes(to, line + at, 1);
    }
    add(to, "\n");
}

/* A whole number of few digits, with a sign if it may have one. */
static void whole(struct listing *to, const uint8_t *line, size_t n, size_t a, size_t b, int may_be_minus)
{
    int64_t value = 0;
    int minus = 0, digits = 0;
    size_t first = a, last = b;
    if (n < b) {
        fault(to, 1, a, b - a);
        add(to, "f%zu=0\n", a);
        return;
    }
    while (first < last && is_white(line[first]))
        first++;
    while (first < last && is_white(line[last - 1]))
        last--;
    if (first < last && (line[first] == '+' || (may_be_minus && line[first] == '-')))
        minus = line[first++] == '-';
    for (; first < last && '0' <= line[first] && line[first] <= '9'; first++, digits++)
        value = 10 * value + (line[first] - '0');
    if (digits == 0 || first < last) {
        fault(to, 2, a, b - a);
        value = 0;
    }
    add(to, "f%zu=%" PRId64 "\n", a, minus ? -value : value);
}

/* ---- The three rules. ---- */

static int begins(const uint8_t *line, size_t n, const char *name)
{
    return n > 6 && memcmp(line, name, 6) == 0;
}

/* The listing of a line in wwPDB mode, if one of the rules is about it. */
static int is_ruled(const uint8_t *line, size_t n, uint32_t options, struct listing *to)
{
    if (n == 6 && memcmp(line, "ENDMDL", 6) == 0) {
        begin(to, "ENDMDL");
    } else if (begins(line, n, "MODEL ")) {
        begin(to, "MODEL");
        whole(to, line, n, 10, 14, 0);
    } else if (begins(line, n, "DBREF1") && options % 2 == 0) {
        begin(to, "DBREF1");
        text(to, line, n, 7, 11);
        text(to, line, n, 12, 13);
        whole(to, line, n, 14, 18, 1);
        character(to, line, n, 18);
        whole(to, line, n, 20, 24, 1);
        character(to, line, n, 24);
        text(to, line, n, 26, 32);
        text(to, line, n, 47, 67);
    } else {
        return 0;
    }
    end(to);
    return 1;
}

/* ---- What is asked. ---- */

struct answer {
    uint8_t out[SALTIGHEDDA_LONGEST];
    size_t length, number, place, columns;
};

static void ask(struct answer *to, const uint8_t *line, size_t n, uint32_t options)
{
    memset(to, 0, sizeof *to);
    to->length = saltighedda_list(line, n, 7, options, remarks, sizeof remarks, to->out, sizeof to->out);
    to->number = saltighedda_list_refusal(line, n, 7, options, remarks, sizeof remarks, to->out, sizeof to->out);
    to->place = saltighedda_list_place(line, n, 7, options, remarks, sizeof remarks, to->out, sizeof to->out);
    to->columns = saltighedda_list_length(line, n, 7, options, remarks, sizeof remarks, to->out, sizeof to->out);
}

static void tell(const char *what, const uint8_t *line, size_t n, uint32_t options)
{
    if (failures++ < MOST_TOLD)
        printf("modes: %s: options %u, %zu bytes, `%.*s`\n", what, options, n, (int)n, (const char *)line);
}

static void try_with(const uint8_t *line, size_t n, uint32_t options)
{
    static struct answer standard, crate;
    static struct listing due;
    ask(&standard, line, n, options | SALTIGHEDDA_WWPDB);
    ask(&crate, line, n, options);
    if (crate.number != 0 || !is_ruled(line, n, options, &due)) {
        if (memcmp(&standard, &crate, sizeof crate) != 0)
            tell("another answer than in crate mode", line, n, options);
        return;
    }
    if (standard.number != 0 || standard.length != due.length || memcmp(standard.out, due.bytes, due.length) != 0)
        tell("not what the rule says", line, n, options);
    if (standard.length != crate.length || memcmp(standard.out, crate.out, crate.length) != 0) {
        ends += line[0] == 'D';
        serials += line[0] == 'M';
        models += line[0] == 'E';
    }
}

static void try_line(const uint8_t *line, size_t n)
{
    for (uint32_t options = 0; options < 4; options++)
        try_with(line, n, options);
}

/* ---- Which lines. ---- */

static const char *const good[] = {
    "MODEL        2                                                                  ",
    "MODEL     1234                                                                  ",
    "DBREF1 2J83 A   61  1322  UNIMES               UPI000148A153                    ",
    "DBREF1 1ABC B -999I-1234J UNIMES               MES00005880000                    ",
    "ENDMDL                                                                          ",
    "END                                                                             ",
    "TER      18      ALA A 100                                                      ",
    "DBREF  2JHQ A    1   226  UNP    Q9KPK8   UNG_VIBCH        1    226             ",
    "DBREF2 1ABC A     MES00005880000           61         322                       ",
    "HETATM   18 ZN    ZN A 101      11.639   6.071  -5.147  1.00 17.90          ZN2+",
    "CRYST1   52.000   58.600   61.900  90.00  90.00  90.00 P 21 21 21    8          ",
    "MASTER       42    0    3    2    5    0    0    6  404    2   21   11          ",
};

static void try_cuts_and_bytes(void)
{
    uint8_t line[MOST_LINE];
    for (size_t g = 0; g < sizeof good / sizeof *good; g++) {
        size_t whole_length = strlen(good[g]);
        for (size_t n = 0; n <= whole_length; n++)
            try_line((const uint8_t *)good[g], n);
        for (size_t at = 0; at < 30; at++)
            for (unsigned byte = 0; byte < 256; byte++) {
                memcpy(line, good[g], whole_length);
                line[at] = (uint8_t)byte;
                try_line(line, whole_length);
                try_line(line, 6 + at % 20);
            }
    }
}

/* A good line with a few of its first columns drawn anew, cut anywhere or not. */
static void try_drawn(uint64_t count)
{
    static const char alphabet[] = "0123456789 0123456789 0123456789  +-+-.xA%\t\177\200";
    uint8_t line[MOST_LINE];
    for (uint64_t i = 0; i < count; i++) {
        size_t g = random_below(4) ? random_below(5) : random_below(sizeof good / sizeof *good);
        size_t n = strlen(good[g]);
        memcpy(line, good[g], n);
        for (uint64_t k = random_below(9); k > 0; k--)
            line[6 + random_below(22)] = (uint8_t)alphabet[random_below(sizeof alphabet - 1)];
        if (random_below(40) == 0)
            line[random_below(6)] = (uint8_t)alphabet[random_below(sizeof alphabet - 1)];
        if (random_below(3) == 0)
            n = random_below(n + 1);
        try_line(line, n);
    }
}

int main(int argc, char **argv)
{
    uint64_t count = argc > 1 ? strtoull(argv[1], NULL, 10) : 250000;
    if (argc > 2)
        seed = strtoull(argv[2], NULL, 10);
    setvbuf(stdout, NULL, _IOLBF, 0);
    memset(remarks, 1, sizeof remarks);
    try_cuts_and_bytes();
    try_drawn(count);
    if (ends == 0 || serials == 0 || models == 0) {
        printf("modes: a rule never made a difference\n");
        failures++;
    }
    if (failures > MOST_TOLD)
        printf("modes: %d more\n", failures - MOST_TOLD);
    return failures != 0;
}

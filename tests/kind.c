/*
 * The kind of a line from C, held against a reading of the rule that shares no code with the library, and against the name that a listing
 * has: every name and every cut of it, every byte in each of the first seven columns, bytes of 128 or more and lines that are too long, and
 * drawn lines, under all options. Prints what differs, and its status is then 1.
 *
 *     kind [LINES [SEED]]
 *
 * LINES is how many are drawn, a hundred thousand if it isn't given.
 */
#define _DEFAULT_SOURCE
#include <saltighedda.h>

#include "draw.h"

#include <inttypes.h>
#include <stdio.h>
#include <stdlib.h>
#include <string.h>
#include <sys/mman.h>

enum { MOST_TOLD = 20, MOST_LINE = 1100, OTHER_BITS = 0xFFF8 };

static int failures;
static uint8_t remarks[SALTIGHEDDA_REMARKS];

static void tell(const char *what, const uint8_t *line, size_t n, uint32_t options, uint64_t found)
{
    if (failures++ < MOST_TOLD)
        printf("kind: %s: options %u, %zu bytes, `%.*s`: %" PRIx64 "\n", what, options, n, (int)(n < 80 ? n : 80), (const char *)line, found);
}

/* ---- The rule. ---- */

static const struct {
    const char *name;
    uint64_t kind;
    int kept;
} names[] = {
    {"HEADER", SALTIGHEDDA_HEADER, 0}, {"REMARK", SALTIGHEDDA_REMARK, 0}, {"ATOM  ", SALTIGHEDDA_ATOM, 1},
    {"HETATM", SALTIGHEDDA_HETATM, 1}, {"ANISOU", SALTIGHEDDA_ANISOU, 0}, {"CRYST1", SALTIGHEDDA_CRYST1, 0},
    {"SCALE1", SALTIGHEDDA_SCALE1, 0}, {"SCALE2", SALTIGHEDDA_SCALE2, 0}, {"SCALE3", SALTIGHEDDA_SCALE3, 0},
    {"ORIGX1", SALTIGHEDDA_ORIGX1, 0}, {"ORIGX2", SALTIGHEDDA_ORIGX2, 0}, {"ORIGX3", SALTIGHEDDA_ORIGX3, 0},
    {"MTRIX1", SALTIGHEDDA_MTRIX1, 0}, {"MTRIX2", SALTIGHEDDA_MTRIX2, 0}, {"MTRIX3", SALTIGHEDDA_MTRIX3, 0},
    {"MODEL ", SALTIGHEDDA_MODEL, 1}, {"MASTER", SALTIGHEDDA_MASTER, 0}, {"DBREF ", SALTIGHEDDA_DBREF, 0},
    {"DBREF1", SALTIGHEDDA_DBREF1, 0}, {"DBREF2", SALTIGHEDDA_DBREF2, 0}, {"SEQRES", SALTIGHEDDA_SEQRES, 0},
    {"SEQADV", SALTIGHEDDA_SEQADV, 0}, {"MODRES", SALTIGHEDDA_MODRES, 0}, {"SSBOND", SALTIGHEDDA_SSBOND, 0},
    {"ENDMDL", SALTIGHEDDA_ENDMDL, 1}, {"TER   ", SALTIGHEDDA_TER, 1}, {"END   ", SALTIGHEDDA_END, 1},
};

static uint64_t due_kind(const uint8_t *line, size_t n, uint32_t options)
{
    if (n > 1024)
        return UINT64_C(2) << 48 | UINT64_C(1024) << 32 | (n - 1024);
    for (size_t i = 0; i < n; i++)
        if (line[i] >= 128)
            return UINT64_C(3) << 48 | (uint64_t)i << 32 | 1;
    if (n > 6) {
        for (size_t i = 0; i < sizeof names / sizeof *names; i++)
            if (memcmp(line, names[i].name, 6) == 0)
                return options & SALTIGHEDDA_ATOMS_ONLY && !names[i].kept ? SALTIGHEDDA_EMPTY : names[i].kind;
        return SALTIGHEDDA_EMPTY;
    }
    if (n == 6 && options & SALTIGHEDDA_WWPDB && memcmp(line, "ENDMDL", 6) == 0)
        return SALTIGHEDDA_ENDMDL;
    if (n >= 3 && memcmp(line, "TER", 3) == 0)
        return SALTIGHEDDA_TER;
    return n >= 3 && memcmp(line, "END", 3) == 0 ? SALTIGHEDDA_END : SALTIGHEDDA_EMPTY;
}

/* ---- What is asked. ---- */

/* A line that is listed has the kind's name; one that isn't, 2 or 3 on both sides or a refusal of its kind's own. */
static void try_listing(const uint8_t *line, size_t n, uint32_t options, uint64_t kind)
{
    static uint8_t out[SALTIGHEDDA_LONGEST];
    char head[32];
    size_t length = saltighedda_list(line, n, 7, options, remarks, sizeof remarks, out, sizeof out);
    if (length != 0) {
        int m = snprintf(head, sizeof head, "record=%s\n", saltighedda_kind_name(kind));
        if (kind >= SALTIGHEDDA_KINDS || memcmp(out, head, (size_t)m) != 0)
            tell("another name than the listing's", line, n, options, kind);
        return;
    }
    size_t number = saltighedda_list_refusal(line, n, 7, options, remarks, sizeof remarks, out, sizeof out);
    size_t place = saltighedda_list_place(line, n, 7, options, remarks, sizeof remarks, out, sizeof out);
    if (number < 4 ? number != SALTIGHEDDA_REFUSAL(kind) || place != SALTIGHEDDA_PLACE(kind) : kind >= SALTIGHEDDA_KINDS)
        tell("another refusal than the listing's", line, n, options, kind);
}

static void try_line(const uint8_t *line, size_t n)
{
    for (uint32_t options = 0; options < 8; options++) {
        uint64_t kind = saltighedda_kind(line, n, options);
        if (kind != due_kind(line, n, options))
            tell("not what the rule says", line, n, options, kind);
        if (kind != saltighedda_kind(line, n, options | OTHER_BITS))
            tell("another bit has an effect", line, n, options, kind);
        try_listing(line, n, options, kind);
    }
}

/* ---- Which lines. ---- */

static void try_names(void)
{
    uint8_t line[MOST_LINE];
    for (size_t g = 0; g < sizeof names / sizeof *names; g++) {
        memset(line, ' ', sizeof line);
        memcpy(line, names[g].name, 6);
        for (size_t n = 0; n <= 82; n++)
            try_line(line, n);
        for (size_t n = 1022; n <= 1027; n++)
            try_line(line, n);
        for (size_t at = 0; at < 7; at++)
            for (unsigned byte = 0; byte < 256; byte++) {
                uint8_t old = line[at];
                line[at] = (uint8_t)byte;
                for (size_t n = 5; n < 9; n++)
                    try_line(line, n);
                line[at] = old;
            }
    }
}

static void try_drawn(uint64_t count)
{
    uint8_t line[MOST_LINE];
    for (uint64_t i = 0; i < count; i++) {
        size_t n = random_below(20) ? random_below(90) : random_below(MOST_LINE);
        for (size_t at = 0; at < n; at++)
            line[at] = (uint8_t)(32 + random_below(95));
        if (random_below(8))
            memcpy(line, names[random_below(sizeof names / sizeof *names)].name, 6);
        if (random_below(6) == 0 && n > 0)
            line[random_below(n)] = (uint8_t)random_below(256);
        try_line(line, n);
    }
}

/* A line of over 2^32 bytes, of which none is looked at: the excess stops. */
static void try_huge(void)
{
    size_t most = UINT64_C(4294967295);
    void *bytes = mmap(NULL, most + 2048, PROT_READ, MAP_PRIVATE | MAP_ANONYMOUS | MAP_NORESERVE, -1, 0);
    if (bytes == MAP_FAILED) {
        printf("kind: left out: no room for a line of 2^32 bytes\n");
        return;
    }
    for (size_t excess = most - 1; excess <= most + 2; excess++) {
        uint64_t found = saltighedda_kind(bytes, 1024 + excess, 0);
        if (found != (UINT64_C(2) << 48 | UINT64_C(1024) << 32 | (excess < most ? excess : most)))
            tell("the excess doesn't stop", (const uint8_t *)"", 0, 0, found);
    }
    munmap(bytes, most + 2048);
}

int main(int argc, char **argv)
{
    uint64_t count = argc > 1 ? strtoull(argv[1], NULL, 10) : 100000;
    if (argc > 2)
        seed = strtoull(argv[2], NULL, 10);
    setvbuf(stdout, NULL, _IOLBF, 0);
    memset(remarks, 1, sizeof remarks);
    for (uint64_t kind = 0; kind < 40; kind++)
        if ((saltighedda_kind_name(kind) != NULL) != (kind < SALTIGHEDDA_KINDS))
            tell("a name of no kind, or a kind without one", (const uint8_t *)"", 0, 0, kind);
    try_line(NULL, 0);
    try_names();
    try_drawn(count);
    try_huge();
    if (failures > MOST_TOLD)
        printf("kind: %d more\n", failures - MOST_TOLD);
    return failures != 0;
}

/*
 * The entry that mends a line, from C: every length from 0 to 81 of an ATOM and of a line of every other kind, buffers that are too
 * short, just long enough and longer; then drawn lines, cut anywhere, with bytes of 128 or more strewn in, beside a mending of this
 * program's own, which goes by document 02 and shares nothing with the port; and what the lexer makes of both lines. Prints what
 * differs, and its status is then 1.
 *
 *     mend [LINES [SEED]]
 *
 * LINES are drawn, a million if the number isn't given.
 */
#include <saltighedda.h>

#include <inttypes.h>
#include <stdio.h>
#include <stdlib.h>
#include <string.h>

#include "draw.h"

enum { MOST_TOLD = 20, LONGEST_LINE = 1024, ROOM = LONGEST_LINE + 100, FULL = 80 };

static int failures;

static int hold(int fact, const char *what, const uint8_t *line, size_t length)
{
    if (!fact && failures++ < MOST_TOLD)
        printf("mend: %s: %zu bytes: %.*s\n", what, length, (int)length, (const char *)line);
    return fact;
}

/* ---- The mending of its own. ---- */

/* ATOM's fields of more than one column, as document 01 has them. */
static const int fields[][2] = { { 6, 11 },  { 12, 16 }, { 17, 20 }, { 22, 26 }, { 30, 38 }, { 38, 46 },
                                 { 46, 54 }, { 54, 60 }, { 60, 66 }, { 72, 76 }, { 76, 78 }, { 78, 80 } };

enum { FIELDS = sizeof fields / sizeof *fields };

static int is_atom(const uint8_t *line, size_t length)
{
    return length > 6 && (memcmp(line, "ATOM  ", 6) == 0 || memcmp(line, "HETATM", 6) == 0);
}

static int is_cut(size_t length)
{
    for (int i = 0; i < FIELDS; i++)
        if ((size_t)fields[i][0] < length && length < (size_t)fields[i][1])
            return 1;
    return 0;
}

static size_t mended_length(const uint8_t *line, size_t length)
{
    return length < FULL && is_atom(line, length) && !is_cut(length) ? FULL : length;
}

/* The mended line and its changes, by the rule; how many changes there are. */
static size_t mend(const uint8_t *line, size_t length, uint8_t *out, uint64_t *words)
{
    size_t count = 0, size = mended_length(line, length);
    for (size_t i = 0; i < size; i++) {
        uint64_t what = i >= length ? 2 : line[i] >= 128 ? 1 : 0;
        uint64_t before = i == 0 ? 0 : i - 1 >= length ? 2 : line[i - 1] >= 128 ? 1 : 0;
        out[i] = what == 2 ? ' ' : what == 1 ? '?' : line[i];
        if (what && what == before)
            words[count - 1] += 1 << 16;
        else if (what)
            words[count++] = i + (1 << 16) + (what << 32);
    }
    return count;
}

/* ---- A line, by both. ---- */

static uint8_t remarks[SALTIGHEDDA_REMARKS];

static void check(const uint8_t *line, size_t length)
{
    static uint8_t out[ROOM], wanted[ROOM], kept[ROOM], again[ROOM];
    static uint64_t words[SALTIGHEDDA_MEND_WORDS + 3], told[SALTIGHEDDA_MEND_WORDS + 3];
    size_t size = mended_length(line, length);
    for (size_t i = 0; i < ROOM; i++)
        out[i] = kept[i] = wanted[i] = (uint8_t)random_bits();
    for (size_t i = 0; i < SALTIGHEDDA_MEND_WORDS + 3; i++)
        words[i] = told[i] = random_bits();

    /* Too few words, too few bytes, and both: nothing is touched. */
    uint64_t few = saltighedda_mend(line, length, out, size, words, SALTIGHEDDA_MEND_WORDS - 1);
    hold(few == (UINT64_C(8) << 48 | SALTIGHEDDA_MEND_WORDS), "too few words aren't told", line, length);
    if (size > 0) {
        uint64_t wants = UINT64_C(8) << 48 | size;
        hold(saltighedda_mend(line, length, out, size - 1, words, SALTIGHEDDA_MEND_WORDS) == wants, "too few bytes aren't told", line, length);
        hold(saltighedda_mend(line, length, out, size - 1, words, 0) == wants, "too few bytes aren't told first", line, length);
    }
    hold(memcmp(out, kept, ROOM) == 0 && memcmp(words, told, sizeof words) == 0, "a refusal touched something", line, length);

    size_t count = mend(line, length, wanted, told + 2);
    told[0] = size;
    told[1] = count;
    size_t room = size + random_below(ROOM - size + 1), many = SALTIGHEDDA_MEND_WORDS + random_below(4);
    hold(saltighedda_mend(line, length, out, room, words, many) == 0, "a line is refused", line, length);
    hold(memcmp(out, wanted, ROOM) == 0, "the mended line is another", line, length);
    hold(memcmp(words, told, sizeof words) == 0, "the changes are others", line, length);

    /* Undone, with the bytes named left out. */
    size_t back = size;
    memcpy(again, out, size);
    for (size_t i = 0; i < count; i++)
        if (SALTIGHEDDA_CHANGE_WHAT(words[2 + i]) == 2)
            back = SALTIGHEDDA_CHANGE_PLACE(words[2 + i]);
        else
            memcpy(again + SALTIGHEDDA_CHANGE_PLACE(words[2 + i]), line + SALTIGHEDDA_CHANGE_PLACE(words[2 + i]),
                   SALTIGHEDDA_CHANGE_LENGTH(words[2 + i]));
    hold(back == length && memcmp(again, line, length) == 0, "undoing doesn't give the line back", line, length);

    /* Twice. */
    memcpy(kept, out, size);
    hold(saltighedda_mend(kept, size, out, ROOM, words, SALTIGHEDDA_MEND_WORDS) == 0 && words[0] == size && words[1] == 0
             && memcmp(kept, out, size) == 0,
         "mending twice changes more", line, length);
    hold(saltighedda_kind(kept, size, 0) >> 48 == 0, "a mended line has no kind", line, length);
}

/*
 * Where no byte is made `?` a padded line is listed as it was, but for the faults: each real's, and each whole number's, that the line
 * didn't reach turns from 1 to 2 and stays, and those of texts and characters go. A chain that wasn't reached is listed as a blank
 * before and after.
 */
static void check_read(const uint8_t *line, size_t length)
{
    static uint8_t out[ROOM], first[SALTIGHEDDA_LONGEST + 1], second[SALTIGHEDDA_LONGEST], wanted[2 * SALTIGHEDDA_LONGEST];
    static uint64_t words[SALTIGHEDDA_MEND_WORDS];
    if (saltighedda_mend(line, length, out, ROOM, words, SALTIGHEDDA_MEND_WORDS) != 0)
        return;
    if (words[1] != 1 || SALTIGHEDDA_CHANGE_WHAT(words[2]) != 2)
        return;
    size_t n = saltighedda_list(line, length, 1, 0, remarks, sizeof remarks, first, SALTIGHEDDA_LONGEST);
    size_t m = saltighedda_list(out, words[0], 1, 0, remarks, sizeof remarks, second, sizeof second);
    size_t at = 0, faults = 0;
    static char rows[64][40];
    for (size_t i = 0; i < n;) {
        uint8_t *feed = memchr(first + i, '\n', n - i);
        size_t size = (size_t)(feed - (first + i)) + 1;
        unsigned kind, place, width;
        if (sscanf((const char *)first + i, "fault=%u,%u,%u", &kind, &place, &width) == 3) {
            int number = place == 6 || place == 22 || (30 <= place && place < 66);
            if (kind != 1 || number)
                snprintf(rows[faults++], sizeof *rows, "fault=%u,%u,%u\n", kind == 1 ? 2 : kind, place, width);
        } else if (size < 8 || memcmp(first + i, "faults=", 7) != 0) {
            memcpy(wanted + at, first + i, size);
            at += size;
        }
        i += size;
    }
    at += (size_t)sprintf((char *)wanted + at, "faults=%zu\n", faults);
    for (size_t i = 0; i < faults; i++)
        at += (size_t)sprintf((char *)wanted + at, "%s", rows[i]);
    if (!hold(at == m && memcmp(wanted, second, m) == 0, "a padded line reads otherwise", line, length) && failures <= 3)
        printf("%.*s----\n%.*s", (int)at, (const char *)wanted, (int)m, (const char *)second);
}

/* ---- Lines. ---- */

static const char *const names[] = { "ATOM  ", "HETATM", "HEADER", "REMARK", "ANISOU", "CRYST1", "SCALE1", "ORIGX2", "MTRIX3",
                                     "MODEL ", "MASTER", "DBREF ", "DBREF1", "DBREF2", "SEQRES", "SEQADV", "MODRES", "SSBOND",
                                     "ENDMDL", "TER   ", "END   ", "EMPTY ", "CONECT", "ATOM", "atom  ", "HETATN" };

enum { NAMES = sizeof names / sizeof *names };

static const char *const whole = "      18 ZN   AZN A 101C     11.639   6.071  -5.147  1.00 17.90      SEG1ZN2+ and more";

int main(int argc, char **argv)
{
    size_t lines = argc > 1 ? (size_t)strtoull(argv[1], NULL, 10) : 1000000;
    static uint8_t line[2 * LONGEST_LINE];
    if (argc > 2)
        seed = strtoull(argv[2], NULL, 10);
    memset(remarks, 1, sizeof remarks);

    for (int k = 0; k < NAMES; k++)
        for (size_t length = 0; length <= 81; length++) {
            memcpy(line, whole + 5, 82);
            memcpy(line, names[k], strlen(names[k]));
            line[6] = ' ';
            check(line, length);
            check_read(line, length);
            for (size_t i = 0; i < length; i++)
                line[i] |= random_below(6) == 0 ? 128 : 0;
            memcpy(line, names[k], strlen(names[k]));
            check(line, length);
        }

    /* The longest line, the most changes, and one byte more. */
    for (size_t i = 0; i < LONGEST_LINE + 2; i++)
        line[i] = i % 2 ? 128 : 127;
    for (size_t length = LONGEST_LINE - 2; length <= LONGEST_LINE; length++)
        check(line, length);
    static uint8_t out[ROOM];
    static uint64_t words[SALTIGHEDDA_MEND_WORDS];
    hold(saltighedda_mend(line, LONGEST_LINE + 2, out, ROOM, words, SALTIGHEDDA_MEND_WORDS)
             == (UINT64_C(2) << 48 | UINT64_C(1024) << 32 | 2), "a long line isn't refused", line, 10);
    hold(saltighedda_mend(line, LONGEST_LINE + 1, NULL, 0, NULL, 0) == (UINT64_C(2) << 48 | UINT64_C(1024) << 32 | 1),
         "a long line isn't refused first", line, 10);
    hold(saltighedda_mend(NULL, 0, NULL, 0, words, SALTIGHEDDA_MEND_WORDS) == 0 && words[0] == 0 && words[1] == 0,
         "no bytes aren't mended", line, 0);

    for (size_t n = 0; n < lines; n++) {
        size_t length = random_below(8) ? random_below(90) : random_below(LONGEST_LINE + 1);
        unsigned strewn = random_below(3) ? 0 : (unsigned)(1 + random_below(20));
        for (size_t i = 0; i < length; i++)
            line[i] = i < 86 && random_below(40) ? (uint8_t)whole[i < 80 ? i + 5 : 80] : (uint8_t)(32 + random_below(95));
        const char *name = names[random_below(3) ? random_below(2) : random_below(NAMES)];
        memcpy(line, name, strlen(name));
        for (size_t i = 0; i < length; i++)
            if (strewn && random_below(20) < strewn)
                line[i] = (uint8_t)(120 + random_below(136));
        check(line, length);
        check_read(line, length);
    }
    if (failures)
        printf("mend: %d differences\n", failures);
    return failures != 0;
}

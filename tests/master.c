/*
 * The entries that hold a file against its MASTER line, from C: written files at every edge of the rules, buffers that are too short, just
 * long enough and longer; then drawn files with lines taken out, doubled and cut, beside a count of this program's own, which goes by
 * document 02 and shares nothing with the port. Prints what differs, and its status is then 1.
 *
 *     master [FILES [SEED]]
 *
 * FILES are drawn, twenty thousand if the number isn't given.
 */
#include <saltighedda.h>

#include <inttypes.h>
#include <stdio.h>
#include <stdlib.h>
#include <string.h>

#include "draw.h"

enum { MOST_TOLD = 20, NUMBERS = 12, LONGER = 3, ROOM = 1 << 17 };

static int failures;

static int hold(int fact, const char *what)
{
    if (!fact && failures++ < MOST_TOLD)
        printf("master: %s\n", what);
    return fact;
}

/* ---- The count of its own. ---- */

struct verdict {
    uint64_t number, place, length;
    uint64_t counted[NUMBERS], said[NUMBERS];
};

struct line {
    size_t start, length;
};

/* The line at an offset, and in `next` the offset behind it. */
static struct line line_at(const uint8_t *file, size_t length, size_t at, size_t *next)
{
    const uint8_t *feed = memchr(file + at, '\n', length - at);
    size_t end = feed ? (size_t)(feed - file) : length;
    *next = feed ? end + 1 : length;
    if (feed && end > at && file[end - 1] == '\r')
        end--;
    return (struct line){ at, end - at };
}

/* Whether a line has a name: six bytes, or the blanks that are missing. */
static int is_named(const uint8_t *text, size_t length, const char *name)
{
    if (length < 3)
        return 0;
    for (size_t i = 0; i < 6; i++)
        if ((i < length ? text[i] : ' ') != (uint8_t)name[i])
            return 0;
    return 1;
}

static const struct {
    const char *name;
    int number;
} counted_names[] = {
    { "REMARK", 0 }, { "HET   ", 2 }, { "HELIX ", 3 }, { "SHEET ", 4 }, { "TURN  ", 5 }, { "SITE  ", 6 }, { "ORIGX1", 7 },
    { "ORIGX2", 7 }, { "ORIGX3", 7 }, { "SCALE1", 7 }, { "SCALE2", 7 }, { "SCALE3", 7 }, { "MTRIX1", 7 }, { "MTRIX2", 7 },
    { "MTRIX3", 7 }, { "ATOM  ", 8 }, { "HETATM", 8 }, { "TER   ", 9 }, { "CONECT", 10 }, { "SEQRES", 11 },
};

enum { NAMES = sizeof counted_names / sizeof *counted_names };

static int is_white(uint8_t b)
{
    return b == ' ' || (9 <= b && b <= 13);
}

/* Five columns as a number; 0 if they hold none. */
static int read_columns(const uint8_t *text, uint64_t *value)
{
    size_t from = 0, to = 5;
    while (from < to && is_white(text[from]))
        from++;
    while (from < to && is_white(text[to - 1]))
        to--;
    if (from < to && text[from] == '+')
        from++;
    if (from == to)
        return 0;
    *value = 0;
    for (; from < to; from++) {
        if (text[from] < '0' || '9' < text[from])
            return 0;
        *value = *value * 10 + (uint64_t)(text[from] - '0');
    }
    return 1;
}

static int read_master(const uint8_t *text, size_t length, uint64_t *said)
{
    if (length < 70 || 1024 < length)
        return 0;
    for (size_t i = 0; i < length; i++)
        if (127 < text[i])
            return 0;
    for (int n = 0; n < NUMBERS; n++)
        if (!read_columns(text + 10 + 5 * n, &said[n]))
            return 0;
    return 1;
}

static struct verdict judge(const uint8_t *file, size_t length)
{
    struct verdict v = { 0 };
    struct line masters[2];
    size_t count = 0;
    for (size_t at = 0; at < length;) {
        struct line l = line_at(file, length, at, &at);
        const uint8_t *text = file + l.start;
        for (int i = 0; i < NAMES; i++)
            if (is_named(text, l.length, counted_names[i].name))
                v.counted[counted_names[i].number]++;
        if (is_named(text, l.length, "MASTER") && count++ < 2)
            masters[count - 1] = l;
    }
    if (count == 0) {
        v.number = 10;
    } else if (1 < count) {
        v.number = 11;
        v.place = masters[1].start;
        v.length = masters[1].length;
    } else if (!read_master(file + masters[0].start, masters[0].length, v.said)) {
        v.number = 12;
        v.place = masters[0].start;
        v.length = masters[0].length;
    }
    return v;
}

/* ---- The port beside it. ---- */

static uint64_t seen[13];
static uint64_t bits_seen;

/* Whether the port answers what was judged, with lent words of a length. */
static int answers(const uint8_t *file, size_t length, const struct verdict *v, size_t room)
{
    uint64_t found[SALTIGHEDDA_FOUND + LONGER], wanted[SALTIGHEDDA_FOUND + LONGER];
    for (size_t i = 0; i < SALTIGHEDDA_FOUND + LONGER; i++)
        found[i] = wanted[i] = UINT64_C(0xA5A5A5A5A5A5A5A5) + i;
    uint64_t number = v->number;
    if (number == 0 && room < SALTIGHEDDA_FOUND)
        number = 8;
    if (number == 0) {
        wanted[0] = 0;
        for (int n = 0; n < NUMBERS; n++) {
            wanted[0] |= (uint64_t)(v->counted[n] != v->said[n]) << n;
            wanted[1 + n] = v->counted[n];
            wanted[13 + n] = v->said[n];
        }
        bits_seen |= wanted[0];
    }
    seen[number]++;
    return saltighedda_check_master(file, length, found, room) == number && memcmp(found, wanted, sizeof found) == 0;
}

static int agrees(const uint8_t *file, size_t length)
{
    struct verdict v = judge(file, length);
    return answers(file, length, &v, SALTIGHEDDA_FOUND + random_below(LONGER + 1)) && answers(file, length, &v, random_below(SALTIGHEDDA_FOUND))
        && saltighedda_check_master_place(file, length) == v.place && saltighedda_check_master_length(file, length) == v.length;
}

static int is_judged(const char *text, uint64_t number, uint64_t place, uint64_t length)
{
    const uint8_t *file = (const uint8_t *)text;
    struct verdict v = judge(file, strlen(text));
    return v.number == number && v.place == place && v.length == length && agrees(file, strlen(text));
}

/* ---- Written files. ---- */

#define RIGHT "MASTER        1    0    1    0    0    0    0    1    2    1    0    0"
#define LINES "REMARK\nHET\nHETATM\nATOM\nTER\nSCALE2\n"

static void written(void)
{
    uint64_t found[SALTIGHEDDA_FOUND];
    static const struct {
        const char *text;
        uint64_t bits;
    } good[] = {
        { LINES RIGHT "\n", 0 },
        { LINES RIGHT, 0 },
        { "REMARK\r\nHET\r\nHETATM\r\nATOM\r\nTER\r\nSCALE2\r\n" RIGHT "\r\n", 0 },
        { RIGHT "\n" LINES, 0 },
        { LINES RIGHT "\nTERX\nTE\nHETX\nREMAR\nremark\n REMARK\nSCALE4\nSCALE \nATOMX\nATOM\t\nHETAT\nENDMDL\nMASTE\n", 0 },
        { LINES RIGHT "\nTER  ", 1 << 9 },
        { LINES RIGHT "\nTER   X", 1 << 9 },
        { LINES RIGHT "\nENDMDL\nMODEL 2\nATOM\n", 1 << 8 },
        { LINES RIGHT "\nHETATM\200\377\n", 1 << 8 },
        { LINES RIGHT "\nHEADER\nCRYST1\nSSBOND\n", 0 },
        { LINES RIGHT "   some words\n", 0 },
        { "MASTER        0    7    0    0    0    0    0    0    0    0    0    0", 1 << 1 },
        { "MASTER       +0    0   00    0    0    0    0    0    0    0\t   0    0", 0 },
        { "MASTER    9999999999999999999999999999999999999999999999999999999999999", 0xFFF },
    };
    for (size_t i = 0; i < sizeof good / sizeof *good; i++) {
        const uint8_t *file = (const uint8_t *)good[i].text;
        hold(saltighedda_check_master(file, strlen(good[i].text), found, SALTIGHEDDA_FOUND) == 0 && found[0] == good[i].bits, good[i].text);
        hold(agrees(file, strlen(good[i].text)), good[i].text);
    }

    hold(is_judged("", 10, 0, 0), "no bytes have no MASTER line");
    hold(is_judged(LINES, 10, 0, 0), "no line is a MASTER line");
    hold(is_judged("MASTE\nmaster\nMASTE ", 10, 0, 0), "five bytes aren't a MASTER line");
    hold(is_judged("TER\nMASTER\n" RIGHT "\r\nMASTER\n", 11, 11, 70), "the second of three MASTER lines");
    hold(is_judged("MASTER\nTER\nMASTER", 11, 11, 6), "two MASTER lines of six bytes");
    hold(is_judged("TER\r\nMASTER\r\nEND\n", 12, 5, 6), "a MASTER line of six bytes");
    hold(is_judged("MASTER", 12, 0, 6), "a MASTER line of six bytes alone");
    hold(is_judged("MASTER\r", 12, 0, 7), "a last piece keeps its CR");
    hold(is_judged("\nMASTER        1    0    1    0    0    0    0    1    2    1    0    ", 12, 1, 69), "a MASTER line that ends before its last column");
    hold(is_judged("MASTER        1    0    x    0    0    0    0    1    2    1    0    0", 12, 0, 70), "a letter for a number");
    hold(is_judged("MASTER        1         1    0    0    0    0    1    2    1    0    0", 12, 0, 70), "blanks for a number");
    hold(is_judged("MASTER        1    0    1    0    0    0    0   -1    2    1    0    0", 12, 0, 70), "a minus");
    hold(is_judged(RIGHT "\200", 12, 0, 71), "a byte of 128");

    static uint8_t all[2 * ROOM];
    memset(all, ' ', sizeof all);
    memcpy(all, RIGHT, 70);
    hold(agrees(all, 1024), "a MASTER line of 1,024 bytes");
    struct verdict v = judge(all, 1025);
    hold(v.number == 12 && v.length == 1025 && agrees(all, 1025), "a MASTER line of 1,025 bytes");

    /* A place that 16 bits don't hold. */
    memset(all, '\n', sizeof all);
    memcpy(all + ROOM, RIGHT, 70);
    hold(agrees(all, sizeof all), "a MASTER line far on");
    memcpy(all + ROOM, "MASTER\n", 7);
    v = judge(all, sizeof all);
    hold(v.place == ROOM && agrees(all, sizeof all), "a place that 16 bits don't hold");

    for (size_t room = 0; room <= SALTIGHEDDA_FOUND + LONGER; room++) {
        const char *text = LINES RIGHT;
        v = judge((const uint8_t *)text, strlen(text));
        hold(answers((const uint8_t *)text, strlen(text), &v, room), "room for what is found");
    }
}

/* ---- Drawn files. ---- */

static uint8_t file[ROOM];
static size_t used;

static void put(const void *bytes, size_t length)
{
    memcpy(file + used, bytes, length);
    used += length;
}

/* Names that count, names that nearly do, and others. */
static const char *const drawn_names[] = {
    "REMARK", "HET   ", "HELIX ", "SHEET ", "TURN  ", "SITE  ", "ORIGX1", "ORIGX2", "ORIGX3", "SCALE1", "SCALE2", "SCALE3", "MTRIX1", "MTRIX2",
    "MTRIX3", "ATOM  ", "HETATM", "TER   ", "CONECT", "SEQRES", "ATOM  ", "HETATM", "ATOM  ", "HETATM", "ANISOU", "MODEL ", "ENDMDL", "END   ",
    "HEADER", "CRYST1", "TERX  ", "HETNAM", "HETSYN", "SCALE4", "ORIGX0", "MTRIX ", "SITE 1", "Remark", "ATOM\t ", " ATOM ", "MASTEr", "SSBOND",
};

enum { DRAWN = sizeof drawn_names / sizeof *drawn_names };

static void put_end(int last)
{
    if (last && random_below(2))
        return;
    if (random_below(3) == 0)
        put("\r", 1);
    put("\n", 1);
}

/* A line of a drawn name, cut anywhere, with bytes of every sort behind it, rarely longer than a line may be. */
static void put_line(int last)
{
    uint8_t text[1200];
    size_t length = random_below(40) == 0 ? 1000 + random_below(200) : random_below(6) == 0 ? random_below(9) : random_below(90);
    memset(text, ' ', sizeof text);
    memcpy(text, drawn_names[random_below(DRAWN)], 6);
    for (size_t i = 6; i < length; i++)
        text[i] = random_below(20) == 0 ? (uint8_t)random_below(256) : (uint8_t)(32 + random_below(95));
    if (random_below(30) == 0)
        text[random_below(6)] = (uint8_t)random_below(256);
    put(text, length);
    put_end(last);
}

/* A MASTER line that says what is in the file so far, or nearly; sometimes cut, or with a byte that is something else. */
static void put_master(int last)
{
    struct verdict v = judge(file, used);
    char text[80];
    size_t length = 0;
    length += (size_t)sprintf(text, "MASTER    ");
    for (int n = 0; n < NUMBERS; n++) {
        uint64_t said = v.counted[n];
        if (random_below(8) == 0)
            said += random_below(3);
        else if (said && random_below(8) == 0)
            said--;
        length += (size_t)sprintf(text + length, random_below(20) ? "%5" PRIu64 : "%-5" PRIu64, said % 100000);
    }
    if (random_below(8) == 0)
        length = 6 + random_below(65);
    if (random_below(12) == 0)
        text[random_below(length)] = (char)random_below(256);
    put(text, length);
    put_end(last);
}

/* Takes lines out of the file, doubles them, or cuts them, one in so many of each. */
static void damage(unsigned often)
{
    static uint8_t whole[ROOM];
    size_t length = used;
    memcpy(whole, file, used);
    used = 0;
    for (size_t at = 0; at < length;) {
        size_t next;
        struct line l = line_at(whole, length, at, &next);
        unsigned what = (unsigned)random_below(often);
        if (what == 1 && used + 2 * (next - at) < ROOM / 2)
            put(whole + at, next - at);
        if (what == 2) {
            put(whole + at, random_below(l.length + 1));
            put("\n", 1);
        } else if (what) {
            put(whole + at, next - at);
        }
        at = next;
    }
}

int main(int argc, char **argv)
{
    uint64_t files = argc > 1 ? strtoull(argv[1], NULL, 10) : 20000;
    if (argc > 2)
        seed = strtoull(argv[2], NULL, 10);
    written();
    memset(seen, 0, sizeof seen);
    bits_seen = 0;
    for (uint64_t i = 0; i < files && failures < MOST_TOLD; i++) {
        uint64_t lines = random_below(60), masters = random_below(6) == 0 ? random_below(4) : 1;
        used = 0;
        for (uint64_t l = 0; l < lines; l++)
            put_line(0);
        for (uint64_t m = 0; m < masters; m++) {
            put_master(0);
            if (random_below(3) == 0)
                put_line(1);
        }
        if (random_below(2))
            damage(4 + (unsigned)random_below(40));
        if (!hold(agrees(file, used), "a drawn file is judged otherwise"))
            printf("master: file %" PRIu64 ", %zu bytes\n", i, used);
    }
    if (files >= 1000) {
        hold(seen[0] && seen[8] && seen[10] && seen[11] && seen[12], "an answer never came");
        hold(bits_seen == 0xFFF, "a bit was never set");
    }
    if (argc > 1)
        printf("master: %" PRIu64 " files: %" PRIu64 " compared, %" PRIu64 " without a MASTER line, %" PRIu64 " with more than one, %" PRIu64 " with one that can't be read\n",
               files, seen[0], seen[10] / 2, seen[11] / 2, seen[12] / 2);
    return failures != 0;
}

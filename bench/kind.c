/*
 * How quickly a line's kind is told from C, beside its record as words, its listing, and finding the lines alone. See bench/kind.sh, which builds it.
 *
 *     kind --once SIDE         one side over standard input, once: walk, kind, read or list
 *     kind [--passes N]        times every side N times, in turn
 *
 * The file is standard input, lines of any kinds with LF. Each side prints a number that hangs on all that it was told.
 */
#define _POSIX_C_SOURCE 200809L
#include <saltighedda.h>

#include <inttypes.h>
#include <stdio.h>
#include <stdlib.h>
#include <string.h>
#include <time.h>

enum { ROOM = 1 << 26, MOST_PASSES = 101 };

static uint8_t remarks[SALTIGHEDDA_REMARKS], out[SALTIGHEDDA_LONGEST];
static uint64_t fields[SALTIGHEDDA_FIELDS], faults[SALTIGHEDDA_FAULTS];

static uint64_t walk(const uint8_t *line, size_t length, size_t number)
{
    (void)line;
    return length + number;
}

static uint64_t kind(const uint8_t *line, size_t length, size_t number)
{
    return saltighedda_kind(line, length, 0) + number;
}

/* The last coordinate's bits are among the words of an atom. */
static uint64_t take(const uint8_t *line, size_t length, size_t number)
{
    return saltighedda_read(line, length, number, 0, remarks, sizeof remarks, SALTIGHEDDA_ANY, fields, SALTIGHEDDA_FIELDS, faults,
                            SALTIGHEDDA_FAULTS) +
           fields[1] + fields[21] + faults[0];
}

static uint64_t list(const uint8_t *line, size_t length, size_t number)
{
    return saltighedda_list(line, length, number, 0, remarks, sizeof remarks, out, sizeof out);
}

static const struct side {
    const char *name;
    uint64_t (*ask)(const uint8_t *, size_t, size_t);
} sides[] = {{"walk", walk}, {"kind", kind}, {"read", take}, {"list", list}};

enum { SIDES = sizeof sides / sizeof *sides };

/* Asks one side for every line; returns how many there are. */
static size_t run(const struct side *side, const uint8_t *file, size_t size, uint64_t *sum)
{
    size_t number = 0;
    for (const uint8_t *at = file, *end = file + size, *lf; at < end; at = lf + 1) {
        lf = memchr(at, '\n', (size_t)(end - at));
        if (lf == NULL)
            lf = end;
        *sum = 3 * *sum + side->ask(at, (size_t)(lf - at), ++number);
    }
    return number;
}

static double seconds(void)
{
    struct timespec t;
    clock_gettime(CLOCK_THREAD_CPUTIME_ID, &t);
    return (double)t.tv_sec + 1e-9 * (double)t.tv_nsec;
}

static int ascending(const void *a, const void *b)
{
    double x = *(const double *)a, y = *(const double *)b;
    return (x > y) - (x < y);
}

static void time_sides(const uint8_t *file, size_t size, int passes)
{
    static double took[SIDES][MOST_PASSES];
    uint64_t sum = 0;
    size_t lines = 0;
    for (int pass = 0; pass < passes; pass++)
        for (int i = 0; i < SIDES; i++) {
            int s = (i + pass) % SIDES;
            double from = seconds();
            lines = run(&sides[s], file, size, &sum);
            took[s][pass] = seconds() - from;
        }
    printf("%zu lines, %d passes; median, best\n", lines, passes);
    for (int s = 0; s < SIDES; s++) {
        qsort(took[s], (size_t)passes, sizeof **took, ascending);
        double median = took[s][passes / 2], best = took[s][0];
        printf("%-6s %12.0f %12.0f lines a second, %8.1f %8.1f ns a line\n", sides[s].name, (double)lines / median, (double)lines / best,
               1e9 * median / (double)lines, 1e9 * best / (double)lines);
    }
    printf("(%" PRIu64 ")\n", sum);
}

int main(int argc, char **argv)
{
    uint8_t *file = malloc(ROOM);
    if (file == NULL)
        return 2;
    memset(remarks, 1, sizeof remarks);
    size_t size = fread(file, 1, ROOM, stdin);
    if (argc == 3 && strcmp(argv[1], "--once") == 0) {
        for (int s = 0; s < SIDES; s++)
            if (strcmp(argv[2], sides[s].name) == 0) {
                uint64_t sum = 0;
                size_t lines = run(&sides[s], file, size, &sum);
                printf("%zu %" PRIu64 "\n", lines, sum);
                return 0;
            }
        return 2;
    }
    int passes = argc == 3 && strcmp(argv[1], "--passes") == 0 ? atoi(argv[2]) : 15;
    if (passes < 1 || passes > MOST_PASSES)
        return 2;
    time_sides(file, size, passes);
    free(file);
    return 0;
}

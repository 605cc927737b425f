/*
 * How quickly lines are written: saltighedda_write_atom beside snprintf with the format's own format string, and beside gemmi where
 * its headers are. See bench/write.sh, which builds it.
 *
 *     write [--lines N] [--passes N] [--seed N]                times every side N times, in turn
 *     write --once SIDE [--lines N] [--passes N] [--seed N]    lets one side write the lines N times: port, snprintf or gemmi
 *
 * Compiled as C++ this file is gemmi's side, and nothing else.
 */
#define _POSIX_C_SOURCE 200809L

#include <stddef.h>
#include <stdint.h>

enum { LINE = 81 };

/* An atom as an editing host has it, its coordinates with more digits than are written. Texts end with a 0, as snprintf wants. */
struct atom {
    int hetero;
    unsigned long serial;
    char name[5], residue[4], segment[5], element[3];
    char alternate, chain, insertion;
    long number;
    double x, y, z, occupancy, bfactor;
    int charge;
};

#ifdef __cplusplus

#define GEMMI_WRITE_IMPLEMENTATION
#include <gemmi/to_pdb.hpp>
#include <streambuf>

namespace {

// What gemmi writes goes into memory, as on the other sides.
struct Memory : std::streambuf {
    Memory(char *out, std::size_t room) { setp(out, out + room); }
    std::size_t written() const { return pptr() - pbase(); }
};

gemmi::Structure structure;

void add(const atom &from) {
    std::vector<gemmi::Chain> &chains = structure.models[0].chains;
    std::string chain(1, from.chain);
    if (chains.empty() || chains.back().name != chain)
        chains.emplace_back(chain);
    std::vector<gemmi::Residue> &residues = chains.back().residues;
    if (residues.empty() || *residues.back().seqid.num != from.number) {
        gemmi::Residue residue;
        residue.name = from.residue;
        residue.seqid = gemmi::SeqId(int(from.number), from.insertion);
        residue.segment = from.segment;
        residue.het_flag = from.hetero ? 'H' : 'A';
        residues.push_back(residue);
    }
    gemmi::Atom to;
    to.name = from.name;
    to.altloc = from.alternate == ' ' ? '\0' : from.alternate;
    to.charge = (signed char)from.charge;
    to.element = gemmi::Element(from.element);
    to.pos = gemmi::Position(from.x, from.y, from.z);
    to.occ = float(from.occupancy);
    to.b_iso = float(from.bfactor);
    residues.back().atoms.push_back(to);
}

}

// The hierarchy that it writes from is made before, and isn't timed.
extern "C" void bench_gemmi_takes(const atom *atoms, std::size_t count) {
    structure.models.emplace_back("1");
    for (std::size_t i = 0; i < count; i++)
        add(atoms[i]);
}

extern "C" std::size_t bench_gemmi(const atom *, std::size_t count, char *out) {
    gemmi::PdbWriteOptions options;
    options.ter_records = false;
    Memory memory(out, count * LINE);
    std::ostream stream(&memory);
    int serial = 0;
    for (const gemmi::Chain &chain : structure.models[0].chains)
        gemmi::impl::write_chain_atoms(chain, stream, serial, options);
    return memory.written();
}

#else

#include <saltighedda.h>

#include <stdio.h>
#include <stdlib.h>
#include <string.h>
#include <time.h>

/* ---- The sides. Each writes every atom as a line with its LF, and says how many bytes there are. ---- */

static struct saltighedda_slice lend(const char *text, size_t most)
{
    struct saltighedda_slice slice = {(const uint8_t *)text, strnlen(text, most)};
    return slice;
}

static size_t bench_port(const struct atom *atoms, size_t count, char *out)
{
    for (size_t i = 0; i < count; i++) {
        const struct atom *from = &atoms[i];
        struct saltighedda_atom to = {0};
        to.hetero = (uint32_t)from->hetero;
        to.serial = from->serial;
        to.name = lend(from->name, 4);
        to.alternate = from->alternate;
        to.residue = lend(from->residue, 3);
        to.chain = from->chain;
        to.number = from->number;
        to.insertion = from->insertion;
        to.x = from->x;
        to.y = from->y;
        to.z = from->z;
        to.occupancy = from->occupancy;
        to.bfactor = from->bfactor;
        to.segment = lend(from->segment, 4);
        to.element = lend(from->element, 2);
        to.charge = from->charge;
        if (saltighedda_put_atom(&to, (uint8_t *)out + i * LINE, SALTIGHEDDA_LINE) != 0)
            return 0;
        out[i * LINE + SALTIGHEDDA_LINE] = '\n';
    }
    return count * LINE;
}

/* Nothing is checked but that the line has 80 bytes. */
static size_t bench_snprintf(const struct atom *atoms, size_t count, char *out)
{
    for (size_t i = 0; i < count; i++) {
        const struct atom *v = &atoms[i];
        char charge[3] = "";
        if (v->charge != 0) {
            charge[0] = (char)('0' + abs(v->charge));
            charge[1] = v->charge < 0 ? '-' : '+';
        }
        int n = snprintf(out + i * LINE, LINE, "%-6s%5lu %4s%c%3s %c%4ld%c   %8.3f%8.3f%8.3f%6.2f%6.2f      %-4s%2s%2s",
                         v->hetero ? "HETATM" : "ATOM", v->serial, v->name, v->alternate, v->residue, v->chain, v->number,
                         v->insertion, v->x, v->y, v->z, v->occupancy, v->bfactor, v->segment, v->element, charge);
        if (n != SALTIGHEDDA_LINE)
            return 0;
        out[i * LINE + SALTIGHEDDA_LINE] = '\n';
    }
    return count * LINE;
}

#ifdef GEMMI
void bench_gemmi_takes(const struct atom *atoms, size_t count);
size_t bench_gemmi(const struct atom *atoms, size_t count, char *out);
#endif

struct side {
    const char *word, *name;
    size_t (*write)(const struct atom *atoms, size_t count, char *out);
};

static const struct side sides[] = {
    {"port", "the port", bench_port},
    {"snprintf", "snprintf, unchecked", bench_snprintf},
#ifdef GEMMI
    {"gemmi", "gemmi, from its hierarchy", bench_gemmi},
#endif
};

enum { SIDES = sizeof sides / sizeof *sides };

/* ---- The atoms, which depend on the seed alone. ---- */

static uint64_t seed = 330;

static uint64_t random_below(uint64_t end)
{
    uint64_t n = seed += UINT64_C(0x9E3779B97F4A7C15);
    n = (n ^ n >> 30) * UINT64_C(0xBF58476D1CE4E5B9);
    n = (n ^ n >> 27) * UINT64_C(0x94D049BB133111EB);
    return (n ^ n >> 31) % end;
}

/* Of one to four digits before the point, two in most cases, as in a file that was read; then moved a little, as an edit does. */
static double coordinate(void)
{
    uint64_t sort = random_below(100), minus = random_below(10) < 4;
    uint64_t end = sort < 10 ? 10000 : sort < 70 ? 100000 : sort < 98 || minus ? 900000 : 9000000;
    double x = (double)random_below(end) / 1000 + (double)random_below(1000000) / 1e7;
    return minus ? -x : x;
}

static void make_atom(struct atom *to, size_t index)
{
    static const char *const names[] = {" N  ", " CA ", " C  ", " O  ", " CB ", " CG ", " OD1", "FE  "};
    static const char *const elements[] = {"N", "C", "C", "O", "C", "C", "O", "FE"};
    static const char *const residues[] = {"ALA", "GLY", "LEU", "ASN", "LYS", "VAL", "SER", "DA"};
    size_t residue = index / 8;
    to->hetero = residue % 10 == 9;
    to->serial = (index + 1) % 100000;
    strcpy(to->name, names[index % 8]);
    strcpy(to->element, elements[index % 8]);
    strcpy(to->residue, residues[residue % 8]);
    strcpy(to->segment, residue / 1000 % 4 == 0 ? "A" : "");
    to->alternate = random_below(100) < 2 ? 'A' : ' ';
    to->chain = (char)('A' + residue / 250 % 26);
    to->number = (long)(residue % 250) - 4;
    to->insertion = residue % 97 == 0 ? 'A' : ' ';
    to->x = coordinate();
    to->y = coordinate();
    to->z = coordinate();
    to->occupancy = random_below(10) != 0 ? 1 : (double)random_below(100) / 100;
    to->bfactor = (double)random_below(random_below(100) < 95 ? 10000 : 100000) / 100;
    to->charge = index % 8 == 7 ? 2 : 0;
}

/* ---- The times. ---- */

/* The processor time of this thread leaves out the time in which others had the core. */
static double nanoseconds(void)
{
    struct timespec time;
    clock_gettime(CLOCK_THREAD_CPUTIME_ID, &time);
    return (double)time.tv_sec * 1e9 + (double)time.tv_nsec;
}

enum { MOST_PASSES = 1000, FEWEST = 9 };

static int compare_times(const void *one, const void *other)
{
    double a = *(const double *)one, b = *(const double *)other;
    return (a > b) - (a < b);
}

static void print_times(double times[SIDES][MOST_PASSES], size_t passes, size_t lines)
{
    double port[2] = {0, 0};
    printf("%-28s%11s%11s%10s%8s%12s%8s\n", "", "lines/s", "best", "ns/line", "best", "times port", "best");
    for (size_t side = 0; side < SIDES; side++) {
        qsort(times[side], passes, sizeof **times, compare_times);
        double median = (times[side][(passes - 1) / 2] + times[side][passes / 2]) / 2 / (double)lines;
        double best = times[side][0] / (double)lines;
        if (side == 0) {
            port[0] = median;
            port[1] = best;
        }
        printf("%-28s%11.0f%11.0f%10.1f%8.1f%12.2f%8.2f\n", sides[side].name, 1e9 / median, 1e9 / best, median, best,
               median / port[0], best / port[1]);
    }
}

/* Port and snprintf have to write the same bytes. gemmi rounds in its own way, and only as many have to come of it. */
static int agree(const struct atom *atoms, size_t count, char *out, char *other)
{
    for (size_t side = 0; side < SIDES; side++) {
        char *to = side == 0 ? out : other;
        if (sides[side].write(atoms, count, to) != count * LINE) {
            printf("DIFFERENT: %s didn't write every line\n", sides[side].name);
            return 0;
        }
        for (size_t i = 0; side == 1 && i < count; i++)
            if (memcmp(out + i * LINE, other + i * LINE, LINE) != 0) {
                printf("DIFFERENT:\n%.81s%.81s", out + i * LINE, other + i * LINE);
                return 0;
            }
    }
    return 1;
}

/* Each pass begins with another side. */
static void time_sides(const struct atom *atoms, size_t count, size_t passes, char *out)
{
    static double times[SIDES][MOST_PASSES];
    for (size_t pass = 0; pass < passes; pass++)
        for (size_t turn = 0; turn < SIDES; turn++) {
            size_t side = (pass + turn) % SIDES;
            double start = nanoseconds();
            sides[side].write(atoms, count, out);
            times[side][pass] = nanoseconds() - start;
        }
    print_times(times, passes, count);
    if (SIDES == 2)
        printf("gemmi isn't installed here, and had no turn\n");
}

/* ---- The words. ---- */

struct words {
    const struct side *once;
    size_t lines, passes;
};

static int read_words(int argc, char **argv, struct words *words)
{
    for (int i = 1; i + 1 < argc; i += 2) {
        unsigned long long n = strtoull(argv[i + 1], NULL, 10);
        if (strcmp(argv[i], "--once") == 0) {
            for (size_t side = 0; side < SIDES; side++)
                if (strcmp(sides[side].word, argv[i + 1]) == 0)
                    words->once = &sides[side];
            if (words->once == NULL)
                return 0;
        } else if (strcmp(argv[i], "--lines") == 0 && n > 0) {
            words->lines = n;
        } else if (strcmp(argv[i], "--passes") == 0 && n > 0 && n <= MOST_PASSES) {
            words->passes = n;
        } else if (strcmp(argv[i], "--seed") == 0) {
            seed = n;
        } else {
            return 0;
        }
    }
    return argc % 2 == 1;
}

static int run(const struct words *words, const struct atom *atoms, char *out, char *other)
{
    size_t written = 0;
    if (words->once == NULL) {
        size_t passes = words->passes < FEWEST ? FEWEST : words->passes;
        if (!agree(atoms, words->lines, out, other))
            return 1;
        printf("%zu ATOM and HETATM lines of 80 bytes and LF, %zu passes, each side once in each\n", words->lines, passes);
        time_sides(atoms, words->lines, passes, out);
        return 0;
    }
    for (size_t pass = 0; pass < words->passes; pass++)
        written = words->once->write(atoms, words->lines, out);
    printf("%s: %zu bytes\n", words->once->name, written);
    return written != words->lines * LINE;
}

int main(int argc, char **argv)
{
    struct words words = {NULL, 100000, 15};
    if (!read_words(argc, argv, &words)) {
        fprintf(stderr, "usage: write [--once SIDE] [--lines N] [--passes N] [--seed N]\n");
        return 2;
    }
    struct atom *atoms = calloc(words.lines, sizeof *atoms);
    char *out = malloc(words.lines * LINE), *other = malloc(words.lines * LINE);
    if (atoms == NULL || out == NULL || other == NULL)
        return 2;
    for (size_t i = 0; i < words.lines; i++)
        make_atom(&atoms[i], i);
#ifdef GEMMI
    bench_gemmi_takes(atoms, words.lines);
#endif
    int status = run(&words, atoms, out, other);
    free(atoms);
    free(out);
    free(other);
    return status;
}

#endif

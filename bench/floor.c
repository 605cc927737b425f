/* The floor: the fields of ATOM and HETATM as a plain reader in C takes them, each copied to a small buffer and handed to
   strtol or strtod, with no check of what the columns hold or of what the calls say, and of the line's length for the charge
   alone. The checksum is that of crates/bench_read/specs/Checksum.antt, and as nothing is checked the faults are always 0. */
#include <stdint.h>
#include <stdlib.h>
#include <string.h>

struct atom {
    int hetero;
    long serial, number;
    int charge;
    char name[5], residue[4], segment[5], element[3];
    char alternate, chain, insertion;
    double x, y, z, occupancy, b_factor;
};

static void text(char *to, const char *line, size_t from, size_t length) {
    memcpy(to, line + from, length);
    to[length] = 0;
}

static long whole(const char *line, size_t from, size_t length) {
    char buffer[16];
    text(buffer, line, from, length);
    return strtol(buffer, NULL, 10);
}

static double real(const char *line, size_t from, size_t length) {
    char buffer[16];
    text(buffer, line, from, length);
    return strtod(buffer, NULL);
}

static uint64_t mixed(uint64_t sum, uint64_t value) {
    return 3 * sum + value;
}

static uint64_t mixed_real(uint64_t sum, double x) {
    uint64_t bits;
    memcpy(&bits, &x, 8);
    return mixed(sum, bits);
}

static void read_atom(struct atom *to, const char *line, const char *end) {
    to->hetero = line[0] == 'H';
    to->serial = whole(line, 6, 5);
    text(to->name, line, 12, 4);
    to->alternate = line[16];
    text(to->residue, line, 17, 3);
    to->chain = line[21];
    to->number = whole(line, 22, 4);
    to->insertion = line[26];
    to->x = real(line, 30, 8);
    to->y = real(line, 38, 8);
    to->z = real(line, 46, 8);
    to->occupancy = real(line, 54, 6);
    to->b_factor = real(line, 60, 6);
    text(to->segment, line, 72, 4);
    text(to->element, line, 76, 2);
    to->charge = end - line < 80 || line[78] == ' ' ? 0 : line[79] == '-' ? '0' - line[78] : line[78] - '0';
}

uint64_t bench_floor(const char *file, size_t length) {
    const char *end = file + length;
    uint64_t sum = 0;
    while (file < end) {
        const char *feed = memchr(file, '\n', end - file);
        if (!feed)
            feed = end;
        if (memcmp(file, "ATOM  ", 6) == 0 || memcmp(file, "HETATM", 6) == 0) {
            struct atom atom;
            read_atom(&atom, file, feed);
            /* The compiler may not leave out the fields that the checksum doesn't see. */
            __asm__ volatile("" : : "r"(&atom) : "memory");
            sum = mixed_real(sum, atom.x);
            sum = mixed_real(sum, atom.y);
            sum = mixed_real(sum, atom.z);
            sum = mixed_real(sum, atom.occupancy);
            sum = mixed_real(sum, atom.b_factor);
        }
        sum = mixed(sum, 0);
        file = feed < end ? feed + 1 : end;
    }
    return sum;
}

/* What a host in C does: it finds the lines, asks saltighedda_read for each, and takes the reals and the faults out of the words. The checksum is
   that of crates/bench_read/specs/Checksum.antt. */
#include <saltighedda.h>

#include <string.h>

/* The sort of a real, in the first of a field's two words. */
enum { REAL = 2 };

static uint64_t mixed(uint64_t sum, uint64_t value)
{
    return 3 * sum + value;
}

/* The reals of an atom stand in ascending columns, which is the order of the checksum. */
static uint64_t mixed_reals(uint64_t sum, const uint64_t *fields)
{
    for (const uint64_t *at = fields + 2, *end = at + 2 * fields[1]; at < end; at += 2)
        if (SALTIGHEDDA_SORT(at[0]) == REAL)
            sum = mixed(sum, at[1]);
    return sum;
}

uint64_t bench_words(const uint8_t *file, size_t length)
{
    uint8_t remarks[SALTIGHEDDA_REMARKS];
    uint64_t fields[SALTIGHEDDA_FIELDS], faults[SALTIGHEDDA_FAULTS];
    memset(remarks, 1, sizeof remarks);
    const uint8_t *end = file + length;
    uint64_t sum = 0;
    for (size_t number = 1; file < end; number++) {
        const uint8_t *feed = memchr(file, '\n', (size_t)(end - file));
        if (feed == NULL)
            feed = end;
        uint64_t refused = saltighedda_read(file, (size_t)(feed - file), number, 0, remarks, sizeof remarks, SALTIGHEDDA_ANY, fields,
                                            SALTIGHEDDA_FIELDS, faults, SALTIGHEDDA_FAULTS);
        int is_atom = refused == 0 && (fields[0] == SALTIGHEDDA_ATOM || fields[0] == SALTIGHEDDA_HETATM);
        if (is_atom)
            sum = mixed_reals(sum, fields);
        sum = mixed(sum, refused == 0 ? faults[0] : 0);
        file = feed + 1;
    }
    return sum;
}

/*
 * A small host that reads, as a viewer would: it takes a file's atoms and prints the middle of those whose coordinates are the file's. What
 * wasn't read of a line is a line each; `pdbreport` tells more of it.
 *
 *     host FILE
 *
 * Its status is 0 if every line was read whole, 1 if some field or line was not, and 2 if the file can't be read.
 */
#include "fields.h"

/* Reads a line and tells what was not read of it; returns how many fields, or 1 for a refused line. */
static size_t read_line(struct line *line)
{
    uint64_t refusal = take(line, 0);
    if (refusal != 0)
        printf("%s:%zu: %s\n", line->file->name, line->number, saltighedda_refusal_words(SALTIGHEDDA_REFUSAL(refusal)));
    for (size_t n = 0; n < line->record.faults[0]; n++) {
        struct saltighedda_fault fault = saltighedda_fault_at(&line->record, n);
        printf("%s:%zu: %s: %s\n", line->file->name, line->number, saltighedda_field_name(fault.kind, fault.place),
               saltighedda_fault_words(fault.fault));
    }
    return refusal != 0 ? 1 : line->record.faults[0];
}

int main(int argc, char **argv)
{
    struct file file;
    struct line line = {.file = &file};
    struct saltighedda_atom atom;
    size_t unread = 0, atoms = 0, placed = 0;
    double x = 0, y = 0, z = 0;
    if (argc != 2) {
        fprintf(stderr, "usage: host FILE\n");
        return 2;
    }
    if (!load(&file, argv[1])) {
        perror(argv[1]);
        return 2;
    }
    while (next_line(&line)) {
        unread += read_line(&line);
        if (!saltighedda_get_atom(&atom, &line.record))
            continue;
        atoms++;
        if (atom.unread.x || atom.unread.y || atom.unread.z)
            continue;
        placed++;
        x += atom.x;
        y += atom.y;
        z += atom.z;
    }
    printf("%s: %zu atoms, %zu of them placed", argv[1], atoms, placed);
    if (placed != 0)
        printf(", around %.3f %.3f %.3f", x / placed, y / placed, z / placed);
    printf("\n");
    free(file.bytes);
    return finish("host", unread);
}

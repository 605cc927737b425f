/*
 * An index of a file: for each kind of line how many there are and which is the first, and the same for the lines that are refused.
 * No line is read for it; it is only asked for its kind.
 *
 *     index [--wwpdb] FILE
 *
 * Its status is 0, and 2 if the file can't be read or the index can't be written.
 */
#include "fields.h"

/* How many lines, and the number of the first. */
struct entry {
    size_t count, first;
};

static void add(struct entry *entry, size_t number)
{
    if (entry->count++ == 0)
        entry->first = number;
}

static void print(const char *name, const struct entry *entry)
{
    if (entry->count != 0)
        printf("%-7s %8zu  first in line %zu\n", name, entry->count, entry->first);
}

int main(int argc, char **argv)
{
    struct file file;
    struct line line = {.file = &file};
    struct entry kinds[SALTIGHEDDA_KINDS] = {0}, refused = {0};
    uint32_t options = argc == 3 && strcmp(argv[1], "--wwpdb") == 0 ? SALTIGHEDDA_WWPDB : 0;
    if (argc != 2 && options == 0) {
        fprintf(stderr, "usage: index [--wwpdb] FILE\n");
        return 2;
    }
    if (!load(&file, argv[argc - 1])) {
        perror(argv[argc - 1]);
        return 2;
    }
    while (next_line(&line)) {
        uint64_t kind = saltighedda_kind(line.bytes, line.length, options);
        add(kind < SALTIGHEDDA_KINDS ? &kinds[kind] : &refused, line.number);
    }
    for (uint64_t kind = 0; kind < SALTIGHEDDA_KINDS; kind++)
        print(saltighedda_kind_name(kind), &kinds[kind]);
    print("refused", &refused);
    free(file.bytes);
    return finish("index", 0);
}

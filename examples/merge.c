/*
 * The faults of several files in one list, sorted by the kind of fault, as a window would show them: each fault still knows the file,
 * the line, the record and the columns that it came from.
 *
 *     merge FILE ..
 *
 * Within a kind of fault they stand as they were met. A line that is refused has no faults, and is told on standard error. The status
 * is 0 if there are no faults and no line is refused, 1 if there are, and 2 if a file can't be read or the list can't be written.
 */
#include "fields.h"

/* A fault knows its line; the file is ours. */
struct entry {
    const char *file;
    size_t order;
    struct saltighedda_fault fault;
};

struct list {
    struct entry *entries;
    size_t count, room;
};

static int add(struct list *list, const char *file, struct saltighedda_fault fault)
{
    if (list->count == list->room) {
        struct entry *more = realloc(list->entries, (list->room = 2 * list->room + 256) * sizeof *more);
        if (more == NULL)
            return 0;
        list->entries = more;
    }
    struct entry entry = {file, list->count, fault};
    list->entries[list->count++] = entry;
    return 1;
}

static int by_fault(const void *left, const void *right)
{
    const struct entry *a = left, *b = right;
    if (a->fault.fault != b->fault.fault)
        return a->fault.fault < b->fault.fault ? -1 : 1;
    return a->order < b->order ? -1 : a->order > b->order;
}

/* Adds the faults of a file. Returns how many lines of it were refused, or -1 if it can't be read. */
static long collect(struct list *list, const char *name)
{
    struct file file;
    struct line line = {.file = &file};
    long refused = 0;
    if (!load(&file, name))
        return -1;
    while (next_line(&line)) {
        uint64_t refusal = take(&line, 0);
        if (refusal != 0) {
            fprintf(stderr, "%s:%zu: line not read: %s\n", name, line.number, saltighedda_refusal_words(SALTIGHEDDA_REFUSAL(refusal)));
            refused++;
            continue;
        }
        for (size_t n = 0; n < line.record.faults[0]; n++)
            if (!add(list, name, saltighedda_fault_at(&line.record, n)))
                return -1;
    }
    free(file.bytes);
    return refused;
}

static void print(const struct list *list)
{
    for (size_t n = 0; n < list->count; n++) {
        const struct entry *entry = &list->entries[n];
        const struct saltighedda_fault *fault = &entry->fault;
        if (n == 0 || entry[-1].fault.fault != fault->fault)
            printf("fault %u: %s\n", fault->fault, saltighedda_fault_words(fault->fault));
        printf("    %s:%llu: %s, columns %u to %u: %s\n", entry->file, (unsigned long long)fault->line,
               saltighedda_kind_name(fault->kind), fault->place + 1, fault->place + fault->length,
               saltighedda_field_name(fault->kind, fault->place));
    }
}

int main(int argc, char **argv)
{
    struct list list = {NULL, 0, 0};
    size_t refused = 0;
    if (argc < 2) {
        fprintf(stderr, "usage: merge FILE ..\n");
        return 2;
    }
    for (int n = 1; n < argc; n++) {
        long more = collect(&list, argv[n]);
        if (more < 0) {
            perror(argv[n]);
            free(list.entries);
            return 2;
        }
        refused += (size_t)more;
    }
    if (list.count != 0)
        qsort(list.entries, list.count, sizeof *list.entries, by_fault);
    print(&list);
    size_t told = list.count + refused;
    free(list.entries);
    return finish("merge", told);
}

/*
 * A small host that edits, as a viewer would: it moves every zinc of a file and writes the file to standard output.
 *
 *     edit FILE X Y Z
 *
 * An ATOM or HETATM whose element is ZN is moved by the vector and its line written anew from the fields that were read, with the
 * format's decimal places; what stood in columns of no field isn't carried over. Every other line is copied as it is, and so is
 * one that may not be written: where a field of it wasn't read, since a zero that was put there must not go out as a number, or
 * where a field doesn't fit any more. Each such line is told on standard error, with the field and its columns.
 *
 * Its status is 0 if every zinc was moved, 1 if some line had to be copied instead, and 2 if the file can't be read or written.
 */
#include "fields.h"

/* An atom whose element wasn't read may be a zinc: it is told too. */
static int may_be_zinc(const struct saltighedda_atom *atom)
{
    return atom->unread.element || (atom->element.length == 2 && memcmp(atom->element.bytes, "ZN", 2) == 0);
}

/* The atom of a line, moved: its line is printed. Where it may not be, the line is kept. */
static enum outcome move(const struct line *line, struct saltighedda_atom *atom, const double vector[3])
{
    uint8_t out[SALTIGHEDDA_LINE];
    size_t place, length;
    if (find_unread(line, &place, &length))
        return keep(line, place, length, " was not read");
    atom->x += vector[0];
    atom->y += vector[1];
    atom->z += vector[2];
    uint64_t refusal = saltighedda_put_atom(atom, out, sizeof out);
    if (refusal != 0)
        return keep(line, SALTIGHEDDA_PLACE(refusal), SALTIGHEDDA_LENGTH(refusal), " doesn't fit");
    return print_new(line, out, sizeof out);
}

/* Other kinds than atoms don't matter here, so that remarks and headers aren't looked into. */
static enum outcome edit(struct line *line, const double vector[3])
{
    struct saltighedda_atom atom;
    uint64_t refusal = take(line, SALTIGHEDDA_ATOMS_ONLY);
    if (refusal != 0)
        return keep_refused(line, refusal);
    return saltighedda_get_atom(&atom, &line->record) && may_be_zinc(&atom) ? move(line, &atom, vector) : COPIED;
}

static int read_vector(char **words, double vector[3])
{
    for (size_t i = 0; i < 3; i++) {
        char *end;
        vector[i] = strtod(words[i], &end);
        if (end == words[i] || *end != '\0')
            return 0;
    }
    return 1;
}

int main(int argc, char **argv)
{
    struct file file;
    struct line line = {.file = &file};
    double vector[3];
    size_t kept = 0;
    if (argc != 5 || !read_vector(argv + 2, vector)) {
        fprintf(stderr, "usage: edit FILE X Y Z\n");
        return 2;
    }
    if (!load(&file, argv[1])) {
        perror(argv[1]);
        return 2;
    }
    while (next_line(&line))
        kept += settle(&line, edit(&line, vector));
    free(file.bytes);
    return finish("edit", kept);
}

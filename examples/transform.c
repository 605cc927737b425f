/*
 * A small host that puts a file's own rows to use, as a viewer does that builds an assembly: it moves every atom by the matrix of the
 * file's MTRIX records of one serial number, and writes the file to standard output.
 *
 *     transform FILE SERIAL
 *
 * The three rows are collected from the whole file first; of two with the same number the later counts. A row of which a field
 * wasn't read isn't collected, since a zero that was put there is no number of the matrix. Then every ATOM and HETATM is moved and
 * its line written anew from the fields that were read, with the format's decimal places. Every other line is copied as it is, and
 * so is one that may not be written: where a field of it wasn't read, or where a field doesn't fit any more. Each such line, and
 * each row that isn't collected, is told on standard error, with the field and its columns.
 *
 * Its status is 0 if every atom was moved, 1 if some line had to be copied instead or a row left out, and 2 if the file can't be
 * read or written, or hasn't got the three rows.
 */
#include "fields.h"

/* ---- The matrix. ---- */

struct matrix {
    double rows[SALTIGHEDDA_ROWS];
    uint8_t set[SALTIGHEDDA_SET];
};

/* Puts the row of a line into the matrix, if it is one of that serial number. Returns how many rows had to be left out. */
static size_t collect(struct line *line, uint64_t serial, struct matrix *matrix)
{
    enum { MTRIX = 2 };
    struct saltighedda_row row;
    size_t place, length;
    if (take(line, 0) != 0 || !saltighedda_get_row(&row, &line->record) || row.family != MTRIX)
        return 0;
    if (find_unread(line, &place, &length)) {
        tell(line, place, length, saltighedda_field_name(line->record.fields[0], place), " was not read", "the row is left out");
        return 1;
    }
    if (row.serial == serial)
        saltighedda_matrix_row(row.row, row.a, row.b, row.c, row.d, matrix->rows, SALTIGHEDDA_ROWS, matrix->set, SALTIGHEDDA_SET);
    return 0;
}

/* Where the atom goes; 0 if the matrix isn't whole. */
static int apply(const struct matrix *matrix, double x, double y, double z, double to[3])
{
    return saltighedda_apply(matrix->rows, SALTIGHEDDA_ROWS, matrix->set, SALTIGHEDDA_SET, x, y, z, to, 3) == 0;
}

/* ---- The atoms. ---- */

/* The atom of a line, moved: its line is printed. Where it may not be, the line is kept. */
static enum outcome move(const struct line *line, struct saltighedda_atom *atom, const struct matrix *matrix)
{
    uint8_t out[SALTIGHEDDA_LINE];
    size_t place, length;
    double to[3];
    if (find_unread(line, &place, &length))
        return keep(line, place, length, " was not read");
    if (!apply(matrix, atom->x, atom->y, atom->z, to))
        return KEPT;
    atom->x = to[0];
    atom->y = to[1];
    atom->z = to[2];
    uint64_t refusal = saltighedda_put_atom(atom, out, sizeof out);
    if (refusal != 0)
        return keep(line, SALTIGHEDDA_PLACE(refusal), SALTIGHEDDA_LENGTH(refusal), " doesn't fit");
    return print_new(line, out, sizeof out);
}

/* Other kinds than atoms don't matter here, so that remarks and headers aren't looked into. */
static enum outcome transform(struct line *line, const struct matrix *matrix)
{
    struct saltighedda_atom atom;
    uint64_t refusal = take(line, SALTIGHEDDA_ATOMS_ONLY);
    if (refusal != 0)
        return keep_refused(line, refusal);
    return saltighedda_get_atom(&atom, &line->record) ? move(line, &atom, matrix) : COPIED;
}

int main(int argc, char **argv)
{
    struct file file;
    struct line row = {.file = &file}, line = {.file = &file};
    struct matrix matrix = {{0}, {0}};
    double to[3];
    size_t kept = 0;
    char *end = NULL;
    uint64_t serial = argc == 3 ? strtoull(argv[2], &end, 10) : 0;
    if (argc != 3 || end == argv[2] || *end != '\0') {
        fprintf(stderr, "usage: transform FILE SERIAL\n");
        return 2;
    }
    if (!load(&file, argv[1])) {
        perror(argv[1]);
        return 2;
    }
    while (next_line(&row))
        kept += collect(&row, serial, &matrix);
    if (!apply(&matrix, 0, 0, 0, to)) {
        fprintf(stderr, "%s: not all three rows of MTRIX %llu are there\n", argv[1], (unsigned long long)serial);
        free(file.bytes);
        return 2;
    }
    while (next_line(&line))
        kept += settle(&line, transform(&line, &matrix));
    free(file.bytes);
    return finish("transform", kept);
}

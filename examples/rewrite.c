/*
 * A small host that saves, as an editor does where nothing was edited: it writes a file to standard output from the fields that
 * were read, each real with as many decimals as it had, so that 1.50 stays 1.50.
 *
 *     rewrite FILE
 *
 * The lines of ATOM, HETATM, ANISOU, CRYST1, SCALE, ORIGX, MTRIX, MODEL, TER, ENDMDL and END are written anew. Every other line is
 * copied as it is, and so is one of which something would be lost: where a field of it wasn't read, where a field doesn't fit as it
 * was written, since `.1234567` wants nine columns with its digit before the point, or where something stands in columns of no
 * field. Each such line is told on standard error, with the field and its columns. A TER that has more than its name is copied
 * without a word: the format has fields there, and they aren't read.
 *
 * A line that is written anew comes out byte for byte as it was if its fields stand in the format's columns and at the format's
 * sides of them (a segment and a space group at the left, all else at the right), with a digit before each point and one behind it,
 * no plus sign but a charge's, no leading zeros, no minus before a whole 0, and a charge of 0 as blanks. Otherwise it says the same
 * in that form: `.50` becomes 0.50, and `5.` becomes 5. A line keeps its length, however many blanks end it, unless a field moves
 * behind its end, and it keeps its line end.
 *
 * Its status is 0 if no line was told, 1 if some line had to be copied instead, and 2 if the file can't be read or written.
 */
#include "fields.h"

/* ---- Its line from the fields that were read, at the places that they were written with; or a refusal. ---- */

static uint64_t put(const struct saltighedda_record *record, uint8_t *out)
{
    struct saltighedda_atom atom;
    struct saltighedda_anisou anisou;
    struct saltighedda_cell cell;
    struct saltighedda_row row;
    struct saltighedda_model model;
    if (saltighedda_get_atom(&atom, record)) {
        atom.places.bytes = atom.decimals;
        atom.places.length = sizeof atom.decimals;
        return saltighedda_put_atom(&atom, out, SALTIGHEDDA_LINE);
    }
    if (saltighedda_get_cell(&cell, record)) {
        cell.places.bytes = cell.decimals;
        cell.places.length = sizeof cell.decimals;
        return saltighedda_put_cell(&cell, out, SALTIGHEDDA_LINE);
    }
    if (saltighedda_get_row(&row, record)) {
        row.places.bytes = row.decimals;
        row.places.length = sizeof row.decimals;
        return saltighedda_put_row(&row, out, SALTIGHEDDA_LINE);
    }
    /* Whole numbers have no places. */
    if (saltighedda_get_anisou(&anisou, record))
        return saltighedda_put_anisou(&anisou, out, SALTIGHEDDA_LINE);
    return saltighedda_get_model(&model, record) ? saltighedda_put_model(&model, out, SALTIGHEDDA_LINE) : 0;
}

/* ---- The kinds that are written. ---- */

static int begins(const struct line *line, const char *name)
{
    size_t length = strlen(name);
    return line->length >= length && memcmp(line->bytes, name, length) == 0;
}

/* By the line's bytes, so that a line that is refused has a kind too; EMPTY if it is none that is written. */
static uint64_t find_kind(const struct line *line)
{
    for (uint64_t kind = SALTIGHEDDA_ATOM; kind <= SALTIGHEDDA_MODEL; kind++)
        if (begins(line, saltighedda_kind_name(kind)))
            return kind;
    return SALTIGHEDDA_EMPTY;
}

/*
 * TER, ENDMDL or END as saltighedda_write_bare counts them, if the line is this name and blanks; else 3, which it refuses. An
 * ENDMDL without blanks is read as END, so its kind isn't asked.
 */
static uint32_t find_bare(const struct line *line)
{
    static const char *const names[] = {"TER", "ENDMDL", "END"};
    for (uint32_t which = 0; which < 3; which++) {
        size_t at = strlen(names[which]);
        if (!begins(line, names[which]))
            continue;
        while (at < line->length && line->bytes[at] == ' ')
            at++;
        if (at == line->length)
            return which;
    }
    return 3;
}

/* ---- A line. ---- */

/* Two more are unread without a fault: a short CRYST1 has no Z, and gets 1; MTRIX's mark is taken for none if it isn't `1`. */
static int find_silent(const struct line *line, size_t *place, size_t *length)
{
    enum { CELL_Z = 66, MTRIX_GIVEN = 59 };
    if (line->record.fields[0] == SALTIGHEDDA_CRYST1) {
        *place = CELL_Z;
        *length = 4;
        return line->length <= CELL_Z;
    }
    if (!begins(line, "MTRIX") || line->length <= MTRIX_GIVEN)
        return 0;
    *place = MTRIX_GIVEN;
    *length = 1;
    return line->bytes[MTRIX_GIVEN] != '1' && line->bytes[MTRIX_GIVEN] != ' ';
}

/* The first column behind the name that isn't blank and in no field; the line's length if there is none. */
static size_t find_outside(const struct line *line)
{
    size_t at = 6;
    while (at < line->length && (line->bytes[at] == ' ' || saltighedda_field_at(line->record.fields[0], at) != NULL))
        at++;
    return at;
}

/* The blanks at a line's end are as many as they were: it may have under 80 bytes, and may go on behind them. */
static enum outcome print_as_long(const struct line *line, const uint8_t *out)
{
    size_t length = SALTIGHEDDA_LINE;
    while (length > line->length && out[length - 1] == ' ')
        length--;
    fwrite(out, 1, length, stdout);
    length = length < line->length ? length : line->length;
    return print_new(line, line->bytes + length, line->length - length);
}

static enum outcome write_fields(const struct line *line)
{
    uint8_t out[SALTIGHEDDA_LINE];
    size_t place, length;
    if (find_unread(line, &place, &length) || find_silent(line, &place, &length))
        return keep(line, place, length, " was not read");
    place = find_outside(line);
    if (place < line->length)
        return keep(line, place, 1, " is in no field");
    uint64_t refusal = put(&line->record, out);
    if (refusal != 0)
        return keep(line, SALTIGHEDDA_PLACE(refusal), SALTIGHEDDA_LENGTH(refusal), " doesn't fit as it was written");
    return print_as_long(line, out);
}

static enum outcome rewrite(struct line *line)
{
    uint8_t out[SALTIGHEDDA_LINE];
    if (saltighedda_write_bare(find_bare(line), out, sizeof out) == 0)
        return print_as_long(line, out);
    uint64_t kind = find_kind(line);
    if (kind == SALTIGHEDDA_EMPTY)
        return COPIED;
    uint64_t refusal = take(line, 0);
    if (refusal != 0)
        return keep_refused(line, refusal);
    return line->record.fields[0] == kind ? write_fields(line) : COPIED;
}

int main(int argc, char **argv)
{
    struct file file;
    struct line line = {.file = &file};
    size_t kept = 0;
    if (argc != 2) {
        fprintf(stderr, "usage: rewrite FILE\n");
        return 2;
    }
    if (!load(&file, argv[1])) {
        perror(argv[1]);
        return 2;
    }
    while (next_line(&line))
        kept += settle(&line, rewrite(&line));
    free(file.bytes);
    return finish("rewrite", kept);
}

/*
 * fields.h: what the hosts have in common. They walk the lines of a file, read each, and print it, as it was or written anew. A host of
 * your own can begin with a copy.
 *
 *     load, next_line        the whole of a file, and its lines one after another
 *     take                   reads a line, or says that it is refused
 *     find_unread            the first field whose value isn't the file's, but was put there
 *     tell                   a line and its columns on standard error, with what became of them
 *     keep, keep_refused     tell that a line is copied as it is, and why
 *     print_new, settle      a line written anew, and what comes of any other
 *     finish                 the status of the host
 *
 * All functions are inline, so that nobody is warned of one that a host leaves out.
 */
#ifndef FIELDS_H
#define FIELDS_H

#include <saltighedda.h>

#include <stdio.h>
#include <stdlib.h>
#include <string.h>

/* ---- The lines of a file. ---- */

struct file {
    const char *name;
    uint8_t *bytes;
    size_t size;
};

/* One line of a file, and what was read of it. One that has no more than its file stands before the first. */
struct line {
    const struct file *file;
    size_t number;
    const uint8_t *bytes;
    size_t length; /* without the line end */
    size_t start, whole; /* where it is in the file, and how many bytes with the line end */
    struct saltighedda_record record;
};

/* Takes the whole of a file into memory, which is to be freed; 0 if it can't be read. */
static inline int load(struct file *file, const char *name)
{
    FILE *input = fopen(name, "rb");
    if (input == NULL)
        return 0;
    uint8_t *bytes = NULL;
    size_t room = 0, n = 0, got = 0;
    do {
        n += got;
        if (room - n < 4096) {
            uint8_t *more = realloc(bytes, room = 2 * room + 65536);
            if (more == NULL)
                break;
            bytes = more;
        }
        got = fread(bytes + n, 1, room - n, input);
    } while (got != 0);
    if (ferror(input) || !feof(input)) {
        free(bytes);
        bytes = NULL;
    }
    fclose(input);
    file->name = name;
    file->bytes = bytes;
    file->size = n;
    return bytes != NULL;
}

/* Goes to the next line of the file; 0 if there is none. A line ends at LF, and a CR just before it is no part of it. */
static inline int next_line(struct line *line)
{
    size_t start = line->start + line->whole, left = line->file->size - start;
    if (left == 0)
        return 0;
    const uint8_t *bytes = line->file->bytes + start, *lf = memchr(bytes, '\n', left);
    line->number++;
    line->bytes = bytes;
    line->start = start;
    line->whole = lf == NULL ? left : (size_t)(lf - bytes) + 1;
    line->length = lf == NULL ? left : (size_t)(lf - bytes);
    if (lf != NULL && line->length > 0 && bytes[line->length - 1] == '\r')
        line->length--;
    return 1;
}

/* Reads a line; 0, or the refusal. */
static inline uint64_t take(struct line *line, uint32_t options)
{
    return saltighedda_get(&line->record, line->bytes, line->length, line->number, options);
}

/* The columns of the first field that wasn't read; 0 if all were. */
static inline int find_unread(const struct line *line, size_t *place, size_t *length)
{
    enum { CHARACTER = 4, CHARGE = 78 };
    const struct saltighedda_record *record = &line->record;
    uint64_t kind = record->fields[0];
    if (record->faults[0] != 0) {
        struct saltighedda_fault fault = saltighedda_fault_at(record, 0);
        *place = fault.place;
        *length = fault.length;
        return 1;
    }
    /* A NUL would go out as a blank. */
    for (const uint64_t *at = record->fields + 2; at < record->fields + 2 + 2 * record->fields[1]; at += 2)
        if (SALTIGHEDDA_SORT(at[0]) == CHARACTER && at[1] == 0) {
            *place = SALTIGHEDDA_COLUMN(at[0]);
            *length = 1;
            return 1;
        }
    /* A charge that is cut in two is 0, and no fault says so. */
    *place = CHARGE;
    *length = 2;
    return (kind == SALTIGHEDDA_ATOM || kind == SALTIGHEDDA_HETATM || kind == SALTIGHEDDA_ANISOU) && line->length == CHARGE + 1
           && line->bytes[CHARGE] != ' ';
}

/* ---- What becomes of a line. ---- */

/* A line that is kept is copied too, though the host would have written it anew: this is told. */
enum outcome { COPIED, WRITTEN, KEPT };

/* The columns are told as people count them, from 1. */
static inline void tell(const struct line *line, size_t place, size_t length, const char *what, const char *why, const char *then)
{
    fprintf(stderr, "%s:%zu: columns %zu to %zu: %s%s; %s\n", line->file->name, line->number, place + 1, place + length, what, why,
            then);
}

/* Tells of a line that was read and can't be written anew. */
static inline enum outcome keep(const struct line *line, size_t place, size_t length, const char *why)
{
    tell(line, place, length, saltighedda_field_name(line->record.fields[0], place), why, "the line is copied as it is");
    return KEPT;
}

static inline enum outcome keep_refused(const struct line *line, uint64_t refusal)
{
    tell(line, SALTIGHEDDA_PLACE(refusal), SALTIGHEDDA_LENGTH(refusal), saltighedda_refusal_words(SALTIGHEDDA_REFUSAL(refusal)),
         ", and nothing was read", "the line is copied as it is");
    return KEPT;
}

/* Prints what was written for a line, with the line's own end. Whether all could be printed is asked once, by `finish`. */
static inline enum outcome print_new(const struct line *line, const uint8_t *bytes, size_t length)
{
    fwrite(bytes, 1, length, stdout);
    fwrite(line->bytes + line->length, 1, line->whole - line->length, stdout);
    return WRITTEN;
}

/* Copies a line that wasn't written anew. Returns how many lines had to be kept: 1 or 0. */
static inline size_t settle(const struct line *line, enum outcome outcome)
{
    if (outcome != WRITTEN)
        fwrite(line->bytes, 1, line->whole, stdout);
    return outcome == KEPT;
}

/* The status: 0, or 1 if some lines had to be kept, or 2 if not all could be printed. */
static inline int finish(const char *host, size_t kept)
{
    if (fflush(stdout) != 0 || ferror(stdout)) {
        perror(host);
        return 2;
    }
    return kept != 0;
}

#endif

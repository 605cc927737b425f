/*
 * The typed face from C: what saltighedda_read puts into words and the structs above them, held against the listing of the same line, which
 * comes by other entries, and against document 01's columns, which stand here once more. Good lines of every kind, each cut at every length,
 * each byte replaced, and drawn ones, under all options. Prints what differs, and its status is then 1.
 *
 *     typed [LINES [SEED]]
 *
 * LINES is how many are drawn, two hundred thousand if it isn't given. With under ten thousand the others are fewer too.
 */
#include <saltighedda.h>

#include "draw.h"

#include <inttypes.h>
#include <stdio.h>
#include <stdlib.h>
#include <string.h>

enum { MOST_TOLD = 20, MOST_LINE = 1100, NUMBER = 7, OPTIONS = 8, UNTOUCHED = 0x5A };

static int failures;
static uint8_t remarks[SALTIGHEDDA_REMARKS];

/* The line that is tried. */
static const uint8_t *line;
static size_t length;
static uint32_t options;

static void hold(int fact, const char *what)
{
    if (!fact && failures++ < MOST_TOLD)
        printf("typed: %s: options %u, %zu bytes, `%.*s`\n", what, options, length, (int)(length < 90 ? length : 90), (const char *)line);
}

/* ---- The words beside the listing. ---- */

static char listing[SALTIGHEDDA_LONGEST + 1];

/* The listing as it follows from the words. */
static char shown[2 * SALTIGHEDDA_LONGEST];
static size_t shown_length;

static void show_text(const uint8_t *bytes, size_t count)
{
    for (size_t i = 0; i < count; i++)
        shown_length += (size_t)(bytes[i] >= 32 && bytes[i] <= 126 && bytes[i] != '%' ? sprintf(shown + shown_length, "%c", bytes[i])
                                                                                     : sprintf(shown + shown_length, "%%%02X", bytes[i]));
}

static void show_field(const struct saltighedda_record *record, const uint64_t *words)
{
    struct saltighedda_slice text = saltighedda_text(record, words[1]);
    uint8_t byte = (uint8_t)(words[1] < 256 ? words[1] : ' ');
    shown_length += (size_t)sprintf(shown + shown_length, "f%u=", SALTIGHEDDA_COLUMN(words[0]));
    switch (SALTIGHEDDA_SORT(words[0])) {
        case 0: shown_length += (size_t)sprintf(shown + shown_length, "%" PRIu64, words[1]); break;
        case 1: shown_length += (size_t)sprintf(shown + shown_length, "%" PRId64, (int64_t)words[1]); break;
        case 2: shown_length += (size_t)sprintf(shown + shown_length, "%016" PRIX64, words[1]); break;
        case 3: show_text(text.bytes, text.length); break;
        case 4: show_text(&byte, 1); break;
        case 5: shown_length += (size_t)sprintf(shown + shown_length, "%" PRIu64, words[1]); break;
        default: hold(0, "a field has no sort"); break;
    }
    shown_length += (size_t)sprintf(shown + shown_length, "\n");
}

static void show(const struct saltighedda_record *record)
{
    shown_length = (size_t)sprintf(shown, "record=%s\nline=%d\n", saltighedda_kind_name(record->fields[0]), NUMBER);
    for (uint64_t n = 0; n < record->fields[1]; n++)
        show_field(record, record->fields + 2 + 2 * n);
    shown_length += (size_t)sprintf(shown + shown_length, "faults=%" PRIu64 "\n", record->faults[0]);
    for (uint64_t n = 0; n < record->faults[0]; n++) {
        struct saltighedda_fault fault = saltighedda_fault_at(record, n);
        hold(fault.line == NUMBER && fault.kind == record->fields[0], "a fault doesn't know its line or its kind");
        shown_length += (size_t)sprintf(shown + shown_length, "fault=%u,%u,%u\n", fault.fault, fault.place, fault.length);
    }
}

/* The sort of a fault 2 is that of its field; ANISOU's six are written as whole numbers. */
static void try_sorts(const struct saltighedda_record *record)
{
    for (uint64_t n = 0; n < record->faults[0]; n++) {
        struct saltighedda_fault fault = saltighedda_fault_at(record, n);
        const uint64_t *words = saltighedda_words_at(record, fault.place);
        uint32_t sort = words == NULL ? 0 : SALTIGHEDDA_SORT(words[0]) + 1;
        if (record->fields[0] == SALTIGHEDDA_ANISOU && sort == 3)
            sort = 2;
        hold(fault.sort == (fault.fault == 2 ? sort : 0), "a fault says another sort than its field's");
    }
}

static void try_places(const struct saltighedda_record *record)
{
    uint8_t places[SALTIGHEDDA_PLACES];
    size_t due = saltighedda_places(line, length, NUMBER, options, remarks, sizeof remarks, places, sizeof places), found = 0;
    for (uint64_t n = 0; n < record->fields[1]; n++) {
        uint64_t word = record->fields[2 + 2 * n];
        if (SALTIGHEDDA_SORT(word) == 2 && record->fields[0] != SALTIGHEDDA_ANISOU) {
            hold(found < due && places[found] == SALTIGHEDDA_DECIMALS(word), "a real has other places");
            found++;
        } else {
            hold(SALTIGHEDDA_DECIMALS(word) == 0, "places of something that has none");
        }
        hold(word >> 32 == 0, "a field's first word has more than column, sort and places");
    }
    hold(found == due, "not as many places");
}

/* ---- The structs beside the words, by the columns of document 01. ---- */

static const struct saltighedda_record *read_record;

static const uint64_t *words_in(size_t column)
{
    for (uint64_t n = 0; n < read_record->fields[1]; n++)
        if (SALTIGHEDDA_COLUMN(read_record->fields[2 + 2 * n]) == column)
            return read_record->fields + 2 + 2 * n;
    return NULL;
}

/* Whether a fault other than 5 names the field that begins in a column; of a charge's two the sign's column too. */
static int due_unread(size_t column, int is_charge)
{
    for (uint64_t n = 0; n < read_record->faults[0]; n++) {
        struct saltighedda_fault fault = saltighedda_fault_at(read_record, n);
        if (fault.fault != 5 && (fault.place == column || (is_charge && fault.place == column + 1)))
            return 1;
    }
    return 0;
}

static int is_text(struct saltighedda_slice text, const uint64_t *words)
{
    if (words == NULL)
        return text.length == 0;
    return text.length == (size_t)(words[1] & 0xFFFFFFFF) && text.bytes == line + (words[1] >> 32);
}

static int is_character(char character, const uint64_t *words)
{
    return character == (words == NULL ? 0 : words[1] < 256 ? (char)words[1] : ' ');
}

#define UNREAD(member, column) hold(v.unread.member == due_unread(column, 0), #member " is unread and isn't, or the other way")
#define WHOLE(member, column)  hold((uint64_t)v.member == (words_in(column) ? words_in(column)[1] : 0), #member " isn't its column's"), UNREAD(member, column)
#define REAL(member, column)   hold(bits_of(v.member) == (words_in(column) ? words_in(column)[1] : 0), #member " isn't its column's"), UNREAD(member, column)
#define TEXT(member, column)   hold(is_text(v.member, words_in(column)), #member " isn't its columns'"), UNREAD(member, column)
#define ONE(member, column) \
    hold(is_character(v.member, words_in(column)), #member " isn't its column's"), \
    hold(v.unread.member == (due_unread(column, 0) || (words_in(column) && words_in(column)[1] == 0)), #member " is unread and isn't, or the other way")

/* A struct that isn't of the record's family stays as it was. */
#define GET(family, is_due) \
    struct saltighedda_##family v; \
    memset(&v, UNTOUCHED, sizeof v); \
    int got = saltighedda_get_##family(&v, read_record); \
    hold(got == (is_due), #family " is taken of another record, or isn't taken"); \
    if (!got) { \
        for (size_t i = 0; i < sizeof v; i++) \
            if (((const uint8_t *)&v)[i] != UNTOUCHED) { \
                hold(0, #family " is changed by another record"); \
                break; \
            } \
        return; \
    }

static uint64_t kind;

static void try_decimals(const uint8_t *decimals, size_t count, const size_t *columns)
{
    for (size_t i = 0; i < count; i++)
        hold(decimals[i] == (words_in(columns[i]) ? SALTIGHEDDA_DECIMALS(words_in(columns[i])[0]) : 0), "decimals aren't the words'");
}

#define LABEL \
    WHOLE(serial, 6); ONE(alternate, 16); TEXT(residue, 17); ONE(chain, 21); WHOLE(number, 22); ONE(insertion, 26); TEXT(segment, 72); \
    TEXT(element, 76); hold(v.charge == (int64_t)words_in(78)[1], "charge isn't its columns'"); \
    hold(v.unread.charge == due_unread(78, 1), "charge is unread and isn't, or the other way"); \
    hold(is_text(v.trimmed_name, words_in(12)), "the trimmed name isn't its columns'"); UNREAD(name, 12); \
    hold(length < 16 ? v.name.length == 0 : v.name.length == 4 && v.name.bytes == line + 12, "the name isn't its four columns")

static void try_atom(void)
{
    static const size_t reals[] = {30, 38, 46, 54, 60};
    GET(atom, kind == SALTIGHEDDA_ATOM || kind == SALTIGHEDDA_HETATM)
    LABEL;
    hold(v.hetero == (line[0] == 'H'), "HETATM isn't ATOM");
    REAL(x, 30); REAL(y, 38); REAL(z, 46); REAL(occupancy, 54); REAL(bfactor, 60);
    try_decimals(v.decimals, 5, reals);
}

static void try_anisou(void)
{
    GET(anisou, kind == SALTIGHEDDA_ANISOU)
    LABEL;
    REAL(u11, 28); REAL(u22, 35); REAL(u33, 42); REAL(u12, 49); REAL(u13, 56); REAL(u23, 63);
}

static void try_cell(void)
{
    static const size_t reals[] = {6, 15, 24, 33, 40, 47};
    GET(cell, kind == SALTIGHEDDA_CRYST1)
    REAL(a, 6); REAL(b, 15); REAL(c, 24); REAL(alpha, 33); REAL(beta, 40); REAL(gamma, 47); TEXT(group, 55); WHOLE(z, 66);
    try_decimals(v.decimals, 6, reals);
}

static void try_row(void)
{
    static const size_t reals[] = {10, 20, 30, 45};
    GET(row, kind >= SALTIGHEDDA_SCALE1 && kind <= SALTIGHEDDA_MTRIX3)
    hold(v.family == (line[0] == 'S' ? 0 : line[0] == 'O' ? 1 : 2) && v.row == (uint64_t)(line[5] - '1'), "a row isn't its name's");
    REAL(a, 10); REAL(b, 20); REAL(c, 30); REAL(d, 45); WHOLE(serial, 7); WHOLE(given, 59);
    try_decimals(v.decimals, 4, reals);
}

static void try_small(void)
{
    size_t column = options & SALTIGHEDDA_WWPDB ? 10 : 6;
    GET(model, kind == SALTIGHEDDA_MODEL)
    WHOLE(number, column);
}

static void try_header(void)
{
    GET(header, kind == SALTIGHEDDA_HEADER)
    TEXT(classification, 10); TEXT(date, 50); TEXT(code, 62);
}

static void try_remark(void)
{
    GET(remark, kind == SALTIGHEDDA_REMARK)
    WHOLE(number, 7); TEXT(text, 11);
}

static void try_master(void)
{
    GET(master, kind == SALTIGHEDDA_MASTER)
    WHOLE(remark, 10); WHOLE(empty, 15); WHOLE(het, 20); WHOLE(helix, 25); WHOLE(sheet, 30); WHOLE(turn, 35); WHOLE(site, 40);
    WHOLE(xform, 45); WHOLE(coord, 50); WHOLE(ter, 55); WHOLE(connect, 60); WHOLE(seq, 65);
}

static void try_seqres(void)
{
    GET(seqres, kind == SALTIGHEDDA_SEQRES)
    WHOLE(serial, 7); ONE(chain, 11); WHOLE(residues, 13);
    hold(v.count == read_record->fields[1] - 3, "not as many triples");
    for (size_t i = 0; i < v.count; i++)
        hold(is_text(v.triples[i], words_in(19 + 4 * i)), "a triple isn't its columns'");
}

static void try_dbref(void)
{
    GET(dbref, kind == SALTIGHEDDA_DBREF)
    TEXT(code, 7); TEXT(chain, 12); WHOLE(begin, 14); ONE(opening, 18); WHOLE(end, 20); ONE(closing, 24); TEXT(database, 26);
    TEXT(accession, 33); TEXT(name, 42); WHOLE(target_begin, 55); ONE(target_opening, 60); WHOLE(target_end, 62); ONE(target_closing, 67);
}

static void try_dbref1(void)
{
    size_t column = options & SALTIGHEDDA_WWPDB ? 20 : 21;
    GET(dbref1, kind == SALTIGHEDDA_DBREF1)
    TEXT(code, 7); TEXT(chain, 12); WHOLE(begin, 14); ONE(opening, 18); WHOLE(end, column); ONE(closing, 24); TEXT(database, 26);
    TEXT(name, 47);
}

static void try_dbref2(void)
{
    GET(dbref2, kind == SALTIGHEDDA_DBREF2)
    TEXT(code, 7); TEXT(chain, 12); TEXT(accession, 18); WHOLE(target_begin, 45); WHOLE(target_end, 57);
}

static void try_seqadv(void)
{
    GET(seqadv, kind == SALTIGHEDDA_SEQADV)
    TEXT(code, 7); TEXT(residue, 12); TEXT(chain, 16); WHOLE(number, 18); ONE(insertion, 22); TEXT(database, 24); TEXT(accession, 29);
    TEXT(target_name, 39); WHOLE(target_number, 43); TEXT(comment, 49);
    hold(v.has_target == (memcmp(line + 39, "         ", 9) != 0), "a target is there and isn't, or the other way");
}

static void try_modres(void)
{
    GET(modres, kind == SALTIGHEDDA_MODRES)
    TEXT(code, 7); TEXT(residue, 12); ONE(chain, 16); WHOLE(number, 18); ONE(insertion, 22); TEXT(standard, 24); TEXT(comment, 29);
}

static void try_ssbond(void)
{
    static const size_t reals[] = {73};
    GET(ssbond, kind == SALTIGHEDDA_SSBOND)
    TEXT(residue, 11); ONE(chain, 15); WHOLE(number, 17); ONE(insertion, 21); TEXT(other_residue, 25); ONE(other_chain, 29);
    WHOLE(other_number, 31); ONE(other_insertion, 35); TEXT(symmetry, 59); TEXT(other_symmetry, 66); REAL(length, 73);
    hold(v.has_tail == (length >= 78), "a tail is there and isn't, or the other way");
    try_decimals(v.decimals, 1, reals);
}

static void try_families(const struct saltighedda_record *record)
{
    read_record = record;
    kind = record->fields[0];
    try_atom();
    try_anisou();
    try_cell();
    try_row();
    try_small();
    try_header();
    try_remark();
    try_master();
    try_seqres();
    try_dbref();
    try_dbref1();
    try_dbref2();
    try_seqadv();
    try_modres();
    try_ssbond();
}

/* ---- What was read, written from the same struct. ---- */

#define AGAIN(family) \
    struct saltighedda_##family family; \
    if (saltighedda_get_##family(&family, record))

/* A line that was read whole and is written at its own decimals is read as the same. */
static void try_again(const struct saltighedda_record *record)
{
    uint8_t out[SALTIGHEDDA_LINE];
    char again[SALTIGHEDDA_LONGEST];
    uint64_t refusal = 1;
    AGAIN(atom) {
        if (atom.unread.alternate || atom.unread.chain || atom.unread.insertion)
            return;
        atom.places.bytes = atom.decimals, atom.places.length = sizeof atom.decimals;
        refusal = saltighedda_put_atom(&atom, out, sizeof out);
    }
    AGAIN(anisou) refusal = anisou.unread.alternate || anisou.unread.chain || anisou.unread.insertion || saltighedda_put_anisou(&anisou, out, sizeof out);
    AGAIN(cell) {
        cell.places.bytes = cell.decimals, cell.places.length = sizeof cell.decimals;
        refusal = saltighedda_put_cell(&cell, out, sizeof out);
    }
    AGAIN(row) {
        row.places.bytes = row.decimals, row.places.length = sizeof row.decimals;
        refusal = saltighedda_put_row(&row, out, sizeof out);
    }
    AGAIN(model) refusal = saltighedda_put_model(&model, out, sizeof out);
    if (refusal != 0)
        return;
    size_t n = saltighedda_list(out, sizeof out, NUMBER, options, remarks, sizeof remarks, (uint8_t *)again, sizeof again);
    hold(n == strlen(listing) && memcmp(again, listing, n) == 0, "what was written from a struct isn't what was read into it");
}

/* ---- The table of fields beside document 01's columns. ---- */

#define ATOM_HEAD "U6..11 T12..16 C16..17 T17..20 C21..22 I22..26 C26..27 "
#define ATOM_TAIL "T72..76 T76..78 I78..80 "
#define ROW       "R10..20 R20..30 R30..40 R45..55 "

static const char *const columns_of[SALTIGHEDDA_KINDS] = {
    "",
    "T10..50 T50..59 T62..66 ",
    "U7..10 T11..1024 ",
    ATOM_HEAD "R30..38 R38..46 R46..54 R54..60 R60..66 " ATOM_TAIL,
    ATOM_HEAD "R30..38 R38..46 R46..54 R54..60 R60..66 " ATOM_TAIL,
    ATOM_HEAD "A28..35 A35..42 A42..49 A49..56 A56..63 A63..70 " ATOM_TAIL,
    "R6..15 R15..24 R24..33 R33..40 R40..47 R47..54 T55..66 U66..1024 ",
    ROW, ROW, ROW, ROW, ROW, ROW,
    "U7..10 " ROW "B59..60 ", "U7..10 " ROW "B59..60 ", "U7..10 " ROW "B59..60 ",
    "U6..1024 ",
    "U10..15 U15..20 U20..25 U25..30 U30..35 U35..40 U40..45 U45..50 U50..55 U55..60 U60..65 U65..70 ",
    "T7..11 T12..13 I14..18 C18..19 I20..24 C24..25 T26..32 T33..41 T42..54 I55..60 C60..61 I62..67 C67..68 ",
    "T7..11 T12..13 I14..18 C18..19 I20..24 C24..25 T26..32 T47..67 ",
    "T7..11 T12..13 T18..40 I45..55 I57..67 ",
    "U7..10 C11..12 U13..17 L19..70 ",
    "T7..11 T12..15 T16..17 I18..22 C22..23 T24..28 T29..38 T39..42 I43..48 T49..1024 ",
    "T7..11 T12..15 C16..17 I18..22 C22..23 T24..27 T29..1024 ",
    "T11..14 C15..16 I17..21 C21..22 T25..28 C29..30 I31..35 C35..36 T59..65 T66..72 R73..78 ",
    "", "", "",
};

static void try_table(void)
{
    for (uint64_t k = 0; k <= SALTIGHEDDA_KINDS; k++) {
        char columns[512] = "";
        size_t n = 0;
        for (const struct saltighedda_field *field = saltighedda_fields_of(k); field->name != NULL; field++) {
            n += (size_t)sprintf(columns + n, "%s%u..%u ", field->sort, field->first, field->end);
            hold(field->name[0] != 0 && saltighedda_field_at(k, field->first) == field && saltighedda_field_at(k, field->end - 1u) == field,
                 "a field isn't found by its columns, or has no name");
        }
        hold(strcmp(columns, k < SALTIGHEDDA_KINDS ? columns_of[k] : "") == 0, "the table of fields has other columns than document 01");
    }
}

/* ---- A line. ---- */

static uint64_t read_words(struct saltighedda_record *record, uint32_t wanted, size_t fields_len, size_t faults_len, size_t table)
{
    memset(record, UNTOUCHED, sizeof *record);
    record->line = line;
    record->length = length;
    return saltighedda_read(line, length, NUMBER, options, remarks, table, wanted, record->fields, fields_len, record->faults, faults_len);
}

static int is_untouched(const uint64_t *words, size_t count)
{
    for (size_t i = 0; i < count; i++)
        if (words[i] != UINT64_C(0x5A5A5A5A5A5A5A5A))
            return 0;
    return 1;
}

static void try_refusal(uint64_t due, uint32_t wanted, size_t fields_len, size_t faults_len, size_t table, const char *what)
{
    struct saltighedda_record record;
    hold(read_words(&record, wanted, fields_len, faults_len, table) == due, what);
    hold(is_untouched(record.fields, SALTIGHEDDA_FIELDS) && is_untouched(record.faults, SALTIGHEDDA_FAULTS), "a refusal writes a word");
}

static void try_refusals(uint64_t due)
{
    uint64_t own = saltighedda_kind(line, length, options), other = (uint64_t)15 << 48;
    if (due != 0)
        try_refusal(due, SALTIGHEDDA_ANY, SALTIGHEDDA_FIELDS, SALTIGHEDDA_FAULTS, sizeof remarks, "another refusal than the listing's");
    try_refusal((uint64_t)1 << 48, SALTIGHEDDA_ANY, 0, 0, sizeof remarks - 1, "a table of 999 bytes isn't refused");
    try_refusal(own < SALTIGHEDDA_KINDS ? other : due, SALTIGHEDDA_KINDS, 0, 0, sizeof remarks, "a kind that is none isn't refused");
    try_refusal(own < SALTIGHEDDA_KINDS ? other : due, own == 3 ? 4 : 3, 0, 0, sizeof remarks, "another kind isn't refused");
    if (own < SALTIGHEDDA_KINDS && due == 0) {
        try_refusal((uint64_t)8 << 48 | 34, (uint32_t)own, 33, 0, sizeof remarks, "33 words for fields are enough");
        try_refusal((uint64_t)8 << 48 | 31, (uint32_t)own, 34, 30, sizeof remarks, "30 words for faults are enough");
    }
}

static void try_line(const uint8_t *bytes, size_t n, int all)
{
    struct saltighedda_record record, taken;
    line = bytes;
    length = n;
    size_t written = saltighedda_list(line, length, NUMBER, options, remarks, sizeof remarks, (uint8_t *)listing, SALTIGHEDDA_LONGEST);
    listing[written] = '\0';
    uint64_t due = (uint64_t)saltighedda_list_refusal(line, n, NUMBER, options, remarks, sizeof remarks, NULL, SALTIGHEDDA_LONGEST) << 48
                   | (uint64_t)saltighedda_list_place(line, n, NUMBER, options, remarks, sizeof remarks, NULL, SALTIGHEDDA_LONGEST) << 32
                   | saltighedda_list_length(line, n, NUMBER, options, remarks, sizeof remarks, NULL, SALTIGHEDDA_LONGEST);
    if (all || due != 0)
        try_refusals(due);
    uint64_t refusal = saltighedda_get(&taken, line, length, NUMBER, options);
    hold(refusal == due, "another answer than the listing's");
    if (due != 0) {
        hold(taken.fields[0] == SALTIGHEDDA_EMPTY && taken.fields[1] == 0 && taken.faults[0] == 0, "a refused line leaves a record");
        return;
    }
    hold(read_words(&record, (uint32_t)saltighedda_kind(line, length, options), SALTIGHEDDA_FIELDS, SALTIGHEDDA_FAULTS, sizeof remarks) == 0,
         "a line isn't read as its own kind");
    size_t fields = 2 + 2 * record.fields[1], faults = 1 + 2 * record.faults[0];
    hold(fields <= SALTIGHEDDA_FIELDS && faults <= SALTIGHEDDA_FAULTS, "more words than there is room for");
    if (fields > SALTIGHEDDA_FIELDS || faults > SALTIGHEDDA_FAULTS)
        return;
    hold(is_untouched(record.fields + fields, SALTIGHEDDA_FIELDS - fields) && is_untouched(record.faults + faults, SALTIGHEDDA_FAULTS - faults),
         "a word behind is written");
    hold(memcmp(record.fields, taken.fields, fields * sizeof *taken.fields) == 0 && memcmp(record.faults, taken.faults, faults * sizeof *taken.faults) == 0,
         "what is taken isn't what is read");
    show(&record);
    hold(shown_length == written && memcmp(shown, listing, written) == 0, "the words say other than the listing");
    try_sorts(&record);
    try_places(&record);
    try_families(&record);
    if (record.faults[0] == 0)
        try_again(&record);
}

/* ---- Which lines. ---- */

static const char *const good[] = {
    "HEADER    METAL BINDING PROTEIN                   14-MAR-24   9ZNF",
    "REMARK   2 RESOLUTION.    1.85 ANGSTROMS.",
    "ATOM      2  CA BCYS A  -1C     11.639   6.071  -5.147  1.00 17.90      SEG  C2-",
    "HETATM   18 ZN    ZN   101      11.639   6.071  -5.147  1.00 17.90          ZN2+",
    "ANISOU    6  SG ACYS A   1B    2551   2403   2702    112    -87     31  SEG  S1+",
    "CRYST1   42.570   42.570   61.930  90.00  90.00 120.00 P 31 2 1      6",
    "SCALE1      0.023491  0.013562  0.000000        0.00000",
    "SCALE2      0.023491  0.013562  0.000000        0.00000",
    "SCALE3      0.023491  0.013562  0.000000        0.00000",
    "ORIGX1      1.000000  0.000000  0.000000        0.00000",
    "ORIGX2      1.000000  0.000000  0.000000        0.00000",
    "ORIGX3      1.000000  0.000000  0.000000        0.00000",
    "MTRIX1   1  0.000000 -1.000000  0.000000        1.00000    1",
    "MTRIX2  12  0.000000 -1.000000  0.000000        1.00000    1",
    "MTRIX3 123  0.000000 -1.000000  0.000000        1.00000     ",
    "MODEL        2",
    "MASTER        1    2    3    4    5    6    7    8    9   10   11   12",
    "DBREF  9ZNF A    1A   60B UNP    P12345   ZINC_HUMAN     101C   160D",
    "DBREF1 9ZNF A    1A 1234B UNPREF               A0A0B0C0D0          ",
    "DBREF2 9ZNF A     UPI00001                          101         160",
    "SEQRES   1 A   60  CYS GLU LYS CYS HIS HIS ALA GLY SER THR VAL ILE LEU",
    "SEQADV 9ZNF MET A    1A UNP  P12345    GLY    -5 INITIATING METHIONINE",
    "SEQADV 9ZNF MET A    1  UNP  P12345              EXPRESSION TAG",
    "MODRES 9ZNF MSE A    1B MET  SELENOMETHIONINE",
    "SSBOND   1 CYS A    1A   CYS B   54C                         1555   2665  2.03",
    "SSBOND   1 CYS A    1    CYS B   54",
    "ENDMDL ",
    "TER      17      HIS A   6",
    "END",
    "CONECT    1    2",
    "",
};

enum { GOOD = sizeof good / sizeof *good };

/* How far it is from one length or byte that is tried to the next. */
static size_t step = 1;

static void try_cuts(void)
{
    uint8_t bytes[MOST_LINE];
    for (size_t g = 0; g < GOOD; g++) {
        size_t n = strlen(good[g]);
        memset(bytes, ' ', sizeof bytes);
        memcpy(bytes, good[g], n);
        for (size_t cut = 0; cut <= 90; cut += step)
            for (options = 0; options < OPTIONS; options++)
                try_line(bytes, cut, 1);
        for (size_t cut = 1022; cut <= 1026; cut++)
            for (options = 0; options < OPTIONS; options++)
                try_line(bytes, cut, 1);
    }
}

static void try_bytes(void)
{
    static const uint8_t others[] = {0, 9, 11, ' ', '%', '+', '-', '.', '0', '1', '9', 'A', 'e', 127, 128};
    uint8_t bytes[MOST_LINE];
    for (size_t g = 0; g < GOOD; g++) {
        size_t n = strlen(good[g]);
        memcpy(bytes, good[g], n);
        for (size_t at = 0; at < n; at += step)
            for (size_t o = 0; o < sizeof others; o++) {
                bytes[at] = others[o];
                for (options = 0; options < OPTIONS; options += 4)
                    try_line(bytes, n, 0);
                bytes[at] = (uint8_t)good[g][at];
            }
    }
}

static void try_drawn(uint64_t count)
{
    static const char drawn[] = "      0123456789+-.ABe%\t";
    uint8_t bytes[MOST_LINE];
    for (uint64_t i = 0; i < count; i++) {
        const char *from = good[random_below(GOOD)];
        size_t n = strlen(from);
        memset(bytes, ' ', 100);
        memcpy(bytes, from, n);
        for (uint64_t left = random_below(12); left > 0; left--)
            bytes[6 + random_below(84)] = random_below(40) ? (uint8_t)drawn[random_below(sizeof drawn - 1)] : (uint8_t)random_below(128);
        options = (uint32_t)random_below(OPTIONS);
        try_line(bytes, random_below(3) ? n : random_below(95), 0);
    }
}

int main(int argc, char **argv)
{
    uint64_t count = argc > 1 ? strtoull(argv[1], NULL, 10) : 200000;
    if (argc > 2)
        seed = strtoull(argv[2], NULL, 10);
    step = count < 10000 ? 7 : 1;
    setvbuf(stdout, NULL, _IOLBF, 0);
    memset(remarks, 1, sizeof remarks);
    hold(memcmp(saltighedda_every_remark(), remarks, sizeof remarks) == 0, "not every remark is valid");
    try_table();
    try_cuts();
    try_bytes();
    try_drawn(count);
    if (failures > MOST_TOLD)
        printf("typed: %d more\n", failures - MOST_TOLD);
    return failures != 0;
}

/*
 * saltighedda.h: a line of a PDB file, read into words or listed, with what could not be read and how many decimals were written; its
 * kind alone; a record, written as a line; a position, moved by the rows of a transformation; a file, held against its MASTER line; and
 * a damaged line, mended. Below the entries stands a struct for each family of records, which is read and written by name.
 *
 * Every entry takes any bytes and any numbers; nothing has to be checked beforehand. A host has one duty: a buffer is a pointer
 * and the number of bytes, words or doubles that are there, an output's bytes are in no other buffer of the call, and nobody else
 * writes to them meanwhile. The pointer of a buffer of 0 bytes may be NULL. No entry keeps a pointer, allocates memory or has a
 * state, so calls from several threads at once are fine if each lends an output of its own.
 *
 * A listing is rows of bytes below 127, each ended by '\n':
 *
 *     record=HETATM
 *     line=18                      the number that was handed in
 *     f30=0000000000000000         each field by its first column, from 0; a real by the bits of its double, in hex
 *     ..
 *     faults=3
 *     fault=1,30,8                 kind, first column and number of columns
 *     fault=1,38,8
 *     ..
 *
 * A field that a fault of kind 1 to 4 names has its default, and was not read; 5 says only that the number isn't in the table. A
 * real that no fault names was read. Of the other numbers three may be unwritten without a fault: Z is 1 in a CRYST1 of 66 bytes or
 * less, an atom's charge is 0 under 80 bytes or where it is two blanks, and MTRIX's f59 is 0 under 60. A text without a fault may
 * be blank, and one that ends with the line may lie behind its end.
 * The kinds of faults:
 *
 *     1  the line ends before the field's last column
 *     2  the columns hold no number of the field's sort
 *     3  an atom's charge has no digit
 *     4  an atom's charge has no sign
 *     5  the remark number isn't in the table
 */
#ifndef SALTIGHEDDA_H
#define SALTIGHEDDA_H

#include "saltighedda_fields.h"

#include <stddef.h>
#include <stdint.h>
#include <string.h>

#ifdef __cplusplus
extern "C" {
#endif

/* Bits of `options`; the others have no effect. */
#define SALTIGHEDDA_ATOMS_ONLY UINT32_C(1) /* every kind but ATOM, HETATM, MODEL, ENDMDL, TER and END is EMPTY */
#define SALTIGHEDDA_LOOSE      UINT32_C(2) /* lets remarks of 80 bytes and more pass */
#define SALTIGHEDDA_WWPDB      UINT32_C(4) /* wwPDB mode */
#define SALTIGHEDDA_EXPONENTS  UINT32_C(8) /* reals may have an exponent */

/*
 * Lines are read as the Rust crate pdbtbx reads them, unless wwPDB mode is asked for. It reads three things as wwPDB 3.30 prints
 * them, and all else alike:
 *
 *     MODEL's number stands in 10..14: its row is f10, and a line under 14 bytes has fault 1 there (else it stands from 6 to the end
 *     of the line, and its row is f6)
 *     DBREF1's end stands in 20..24: its row is f20 (else it is 21..24 and f21, and an end of 1234 reads as 234)
 *     a line of the six bytes ENDMDL is ENDMDL (else it is END)
 *
 * A real is a plain decimal: a sign or none, digits, a point or none, digits. With SALTIGHEDDA_EXPONENTS it may also be one of these
 * and then `e` or `E`, a sign or none, and digits, as some programs write temperature factors: 1.2E2. With x the exponent and p the
 * digits behind the point it is read if x - p lies from -22 to 22, or if all digits before the letter are 0; the double is the one
 * nearest to the number, a tie to the even last bit. All else has fault 2, infinities and NaN too. Plain decimals are read alike with
 * the option and without, and ANISOU's six are whole numbers, which take no exponent.
 */

/* An output of so many bytes has room for every listing. */
#define SALTIGHEDDA_LONGEST 4096

/* How many bytes the remark table has: byte n is nonzero if remark number n is valid. */
#define SALTIGHEDDA_REMARKS 1000

/*
 * Lists a line, without its line end, at the front of `out`. Returns how many bytes were written; what follows them in `out`
 * stays as it was. Returns 0 if the line was refused; all of `out` is then as it was. No listing is empty.
 *
 * `number` is the line's number, from 1, and only goes into the listing.
 */
size_t saltighedda_list(const uint8_t *line, size_t line_len, size_t number, uint32_t options,
                        const uint8_t *remarks, size_t remarks_len, uint8_t *out, size_t out_len);

/*
 * Why saltighedda_list returns 0 for the same arguments. `out` may be the same buffer: it is neither read nor written, and
 * only `out_len` counts. Returns 0 if there is no refusal, and otherwise:
 *
 *     1  the remark table hasn't SALTIGHEDDA_REMARKS bytes
 *     2  the line has over 1,024 bytes
 *     3  it has a byte of 128 or more
 *     4  a HEADER line has under 66 bytes
 *     5  a REMARK line has 80 bytes or more without the white space at its end, and SALTIGHEDDA_LOOSE isn't set
 *     6  a CRYST1, MODRES, SEQADV or SSBOND line is too short to be read
 *     8  the listing needs more bytes than `out` has; saltighedda_list_length says how many
 */
size_t saltighedda_list_refusal(const uint8_t *line, size_t line_len, size_t number, uint32_t options,
                                const uint8_t *remarks, size_t remarks_len, uint8_t *out, size_t out_len);

/* The first column that the refusal is about, from 0. Returns 0 if there is no refusal. */
size_t saltighedda_list_place(const uint8_t *line, size_t line_len, size_t number, uint32_t options,
                              const uint8_t *remarks, size_t remarks_len, uint8_t *out, size_t out_len);

/* How many columns it is about, for refusal 2 stopping at 2^32 - 1; for refusal 8, the bytes needed. Returns 0 if there is no refusal. */
size_t saltighedda_list_length(const uint8_t *line, size_t line_len, size_t number, uint32_t options,
                               const uint8_t *remarks, size_t remarks_len, uint8_t *out, size_t out_len);

/*
 * Which kind a line is, without reading it: a number from 0 to 27, or refusal 2 or 3 as one number, which is 2^48 or more;
 * SALTIGHEDDA_REFUSAL, _PLACE and _LENGTH take that apart. No other refusal is given here, so a line with a kind may still be
 * refused when it is listed. Of a line over 1,024 bytes the length says how many there are too many, up to 2^32 - 1.
 */
uint64_t saltighedda_kind(const uint8_t *line, size_t line_len, uint32_t options);

/* The kinds by their numbers: SALTIGHEDDA_EMPTY is 0, SALTIGHEDDA_HEADER 1, and so on down the table of saltighedda_fields.h. */
#define SALTIGHEDDA_NUMBERED(number, name, list) SALTIGHEDDA_##name = number,
enum { SALTIGHEDDA_KIND_TABLE(SALTIGHEDDA_NUMBERED) SALTIGHEDDA_KINDS = 28 };

/* The name of a kind as a listing has it, and NULL for any other number, a refusal too. */
#define SALTIGHEDDA_NAMED(number, name, list) #name,
static inline const char *saltighedda_kind_name(uint64_t kind)
{
    static const char *const names[SALTIGHEDDA_KINDS] = {SALTIGHEDDA_KIND_TABLE(SALTIGHEDDA_NAMED)};
    return kind < SALTIGHEDDA_KINDS ? names[kind] : NULL;
}

/* Any kind will do. */
#define SALTIGHEDDA_ANY UINT32_C(0xFFFFFFFF)

/* How many words have room for the fields of every line, and for its faults. */
#define SALTIGHEDDA_FIELDS 34
#define SALTIGHEDDA_FAULTS 31

/*
 * Reads a line, without its line end, into words: what a listing says, to be taken as it is. `kind` is the kind that the line has to
 * be, or SALTIGHEDDA_ANY. The answer is 0, and then
 *
 *     fields[0]  the kind's number
 *     fields[1]  how many fields there are; then two words for each, those that are present by ascending column, as in the listing:
 *                column + sort * 2^16 + places * 2^24, places being 0 but for the reals that saltighedda_places tells of; and the value
 *     faults[0]  how many faults there are; then two words for each: `number`; and
 *                the line's kind + fault * 2^8 + sort * 2^16 + place * 2^32 + length * 2^48, sort being for fault 2 what the columns
 *                should have held, 1 unsigned, 2 signed, 3 a real, and else 0
 *
 * and what is behind them stays as it was. The sorts of a field and its value:
 *
 *     0  unsigned
 *     1  signed, in two's complement
 *     2  a real, the bits of its double
 *     3  a text, place * 2^32 + length: a part of the line
 *     4  a character, the byte, or 256 where the line doesn't reach it
 *     5  a mark, 1 or 0
 *
 * Else it is a refusal as one number, and all that was lent is as it was: 1 to 6 as above, with the same place and length;
 *
 *     15  the line is of another kind than `kind`; place and length are 0; tested behind 3
 *     8   `fields` has under SALTIGHEDDA_FIELDS words, or `faults` under SALTIGHEDDA_FAULTS; the place is 0 and the length how many
 *         are needed; tested last, for `fields` first
 *
 * saltighedda_get and the structs at the end of this header stand above it.
 */
uint64_t saltighedda_read(const uint8_t *line, size_t line_len, size_t number, uint32_t options, const uint8_t *remarks,
                          size_t remarks_len, uint32_t kind, uint64_t *fields, size_t fields_len, uint64_t *faults,
                          size_t faults_len);

/* An output of so many bytes has room for the places of every record. */
#define SALTIGHEDDA_PLACES 6

/*
 * How many decimals were written: one byte for each real of the line's record, ascending by column, at the front of `out`: how many
 * digits stand behind the point, trailing zeros among them, 0 to 9, and 0 where the field has its default. Returns how many bytes
 * there are; what follows them in `out` stays as it was. ATOM and HETATM have five, CRYST1 six, SCALE, ORIGX and MTRIX four, and an
 * SSBOND of 78 bytes or more has one. ANISOU's six are whole numbers and have none. Returns 0 if the record has none, if `out` has
 * fewer bytes than there are, or if saltighedda_list would refuse the line whatever the room; all of `out` is then as it was.
 *
 * The bytes are what the entries below take as `places`: a record that is written with them has in each real that was read, and that
 * has no exponent, the same sign, digits and places, or is refused. Of a real with an exponent the digits before it count, and it goes
 * out as a plain decimal of so many places, which needn't say the same number.
 */
size_t saltighedda_places(const uint8_t *line, size_t line_len, size_t number, uint32_t options,
                          const uint8_t *remarks, size_t remarks_len, uint8_t *out, size_t out_len);

/*
 * Writing. Each of the entries below writes a record as a line of 80 bytes, without a line end, at the front of `out`, in the
 * columns and decimal places of wwPDB 3.30; what follows the 80 bytes stays as it was. The answer is one number: 0 if the line was
 * written. Else it is a refusal, and all of `out` is as it was; SALTIGHEDDA_REFUSAL, _PLACE and _LENGTH take it apart:
 *
 *     8  `out` has under 80 bytes; the place is 0 and the length 80
 *     9  a field doesn't fit; the place is its first column, from 0, and the length its number of columns
 *
 * Of several fields that don't fit the first by column is told. 9 is tested before 8, so an `out` of 0 bytes asks whether a record
 * fits: 8 says that it does. A field doesn't fit if it is
 *
 *     a whole number with more digits than columns, its minus counted; a charge below -9 or above 9
 *     a real that has more bytes than columns once it is rounded to its places; a NaN or an infinity
 *     a text with more bytes than columns, or with a byte outside 32 to 126; an atom's name that hasn't four bytes
 *     a row above 2, with place 5 and length 1; a `family` or `which` above 2, with place 0 and length 6
 *
 * A host's one duty stays the same: `out` is in none of the texts. So a line that is written anew from texts of its own bytes wants
 * an `out` elsewhere. NULL and 0 are the text without bytes, which goes out as blanks.
 *
 * A real goes out as the decimal of its places that is nearest to the double, a tie to the even last digit, with a digit before
 * the point; its sign is kept, so that -0.0004 in three places is -0.000. `places` asks for other places than the format's: byte n
 * is how many the n-th real by column gets, from 0, and 0 is without a point. Reals for which it has no byte get the format's, so
 * NULL and 0 are the format's throughout; bytes for which there is no real have no effect. Nine places and more fit nowhere.
 *
 * A segment and a space group stand at the left of their columns, all else at the right. Read again, a written line gives no fault
 * and the same whole numbers, signs and texts, if the texts have no white space at their ends; an atom's name is then trimmed. A
 * real that was read from a field of no more places comes back with the same bits.
 */

/* The bytes of a written line. */
#define SALTIGHEDDA_LINE 80

/* Number, place and length of a refusal. Of the answer 0 all three are 0. */
#define SALTIGHEDDA_REFUSAL(r) ((uint32_t)((uint64_t)(r) >> 48))
#define SALTIGHEDDA_PLACE(r)   ((uint32_t)((uint64_t)(r) >> 32 & 0xFFFF))
#define SALTIGHEDDA_LENGTH(r)  ((uint32_t)((uint64_t)(r) & 0xFFFFFFFF))

/*
 * ATOM if `hetero` is 0, else HETATM. `name` is the four bytes of 12..16 as they are to stand there, since a trimmed name has lost
 * its first column. An alternate location, a chain and an insertion code have one byte, or none and are absent; a chain that is
 * absent reads back as a blank. A charge is a digit and then its sign, and 0 is two blanks. Five reals: x, y and z have three
 * places, occupancy and temperature factor two.
 */
uint64_t saltighedda_write_atom(uint32_t hetero, uint64_t serial, const uint8_t *name, size_t name_len,
                                const uint8_t *alternate, size_t alternate_len, const uint8_t *residue, size_t residue_len,
                                const uint8_t *chain, size_t chain_len, int64_t number, const uint8_t *insertion,
                                size_t insertion_len, double x, double y, double z, double occupancy, double bfactor,
                                const uint8_t *segment, size_t segment_len, const uint8_t *element, size_t element_len,
                                int64_t charge, const uint8_t *places, size_t places_len, uint8_t *out, size_t out_len);

/*
 * ANISOU. The six go out at four places without the point, as the whole number nearest to 10,000 times the double; a zero is
 * always `0`, whatever its sign. All else is as in ATOM.
 */
uint64_t saltighedda_write_anisou(uint64_t serial, const uint8_t *name, size_t name_len, const uint8_t *alternate,
                                  size_t alternate_len, const uint8_t *residue, size_t residue_len, const uint8_t *chain,
                                  size_t chain_len, int64_t number, const uint8_t *insertion, size_t insertion_len, double u11,
                                  double u22, double u33, double u12, double u13, double u23, const uint8_t *segment,
                                  size_t segment_len, const uint8_t *element, size_t element_len, int64_t charge, uint8_t *out,
                                  size_t out_len);

/* CRYST1. Six reals: a, b and c have three places, the angles two. `group` is the space group. */
uint64_t saltighedda_write_cell(double a, double b, double c, double alpha, double beta, double gamma, const uint8_t *group,
                                size_t group_len, uint64_t z, const uint8_t *places, size_t places_len, uint8_t *out,
                                size_t out_len);

/*
 * A row of SCALE, ORIGX or MTRIX: `family` is 0, 1 or 2, and `row` 0 to 2 for the names that end in 1 to 3. Four reals: a, b and c
 * have six places, d five. `serial` and `given` are for MTRIX alone and have no effect elsewhere; given is a blank if it is 0, else
 * `1`.
 */
uint64_t saltighedda_write_row(uint32_t family, uint64_t row, uint64_t serial, double a, double b, double c, double d,
                               uint32_t given, const uint8_t *places, size_t places_len, uint8_t *out, size_t out_len);

/* MODEL, with its number in the format's 10..14. */
uint64_t saltighedda_write_model(uint64_t number, uint8_t *out, size_t out_len);

/* A name and blanks: TER, ENDMDL or END if `which` is 0, 1 or 2. */
uint64_t saltighedda_write_bare(uint32_t which, uint8_t *out, size_t out_len);

/*
 * Rows of SCALE, ORIGX or MTRIX put to use. A matrix is lent by the host: twelve doubles, row by row, and three bytes that say
 * which rows are set. With the bytes 0 no row is, whatever the doubles are. SALTIGHEDDA_ROWS and SALTIGHEDDA_SET are their numbers.
 * The two buffers, and `out`, have no byte in common. The answer is 0, or a refusal, and all that was lent is then as it was:
 *
 *     8   a buffer is too short; the place is 0 and the length how many doubles or bytes are needed
 *     13  `row` is above 2; place and length are 0
 *     14  a row isn't set; place and length are 0
 */
#define SALTIGHEDDA_ROWS 12
#define SALTIGHEDDA_SET  3

/*
 * Puts a row's four numbers, `row` 0 to 2 for the names that end in 1 to 3, and makes set[row] 1; an earlier row of its number is
 * replaced. Families and serials aren't told apart: a host keeps a matrix for each that it collects. 13 is tested first, then
 * 8 with 12 for `rows`, then 8 with 3 for `set`. What is behind the twelve and the three stays as it was.
 */
uint64_t saltighedda_matrix_row(uint64_t row, double a, double b, double c, double d, double *rows, size_t rows_len,
                                uint8_t *set, size_t set_len);

/*
 * Moves a position: out[0] to out[2] are ((a x + b y) + c z) + d of the three rows, each operation rounded once, in that order.
 * Any doubles may be handed in. 14 unless twelve doubles and three bytes other than 0 are there; then 8 with 3 for `out`. What is
 * behind out[2] stays as it was. For rows and positions that were read from lines, 2^50 times the distance from the exact sum is at
 * most the sum of the magnitudes of the four terms.
 */
uint64_t saltighedda_apply(const double *rows, size_t rows_len, const uint8_t *set, size_t set_len, double x, double y, double z,
                           double *out, size_t out_len);

/*
 * A whole file held against its MASTER line, to find out whether lines are missing. A line ends at LF, a CR just before LF is dropped,
 * and an empty last piece is no line. Lines count by their first six bytes, those of three to five bytes as if blanks followed to six,
 * in every model, whether or not they can be read. `found` is lent: SALTIGHEDDA_FOUND words. The answer is 0, and then
 *
 *     found[0]          bit n is set if the n-th of MASTER's twelve numbers, from 0, isn't what was counted
 *     found[1] to [12]  what was counted: REMARK, nothing (0), HET, HELIX, SHEET, TURN, SITE, the rows of ORIGX, SCALE and MTRIX together,
 *                       ATOM with HETATM, TER, CONECT, SEQRES
 *     found[13] to [24] what MASTER says, in that order
 *
 * and what is behind them stays as it was; or it is a number, and all of `found` is as it was:
 *
 *     10  no line is a MASTER line
 *     11  there is more than one
 *     12  the MASTER line has a fault, or is refused when it is read with no options, or is its six bytes alone
 *     8   `found` has fewer than SALTIGHEDDA_FOUND words; tested last
 *
 * It is the number alone, since a place in a file doesn't fit beside it. The other two calls tell where in the file the line starts that
 * a refusal is about, and how many bytes it has: the second MASTER line for 11, the one for 12; 0 for 10 and where 10 to 12 aren't given.
 */
#define SALTIGHEDDA_FOUND 25

uint64_t saltighedda_check_master(const uint8_t *file, size_t file_len, uint64_t *found, size_t found_len);
uint64_t saltighedda_check_master_place(const uint8_t *file, size_t file_len);
uint64_t saltighedda_check_master_length(const uint8_t *file, size_t file_len);

/*
 * Mends what can honestly be mended of a line, into the front of `out`: each byte of 128 or more is made `?`, and an ATOM or HETATM
 * under 80 bytes is padded with blanks to 80, but only if no field starts before the line's end and stops after it, so that a cut
 * number never passes for a whole one. 78 bytes are padded, 79 aren't: they cut the charge. Every other kind keeps its length. 0 is
 * done, else a refusal as above: 2, 1024, excess for a line over 1,024 bytes; 8, 0, bytes needed for an output that is too short; then
 * 8, 0, 514 for too few words. Bytes behind the mended line and words behind the last change stay as they were; on a refusal all do.
 *
 * changes[0] is the mended length and changes[1] the number of changes, at most 512. Then comes a word for each, ascending by place:
 * bytes that were made `?`, neighbours as one, and at the end the blanks that were put behind the line. Where a byte was made `?` the
 * one that stood there isn't known any more; all else comes back by taking the blanks off.
 *
 * A field that the line reached and that no change touches reads the same. Of those that it didn't reach, a number's fault 1 becomes
 * fault 2, and its value stays the default; a text's or a character's fault 1 goes, and a chain is then a blank.
 */
#define SALTIGHEDDA_MEND_WORDS 514

#define SALTIGHEDDA_CHANGE_PLACE(word)  ((size_t)((word) & 0xFFFF))
#define SALTIGHEDDA_CHANGE_LENGTH(word) ((size_t)((word) >> 16 & 0xFFFF))
#define SALTIGHEDDA_CHANGE_WHAT(word)   ((unsigned)((word) >> 32)) /* 1 bytes made `?`, 2 blanks put behind the line */

uint64_t saltighedda_mend(const uint8_t *line, size_t line_len, uint8_t *out, size_t out_len, uint64_t *changes, size_t changes_len);

/*
 * The same by name. A line is taken with saltighedda_get, and its record by the function of its family:
 *
 *     struct saltighedda_record line;
 *     struct saltighedda_atom atom;
 *     if (saltighedda_get(&line, bytes, length, number, 0) == 0 && saltighedda_get_atom(&atom, &line) && !atom.unread.x)
 *         ..atom.x is what the file says
 *
 * A struct serves reading and writing. To write, its members are filled in by name; one that an initializer leaves out is 0 or a text
 * without bytes. The columns count from 0, and a..b excludes b. A member of one character is 0 if it is absent. A text that was read
 * is a part of the line that was handed in, and lives as long. These members are for reading, and have no effect when a record is
 * written:
 *
 *     unread    has a member for each field, 1 if its value isn't the line's but was put there: a fault of kind 1 to 4 names it. A NUL
 *               in a column of one character can't be told from an absent one, and counts as unread.
 *     decimals  how many digits stood behind the point of each real. Lent as `places`, they write the record as it was written.
 */

/* Bytes that are lent: a text, or places. */
struct saltighedda_slice {
    const uint8_t *bytes;
    size_t length;
};

/* A line and what was read of it. */
struct saltighedda_record {
    const uint8_t *line;
    size_t length;
    uint64_t fields[SALTIGHEDDA_FIELDS];
    uint64_t faults[SALTIGHEDDA_FAULTS];
};

/* A table in which every remark number is valid. */
#define SALTIGHEDDA_TENFOLD(n) n, n, n, n, n, n, n, n, n, n
#define SALTIGHEDDA_TEN        SALTIGHEDDA_TENFOLD(1)
#define SALTIGHEDDA_HUNDRED    SALTIGHEDDA_TENFOLD(SALTIGHEDDA_TEN)
static inline const uint8_t *saltighedda_every_remark(void)
{
    static const uint8_t remarks[SALTIGHEDDA_REMARKS] = {SALTIGHEDDA_TENFOLD(SALTIGHEDDA_HUNDRED)};
    return remarks;
}

/*
 * Reads a line of any kind, with every remark number valid; 0 or a refusal. `number` is the line's, from 1. A line that is refused leaves
 * an EMPTY record without fields and faults, so that nothing of an earlier line is taken for its own.
 */
static inline uint64_t saltighedda_get(struct saltighedda_record *record, const void *line, size_t line_len, size_t number,
                                       uint32_t options)
{
    record->line = (const uint8_t *)line;
    record->length = line_len;
    record->fields[0] = record->fields[1] = record->faults[0] = 0;
    return saltighedda_read(record->line, line_len, number, options, saltighedda_every_remark(), SALTIGHEDDA_REMARKS,
                            SALTIGHEDDA_ANY, record->fields, SALTIGHEDDA_FIELDS, record->faults, SALTIGHEDDA_FAULTS);
}

/* ---- What a word says. ---- */

static inline double saltighedda_real(uint64_t word)
{
    double real;
    memcpy(&real, &word, sizeof real);
    return real;
}

static inline struct saltighedda_slice saltighedda_text(const struct saltighedda_record *record, uint64_t word)
{
    struct saltighedda_slice text = {record->line + (word >> 32), (size_t)(word & 0xFFFFFFFF)};
    return text;
}

/* Of the first of a field's two words. */
#define SALTIGHEDDA_COLUMN(word)   ((uint32_t)((word) & 0xFFFF))
#define SALTIGHEDDA_SORT(word)     ((uint32_t)((word) >> 16 & 0xFF))
#define SALTIGHEDDA_DECIMALS(word) ((uint32_t)((word) >> 24 & 0xFF))

struct saltighedda_fault {
    uint64_t line;          /* its number */
    uint32_t kind;          /* the line's */
    uint32_t fault;         /* 1 to 5 */
    uint32_t sort;          /* for 2 what the columns should have held: 1 unsigned, 2 signed, 3 a real; else 0 */
    uint32_t place, length; /* the columns */
};

/* The n-th fault of a record, from 0; record.faults[0] says how many there are. */
static inline struct saltighedda_fault saltighedda_fault_at(const struct saltighedda_record *record, size_t n)
{
    uint64_t word = record->faults[2 + 2 * n];
    struct saltighedda_fault fault = {record->faults[1 + 2 * n],      (uint32_t)(word & 0xFF),         (uint32_t)(word >> 8 & 0xFF),
                                      (uint32_t)(word >> 16 & 0xFFFF), (uint32_t)(word >> 32 & 0xFFFF), (uint32_t)(word >> 48)};
    return fault;
}

/* ---- What things are called, by the tables of saltighedda_fields.h. ---- */

struct saltighedda_field {
    char sort[2];        /* its letter */
    uint16_t first, end; /* its columns; the second is the one behind its last */
    const char *name;    /* for people */
};

/* The fields of a kind by ascending column, behind them one without a name; none for any other number. */
#define SALTIGHEDDA_ENTRY(sort, member, first, end, words) {#sort, first, end, words},
static inline const struct saltighedda_field *saltighedda_fields_of(uint64_t kind)
{
#define SALTIGHEDDA_LISTED(list) \
    static const struct saltighedda_field list##_table[] = {SALTIGHEDDA_##list##_FIELDS(SALTIGHEDDA_ENTRY){"", 0, 0, NULL}};
    SALTIGHEDDA_LISTED(NO)
    SALTIGHEDDA_LISTED(HEADER)
    SALTIGHEDDA_LISTED(REMARK)
    SALTIGHEDDA_LISTED(ATOM)
    SALTIGHEDDA_LISTED(ANISOU)
    SALTIGHEDDA_LISTED(CELL)
    SALTIGHEDDA_LISTED(ROW)
    SALTIGHEDDA_LISTED(MTRIX)
    SALTIGHEDDA_LISTED(MODEL)
    SALTIGHEDDA_LISTED(MASTER)
    SALTIGHEDDA_LISTED(SEQRES)
    SALTIGHEDDA_LISTED(DBREF)
    SALTIGHEDDA_LISTED(DBREF1)
    SALTIGHEDDA_LISTED(DBREF2)
    SALTIGHEDDA_LISTED(SEQADV)
    SALTIGHEDDA_LISTED(MODRES)
    SALTIGHEDDA_LISTED(SSBOND)
#undef SALTIGHEDDA_LISTED
#define SALTIGHEDDA_TABLE(number, name, list) list##_table,
    static const struct saltighedda_field *const tables[SALTIGHEDDA_KINDS] = {SALTIGHEDDA_KIND_TABLE(SALTIGHEDDA_TABLE)};
#undef SALTIGHEDDA_TABLE
    return kind < SALTIGHEDDA_KINDS ? tables[kind] : NO_table;
}

/* The field of a kind that a column belongs to, or NULL. */
static inline const struct saltighedda_field *saltighedda_field_at(uint64_t kind, size_t column)
{
    const struct saltighedda_field *field = saltighedda_fields_of(kind);
    for (; field->name != NULL; field++)
        if (column >= field->first && column < field->end)
            return field;
    return NULL;
}

/* Its name; "something" for columns of no field. */
static inline const char *saltighedda_field_name(uint64_t kind, size_t column)
{
    const struct saltighedda_field *field = saltighedda_field_at(kind, column);
    return field != NULL ? field->name : "something";
}

/* The two words of the field that a column belongs to, or NULL if there is none. */
static inline const uint64_t *saltighedda_words_at(const struct saltighedda_record *record, size_t column)
{
    const uint64_t kind = record->fields[0], *words = NULL;
    for (uint64_t n = 0; n < record->fields[1] && SALTIGHEDDA_COLUMN(record->fields[2 + 2 * n]) <= column; n++)
        words = record->fields + 2 + 2 * n;
    return words != NULL && saltighedda_field_at(kind, SALTIGHEDDA_COLUMN(words[0])) == saltighedda_field_at(kind, column) ? words
                                                                                                                          : NULL;
}

/* A fault or a refusal in words, by its number. */
#define SALTIGHEDDA_WORDS(number, words) case number: return words;
static inline const char *saltighedda_fault_words(uint32_t fault)
{
    switch (fault) {
        SALTIGHEDDA_FAULT_TABLE(SALTIGHEDDA_WORDS)
        default: return "no fault";
    }
}

static inline const char *saltighedda_refusal_words(uint32_t refusal)
{
    switch (refusal) {
        SALTIGHEDDA_REFUSAL_TABLE(SALTIGHEDDA_WORDS)
        default: return "no refusal";
    }
}

/* ---- A struct for each family. ---- */

#define SALTIGHEDDA_UNREAD(sort, member, first, end, words) uint8_t member;

struct saltighedda_atom {
    uint32_t hetero;                       /* 0..6: 0 is ATOM, else HETATM */
    uint64_t serial;                       /* 6..11 */
    struct saltighedda_slice name;         /* 12..16, all four bytes: ` CA ` is carbon and `CA  ` calcium */
    char alternate;                        /* 16..17 */
    struct saltighedda_slice residue;      /* 17..20 */
    char chain;                            /* 21..22 */
    int64_t number;                        /* 22..26 */
    char insertion;                        /* 26..27 */
    double x, y, z;                        /* 30..38, 38..46, 46..54 */
    double occupancy;                      /* 54..60 */
    double bfactor;                        /* 60..66 */
    struct saltighedda_slice segment;      /* 72..76, at the left */
    struct saltighedda_slice element;      /* 76..78 */
    int64_t charge;                        /* 78..80 */
    struct saltighedda_slice places;       /* for writing */
    struct saltighedda_slice trimmed_name; /* for reading: the name without its blanks */
    uint8_t decimals[5];
    struct { SALTIGHEDDA_ATOM_FIELDS(SALTIGHEDDA_UNREAD) } unread;
};

struct saltighedda_anisou {
    uint64_t serial;                       /* 6..11 */
    struct saltighedda_slice name;         /* 12..16, all four bytes */
    char alternate;                        /* 16..17 */
    struct saltighedda_slice residue;      /* 17..20 */
    char chain;                            /* 21..22 */
    int64_t number;                        /* 22..26 */
    char insertion;                        /* 26..27 */
    double u11, u22, u33;                  /* 28..35, 35..42, 42..49 */
    double u12, u13, u23;                  /* 49..56, 56..63, 63..70 */
    struct saltighedda_slice segment;      /* 72..76, at the left */
    struct saltighedda_slice element;      /* 76..78 */
    int64_t charge;                        /* 78..80 */
    struct saltighedda_slice trimmed_name; /* for reading */
    struct { SALTIGHEDDA_ANISOU_FIELDS(SALTIGHEDDA_UNREAD) } unread;
};

struct saltighedda_cell {
    double a, b, c;                  /* 6..15, 15..24, 24..33 */
    double alpha, beta, gamma;       /* 33..40, 40..47, 47..54 */
    struct saltighedda_slice group;  /* 55..66, at the left */
    uint64_t z;                      /* 66..70; read from 66 on, and 1 in a line of 66 bytes or less */
    struct saltighedda_slice places; /* for writing */
    uint8_t decimals[6];
    struct { SALTIGHEDDA_CELL_FIELDS(SALTIGHEDDA_UNREAD) } unread;
};

struct saltighedda_row {
    uint32_t family;                 /* 0..5: 0 SCALE, 1 ORIGX, 2 MTRIX */
    uint64_t row;                    /* 5..6: 0 to 2, which go out as 1 to 3 */
    uint64_t serial;                 /* 7..10, of MTRIX alone */
    double a, b, c;                  /* 10..20, 20..30, 30..40 */
    double d;                        /* 45..55 */
    uint32_t given;                  /* 59..60, of MTRIX alone */
    struct saltighedda_slice places; /* for writing */
    uint8_t decimals[4];
    struct { SALTIGHEDDA_MTRIX_FIELDS(SALTIGHEDDA_UNREAD) } unread;
};

struct saltighedda_model {
    uint64_t number; /* from 6 to the end of the line; in wwPDB mode, and when it is written, 10..14 */
    struct { SALTIGHEDDA_MODEL_FIELDS(SALTIGHEDDA_UNREAD) } unread;
};

/* The families from here on are read alone. */

struct saltighedda_header {
    struct saltighedda_slice classification, date, code; /* 10..50, 50..59, 62..66, blanks and all */
    struct { SALTIGHEDDA_HEADER_FIELDS(SALTIGHEDDA_UNREAD) } unread;
};

struct saltighedda_remark {
    uint64_t number;               /* 7..10 */
    struct saltighedda_slice text; /* from 11, without the white space at its end */
    struct { SALTIGHEDDA_REMARK_FIELDS(SALTIGHEDDA_UNREAD) } unread;
};

struct saltighedda_master {
    uint64_t remark, empty, het, helix, sheet, turn, site, xform, coord, ter, connect, seq; /* twelve of five columns from 10 */
    struct { SALTIGHEDDA_MASTER_FIELDS(SALTIGHEDDA_UNREAD) } unread;
};

struct saltighedda_seqres {
    uint64_t serial;                      /* 7..10 */
    char chain;                           /* 11..12 */
    uint64_t residues;                    /* 13..17: how many the chain has */
    struct saltighedda_slice triples[13]; /* 19..22, 23..26 and so on to 67..70, those that are there */
    size_t count;                         /* how many triples there are */
    struct { SALTIGHEDDA_SEQRES_FIELDS(SALTIGHEDDA_UNREAD) } unread;
};

struct saltighedda_dbref {
    struct saltighedda_slice code, chain;                     /* 7..11, 12..13 */
    int64_t begin, end;                                       /* 14..18, 20..24 */
    char opening, closing;                                    /* 18..19, 24..25 */
    struct saltighedda_slice database, accession, name;       /* 26..32, 33..41, 42..54 */
    int64_t target_begin, target_end;                         /* 55..60, 62..67 */
    char target_opening, target_closing;                      /* 60..61, 67..68 */
    struct { SALTIGHEDDA_DBREF_FIELDS(SALTIGHEDDA_UNREAD) } unread;
};

struct saltighedda_dbref1 {
    struct saltighedda_slice code, chain;    /* 7..11, 12..13 */
    int64_t begin, end;                      /* 14..18, 21..24; in wwPDB mode 20..24 */
    char opening, closing;                   /* 18..19, 24..25 */
    struct saltighedda_slice database, name; /* 26..32, 47..67 */
    struct { SALTIGHEDDA_DBREF1_FIELDS(SALTIGHEDDA_UNREAD) } unread;
};

struct saltighedda_dbref2 {
    struct saltighedda_slice code, chain, accession; /* 7..11, 12..13, 18..40 */
    int64_t target_begin, target_end;                /* 45..55, 57..67 */
    struct { SALTIGHEDDA_DBREF2_FIELDS(SALTIGHEDDA_UNREAD) } unread;
};

struct saltighedda_seqadv {
    struct saltighedda_slice code, residue, chain; /* 7..11, 12..15, 16..17 */
    int64_t number;                                /* 18..22 */
    char insertion;                                /* 22..23 */
    struct saltighedda_slice database, accession;  /* 24..28, 29..38 */
    uint32_t has_target;                           /* whether 39..48 isn't all blanks; the next two are 0 if it is */
    struct saltighedda_slice target_name;          /* 39..42 */
    int64_t target_number;                         /* 43..48 */
    struct saltighedda_slice comment;              /* from 49 */
    struct { SALTIGHEDDA_SEQADV_FIELDS(SALTIGHEDDA_UNREAD) } unread;
};

struct saltighedda_modres {
    struct saltighedda_slice code, residue;     /* 7..11, 12..15 */
    char chain;                                 /* 16..17 */
    int64_t number;                             /* 18..22 */
    char insertion;                             /* 22..23 */
    struct saltighedda_slice standard, comment; /* 24..27, from 29 */
    struct { SALTIGHEDDA_MODRES_FIELDS(SALTIGHEDDA_UNREAD) } unread;
};

struct saltighedda_ssbond {
    struct saltighedda_slice residue, other_residue;   /* 11..14, 25..28 */
    char chain, other_chain;                           /* 15..16, 29..30 */
    int64_t number, other_number;                      /* 17..21, 31..35 */
    char insertion, other_insertion;                   /* 21..22, 35..36 */
    uint32_t has_tail;                                 /* whether the line has 78 bytes or more; the next three are 0 if not */
    struct saltighedda_slice symmetry, other_symmetry; /* 59..65, 66..72 */
    double length;                                     /* 73..78 */
    uint8_t decimals[1];
    struct { SALTIGHEDDA_SSBOND_FIELDS(SALTIGHEDDA_UNREAD) } unread;
};

/*
 * Reading. Each function fills its struct from a record that saltighedda_get has read, and returns 1; or it returns 0 if the record is
 * of another family, and the struct is as it was. Fields and list ascend by column, so one goes along the other.
 */
#define SALTIGHEDDA_TAKE_U(member) v->member = at[1];
#define SALTIGHEDDA_TAKE_I(member) v->member = (int64_t)at[1];
#define SALTIGHEDDA_TAKE_A(member) v->member = saltighedda_real(at[1]);
#define SALTIGHEDDA_TAKE_R(member) v->member = saltighedda_real(at[1]), v->decimals[reals++] = (uint8_t)SALTIGHEDDA_DECIMALS(at[0]);
#define SALTIGHEDDA_TAKE_T(member) v->member = saltighedda_text(record, at[1]);
#define SALTIGHEDDA_TAKE_C(member) v->member = at[1] < 256 ? (char)at[1] : ' ', v->unread.member = at[1] == 0;
#define SALTIGHEDDA_TAKE_B(member) v->member = (uint32_t)at[1];
#define SALTIGHEDDA_TAKE_L(member) \
    do v->member[v->count++] = saltighedda_text(record, at[1]); \
    while ((at += 2) < last); \
    at -= 2;
#define SALTIGHEDDA_TAKE(sort, member, first, end, words) \
    if (at < last && SALTIGHEDDA_COLUMN(at[0]) - first < end - first) { SALTIGHEDDA_TAKE_##sort(member) at += 2; }
#define SALTIGHEDDA_MARK(sort, member, first, end, words) \
    if (fault.place - first < end - first) v->unread.member = 1;
#define SALTIGHEDDA_FILL(list) \
    const uint64_t *at = record->fields + 2, *last = at + 2 * record->fields[1]; \
    size_t reals = 0; \
    (void)reals; \
    memset(v, 0, sizeof *v); \
    SALTIGHEDDA_##list##_FIELDS(SALTIGHEDDA_TAKE) \
    for (size_t n = 0; n < record->faults[0]; n++) { \
        struct saltighedda_fault fault = saltighedda_fault_at(record, n); \
        if (fault.fault < 5) { SALTIGHEDDA_##list##_FIELDS(SALTIGHEDDA_MARK) } \
    }

/* A name is its four columns, unless the line ends before. */
#define SALTIGHEDDA_WHOLE_NAME \
    v->trimmed_name = v->name; \
    if (!v->unread.name) v->name.bytes = record->line + 12, v->name.length = 4;

static inline int saltighedda_get_atom(struct saltighedda_atom *v, const struct saltighedda_record *record)
{
    if (record->fields[0] != SALTIGHEDDA_ATOM && record->fields[0] != SALTIGHEDDA_HETATM)
        return 0;
    SALTIGHEDDA_FILL(ATOM)
    SALTIGHEDDA_WHOLE_NAME
    v->hetero = record->fields[0] == SALTIGHEDDA_HETATM;
    return 1;
}

static inline int saltighedda_get_anisou(struct saltighedda_anisou *v, const struct saltighedda_record *record)
{
    if (record->fields[0] != SALTIGHEDDA_ANISOU)
        return 0;
    SALTIGHEDDA_FILL(ANISOU)
    SALTIGHEDDA_WHOLE_NAME
    return 1;
}

static inline int saltighedda_get_row(struct saltighedda_row *v, const struct saltighedda_record *record)
{
    if (record->fields[0] < SALTIGHEDDA_SCALE1 || record->fields[0] > SALTIGHEDDA_MTRIX3)
        return 0;
    SALTIGHEDDA_FILL(MTRIX)
    v->family = (uint32_t)(record->fields[0] - SALTIGHEDDA_SCALE1) / 3;
    v->row = (record->fields[0] - SALTIGHEDDA_SCALE1) % 3;
    return 1;
}

static inline int saltighedda_get_seqadv(struct saltighedda_seqadv *v, const struct saltighedda_record *record)
{
    if (record->fields[0] != SALTIGHEDDA_SEQADV)
        return 0;
    SALTIGHEDDA_FILL(SEQADV)
    v->has_target = saltighedda_words_at(record, 39) != NULL;
    return 1;
}

static inline int saltighedda_get_ssbond(struct saltighedda_ssbond *v, const struct saltighedda_record *record)
{
    if (record->fields[0] != SALTIGHEDDA_SSBOND)
        return 0;
    SALTIGHEDDA_FILL(SSBOND)
    v->has_tail = saltighedda_words_at(record, 73) != NULL;
    return 1;
}

#define SALTIGHEDDA_PLAIN(family, kind, list) \
    static inline int saltighedda_get_##family(struct saltighedda_##family *v, const struct saltighedda_record *record) \
    { \
        if (record->fields[0] != SALTIGHEDDA_##kind) \
            return 0; \
        SALTIGHEDDA_FILL(list) \
        return 1; \
    }
SALTIGHEDDA_PLAIN(cell, CRYST1, CELL)
SALTIGHEDDA_PLAIN(model, MODEL, MODEL)
SALTIGHEDDA_PLAIN(header, HEADER, HEADER)
SALTIGHEDDA_PLAIN(remark, REMARK, REMARK)
SALTIGHEDDA_PLAIN(master, MASTER, MASTER)
SALTIGHEDDA_PLAIN(seqres, SEQRES, SEQRES)
SALTIGHEDDA_PLAIN(dbref, DBREF, DBREF)
SALTIGHEDDA_PLAIN(dbref1, DBREF1, DBREF1)
SALTIGHEDDA_PLAIN(dbref2, DBREF2, DBREF2)
SALTIGHEDDA_PLAIN(modres, MODRES, MODRES)

/* Writing. Each function hands its struct's members over to the entry of its family. */
#define SALTIGHEDDA_LENT(slice) v->slice.bytes, v->slice.length
#define SALTIGHEDDA_ONE(member) (const uint8_t *)&v->member, (size_t)(v->member != 0)

static inline uint64_t saltighedda_put_atom(const struct saltighedda_atom *v, uint8_t *out, size_t out_len)
{
    return saltighedda_write_atom(v->hetero, v->serial, SALTIGHEDDA_LENT(name), SALTIGHEDDA_ONE(alternate),
                                  SALTIGHEDDA_LENT(residue), SALTIGHEDDA_ONE(chain), v->number, SALTIGHEDDA_ONE(insertion), v->x,
                                  v->y, v->z, v->occupancy, v->bfactor, SALTIGHEDDA_LENT(segment), SALTIGHEDDA_LENT(element),
                                  v->charge, SALTIGHEDDA_LENT(places), out, out_len);
}

static inline uint64_t saltighedda_put_anisou(const struct saltighedda_anisou *v, uint8_t *out, size_t out_len)
{
    return saltighedda_write_anisou(v->serial, SALTIGHEDDA_LENT(name), SALTIGHEDDA_ONE(alternate), SALTIGHEDDA_LENT(residue),
                                    SALTIGHEDDA_ONE(chain), v->number, SALTIGHEDDA_ONE(insertion), v->u11, v->u22, v->u33, v->u12,
                                    v->u13, v->u23, SALTIGHEDDA_LENT(segment), SALTIGHEDDA_LENT(element), v->charge, out, out_len);
}

static inline uint64_t saltighedda_put_cell(const struct saltighedda_cell *v, uint8_t *out, size_t out_len)
{
    return saltighedda_write_cell(v->a, v->b, v->c, v->alpha, v->beta, v->gamma, SALTIGHEDDA_LENT(group), v->z,
                                  SALTIGHEDDA_LENT(places), out, out_len);
}

static inline uint64_t saltighedda_put_row(const struct saltighedda_row *v, uint8_t *out, size_t out_len)
{
    return saltighedda_write_row(v->family, v->row, v->serial, v->a, v->b, v->c, v->d, v->given, SALTIGHEDDA_LENT(places), out,
                                 out_len);
}

static inline uint64_t saltighedda_put_model(const struct saltighedda_model *v, uint8_t *out, size_t out_len)
{
    return saltighedda_write_model(v->number, out, out_len);
}

#ifdef __cplusplus
}
#endif

#endif

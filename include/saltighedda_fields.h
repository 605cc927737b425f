/*
 * saltighedda_fields.h: what things are called. The kinds of lines, their fields, the faults and the refusals, each in one table that
 * the header saltighedda.h and the hosts in other languages share: C takes the tables as macros, and hosts/rust and hosts/python read
 * this file. So a row stays one line, with nothing but commas between its words.
 *
 * A field has its sort, its member in a host's struct, its first column, the column behind its last one, and its name for people.
 * Columns count from 0. A field that runs to the end of its line ends behind every line, in 1024. Two begin elsewhere in crate mode
 * or in wwPDB mode, and have here the first of both columns: MODEL's number (6 or 10) and DBREF1's end (21 or 20).
 *
 *     U  a whole number from 0 on      T  a text, as a pointer and a length into the line
 *     I  a whole number                C  one character; 0 if it is absent
 *     R  a real                        B  a mark: 1 or 0
 *     A  a real that is written as a whole number of ten-thousandths, ANISOU's
 *     L  the texts of SEQRES, up to thirteen of three columns each
 */
#ifndef SALTIGHEDDA_FIELDS_H
#define SALTIGHEDDA_FIELDS_H

/* A kind has its number, its name, and the list below that has its fields. NO has none. */
#define SALTIGHEDDA_KIND_TABLE(K) \
    K(0, EMPTY, NO) \
    K(1, HEADER, HEADER) \
    K(2, REMARK, REMARK) \
    K(3, ATOM, ATOM) \
    K(4, HETATM, ATOM) \
    K(5, ANISOU, ANISOU) \
    K(6, CRYST1, CELL) \
    K(7, SCALE1, ROW) \
    K(8, SCALE2, ROW) \
    K(9, SCALE3, ROW) \
    K(10, ORIGX1, ROW) \
    K(11, ORIGX2, ROW) \
    K(12, ORIGX3, ROW) \
    K(13, MTRIX1, MTRIX) \
    K(14, MTRIX2, MTRIX) \
    K(15, MTRIX3, MTRIX) \
    K(16, MODEL, MODEL) \
    K(17, MASTER, MASTER) \
    K(18, DBREF, DBREF) \
    K(19, DBREF1, DBREF1) \
    K(20, DBREF2, DBREF2) \
    K(21, SEQRES, SEQRES) \
    K(22, SEQADV, SEQADV) \
    K(23, MODRES, MODRES) \
    K(24, SSBOND, SSBOND) \
    K(25, ENDMDL, NO) \
    K(26, TER, NO) \
    K(27, END, NO)

#define SALTIGHEDDA_NO_FIELDS(F)

#define SALTIGHEDDA_HEADER_FIELDS(F) \
    F(T, classification, 10, 50, "classification") \
    F(T, date, 50, 59, "deposition date") \
    F(T, code, 62, 66, "entry code")

#define SALTIGHEDDA_REMARK_FIELDS(F) \
    F(U, number, 7, 10, "remark number") \
    F(T, text, 11, 1024, "remark text")

#define SALTIGHEDDA_ATOM_FIELDS(F) \
    F(U, serial, 6, 11, "serial number") \
    F(T, name, 12, 16, "atom name") \
    F(C, alternate, 16, 17, "alternate location") \
    F(T, residue, 17, 20, "residue name") \
    F(C, chain, 21, 22, "chain") \
    F(I, number, 22, 26, "residue number") \
    F(C, insertion, 26, 27, "insertion code") \
    F(R, x, 30, 38, "x") \
    F(R, y, 38, 46, "y") \
    F(R, z, 46, 54, "z") \
    F(R, occupancy, 54, 60, "occupancy") \
    F(R, bfactor, 60, 66, "B factor") \
    F(T, segment, 72, 76, "segment") \
    F(T, element, 76, 78, "element") \
    F(I, charge, 78, 80, "charge")

#define SALTIGHEDDA_ANISOU_FIELDS(F) \
    F(U, serial, 6, 11, "serial number") \
    F(T, name, 12, 16, "atom name") \
    F(C, alternate, 16, 17, "alternate location") \
    F(T, residue, 17, 20, "residue name") \
    F(C, chain, 21, 22, "chain") \
    F(I, number, 22, 26, "residue number") \
    F(C, insertion, 26, 27, "insertion code") \
    F(A, u11, 28, 35, "U11") \
    F(A, u22, 35, 42, "U22") \
    F(A, u33, 42, 49, "U33") \
    F(A, u12, 49, 56, "U12") \
    F(A, u13, 56, 63, "U13") \
    F(A, u23, 63, 70, "U23") \
    F(T, segment, 72, 76, "segment") \
    F(T, element, 76, 78, "element") \
    F(I, charge, 78, 80, "charge")

#define SALTIGHEDDA_CELL_FIELDS(F) \
    F(R, a, 6, 15, "a") \
    F(R, b, 15, 24, "b") \
    F(R, c, 24, 33, "c") \
    F(R, alpha, 33, 40, "alpha") \
    F(R, beta, 40, 47, "beta") \
    F(R, gamma, 47, 54, "gamma") \
    F(T, group, 55, 66, "space group") \
    F(U, z, 66, 1024, "Z")

#define SALTIGHEDDA_ROW_FIELDS(F) \
    F(R, a, 10, 20, "first matrix element") \
    F(R, b, 20, 30, "second matrix element") \
    F(R, c, 30, 40, "third matrix element") \
    F(R, d, 45, 55, "translation")

#define SALTIGHEDDA_MTRIX_FIELDS(F) \
    F(U, serial, 7, 10, "serial number") \
    F(R, a, 10, 20, "first matrix element") \
    F(R, b, 20, 30, "second matrix element") \
    F(R, c, 30, 40, "third matrix element") \
    F(R, d, 45, 55, "translation") \
    F(B, given, 59, 60, "given mark")

#define SALTIGHEDDA_MODEL_FIELDS(F) \
    F(U, number, 6, 1024, "model number")

#define SALTIGHEDDA_MASTER_FIELDS(F) \
    F(U, remark, 10, 15, "REMARK count") \
    F(U, empty, 15, 20, "zero") \
    F(U, het, 20, 25, "HET count") \
    F(U, helix, 25, 30, "HELIX count") \
    F(U, sheet, 30, 35, "SHEET count") \
    F(U, turn, 35, 40, "TURN count") \
    F(U, site, 40, 45, "SITE count") \
    F(U, xform, 45, 50, "ORIGX, SCALE and MTRIX count") \
    F(U, coord, 50, 55, "ATOM and HETATM count") \
    F(U, ter, 55, 60, "TER count") \
    F(U, connect, 60, 65, "CONECT count") \
    F(U, seq, 65, 70, "SEQRES count")

#define SALTIGHEDDA_SEQRES_FIELDS(F) \
    F(U, serial, 7, 10, "serial number") \
    F(C, chain, 11, 12, "chain") \
    F(U, residues, 13, 17, "number of residues") \
    F(L, triples, 19, 70, "residue name")

#define SALTIGHEDDA_DBREF_FIELDS(F) \
    F(T, code, 7, 11, "entry code") \
    F(T, chain, 12, 13, "chain") \
    F(I, begin, 14, 18, "first residue number") \
    F(C, opening, 18, 19, "first insertion code") \
    F(I, end, 20, 24, "last residue number") \
    F(C, closing, 24, 25, "last insertion code") \
    F(T, database, 26, 32, "database") \
    F(T, accession, 33, 41, "accession code") \
    F(T, name, 42, 54, "database entry name") \
    F(I, target_begin, 55, 60, "first database number") \
    F(C, target_opening, 60, 61, "first database insertion code") \
    F(I, target_end, 62, 67, "last database number") \
    F(C, target_closing, 67, 68, "last database insertion code")

#define SALTIGHEDDA_DBREF1_FIELDS(F) \
    F(T, code, 7, 11, "entry code") \
    F(T, chain, 12, 13, "chain") \
    F(I, begin, 14, 18, "first residue number") \
    F(C, opening, 18, 19, "first insertion code") \
    F(I, end, 20, 24, "last residue number") \
    F(C, closing, 24, 25, "last insertion code") \
    F(T, database, 26, 32, "database") \
    F(T, name, 47, 67, "database entry name")

#define SALTIGHEDDA_DBREF2_FIELDS(F) \
    F(T, code, 7, 11, "entry code") \
    F(T, chain, 12, 13, "chain") \
    F(T, accession, 18, 40, "accession code") \
    F(I, target_begin, 45, 55, "first database number") \
    F(I, target_end, 57, 67, "last database number")

#define SALTIGHEDDA_SEQADV_FIELDS(F) \
    F(T, code, 7, 11, "entry code") \
    F(T, residue, 12, 15, "residue name") \
    F(T, chain, 16, 17, "chain") \
    F(I, number, 18, 22, "residue number") \
    F(C, insertion, 22, 23, "insertion code") \
    F(T, database, 24, 28, "database") \
    F(T, accession, 29, 38, "accession code") \
    F(T, target_name, 39, 42, "database residue name") \
    F(I, target_number, 43, 48, "database residue number") \
    F(T, comment, 49, 1024, "comment")

#define SALTIGHEDDA_MODRES_FIELDS(F) \
    F(T, code, 7, 11, "entry code") \
    F(T, residue, 12, 15, "residue name") \
    F(C, chain, 16, 17, "chain") \
    F(I, number, 18, 22, "residue number") \
    F(C, insertion, 22, 23, "insertion code") \
    F(T, standard, 24, 27, "standard residue name") \
    F(T, comment, 29, 1024, "comment")

#define SALTIGHEDDA_SSBOND_FIELDS(F) \
    F(T, residue, 11, 14, "first residue name") \
    F(C, chain, 15, 16, "first chain") \
    F(I, number, 17, 21, "first residue number") \
    F(C, insertion, 21, 22, "first insertion code") \
    F(T, other_residue, 25, 28, "second residue name") \
    F(C, other_chain, 29, 30, "second chain") \
    F(I, other_number, 31, 35, "second residue number") \
    F(C, other_insertion, 35, 36, "second insertion code") \
    F(T, symmetry, 59, 65, "first symmetry operator") \
    F(T, other_symmetry, 66, 72, "second symmetry operator") \
    F(R, length, 73, 78, "bond length")

/* A fault has its number and what is the matter with the columns that it names. Of 5 the field was read all the same. */
#define SALTIGHEDDA_FAULT_TABLE(N) \
    N(1, "the line ends before the field's last column") \
    N(2, "the columns hold no number of the field's sort") \
    N(3, "the charge has no digit") \
    N(4, "the charge has no sign") \
    N(5, "there is no such remark")

#define SALTIGHEDDA_REFUSAL_TABLE(N) \
    N(1, "the remark table hasn't 1,000 bytes") \
    N(2, "the line has over 1,024 bytes") \
    N(3, "the line has a byte of 128 or more") \
    N(4, "a HEADER line has under 66 bytes") \
    N(5, "a REMARK line has 80 bytes or more") \
    N(6, "the line is too short for its kind") \
    N(8, "an output is too short") \
    N(9, "a field doesn't fit its columns") \
    N(10, "no line is a MASTER line") \
    N(11, "there is more than one MASTER line") \
    N(12, "the MASTER line can't be read") \
    N(13, "a row's number is above 2") \
    N(14, "a row isn't set") \
    N(15, "the line is of another kind")

#endif

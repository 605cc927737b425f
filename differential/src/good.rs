//! Good lines of every kind, as deposited files have them: two or more a kind, read without fault.

/// The good lines, by the kinds of `columns::KINDS` (a test holds each to its kind).
#[rustfmt::skip]
pub const GOOD: [&[&str]; 28] = [
    &[
        "HEADER    OXYGEN TRANSPORT                        07-MAR-84   4HHB              ",
        "HEADER    HYDROLASE/DNA                           17-JAN-90   1ABC",
    ],
    &[
        "REMARK   2 RESOLUTION.    1.74 ANGSTROMS.                                       ",
        "REMARK 999 SEQUENCE: 100% IDENTICAL",
        "REMARK 350",
        "REMARK 465   M RES C SSSEQI",
    ],
    &[
        "ATOM      1  N   VAL A   1       6.204  16.869   4.854  1.00 49.05           N  ",
        "ATOM  99999 HG11AVAL B -12C    -99.999-999.999   0.001  0.50  0.00      SEGAFE3+",
        "ATOM   1058  CA BLYS C9999A     -0.000   5.      -.5    .50 +1.25      A   C 2-",
    ],
    &[
        "ANISOU    1  N   VAL A   1     2406   1892   1614    198    519   -328       N  ",
        "ANISOU99999 HG11AVAL B -12C -999999      0     -0     +1 100000-100000  SEGAFE3+",
    ],
    &[
        "HETATM 4384 FE   HEM A 142       8.128   7.371 -15.022  1.00 16.74          FE  ",
        "HETATM    0  O  AHOH    -1      -0.25    0.5     1      0.5    .5           O 0-",
    ],
    &[
        "CRYST1   63.150   83.590   53.800  90.00  99.34  90.00 P 1 21 1      4          ",
        "CRYST1    1.000    1.000    1.000  90.00  90.00  90.00 P 1           1",
        "CRYST1   52.000   58.600   61.900  90.00  90.00  90.00 P 21 21 21",
    ],
    &[
        "SCALE1      0.015835  0.000000  0.002606        0.00000                         ",
        "SCALE1      1.500000  0.000000 -0.500000        0.25000",
    ],
    &[
        "SCALE2      0.000000  0.011963  0.000000        0.00000                         ",
        "SCALE2    1234567890.000000001-99999999.     +.5       ",
    ],
    &[
        "SCALE3     -0.000000 -0.000000  0.018837       -0.00000                         ",
        "SCALE3    -0         5.        .5              -.0      ",
    ],
    &[
        "ORIGX1      0.963457  0.136613  0.230424       16.61000                         ",
        "ORIGX1      1.000000  0.000000  0.000000        0.00000",
    ],
    &[
        "ORIGX2     -0.158977  0.983924  0.081383       13.72000                         ",
        "ORIGX2      0.000000  1.000000  0.000000        0.00000",
    ],
    &[
        "ORIGX3     -0.215598 -0.115048  0.969683       37.65000                         ",
        "ORIGX3      0.000000  0.000000  1.000000        0.00000",
    ],
    &[
        "MTRIX1   1 -1.000000  0.000000 -0.000000        0.00001    1                    ",
        "MTRIX1 999  0.500000  0.866025  0.000000       12.50000",
    ],
    &[
        "MTRIX2   1 -0.000000  1.000000  0.000000       -0.00002    1                    ",
        "MTRIX2  +2 -0.866025  0.500000  0.000000        0.00000    0",
    ],
    &[
        "MTRIX3   1  0.000000 -0.000000 -1.000000        0.00002    1                    ",
        "MTRIX3   2  0.000000  0.000000  1.000000        0.00000     ",
    ],
    &[
        "MODEL        2                                                                  ",
        "MODEL 18446744073709551615",
    ],
    &[
        "MASTER      406    0    4   32    0    0   28    9 4779    4  180   48          ",
        "MASTER    99999000000000100000000020000000003+000400000000050000000006",
    ],
    &[
        "DBREF  4HHB A    1   141  UNP    P69905   HBA_HUMAN        1    141             ",
        "DBREF  1ABC B   -5A   20B GB     12345678 ABCDEFGHIJKL  -999X   999Y",
    ],
    &[
        "DBREF1 2J83 A   61   322  UNP                  XYZ_METBA                        ",
        "DBREF1 1ABC B   -5A 1999B EMBL                 ABCDEFGHIJKLMNOPQRST",
    ],
    &[
        "DBREF2 2J83 A     Q8TKT5                      61         322                    ",
        "DBREF2 1ABC B     ABCDEFGHIJKLMNOPQRSTUV     -999999999  9999999999",
    ],
    &[
        "SEQRES   1 A  141  VAL LEU SER PRO ALA ASP LYS THR ASN VAL LYS ALA ALA          ",
        "SEQRES  11 A  141  TYR ARG",
        "SEQRES   1    8     DA  DC  DG  DT   A   C   G   U",
    ],
    &[
        "SEQADV 3ABC MET A   -1  UNP  P10725              EXPRESSION TAG                 ",
        "SEQADV 3ABC GLY B   50A UNP  P10725    VAL   50 ENGINEERED MUTATION",
    ],
    &[
        "MODRES 2R0L ASN A   74  ASN  GLYCOSYLATION SITE                                 ",
        "MODRES 1ABC MSE B  -12C MET  SELENOMETHIONINE",
    ],
    &[
        "SSBOND   1 CYS A    6    CYS A  127                          1555   1555  2.03  ",
        "SSBOND   2 CYS B   -1A   CYS C 9999B",
    ],
    &[
        "ENDMDL                                                                          ",
        "ENDMDL ",
    ],
    &[
        "TER    1070      ARG A 141                                                      ",
        "TER",
    ],
    &[
        "END                                                                             ",
        "ENDMDL",
    ],
    &[
        "CONECT 2179 1071 2180 2181 2182                                                 ",
        "",
    ],
];

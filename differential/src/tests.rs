//! The oracle alone: 01's example, its edge lines, and hand-made lines with their listings. Then the
//! writer alone, on lines that stand as they have to be written, and on records made by hand. Then
//! what is taken from a port, on replies made by hand.

use crate::columns::{kind_of, KINDS};
use crate::good::GOOD;
use crate::oracle::{Oracle, Refusal};
use crate::port::{Replies, OUTPUT, UNWRITTEN};
use crate::random::Random;
use crate::rust::lexitem::LexItem;
use crate::sample::{lines, listed};
use crate::sorts::Sorts;
use crate::tables::{self, Tables};
use crate::writing::{self, nearest, places_of};
use crate::{rust, Input};
use std::sync::Once;

fn tables() -> Tables {
    static ONCE: Once = Once::new();
    ONCE.call_once(rust::expect_panics);
    Tables::new(1)
}

/// What `pdblist` prints for a file.
fn printed(file: &str) -> String {
    let (bytes, found) = listed(file.as_bytes(), &tables());
    assert_eq!(found, [""; 0]);
    String::from_utf8(bytes).unwrap()
}

/// The rows of one line's listing, without `record` and `line`; or its refusal.
fn rows(line: &str) -> Vec<String> {
    let all = printed(line);
    all.lines().skip(2).map(String::from).collect()
}

fn answer(input: &Input) -> (Refusal, String) {
    let mut oracle = Oracle::new();
    let verdict = oracle.answer(input, &tables());
    assert_eq!(verdict.finding, None);
    (verdict.refusal, String::from_utf8(oracle.page.bytes).unwrap())
}

fn padded(start: &str, length: usize) -> String {
    format!("{start:length$}")
}

#[test]
fn the_example_of_01() {
    let file = "MODEL        2\n\
        MODEL x\n\
        SCALE1      1.500000  0.000000 -0.500000        0.25000\n";
    let listing = "record=MODEL\nline=1\nf6=2\nfaults=0\n\
        record=MODEL\nline=2\nf6=0\nfaults=1\nfault=2,6,1\n\
        record=SCALE1\nline=3\nf10=3FF8000000000000\nf20=0000000000000000\n\
        f30=BFE0000000000000\nf45=3FD0000000000000\nfaults=0\n";
    assert_eq!(printed(file), listing);
}

#[test]
fn good_lines_have_their_kind_and_no_fault() {
    for (kind, good) in GOOD.iter().enumerate() {
        for line in *good {
            assert_eq!(KINDS[kind_of(line.as_bytes(), false)].name, KINDS[kind].name, "{line}");
            let all = printed(&format!("{line}\n"));
            assert!(all.starts_with(&format!("record={}\nline=1\n", KINDS[kind].name)), "{line}");
            assert!(all.ends_with("faults=0\n"), "{line}\n{all}");
        }
    }
}

#[test]
fn an_atom() {
    assert_eq!(
        rows("ATOM  99999 HG11AVAL B -12C    -99.999-999.999   0.001  0.50  0.00      SEGAFE3+"),
        [
            "f6=99999", "f12=HG11", "f16=A", "f17=VAL", "f21=B", "f22=-12", "f26=C",
            "f30=C058FFEF9DB22D0E", "f38=C08F3FFDF3B645A2", "f46=3F50624DD2F1A9FC",
            "f54=3FE0000000000000", "f60=0000000000000000", "f72=SEGA", "f76=FE", "f78=3",
            "faults=0",
        ]
    );
    // Absent 16 and 26 have no row, but their fault; a blank 21 is itself.
    assert_eq!(
        rows("ATOM   "),
        [
            "f6=0", "f12=", "f17=", "f21= ", "f22=0", "f30=0000000000000000",
            "f38=0000000000000000", "f46=0000000000000000", "f54=3FF0000000000000",
            "f60=0000000000000000", "f72=", "f76=", "f78=0", "faults=14",
            "fault=1,30,8", "fault=1,38,8", "fault=1,46,8", "fault=1,54,6", "fault=1,60,6",
            "fault=1,6,5", "fault=1,12,4", "fault=1,16,1", "fault=1,17,3", "fault=1,21,1",
            "fault=1,22,4", "fault=1,26,1", "fault=1,72,4", "fault=1,76,2",
        ]
    );
    let charge = |two: &str| {
        let line = format!("{:78}{two}", "HETATM    1  O   HOH A   1       0.000   0.000   0.000  1.00  0.00");
        rows(&line)[12..].to_vec()
    };
    assert_eq!(charge("2-"), ["f78=-2", "faults=0"]);
    assert_eq!(charge(" 2"), ["f78=0", "faults=1", "fault=3,78,1"]);
    assert_eq!(charge("2 "), ["f78=0", "faults=1", "fault=4,79,1"]);
    assert_eq!(charge("2"), ["f78=0", "faults=0"]);
}

#[test]
fn an_anisou() {
    assert_eq!(
        rows("ANISOU    1  N   VAL A   1     2406   1892  10000    198    519     -0       N  ")[5..12],
        [
            "f28=3FCECBFB15B573EB", "f35=3FC837B4A2339C0F", "f42=3FF0000000000000",
            "f49=3F94467381D7DBF5", "f56=3FAA92A305532618", "f63=0000000000000000", "f72=",
        ]
    );
    let short = rows("ANISOU ");
    assert_eq!(short.iter().filter(|row| row.starts_with("fault=")).count(), 15);
    assert_eq!(short[14..17], ["faults=15", "fault=1,28,7", "fault=1,35,7"]);
}

#[test]
fn kinds_of_short_lines() {
    for (line, name) in [
        ("\n", "EMPTY"), ("TE", "EMPTY"), ("TER", "TER"), ("ENDMDL", "END"), ("ENDMDL ", "ENDMDL"),
        ("MODEL ", "EMPTY"), ("HEADER", "EMPTY"), ("CRYST1", "EMPTY"), ("TERX  ", "TER"),
        ("TERX   ", "EMPTY"), ("ending", "EMPTY"),
    ] {
        assert_eq!(printed(line), format!("record={name}\nline=1\nfaults=0\n"), "{line}");
    }
}

#[test]
fn numbers() {
    assert_eq!(rows("MODEL 18446744073709551615"), ["f6=18446744073709551615", "faults=0"]);
    assert_eq!(rows("MODEL 18446744073709551616"), ["f6=0", "faults=1", "fault=2,6,20"]);
    assert_eq!(rows("MODEL +5"), ["f6=5", "faults=0"]);
    assert_eq!(rows("MODEL -0"), ["f6=0", "faults=1", "fault=2,6,2"]);
    assert_eq!(rows("MODEL \x0B7\x0C"), ["f6=7", "faults=0"]);
    assert_eq!(rows("MODEL \x1F7"), ["f6=0", "faults=1", "fault=2,6,2"]);
    assert_eq!(
        rows("ORIGX2    5.        .5        .              -0        "),
        [
            "f10=4014000000000000", "f20=3FE0000000000000", "f30=0000000000000000",
            "f45=8000000000000000", "faults=1", "fault=2,30,10",
        ]
    );
    // The Rust reads these three; the answer here is 01's.
    assert_eq!(
        rows("ORIGX2    1e5       inf       NaN            5         "),
        [
            "f10=0000000000000000", "f20=0000000000000000", "f30=0000000000000000",
            "f45=4014000000000000", "faults=3", "fault=2,10,10", "fault=2,20,10", "fault=2,30,10",
        ]
    );
    assert_eq!(rows("DBREF1              1234                                               ")[4], "f21=234");
}

#[test]
fn texts() {
    assert_eq!(
        rows("HEADER    HYDROLASE/DNA  50%                     \x7F17-JAN-90   1ABC and more"),
        [
            "f10=HYDROLASE/DNA  50%25                     %7F", "f50=17-JAN-90", "f62=1ABC", "faults=0",
        ]
    );
    assert_eq!(rows("REMARK   2 \x0B A ~ \x0B \r"), ["f7=2", "f11=%0B A ~", "faults=0"]);
    assert_eq!(rows("REMARK   2"), ["f7=2", "f11=", "faults=0"]);
    assert_eq!(rows("REMARK  x "), ["f7=0", "f11=", "faults=1", "fault=2,7,3"]);
    assert_eq!(
        rows("SEQRES   1   141  VAL  DA     SER"),
        ["f7=1", "f11= ", "f13=141", "f19=AL ", "f23=DA ", "faults=0"]
    );
    assert_eq!(
        rows("MODRES 2R0L ASN     74  ASN \x0B"),
        ["f7=2R0L", "f12=ASN", "f16= ", "f18=74", "f24=ASN", "f29=", "faults=0"]
    );
}

#[test]
fn parts_that_not_every_line_has() {
    let seqadv = "SEQADV 3ABC GLY B   50A UNP  P10725    VAL   50 MUTATION";
    assert_eq!(
        rows(seqadv),
        [
            "f7=3ABC", "f12=GLY", "f16=B", "f18=50", "f22=A", "f24=UNP", "f29=P10725", "f39=VAL",
            "f43=50", "f49=UTATION", "faults=0",
        ]
    );
    assert_eq!(rows(&padded("SEQADV 3ABC GLY B   50", 49))[4..], ["f24=", "f29=", "f49=", "faults=0"]);
    let ssbond = "SSBOND   1 CYS A    6    CYS A  127                          1555   1555  2.03  ";
    assert_eq!(
        rows(ssbond),
        [
            "f11=CYS", "f15=A", "f17=6", "f25=CYS", "f29=A", "f31=127", "f59=1555", "f66=1555",
            "f73=40003D70A3D70A3D", "faults=0",
        ]
    );
    assert_eq!(rows(&ssbond[..77])[5..], ["f31=127", "faults=0"]);
    assert_eq!(rows(&padded("MTRIX1   1", 60))[5..7], ["f59=0", "faults=4"]);
    assert_eq!(rows(&format!("{:59}1", "MTRIX1   1"))[5..7], ["f59=1", "faults=4"]);
    let cryst1 = "CRYST1    1.000    1.000    1.000  90.00  90.00  90.00 P 1";
    assert_eq!(rows(cryst1)[6..], ["f55=P 1", "f66=1", "faults=0"]);
    assert_eq!(rows(&padded(cryst1, 66))[6..], ["f55=P 1", "f66=1", "faults=0"]);
    assert_eq!(rows(&padded(cryst1, 67))[6..], ["f55=P 1", "f66=0", "faults=1", "fault=2,66,1"]);
}

#[test]
fn refusals() {
    for (name, least) in [("CRYST1", 55), ("MODRES", 29), ("SEQADV", 49), ("SSBOND", 36)] {
        let (short, enough) = (padded(name, least - 1), padded(name, least));
        assert_eq!(rows(&short), [format!("refusal=6,{},1", least - 1)]);
        assert!(printed(&enough).starts_with(&format!("record={name}\n")));
    }
    assert_eq!(printed(&padded("HEADER", 7)), "record=REFUSED\nline=1\nrefusal=4,11,0\n");
    assert_eq!(rows(&padded("HEADER", 11)), ["refusal=4,11,0"]);
    assert_eq!(rows(&padded("HEADER", 65)), ["refusal=4,11,54"]);
    assert_eq!(rows(&padded("HEADER", 66))[3], "faults=0");
    assert_eq!(rows(&format!("REMARK{:>73}", "x"))[2..], ["faults=1", "fault=2,7,3"]);
    assert_eq!(rows(&format!("REMARK{:>74}", "x")), ["refusal=5,80,0"]);
    assert_eq!(rows(&format!("REMARK{:>74} \x0B ", "x")), ["refusal=5,80,3"]);
    assert_eq!(rows(&padded("", 1024)), ["faults=0"]);
    assert_eq!(rows(&padded("", 1025)), ["refusal=2,1024,1"]);
    assert_eq!(rows("AB\u{E9}"), ["refusal=3,2,1"]);

    let mut input = Input::new();
    input.line = padded("REMARK   6", 100).into_bytes();
    input.line[99] = b'x';
    input.options = 2;
    let (refusal, listing) = answer(&input);
    assert_eq!(refusal, Refusal::default());
    assert!(listing.ends_with("faults=1\nfault=5,7,3\n"));
    input.options = 1;
    assert_eq!(answer(&input).1, "record=EMPTY\nline=1\nfaults=0\n");
    input.room = 28;
    assert_eq!(answer(&input).0, Refusal { number: 8, place: 0, length: 29 });
    input.table = tables::FIRST_WRONG;
    assert_eq!(answer(&input).0, Refusal { number: 1, place: 0, length: 0 });
}

#[test]
fn exponents() {
    let listed = |text: &str, options: u32| {
        let mut input = Input::new();
        input.line = format!("SCALE1    {text:>10}").into_bytes();
        input.options = options;
        answer(&input).1
    };
    assert!(listed("1e5", 0).contains("f10=0000000000000000\n"));
    assert!(listed("1e5", 0).contains("fault=2,10,10\n"));
    assert!(listed("1e5", 8).contains("f10=40F86A0000000000\n"));
    for text in ["1e22", "1.0e23", "1e-22", "0e99999999", "-0E5", "1E+05", "5.e0"] {
        assert!(!listed(text, 8).contains("fault=2,"), "{text}");
    }
    for text in ["1e23", "1.0e24", "1e-23", ".5e-22", "1e999", "inf", "nan", "1e", "1e+", ".e1"] {
        assert!(listed(text, 8).contains("f10=0000000000000000\n"), "{text}");
        assert!(listed(text, 8).contains("fault=2,10,10\n"), "{text}");
    }
}

#[test]
fn fault_5_follows_fault_2() {
    let mut input = Input::new();
    input.line = b"REMARK   x".to_vec();
    input.table = tables::NONE_VALID;
    assert!(answer(&input).1.ends_with("f7=0\nf11=\nfaults=2\nfault=2,7,3\nfault=5,7,3\n"));
    input.table = tables::CRATE;
    assert!(answer(&input).1.ends_with("faults=1\nfault=2,7,3\n"));
}

#[test]
fn sorts() {
    let mut input = Input::new();
    let mut named = |line: &str, room: usize| {
        input.line = line.as_bytes().to_vec();
        input.room = room;
        let verdict = Oracle::new().answer(&input, &tables());
        assert_eq!(verdict.finding, None);
        verdict.sorts.named()
    };
    assert_eq!(named("MODEL 5", 4096), "none");
    assert_eq!(named("MODEL x", 4096), "unsigned");
    assert_eq!(named(&padded("ATOM", 80), 4096), "real, real, real, real, real, unsigned, signed");
    assert_eq!(
        named(&padded("ANISOU", 80), 4096),
        "signed, signed, signed, signed, signed, signed, unsigned, signed"
    );
    assert_eq!(named(&padded("SSBOND", 78), 4096), "signed, signed, real");
    // A fault that isn't a 2 names none, and keeps its place.
    assert_eq!(named(&padded("ATOM", 11), 4096), "none, none, none, none, none, unsigned");
    // Of the refusals only that of a small output leaves faults.
    assert_eq!(named("MODEL x", 0), "unsigned");
    assert_eq!(named(&padded("CRYST1", 54), 4096), "none");
}

#[test]
fn line_numbers_of_faults() {
    let mut input = Input::new();
    let mut told = |line: &str, number: usize, room: usize| {
        input.line = line.as_bytes().to_vec();
        input.number = number;
        input.room = room;
        let verdict = Oracle::new().answer(&input, &tables());
        assert_eq!(verdict.finding, None);
        verdict.faults_line
    };
    assert_eq!(told("MODEL 5", 7, 4096), 0);
    assert_eq!(told("MODEL x", 7, 4096), 7);
    assert_eq!(told(&padded("ANISOU", 7), usize::MAX, 4096), u64::MAX);
    // The faults of the line with `x` for what the Rust reads and 01 doesn't.
    assert_eq!(told("ORIGX2    1e5       0         0              0         ", 8, 4096), 8);
    // Of the refusals only that of a small output leaves faults.
    assert_eq!(told("MODEL x", 9, 0), 9);
    assert_eq!(told(&padded("CRYST1", 54), 9, 4096), 0);
}

#[test]
fn the_crates_table_has_42_numbers() {
    let own = tables::crates_own();
    assert_eq!(own.iter().filter(|byte| **byte != 0).count(), 42);
    assert!((1000..100_000).all(|number| !crate::reference_tables::valid_in_the_crate(number)));
}

#[test]
fn lines_of_a_file() {
    let cut = |file: &'static str| lines(file.as_bytes()).collect::<Vec<_>>();
    assert_eq!(cut(""), [b""; 0]);
    assert_eq!(cut("\n"), [b""]);
    assert_eq!(cut("a\r\nb\r\r\n\r\n\nc\r"), [&b"a"[..], b"b\r", b"", b"", b"c\r"]);
}

/// What is written of the record that the Rust reads of a line, or the refusal.
fn written(line: &str) -> Result<String, Refusal> {
    written_in(line, false)
}

/// The same in the places that were read, or in the format's.
fn written_in(line: &str, as_read: bool) -> Result<String, Refusal> {
    let mut input = Input::new();
    input.line = line.as_bytes().to_vec();
    let mut oracle = Oracle::new();
    oracle.answer(&input, &tables());
    let name = input.line.get(12..16).unwrap_or(b"    ");
    let read = as_read.then_some(&*input.line);
    let bytes = writing::line(&oracle.item.unwrap(), name, read, 80)?;
    Ok(String::from_utf8(bytes.to_vec()).unwrap())
}

fn nine(place: usize, length: usize) -> Result<String, Refusal> {
    Err(Refusal { number: 9, place, length })
}

#[test]
fn lines_that_are_written_as_they_stand() {
    for line in [
        "ATOM      1  N   VAL A   1       6.204  16.869   4.854  1.00 49.05           N  ",
        "ATOM  99999 HG11AVAL B -12C    -99.999-999.999   0.001  0.50  0.00      SEGAFE3+",
        "ATOM      7 1H    DA  9999Z   9999.999  -0.000   0.000-99.99999.99      A    C9-",
        "HETATM 4384 FE   HEM A 142       8.128   7.371 -15.022  1.00 16.74          FE  ",
        "ANISOU    1  N   VAL A   1     2406   1892   1614    198    519   -328       N  ",
        "ANISOU99999 HG11AVAL B -12C -999999      0      0      1 100000-100000  SEGAFE3+",
        "CRYST1   63.150   83.590   53.800  90.00  99.34  90.00 P 1 21 1      4          ",
        "CRYST199999.999-9999.999   -0.0009999.99-999.99   0.00 P 21 21 21A9999          ",
        "SCALE1      0.015835  0.000000  0.002606        0.00000                         ",
        "SCALE3    999.999999-99.999999 -0.000000     9999.99999                         ",
        "ORIGX2     -0.158977  0.983924  0.081383       13.72000                         ",
        "MTRIX1   1 -1.000000  0.000000 -0.000000        0.00001    1                    ",
        "MTRIX3 999  0.000000 -0.000000 -1.000000     -999.99999                         ",
        "MODEL        2                                                                  ",
        "MODEL     9999                                                                  ",
        "ENDMDL                                                                          ",
        "TER                                                                             ",
        "END                                                                             ",
    ] {
        assert_eq!(written(line).as_deref(), Ok(line));
    }
}

const AN_ATOM: &str = "ATOM      1  N   VAL A   1       6.204  16.869   4.854  1.00 49.05           N  ";

/// A line with another text from a column on.
fn with(line: &str, start: usize, text: &str) -> String {
    format!("{}{text}{}", &line[..start], &line[start + text.len()..])
}

#[test]
fn fields_that_are_written_otherwise() {
    for (start, read, stands) in [
        (6, "+0007", "    7"), (12, "  N ", "  N "), (12, "N   ", "N   "), (17, " A ", "  A"), (21, " ", " "),
        (22, "+01 ", "   1"), (22, "-001", "  -1"), (22, "-0  ", "   0"),
        (30, "-.5     ", "  -0.500"), (30, "-.0004  ", "  -0.000"), (30, "x       ", "   0.000"),
        (38, ".0625   ", "   0.062"), (38, "0.1875  ", "   0.188"), (46, "-0.0625 ", "  -0.062"),
        (46, "999.9995", "1000.000"), (46, "-99.9995", " -99.999"), (38, "2.6755  ", "   2.675"),
        (54, ".125  ", "  0.12"), (54, "-0.375", " -0.38"), (60, "2.675 ", "  2.67"), (60, "99.995", "100.00"),
        (54, "x     ", "  1.00"),
        (72, " A C", "A C "), (76, "C ", " C"), (78, "0-", "  "), (78, "-2", "  "),
    ] {
        assert_eq!(written(&with(AN_ATOM, start, read)).unwrap(), with(AN_ATOM, start, stands), "{read}");
    }
    let anisou = "ANISOU    1  N   VAL A   1     2406   1892   1614    198    519   -328       N  ";
    assert_eq!(written(&with(anisou, 28, "-0     ")).unwrap(), with(anisou, 28, "      0"));
    assert_eq!(written(&with(anisou, 35, "-00001 ")).unwrap(), with(anisou, 35, "     -1"));
    // Columns that the line doesn't reach are blank or 0, and the occupancy is 1.
    assert_eq!(
        written("ATOM   ").unwrap(),
        padded("ATOM      0              0       0.000   0.000   0.000  1.00  0.00", 80)
    );
}

#[test]
fn fields_that_do_not_fit() {
    for (start, text, length) in [
        (12, "\tN  ", 4), (12, "N\x7F  ", 4), (16, "\x1F", 1), (17, "A\x00B", 3), (21, "\t", 1), (26, "\x0B", 1),
        (30, "10000   ", 8), (38, "-1000   ", 8), (46, "99999999", 8), (54, "1000  ", 6), (60, "-100  ", 6),
        (72, "A\tB ", 4), (76, "\x01C", 2),
    ] {
        assert_eq!(written(&with(AN_ATOM, start, text)), nine(start, length), "{text}");
    }
    // Of several the first by column.
    let two = with(&with(AN_ATOM, 72, "A\tB "), 30, "10000   ");
    assert_eq!(written(&two), nine(30, 8));
    assert_eq!(written(&with(&two, 26, "\x7F")), nine(26, 1));
    assert_eq!(written("MODEL 10000"), nine(10, 4));
    assert_eq!(written("CRYST1    1.000    1.000    1.000  90.00  90.00  90.00 P 1        10000"), nine(66, 4));
    assert_eq!(written("SCALE2    1234567890.000000001"), nine(10, 10));
    for line in ["", "CONECT 2179", "REMARK   2", "MASTER ", "SEQRES "] {
        assert_eq!(written(line), nine(0, 6));
    }
}

#[test]
fn reals_in_the_places_that_were_read() {
    for (start, read, stands) in [
        (30, "5.      ", "       5"), (30, "     5.0", "     5.0"), (30, "-.5     ", "    -0.5"), (38, "+007.50 ", "    7.50"),
        (38, "-0      ", "      -0"), (46, "0.123456", "0.123456"), (46, ".123456 ", "0.123456"), (54, "\t1.000\t", " 1.000"),
        (54, "x     ", "     1"), (60, "x     ", "     0"), (60, "999999", "999999"), (30, "1.5e3   ", "       0"),
    ] {
        assert_eq!(written_in(&with(AN_ATOM, start, read), true).unwrap(), with(AN_ATOM, start, stands), "{read}");
    }
    assert_eq!(
        written_in("ATOM   ", true).unwrap(),
        padded("ATOM      0              0           0       0       0     1     0", 80)
    );
    let row = "SCALE1    0.123456781234567890 -.1234567          5.00 ";
    assert_eq!(written_in(row, true).unwrap(), padded("SCALE1    0.123456781234567890-0.1234567           5.00", 80));
    let cell = "CRYST1    1        2.00     3.0    90.00  90.0   90.   P 1           1";
    assert_eq!(
        written_in(cell, true).unwrap(),
        padded("CRYST1        1     2.00      3.0  90.00   90.0     90 P 1           1", 80)
    );
    let anisou = "ANISOU    1  N   VAL A   1     2406   1892   1614    198    519   -328       N  ";
    assert_eq!(written_in(anisou, true).as_deref(), Ok(anisou));
    // A digit before the point may be one too many, and the first by column counts.
    let two = with(&with(AN_ATOM, 38, ".1234567"), 60, "-.1234");
    assert_eq!(written_in(&two, true), nine(38, 8));
    assert_eq!(written_in(&with(&two, 38, "   1.000"), true), nine(60, 6));
    assert_eq!(written_in("SCALE2    .123456789", true), nine(10, 10));
}

#[test]
fn records_that_no_line_gives() {
    let line = |item: &LexItem, name: &[u8], room| match writing::line(item, name, None, room) {
        Ok(line) => Ok(String::from_utf8(line.to_vec()).unwrap()),
        Err(refusal) => Err(refusal),
    };
    let row = |row, a| LexItem::MtriX(row, 1000, [a, 0.0, 0.0, f64::INFINITY], true);
    assert_eq!(line(&row(3, f64::NAN), b"", 0), nine(5, 1));
    assert_eq!(line(&row(2, f64::NAN), b"", 0), nine(7, 3));
    assert_eq!(line(&LexItem::Scale(2, [1e300, 0.0, 0.0, 0.0]), b"", 0), nine(10, 10));
    assert_eq!(line(&LexItem::OrigX(0, [0.0, 0.0, 0.0, f64::NAN]), b"", 0), nine(45, 10));
    let atom = |chain: &str, charge| {
        let text = String::from;
        LexItem::Atom(
            false, 1, text("N"), None, text("VAL"), text(chain), 1, None, 6.204, 16.869, 4.854, 1.0, 49.05,
            text(""), text("N"), charge,
        )
    };
    assert_eq!(line(&atom("A", 0), b" N  ", 80).as_deref(), Ok(AN_ATOM));
    assert_eq!(line(&atom("", 0), b" N  ", 80), Ok(with(AN_ATOM, 21, " ")));
    assert_eq!(line(&atom("A", -9), b" N  ", 80), Ok(with(AN_ATOM, 78, "9-")));
    assert_eq!(line(&atom("A", 10), b" N  ", 80), nine(78, 2));
    assert_eq!(line(&atom("A", -10), b" N  ", 80), nine(78, 2));
    assert_eq!(line(&atom("AB", 10), b" N  ", 79), nine(21, 1));
    assert_eq!(line(&atom("AB", 10), b"N", 79), nine(12, 4));
    assert_eq!(line(&atom("A", 0), b" N  ", 79), Err(Refusal { number: 8, place: 0, length: 80 }));
}

#[test]
fn the_nearest_decimal() {
    let rounded = |x, places| nearest(x, places).map(|it| (it.whole, it.tie));
    for (x, places, whole, tie) in [
        (0.0, 3, 0, false), (-0.0, 3, 0, false), (0.0625, 3, 62, true), (0.1875, 3, 188, true),
        (-0.0625, 3, 62, true), (0.125, 2, 12, true), (0.375, 2, 38, true), (0.5, 0, 0, true), (1.5, 0, 2, true),
        (2.675, 2, 267, false), (1.005, 2, 100, false), (0.0005, 3, 1, false), (0.0025, 3, 3, false),
        (5e-324, 9, 0, false), (1e-10, 9, 0, false), (5e-10, 9, 1, false), (9999999999.5, 0, 10000000000, true),
        (0.0078125, 6, 7812, true), (0.015625, 5, 1562, true), (17179869183.0, 0, 17179869183, false),
    ] {
        assert_eq!(rounded(x, places), Some((whole, tie)), "{x} {places}");
    }
    for x in [f64::NAN, f64::INFINITY, f64::NEG_INFINITY, 17179869184.0, 1e300] {
        assert_eq!(rounded(x, 3), None);
    }
    // The standard library rounds in the same way.
    let mut random = Random::new(330, 0);
    for _ in 0..300_000 {
        let places = random.below(10) as u32;
        let x = match random.below(3) {
            // Any size from 2^-64 to 2^34.
            0 => f64::from_bits((959 + random.below(98)) << 52 | random.next() >> 12),
            1 => random.below(1 << 20) as f64 / (2 << places) as f64,
            _ => random.below(10_000_000_000) as f64 / 10f64.powi(random.below(10) as i32),
        };
        let text = format!("{x:.*}", places as usize).replace('.', "");
        assert_eq!(nearest(x, places).map(|it| it.whole), text.parse().ok(), "{x} {places}");
    }
}

#[test]
fn places_of_a_field() {
    for (field, places) in [
        ("  1.50", 2), ("5.", 0), (".5", 1), ("-.500", 3), ("+1", 0), ("x", 0), ("1.5e3", 0), ("", 0), ("\t1.0\x0B", 1),
        (".123456789", 9), ("0.00000000", 8), ("-.", 0), (".", 0), ("1.5.", 0), ("1 .5", 0), ("0x.5", 0),
    ] {
        assert_eq!(places_of(Some(field.as_bytes())), places, "{field}");
    }
    assert_eq!(places_of(None), 0);
    for places in 0..10 {
        for digit in ["0", "5"] {
            assert_eq!(places_of(Some(format!("-7.{}", digit.repeat(places)).as_bytes())), places as u32);
        }
    }
}

/// A reply: its six words, and the bytes of output that are sent.
fn reply(words: [u64; 6], sent: &[u8]) -> Vec<u8> {
    let all = words.into_iter().chain([sent.len() as u64]);
    all.flat_map(u64::to_le_bytes).chain(sent.iter().copied()).collect()
}

#[test]
fn what_a_reply_does_not_send_is_unwritten() {
    let mut sent = [b'x'; 128];
    sent[100..].fill(UNWRITTEN);
    let all = [
        reply([1, 2, 3, 4, 5, u64::MAX], &sent),
        reply([0; 6], &[b'y'; 64]),
        reply([6; 6], &[b'z'; OUTPUT]),
        reply([0; 6], &[]),
    ];
    let bytes = all.concat();
    let mut replies = Replies::new(&bytes[..]);

    let answer = replies.take().unwrap();
    assert_eq!((answer.written, answer.sorts, answer.faults_line), (1, Sorts(5), u64::MAX));
    assert_eq!(answer.refusal, Refusal { number: 2, place: 3, length: 4 });
    assert_eq!(answer.output.len(), OUTPUT);
    assert_eq!(answer.output[..128], sent);
    assert!(answer.output[128..].iter().all(|byte| *byte == UNWRITTEN));
    let answer = replies.take().unwrap();
    assert_eq!(answer.output[..64], [b'y'; 64]);
    assert!(answer.output[64..].iter().all(|byte| *byte == UNWRITTEN));
    assert_eq!(replies.take().unwrap().output, [b'z'; OUTPUT]);
    assert_eq!(replies.take().unwrap().output, [UNWRITTEN; OUTPUT]);
    assert!(replies.take().is_err());
}

#[test]
fn a_reply_with_too_much_output_or_too_little_is_an_error() {
    let long = reply([0; 6], &[0; OUTPUT + 1]);
    assert!(Replies::new(&long[..]).take().is_err());
    let short = reply([0; 6], &[0; 64]);
    assert!(Replies::new(&short[..short.len() - 1]).take().is_err());
}

//! Lines of every kind through the safe functions: what was read, what was put there, and what is written.
use saltighedda::{
    kind, lines, read, read_with, write, Atom, Cell, Family, Item, Kind, Options, Record, Refusal,
    Row, Sort,
};

fn of(line: &str) -> Record<'_> {
    read(line.as_bytes(), 7, Options::default()).unwrap()
}

const ATOM: &str =
    "HETATM   18 ZN  B ZN A-101C     11.639   6.071  -5.147  0.50 17.90      SEG ZN2-";

#[test]
fn an_atom_by_its_names() {
    let Item::Atom(atom) = of(ATOM).item() else { panic!() };
    assert!(atom.hetero);
    assert_eq!(
        (atom.serial, atom.name, atom.trimmed_name, atom.alternate),
        (18, b"ZN  ".as_slice(), b"ZN".as_slice(), Some(b'B'))
    );
    assert_eq!(
        (atom.residue, atom.chain, atom.number, atom.insertion),
        (b"ZN".as_slice(), b'A', -101, Some(b'C'))
    );
    assert_eq!(
        (atom.x, atom.y, atom.z, atom.occupancy, atom.bfactor),
        (11.639, 6.071, -5.147, 0.5, 17.9)
    );
    assert_eq!(
        (atom.segment, atom.element, atom.charge),
        (b"SEG".as_slice(), b"ZN".as_slice(), -2)
    );
    assert_eq!(atom.unread, Default::default());
    assert_eq!(of(ATOM).places(), [3, 3, 3, 2, 2]);
}

#[test]
fn what_was_put_there() {
    let record = of("HETATM   18 ZN    ZN A 101      1");
    let Item::Atom(zinc) = record.item() else { panic!() };
    assert_eq!((zinc.x, zinc.y, zinc.z, zinc.occupancy), (0.0, 0.0, 0.0, 1.0));
    assert!(
        zinc.unread.x
            && zinc.unread.y
            && zinc.unread.z
            && zinc.unread.occupancy
            && zinc.unread.bfactor
    );
    assert!(!zinc.unread.serial && !zinc.unread.name && !zinc.unread.charge);
    let faults: Vec<_> = record.faults().collect();
    assert_eq!(faults.len(), 7);
    assert_eq!(
        (faults[0].line, faults[0].kind, faults[0].fault, faults[0].place, faults[0].length),
        (7, Kind::HETATM, 1, 30, 8)
    );
    assert_eq!(
        faults[4].to_string(),
        "line 7, HETATM, columns 61 to 66: B factor: the line ends before the field's last column"
    );
}

#[test]
fn a_character_that_is_not_reached() {
    let Item::Atom(atom) = of("ATOM      1  CA  GLY").item() else { panic!() };
    assert_eq!((atom.chain, atom.alternate, atom.insertion), (b' ', None, None));
    assert!(atom.unread.chain && atom.unread.insertion && !atom.unread.alternate);
    let Item::Atom(atom) = of("ATOM      1  CA").item() else { panic!() };
    assert_eq!((atom.name, atom.trimmed_name), (b"".as_slice(), b"".as_slice()));
    assert!(atom.unread.name);
    let Item::Atom(atom) = of("ATOM      1  CA \0GLY").item() else { panic!() };
    assert_eq!(atom.alternate, Some(0));
}

#[test]
fn the_sign_of_a_charge() {
    let record =
        of("HETATM   18 ZN    ZN A 101      11.639   6.071  -5.147  1.00 17.90          ZN2 ");
    let Item::Atom(atom) = record.item() else { panic!() };
    assert!(atom.unread.charge && !atom.unread.element);
    assert_eq!(
        record.faults().next().unwrap().to_string(),
        "line 7, HETATM, columns 80 to 80: charge: the charge has no sign"
    );
}

#[test]
fn a_fault_says_its_sort() {
    let sort = |line| of(line).faults().next().unwrap().sort;
    assert_eq!(sort("MODEL x"), Some(Sort::Unsigned));
    assert_eq!(
        sort("ATOM      1  CA  GLY A   x      11.639   6.071  -5.147  1.00 17.90           C  "),
        Some(Sort::Signed)
    );
    assert_eq!(
        sort("ATOM      1  CA  GLY A   1        x      6.071  -5.147  1.00 17.90           C  "),
        Some(Sort::Real)
    );
    assert_eq!(sort("MASTER   "), None);
}

#[test]
fn the_other_families() {
    let Item::Anisou(v) =
        of("ANISOU    6  SG  CYS A   1     2551   2403   2702    112    -87     31       S  ")
            .item()
    else {
        panic!()
    };
    assert_eq!(
        (v.name, v.trimmed_name, v.u11, v.u13, v.u23, v.charge),
        (b" SG ".as_slice(), b"SG".as_slice(), 0.2551, -0.0087, 0.0031, 0)
    );
    let Item::Cell(v) =
        of("CRYST1   42.570   42.580   61.930  90.00  91.00 120.00 P 31 2 1      6").item()
    else {
        panic!()
    };
    assert_eq!(
        (v.a, v.b, v.c, v.alpha, v.beta, v.gamma, v.group, v.z),
        (42.57, 42.58, 61.93, 90.0, 91.0, 120.0, b"P 31 2 1".as_slice(), 6)
    );
    let Item::Row(v) = of("MTRIX2  12 -0.023491  0.013562  1.000000       12.34500    1").item()
    else {
        panic!()
    };
    assert_eq!(
        (v.family, v.row, v.serial, v.a, v.b, v.c, v.d, v.given),
        (Family::Mtrix, 1, 12, -0.023491, 0.013562, 1.0, 12.345, true)
    );
    let Item::Row(v) = of("ORIGX3      1.000000  2.000000  3.000000        4.00000").item() else {
        panic!()
    };
    assert_eq!((v.family, v.row, v.serial, v.d, v.given), (Family::Origx, 2, 0, 4.0, false));
    let Item::Header(v) =
        of("HEADER    METAL BINDING PROTEIN                   14-MAR-24   9ZNF").item()
    else {
        panic!()
    };
    assert_eq!(
        (v.classification.len(), v.date, v.code),
        (40, b"14-MAR-24".as_slice(), b"9ZNF".as_slice())
    );
    let Item::Remark(v) = of("REMARK   2 RESOLUTION.  ").item() else { panic!() };
    assert_eq!((v.number, v.text), (2, b"RESOLUTION.".as_slice()));
    let Item::Master(v) =
        of("MASTER        1    2    3    4    5    6    7    8    9   10   11   12").item()
    else {
        panic!()
    };
    assert_eq!((v.remark, v.empty, v.het, v.helix, v.sheet, v.turn), (1, 2, 3, 4, 5, 6));
    assert_eq!((v.site, v.xform, v.coord, v.ter, v.connect, v.seq), (7, 8, 9, 10, 11, 12));
    let Item::Seqres(v) = of("SEQRES   1 A   60  CYS GLU LYS").item() else { panic!() };
    assert_eq!(
        (v.serial, v.chain, v.residues, v.triples.concat()),
        (1, b'A', 60, b"CYSGLULYS".to_vec())
    );
    let Item::Dbref(v) =
        of("DBREF  9ZNF A    1A   60B UNP    P12345   ZINC_HUMAN     101C   160D").item()
    else {
        panic!()
    };
    assert_eq!(
        (v.code, v.chain, v.begin, v.opening, v.end, v.closing),
        (b"9ZNF".as_slice(), b"A".as_slice(), 1, b'A', 60, b'B')
    );
    assert_eq!(
        (v.database, v.accession, v.name),
        (b"UNP".as_slice(), b"P12345".as_slice(), b"ZINC_HUMAN".as_slice())
    );
    assert_eq!(
        (v.target_begin, v.target_opening, v.target_end, v.target_closing),
        (101, b'C', 160, b'D')
    );
    let Item::Dbref2(v) =
        of("DBREF2 9ZNF A     UPI00001                          101         160").item()
    else {
        panic!()
    };
    assert_eq!((v.accession, v.target_begin, v.target_end), (b"UPI00001".as_slice(), 101, 160));
    let Item::Seqadv(v) =
        of("SEQADV 9ZNF MET A    1A UNP  P12345    GLY    -5 INITIATING METHIONINE").item()
    else {
        panic!()
    };
    assert_eq!(
        (v.residue, v.chain, v.insertion, v.target_name, v.target_number),
        (b"MET".as_slice(), b"A".as_slice(), Some(b'A'), Some(b"GLY".as_slice()), Some(-5))
    );
    let Item::Seqadv(v) =
        of("SEQADV 9ZNF MET A    1  UNP  P12345              EXPRESSION TAG").item()
    else {
        panic!()
    };
    assert_eq!(
        (v.insertion, v.target_name, v.target_number, v.comment),
        (None, None, None, b"EXPRESSION TAG".as_slice())
    );
    let Item::Modres(v) = of("MODRES 9ZNF MSE A    1B MET  SELENOMETHIONINE").item() else {
        panic!()
    };
    assert_eq!(
        (v.chain, v.insertion, v.standard, v.comment),
        (b'A', Some(b'B'), b"MET".as_slice(), b"SELENOMETHIONINE".as_slice())
    );
    let Item::Ssbond(v) =
        of("SSBOND   1 CYS A    1A   CYS B   54C                         1555   2665  2.03").item()
    else {
        panic!()
    };
    assert_eq!(
        (v.residue, v.chain, v.number, v.insertion),
        (b"CYS".as_slice(), b'A', 1, Some(b'A'))
    );
    assert_eq!((v.other_chain, v.other_number, v.other_insertion), (b'B', 54, Some(b'C')));
    assert_eq!(
        (v.symmetry, v.other_symmetry, v.length),
        (Some(b"1555".as_slice()), Some(b"2665".as_slice()), Some(2.03))
    );
    assert_eq!(
        [of("ENDMDL ").item(), of("TER").item(), of("END").item(), of("CONECT 1").item()],
        [Item::Endmdl, Item::Ter, Item::End, Item::Empty]
    );
}

#[test]
fn modes_and_options() {
    let wwpdb = Options { wwpdb: true, ..Default::default() };
    let line = b"DBREF1 9ZNF A    1A 1234B UNPREF               A0A0B0C0D0          ";
    let end = |options| match read(line, 1, options).unwrap().item() {
        Item::Dbref1(v) => (v.end, v.unread.end, v.name),
        _ => panic!(),
    };
    assert_eq!(end(Options::default()), (234, false, b"A0A0B0C0D0".as_slice()));
    assert_eq!(end(wwpdb), (1234, false, b"A0A0B0C0D0".as_slice()));
    assert_eq!(
        (kind(b"ENDMDL", Options::default()), kind(b"ENDMDL", wwpdb)),
        (Ok(Kind::END), Ok(Kind::ENDMDL))
    );
    assert!(
        matches!(read(b"MODEL     12", 1, wwpdb).unwrap().item(), Item::Model(v) if v.number == 0 && v.unread.number)
    );
    let bond = b"SSBOND   1 CYS A    1A   CYS B   54C                         1555   2665 2.0E1";
    let distance = |options| match read(bond, 1, options).unwrap().item() {
        Item::Ssbond(v) => v.length,
        _ => panic!(),
    };
    let exponents = Options { exponents: true, ..Default::default() };
    assert_eq!((distance(Options::default()), distance(exponents)), (Some(0.0), Some(20.0)));
    let atoms = Options { atoms_only: true, ..Default::default() };
    assert_eq!(read(b"HEADER    A", 1, atoms).unwrap().item(), Item::Empty);
    let long = [b"REMARK   2 ".as_slice(), &[b'x'; 80]].concat();
    let refusal = Refusal { number: 5, place: 80, length: 11 };
    assert_eq!(read(&long, 1, Options::default()).map(|r| r.kind()), Err(refusal));
    assert_eq!(
        read(&long, 1, Options { loose: true, ..Default::default() }).map(|r| r.kind()),
        Ok(Kind::REMARK)
    );
    assert_eq!(refusal.to_string(), "a REMARK line has 80 bytes or more, at column 81, 11 columns");
    let known = read_with(b"REMARK   2 A", 1, Options::default(), &[0; 1000]).unwrap();
    assert!(matches!(known.item(), Item::Remark(v) if v.number == 2 && !v.unread.number));
    assert_eq!(known.faults().map(|fault| fault.fault).collect::<Vec<_>>(), [5]);
    assert_eq!(
        read_with(b"", 1, Options::default(), &[]).map(|r| r.kind()),
        Err(Refusal { number: 1, place: 0, length: 0 })
    );
    assert_eq!(
        kind(b"ATOM \xC2", Options::default()),
        Err(Refusal { number: 3, place: 5, length: 1 })
    );
}

#[test]
fn the_lines_of_a_file() {
    let file = b"MODEL        1\r\n\nATOM \x80\r\nEND\r";
    let found: Vec<_> = lines(file, Options::default())
        .map(|line| (line.number, line.bytes, line.record.map(|r| r.kind()).map_err(|r| r.number)))
        .collect();
    assert_eq!(
        found,
        [
            (1, b"MODEL        1".as_slice(), Ok(Kind::MODEL)),
            (2, b"".as_slice(), Ok(Kind::EMPTY)),
            (3, b"ATOM \x80".as_slice(), Err(3)),
            (4, b"END\r".as_slice(), Ok(Kind::END)),
        ]
    );
    assert_eq!(lines(b"", Options::default()).count(), 0);
    assert_eq!(lines(b"END\n", Options::default()).count(), 1);
}

#[test]
fn written_as_it_was_read() {
    for line in [
        ATOM,
        "ATOM      1  CA  GLY A   1        1.50     1.5      12  1.00  17.9           C  ",
        "ANISOU    1  CA  GLY A   1     2551   2403   2702    112    -87      0       C  ",
        "CRYST1   42.570    42.57     61.9  90.00   90.0    120 P 31 2 1      6          ",
        "MTRIX3   1  0.000000 -1.000000         1     0.12345678    1                    ",
        "MODEL        1                                                                  ",
        "ENDMDL                                                                          ",
        "TER                                                                             ",
        "END                                                                             ",
    ] {
        let record = of(line);
        assert_eq!(
            write(record.item(), &record.places())
                .as_ref()
                .map(|out| std::str::from_utf8(out).unwrap()),
            Ok(line)
        );
    }
}

#[test]
fn written_by_name() {
    let zinc = Atom {
        hetero: true,
        serial: 18,
        name: b"ZN  ",
        residue: b"ZN",
        chain: b'A',
        number: 101,
        x: 11.639,
        y: 6.071,
        z: -5.147,
        occupancy: 1.0,
        bfactor: 17.9,
        element: b"ZN",
        charge: 2,
        ..Default::default()
    };
    assert_eq!(
        write(zinc.clone(), &[]).unwrap().as_slice(),
        b"HETATM   18 ZN    ZN A 101      11.639   6.071  -5.147  1.00 17.90          ZN2+"
    );
    assert_eq!(
        write(Atom { x: 10000.0, ..zinc.clone() }, &[]),
        Err(Refusal { number: 9, place: 30, length: 8 })
    );
    assert_eq!(
        write(Atom { name: b"ZN", ..zinc }, &[]),
        Err(Refusal { number: 9, place: 12, length: 4 })
    );
    assert_eq!(
        write(Row { row: 3, ..Default::default() }, &[]),
        Err(Refusal { number: 9, place: 5, length: 1 })
    );
    assert_eq!(
        write(Cell { a: f64::NAN, ..Default::default() }, &[]),
        Err(Refusal { number: 9, place: 6, length: 9 })
    );
    assert_eq!(write(Item::Empty, &[]), Err(Refusal { number: 9, place: 0, length: 6 }));
    assert_eq!(
        write(of("REMARK   2 A").item(), &[]),
        Err(Refusal { number: 9, place: 0, length: 6 })
    );
}

"""Lines of every kind through the module: what was read, what was put there, and what is written."""

import doctest
import math
import unittest

import saltighedda
from saltighedda import Anisou, Atom, Bare, Cell, Header, Model, Refusal, Row, kind, lines, read, write

ATOM = b"HETATM   18 ZN  B ZN A-101C     11.639   6.071  -5.147  0.50 17.90      SEG ZN2-"


def item(line, **options):
    return read(line, 7, **options).item


def refusal(call, *words, **options):
    try:
        call(*words, **options)
    except Refusal as why:
        return why.number, why.place, why.length
    return None


class Reading(unittest.TestCase):
    def test_an_atom_by_its_names(self):
        due = Atom(True, 18, "ZN  ", "B", "ZN", "A", -101, "C", 11.639, 6.071, -5.147, 0.5, 17.9, "SEG", "ZN", -2, frozenset())
        self.assertEqual(item(ATOM), due)
        self.assertEqual(due.trimmed_name, "ZN")
        self.assertEqual(read(ATOM).places, bytes([3, 3, 3, 2, 2]))

    def test_what_was_put_there(self):
        record = read(b"HETATM   18 ZN    ZN A 101      1", 7)
        self.assertEqual(record.item.unread, {"x", "y", "z", "occupancy", "bfactor", "segment", "element"})
        self.assertEqual((record.item.x, record.item.occupancy, record.item.chain), (0.0, 1.0, "A"))
        fault = record.faults[0]
        self.assertEqual((fault.line, fault.kind, fault.fault, fault.sort, fault.place, fault.length), (7, "HETATM", 1, None, 30, 8))
        self.assertEqual(str(record.faults[4]),
                         "line 7, HETATM, columns 61 to 66: B factor: the line ends before the field's last column")

    def test_a_character_that_is_not_reached(self):
        atom = item(b"ATOM      1  CA  GLY")
        self.assertEqual((atom.chain, atom.alternate, atom.insertion), (" ", None, None))
        self.assertTrue({"chain", "insertion"} <= atom.unread and "alternate" not in atom.unread)
        atom = item(b"ATOM      1  CA")
        self.assertEqual((atom.name, atom.trimmed_name, "name" in atom.unread), ("", "", True))
        self.assertEqual(item(b"ATOM      1  CA \0GLY").alternate, "\0")

    def test_the_sign_of_a_charge(self):
        record = read(b"HETATM   18 ZN    ZN A 101      11.639   6.071  -5.147  1.00 17.90          ZN2 ", 7)
        self.assertEqual(record.item.unread, {"charge"})
        self.assertEqual(str(record.faults[0]), "line 7, HETATM, columns 80 to 80: charge: the charge has no sign")

    def test_a_fault_says_its_sort(self):
        self.assertEqual(read(b"MODEL x").faults[0].sort, "unsigned")
        self.assertEqual(read(b"ANISOU    6  SG  CYS A   1     25.1   2403   2702    112    -87     31       S  ").faults[0].sort, "signed")
        self.assertEqual(read(b"ATOM      1  CA  GLY A   1        x      6.071  -5.147  1.00 17.90           C  ").faults[0].sort, "real")

    def test_the_other_families(self):
        v = item(b"ANISOU    6  SG  CYS A   1     2551   2403   2702    112    -87     31       S  ")
        self.assertEqual(v, Anisou(6, " SG ", None, "CYS", "A", 1, None, 0.2551, 0.2403, 0.2702, 0.0112, -0.0087, 0.0031, "", "S", 0))
        self.assertEqual(v.trimmed_name, "SG")
        v = item(b"CRYST1   42.570   42.580   61.930  90.00  91.00 120.00 P 31 2 1      6")
        self.assertEqual(v, Cell(42.57, 42.58, 61.93, 90.0, 91.0, 120.0, "P 31 2 1", 6))
        v = item(b"MTRIX2  12 -0.023491  0.013562  1.000000       12.34500    1")
        self.assertEqual(v, Row("MTRIX", 1, -0.023491, 0.013562, 1.0, 12.345, 12, True))
        self.assertEqual(item(b"ORIGX3      1.000000  2.000000  3.000000        4.00000"), Row("ORIGX", 2, 1.0, 2.0, 3.0, 4.0))
        v = item(b"HEADER    METAL BINDING PROTEIN                   14-MAR-24   9ZNF")
        self.assertEqual(v, Header("METAL BINDING PROTEIN".ljust(40), "14-MAR-24", "9ZNF"))
        self.assertEqual(item(b"REMARK   2 RESOLUTION.  "), saltighedda.Remark(2, "RESOLUTION."))
        v = item(b"MASTER        1    2    3    4    5    6    7    8    9   10   11   12")
        self.assertEqual(v, saltighedda.Master(*range(1, 13)))
        self.assertEqual(item(b"SEQRES   1 A   60  CYS GLU LYS"), saltighedda.Seqres(1, "A", 60, ("CYS", "GLU", "LYS")))
        v = item(b"DBREF  9ZNF A    1A   60B UNP    P12345   ZINC_HUMAN     101C   160D")
        self.assertEqual(v, saltighedda.Dbref("9ZNF", "A", 1, "A", 60, "B", "UNP", "P12345", "ZINC_HUMAN", 101, "C", 160, "D"))
        v = item(b"DBREF2 9ZNF A     UPI00001                          101         160")
        self.assertEqual(v, saltighedda.Dbref2("9ZNF", "A", "UPI00001", 101, 160))
        v = item(b"SEQADV 9ZNF MET A    1A UNP  P12345    GLY    -5 INITIATING METHIONINE")
        self.assertEqual(v, saltighedda.Seqadv("9ZNF", "MET", "A", 1, "A", "UNP", "P12345", "GLY", -5, "INITIATING METHIONINE"))
        v = item(b"SEQADV 9ZNF MET A    1  UNP  P12345              EXPRESSION TAG")
        self.assertEqual(v, saltighedda.Seqadv("9ZNF", "MET", "A", 1, None, "UNP", "P12345", None, None, "EXPRESSION TAG"))
        v = item(b"MODRES 9ZNF MSE A    1B MET  SELENOMETHIONINE")
        self.assertEqual(v, saltighedda.Modres("9ZNF", "MSE", "A", 1, "B", "MET", "SELENOMETHIONINE"))
        v = item(b"SSBOND   1 CYS A    1A   CYS B   54C                         1555   2665  2.03")
        self.assertEqual(v, saltighedda.Ssbond("CYS", "A", 1, "A", "CYS", "B", 54, "C", "1555", "2665", 2.03))
        self.assertEqual([item(b"ENDMDL "), item(b"TER"), item(b"END"), item(b"CONECT 1")], [Bare("ENDMDL"), Bare("TER"), Bare("END"), None])

    def test_modes_and_options(self):
        line = b"DBREF1 9ZNF A    1A 1234B UNPREF               A0A0B0C0D0          "
        self.assertEqual((item(line).end, item(line, wwpdb=True).end, item(line).name), (234, 1234, "A0A0B0C0D0"))
        self.assertEqual((kind(b"ENDMDL"), kind(b"ENDMDL", wwpdb=True)), ("END", "ENDMDL"))
        self.assertEqual(item(b"MODEL     12", wwpdb=True), Model(0, frozenset({"number"})))
        bond = b"SSBOND   1 CYS A    1A   CYS B   54C                         1555   2665 2.0E1"
        self.assertEqual((item(bond).length, item(bond, exponents=True).length), (0.0, 20.0))
        self.assertIsNone(item(b"HEADER    A", atoms_only=True))
        long = b"REMARK   2 " + 80 * b"x"
        self.assertEqual(refusal(read, long), (5, 80, 11))
        self.assertEqual(read(long, loose=True).kind, "REMARK")
        self.assertEqual(read(b"REMARK   2 A", remarks=bytes(1000)).faults[0].fault, 5)
        self.assertEqual(read(b"REMARK   2 A", remarks=bytes(1000)).item.unread, frozenset())
        self.assertEqual(refusal(read, b"", remarks=b""), (1, 0, 0))
        self.assertEqual(refusal(kind, b"ATOM \xC2"), (3, 5, 1))
        self.assertEqual(refusal(read, b"\x00" * 1030), (2, 1024, 6))

    def test_the_lines_of_a_file(self):
        found = [(line.number, line.bytes, line.record and line.record.kind, line.refusal and line.refusal.number)
                 for line in lines(b"MODEL        1\r\n\nATOM \x80\r\nEND\r")]
        self.assertEqual(found, [(1, b"MODEL        1", "MODEL", None), (2, b"", "EMPTY", None), (3, b"ATOM \x80", None, 3),
                                 (4, b"END\r", "END", None)])
        self.assertEqual(list(lines(b"")), [])
        self.assertEqual(len(list(lines(b"END\n"))), 1)


class Writing(unittest.TestCase):
    def test_as_it_was_read(self):
        for line in (ATOM,
                     b"ATOM      1  CA  GLY A   1        1.50     1.5      12  1.00  17.9           C  ",
                     b"ANISOU    1  CA  GLY A   1     2551   2403   2702    112    -87      0       C  ",
                     b"CRYST1   42.570    42.57     61.9  90.00   90.0    120 P 31 2 1      6          ",
                     b"MTRIX3   1  0.000000 -1.000000         1     0.12345678    1                    ",
                     b"MODEL        1".ljust(80), b"ENDMDL".ljust(80), b"TER".ljust(80), b"END".ljust(80)):
            record = read(line)
            self.assertEqual(write(record.item, record.places), line)

    def test_by_name(self):
        zinc = dict(hetero=True, serial=18, name="ZN  ", residue="ZN", chain="A", number=101, x=11.639, y=6.071, z=-5.147,
                    bfactor=17.9, element="ZN", charge=2)
        self.assertEqual(write(Atom(**zinc)), b"HETATM   18 ZN    ZN A 101      11.639   6.071  -5.147  1.00 17.90          ZN2+")
        for other, due in (({"x": 10000}, (9, 30, 8)), ({"name": "ZN"}, (9, 12, 4)), ({"chain": "\u00b5"}, (9, 21, 1)),
                           ({"serial": -1}, (9, 6, 5)), ({"serial": 2**64 + 18}, (9, 6, 5)), ({"number": 2**64 + 101}, (9, 22, 4)),
                           ({"number": -(2**70)}, (9, 22, 4)), ({"charge": 2**64}, (9, 78, 2)), ({"z": math.inf}, (9, 46, 8))):
            self.assertEqual(refusal(write, Atom(**{**zinc, **other})), due, other)
        self.assertEqual(refusal(write, Row(row=3)), (9, 5, 1))
        self.assertEqual(refusal(write, Row(row=2**64)), (9, 5, 1))
        self.assertEqual(refusal(write, Row(family="SCALES")), (9, 0, 6))
        self.assertEqual(refusal(write, Cell(a=math.nan)), (9, 6, 9))
        self.assertEqual(refusal(write, Model(number=2**64 + 1)), (9, 10, 4))
        self.assertEqual([refusal(write, other) for other in (None, Bare("HEADER"), Header())], 3 * [(9, 0, 6)])


def load_tests(loader, tests, pattern):
    tests.addTests(doctest.DocTestSuite(saltighedda))
    return tests


if __name__ == "__main__":
    unittest.main()

//! The file that every side reads: ATOM and HETATM lines in one of three layouts.

use crate::random::Random;
use std::io::Write;

/// Chains have so many residues, and residues so many atoms. Every tenth residue is a hetero one.
const RESIDUES: usize = 250;
const ATOMS: usize = 8;
const CHAINS: &[u8; 62] = b"ABCDEFGHIJKLMNOPQRSTUVWXYZabcdefghijklmnopqrstuvwxyz0123456789";

/// Name, element and charge of an atom.
type Atom = (&'static str, &'static str, &'static str);

const PLAIN: [Atom; ATOMS] = [
    (" N  ", " N", "  "),
    (" CA ", " C", "  "),
    (" C  ", " C", "  "),
    (" O  ", " O", "  "),
    (" CB ", " C", "  "),
    (" CG ", " C", "  "),
    (" OD1", " O", "  "),
    ("HD21", " H", "  "),
];
const HETERO: [Atom; ATOMS] = [
    (" P  ", " P", "  "),
    (" O1P", " O", "2-"),
    (" O2P", " O", "  "),
    (" C5'", " C", "  "),
    (" N9 ", " N", "1+"),
    ("FE  ", "FE", "  "),
    ("CL1 ", "CL", "1-"),
    ("H5'A", " H", "  "),
];
const PLAIN_NAMES: [&str; 8] = ["ALA", "GLY", "LEU", "ASN", "LYS", "VAL", "SER", "THR"];
const HETERO_NAMES: [&str; 4] = ["ATP", "HEM", " DA", "GOL"];

/// How many columns a line has, and what ends it.
pub struct Layout {
    pub columns: usize,
    pub end: &'static str,
    pub name: &'static str,
}

pub const WHOLE: Layout = Layout { columns: 80, end: "\n", name: "80 bytes and LF" };
/// As many files have it: nothing stands behind the element.
pub const SHORT: Layout = Layout { columns: 78, end: "\n", name: "78 bytes and LF" };
pub const CR_LF: Layout = Layout { columns: 80, end: "\r\n", name: "80 bytes and CR LF" };

/// The file, which depends on the seed and these words alone. One line in so many has a B-factor that is no number.
pub fn file(seed: u64, lines: usize, faulted: Option<u64>, layout: &Layout) -> String {
    let mut file = Vec::with_capacity(lines * 82);
    for index in 0..lines {
        let mut random = Random::new(seed, index as u64);
        let b_factor = match faulted {
            Some(many) if random.below(many) == 0 => "  *.**".to_string(),
            _ => b_factor(&mut random),
        };
        let start = file.len();
        put_line(&mut file, index, &b_factor, &mut random);
        file.truncate(start + layout.columns);
        file.extend_from_slice(layout.end.as_bytes());
    }
    String::from_utf8(file).expect("the lines are plain")
}

fn put_line(file: &mut Vec<u8>, index: usize, b_factor: &str, random: &mut Random) {
    let residue = index / ATOMS;
    let chain = CHAINS[residue / RESIDUES % CHAINS.len()] as char;
    let (record, residue_name, (name, element, charge)) = match residue % 10 {
        9 => ("HETATM", HETERO_NAMES[residue / 10 % 4], HETERO[index % ATOMS]),
        _ => ("ATOM  ", PLAIN_NAMES[residue % 8], PLAIN[index % ATOMS]),
    };
    let serial = (index + 1) % 100_000;
    let alternate = match random.below(100) {
        0 => 'A',
        1 => 'B',
        _ => ' ',
    };
    let number = (residue % RESIDUES) as i64 - 4;
    let insertion = if residue % 97 == 0 { 'A' } else { ' ' };
    let segment = if residue / RESIDUES % 4 == 0 { chain } else { ' ' };
    let (x, y, z) = (coordinate(random), coordinate(random), coordinate(random));
    let occupancy = match random.percent(90) {
        true => 100,
        false => random.below(100),
    };
    write!(
        file,
        "{record}{serial:>5} {name}{alternate}{residue_name} {chain}{number:>4}{insertion}   \
         {x:>8}{y:>8}{z:>8}{:>3}.{:02}{b_factor}      {segment}   {element}{charge}",
        occupancy / 100,
        occupancy % 100,
    )
    .expect("a vector takes all");
}

/// Of one to four digits before the point, two in most cases; a negative one has at most three.
fn coordinate(random: &mut Random) -> String {
    let minus = random.percent(40);
    let end = match random.below(100) {
        0..=9 => 10_000,
        10..=69 => 100_000,
        98..=99 if !minus => 10_000_000,
        _ => 1_000_000,
    };
    let magnitude = random.below(end);
    let sign = if minus { "-" } else { "" };
    format!("{sign}{}.{:03}", magnitude / 1000, magnitude % 1000)
}

fn b_factor(random: &mut Random) -> String {
    let end = if random.percent(95) { 10_000 } else { 100_000 };
    let hundredths = random.below(end);
    format!("{:>3}.{:02}", hundredths / 100, hundredths % 100)
}

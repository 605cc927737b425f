//! The inputs of a run. A case is a function of the seed and its index alone.
//!
//! Sections that can be counted come first. Together they are at most half of the run: where they
//! would be more, the large ones are evenly thinned. The rest of the run is drawn at random.

use crate::random::Random;
use crate::tables::{self, Tables};

mod counted;
mod drawn;
mod records;
mod texts;

/// What both sides are handed.
#[derive(Clone, Debug)]
pub struct Input {
    pub line: Vec<u8>,
    pub number: usize,
    /// Bit 0 atoms only, bit 1 loose, bit 3 exponents. Bit 2 would be wwPDB mode, which the Rust
    /// doesn't have.
    pub options: u32,
    /// The remark table, as its place in `Tables`.
    pub table: usize,
    /// How many bytes of output are lent.
    pub room: usize,
    pub task: Task,
}

/// What is asked of the port, as serve has it in the bits behind the options.
#[derive(Clone, Copy, Debug, PartialEq, Eq, PartialOrd, Ord)]
pub enum Task {
    List = 0,
    /// To write the record, in the format's places.
    Write = 1,
    /// To write it, each real in as many places as it was read with.
    WriteAsRead = 3,
}

impl Input {
    pub fn new() -> Self {
        Input {
            line: Vec::with_capacity(2048),
            number: 1,
            options: 0,
            table: tables::CRATE,
            room: ROOM,
            task: Task::List,
        }
    }

    pub fn atoms_only(&self) -> bool {
        self.options % 2 == 1
    }

    pub fn loose(&self) -> bool {
        self.options / 2 % 2 == 1
    }

    pub fn exponents(&self) -> bool {
        self.options / 8 % 2 == 1
    }
}

/// The bit of the options that takes exponents.
pub const EXPONENTS: u32 = 8;

/// Room for every listing.
pub const ROOM: usize = 4096;

/// How a section makes its case number `at`.
type Make = fn(&mut Input, u64, &mut Random);

/// A section: its name, its size or its share, and its cases.
type Section = (&'static str, u64, Make);

/// The cases of a run.
pub struct Plan {
    pub seed: u64,
    pub count: u64,
    /// Lines of files that were named: each as it stands, then damaged copies among the others.
    files: Vec<Vec<u8>>,
    /// The counted sections, each with how many of its cases are run.
    counted: Vec<(Section, u64)>,
    /// The sections that are drawn from, with their shares in a hundred.
    drawn: &'static [Section],
    /// Whether every second case takes exponents.
    exponents: bool,
}

impl Plan {
    /// Lines to list.
    pub fn new(seed: u64, count: u64, files: Vec<Vec<u8>>) -> Self {
        let plan = Plan::over(counted::sections(), drawn::SECTIONS, seed, count, files);
        Plan { exponents: true, ..plan }
    }

    /// Lines whose records are written. They take no exponents: the promise of the same bits is for
    /// fields without one.
    pub fn records(seed: u64, count: u64, files: Vec<Vec<u8>>) -> Self {
        Plan::over(records::sections(), records::SECTIONS, seed, count, files)
    }

    fn over(
        sections: Vec<Section>,
        drawn: &'static [Section],
        seed: u64,
        count: u64,
        files: Vec<Vec<u8>>,
    ) -> Self {
        // The largest share that keeps the sum of all within half of the run.
        let sum = |share| sections.iter().map(|section| section.1.min(share)).sum::<u64>();
        let (mut share, mut too_much) = (0, count / 2 + 1);
        while share + 1 < too_much {
            let middle = (share + too_much) / 2;
            match sum(middle) <= count / 2 {
                true => share = middle,
                false => too_much = middle,
            }
        }
        Plan {
            seed,
            count,
            files,
            counted: sections.into_iter().map(|section| (section, section.1.min(share))).collect(),
            drawn,
            exponents: false,
        }
    }

    /// The names of the sections, with how many cases of each are run.
    pub fn sections(&self) -> Vec<(&'static str, u64)> {
        let mut all = vec![("lines of files", self.from_files().min(self.count))];
        all.extend(self.counted.iter().map(|(section, taken)| (section.0, *taken)));
        let sum: u64 = all.iter().map(|section| section.1).sum();
        all.push(("drawn at random", self.count.saturating_sub(sum)));
        all
    }

    fn from_files(&self) -> u64 {
        4 * self.files.len() as u64
    }

    /// Makes one case, but for its task.
    pub fn make(&self, index: u64, input: &mut Input) {
        let mut random = Random::new(self.seed, index);
        self.make_with(index, input, &mut random);
        if self.exponents && random.percent(50) {
            input.options |= EXPONENTS;
        }
    }

    fn make_with(&self, index: u64, input: &mut Input, random: &mut Random) {
        input.line.clear();
        input.number = line_number(random);
        input.options = random.pick(&[0, 0, 0, 0, 2, 2, 2, 1, 3]);
        input.table = Tables::pick(random);
        input.room = match random.below(100) {
            0 => random.index(400),
            _ => ROOM,
        };

        let mut at = index;
        if at < self.from_files() {
            input.options = (at % 4) as u32;
            input.line.extend_from_slice(&self.files[(at / 4) as usize]);
            return;
        }
        at -= self.from_files();
        for ((_, size, make), taken) in &self.counted {
            if at < *taken {
                return make(input, spread(at, *taken, *size, self.seed), random);
            }
            at -= taken;
        }
        if !self.files.is_empty() && random.percent(25) {
            let line = &self.files[random.index(self.files.len())];
            input.line.extend_from_slice(line);
            return texts::damage(&mut input.line, random);
        }
        let mut share = random.below(100);
        for (_, part, make) in self.drawn {
            if share < *part {
                return make(input, 0, random);
            }
            share -= part;
        }
    }
}

/// The case of a thinned section that stands at `at` among those taken.
fn spread(at: u64, taken: u64, size: u64, seed: u64) -> u64 {
    if taken == size {
        return at;
    }
    let step = (u128::from(at) * u128::from(size) / u128::from(taken)) as u64;
    (step + seed % size) % size
}

fn line_number(random: &mut Random) -> usize {
    match random.below(16) {
        0 => random.next() as usize,
        1 => random.pick(&[0, 1, 9, 10, 99, 100, 65536, usize::MAX, usize::MAX - 1, 1 << 63]),
        _ => 1 + random.index(99999),
    }
}

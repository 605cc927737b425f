//! What things are called: the tables of include/saltighedda_fields.h, which the C header and the other hosts share. The file itself is
//! read, while compiling where a struct's members are tied to their columns, so that a member that the table hasn't is an error then.

const TEXT: &[u8] = include_bytes!("../../../include/saltighedda_fields.h");

/// Whether a word stands at a place of the text.
const fn stands(at: usize, word: &[u8]) -> bool {
    let mut i = 0;
    while i < word.len() {
        if at + i >= TEXT.len() || TEXT[at + i] != word[i] {
            return false;
        }
        i += 1;
    }
    true
}

/// Where the lines that define something begin; they are looked for once, since the compiler is slow at it.
const DEFINED: [usize; 32] = {
    let mut found = [TEXT.len(); 32];
    let (mut at, mut n) = (0, 0);
    while at < TEXT.len() {
        if TEXT[at] == b'#' && TEXT[at + 1] == b'd' {
            found[n] = at;
            n += 1;
        }
        at += 1;
    }
    found
};

/// Where a table begins, behind its name.
const fn table(name: &[u8], end: &[u8]) -> usize {
    let prefix = b"#define SALTIGHEDDA_";
    let mut n = 0;
    while n < DEFINED.len() {
        let at = DEFINED[n] + prefix.len();
        if stands(at, name) && stands(at + name.len(), end) {
            return at + name.len() + end.len();
        }
        n += 1;
    }
    panic!("no such table")
}

/// The place behind the next row's opening parenthesis, or None if the table has ended.
const fn next_row(mut at: usize) -> Option<usize> {
    while at + 1 < TEXT.len() {
        if TEXT[at] == b'\n' && TEXT[at + 1] == b'\n' {
            return None;
        }
        if TEXT[at] == b'(' {
            return Some(at + 1);
        }
        at += 1;
    }
    None
}

/// The place behind the next comma and blank.
const fn next_word(mut at: usize) -> usize {
    while TEXT[at] != b',' {
        at += 1;
    }
    at + 2
}

const fn number(mut at: usize) -> u16 {
    let mut n = 0;
    while TEXT[at].is_ascii_digit() {
        n = 10 * n + (TEXT[at] - b'0') as u16;
        at += 1;
    }
    n
}

const fn word_is(at: usize, word: &[u8]) -> bool {
    stands(at, word) && matches!(TEXT[at + word.len()], b',' | b')')
}

/// The end of a row, so that the names in it aren't taken for rows.
const fn row_end(mut at: usize) -> usize {
    while TEXT[at] != b'\n' {
        at += 1;
    }
    at
}

/// The columns of a list's member: its first, and the one behind its last.
pub const fn columns(list: &str, member: &str) -> (u16, u16) {
    let mut at = table(list.as_bytes(), b"_FIELDS(F)");
    while let Some(row) = next_row(at) {
        let name = next_word(row);
        if word_is(name, member.as_bytes()) {
            let first = next_word(name);
            return (number(first), number(next_word(first)));
        }
        at = row_end(row);
    }
    panic!("no such field")
}

/// The number of a kind.
pub const fn kind(name: &str) -> u8 {
    let mut at = table(b"KIND_TABLE", b"(K)");
    while let Some(row) = next_row(at) {
        if word_is(next_word(row), name.as_bytes()) {
            return number(row) as u8;
        }
        at = row_end(row);
    }
    panic!("no such kind")
}

fn word(at: usize) -> &'static str {
    let end = (at..).find(|&i| matches!(TEXT[i], b',' | b')')).unwrap_or(at);
    std::str::from_utf8(&TEXT[at..end]).unwrap_or_default()
}

fn quoted(at: usize) -> &'static str {
    let end = (at + 1..).find(|&i| TEXT[i] == b'"').unwrap_or(at + 1);
    std::str::from_utf8(&TEXT[at + 1..end]).unwrap_or_default()
}

fn rows(from: usize) -> impl Iterator<Item = usize> {
    std::iter::successors(next_row(from), |&row| next_row(row_end(row)))
}

/// The name of a kind by its number, and the list of its fields.
pub fn kind_row(kind: u8) -> Option<(&'static str, &'static str)> {
    rows(table(b"KIND_TABLE", b"(K)"))
        .find(|&row| number(row) == kind.into())
        .map(|row| (word(next_word(row)), word(next_word(next_word(row)))))
}

/// The name of the field of a kind that a column belongs to.
pub fn field_name(kind: u8, column: u16) -> Option<&'static str> {
    let (_, list) = kind_row(kind)?;
    if list == "NO" {
        return None;
    }
    rows(table(list.as_bytes(), b"_FIELDS(F)")).find_map(|row| {
        let first = next_word(next_word(row));
        let end = next_word(first);
        (number(first) <= column && column < number(end)).then(|| quoted(next_word(end)))
    })
}

/// A fault or a refusal in words, by its number.
pub fn words(name: &str, n: u16) -> Option<&'static str> {
    rows(table(name.as_bytes(), b"_TABLE(N)"))
        .find(|&row| number(row) == n)
        .map(|row| quoted(next_word(row)))
}

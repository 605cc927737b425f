//! The rows of a listing, as 01 writes them ('Listing'), on a page that is used again and again.

/// Bytes of rows. Every row ends with LF.
pub struct Page {
    pub bytes: Vec<u8>,
}

impl Page {
    pub fn new() -> Self {
        Page { bytes: Vec::with_capacity(4096) }
    }

    pub fn clear(&mut self) {
        self.bytes.clear();
    }

    pub fn put(&mut self, text: &str) {
        self.bytes.extend_from_slice(text.as_bytes());
    }

    pub fn end(&mut self) {
        self.bytes.push(b'\n');
    }

    pub fn decimal(&mut self, number: u64) {
        let mut digits = [0; 20];
        let mut at = digits.len();
        let mut rest = number;
        loop {
            at -= 1;
            digits[at] = b'0' + (rest % 10) as u8;
            rest /= 10;
            if rest == 0 {
                break;
            }
        }
        self.bytes.extend_from_slice(&digits[at..]);
    }

    fn name(&mut self, column: usize) {
        self.bytes.push(b'f');
        self.decimal(column as u64);
        self.bytes.push(b'=');
    }

    pub fn unsigned(&mut self, column: usize, value: usize) {
        self.name(column);
        self.decimal(value as u64);
        self.end();
    }

    pub fn signed(&mut self, column: usize, value: isize) {
        self.name(column);
        if value < 0 {
            self.bytes.push(b'-');
        }
        self.decimal(value.unsigned_abs() as u64);
        self.end();
    }

    /// The 16 upper-case hexadecimal digits of a double's bits.
    pub fn real(&mut self, column: usize, value: f64) {
        self.name(column);
        let bits = value.to_bits();
        for at in (0..16).rev() {
            self.bytes.push(HEX[(bits >> (4 * at)) as usize % 16]);
        }
        self.end();
    }

    /// Bytes 32 to 126 stay, but for `%`; that and all others are escaped.
    pub fn text(&mut self, column: usize, value: &str) {
        self.name(column);
        self.escaped(value.as_bytes());
        self.end();
    }

    pub fn escaped(&mut self, text: &[u8]) {
        for byte in text {
            match byte {
                b'%' | 0..=31 | 127.. => {
                    let high = HEX[usize::from(byte / 16)];
                    let low = HEX[usize::from(byte % 16)];
                    self.bytes.extend_from_slice(&[b'%', high, low]);
                }
                _ => self.bytes.push(*byte),
            }
        }
    }

    pub fn character(&mut self, column: usize, value: char) {
        self.text(column, value.encode_utf8(&mut [0; 4]));
    }

    /// A field that may be absent, and then has no row.
    pub fn optional(&mut self, column: usize, value: &Option<String>) {
        if let Some(value) = value {
            self.text(column, value);
        }
    }

    pub fn given(&mut self, column: usize, value: bool) {
        self.unsigned(column, usize::from(value));
    }

    pub fn record(&mut self, name: &str, line: usize) {
        self.put("record=");
        self.put(name);
        self.put("\nline=");
        self.decimal(line as u64);
        self.end();
    }

    pub fn faults(&mut self, count: usize) {
        self.put("faults=");
        self.decimal(count as u64);
        self.end();
    }

    /// `name=number,place,length`, for a fault or a refusal.
    pub fn three(&mut self, name: &str, number: usize, place: usize, length: usize) {
        self.put(name);
        self.bytes.push(b'=');
        self.decimal(number as u64);
        self.bytes.push(b',');
        self.decimal(place as u64);
        self.bytes.push(b',');
        self.decimal(length as u64);
        self.end();
    }
}

const HEX: &[u8; 16] = b"0123456789ABCDEF";

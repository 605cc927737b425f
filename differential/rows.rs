// The rows that the Rust collects, of temporary_structs.rs as it stands: drawn rows are handed to it one by one, and for each it is printed whether
// there is a matrix, and which. `tests/rows.c` hands the same rows to the port and has to print the same.
#[derive(Clone, Copy)]
pub struct TransformationMatrix([[f64; 4]; 3]);

impl TransformationMatrix {
    pub const fn from_matrix(matrix: [[f64; 4]; 3]) -> Self {
        TransformationMatrix(matrix)
    }
}

#[allow(dead_code)]
mod temporary {
    include!(concat!(env!("PDBTBX_SRC"), "/src/read/pdb/temporary_structs.rs"));
}

// Marsaglia's xorshift, as in the C program.
struct Drawn(u64);

impl Drawn {
    fn next(&mut self) -> u64 {
        self.0 ^= self.0 << 13;
        self.0 ^= self.0 >> 7;
        self.0 ^= self.0 << 17;
        self.0
    }
}

fn main() {
    let mut drawn = Drawn(88172645463325252);
    for _ in 0..20000 {
        let mut rows = temporary::BuildUpMatrix::empty();
        for _ in 0..drawn.next() % 8 {
            let row = (drawn.next() % 3) as usize;
            let data = [0; 4].map(|_: u8| f64::from_bits(drawn.next()));
            rows.set_row(row, data);
            match rows.get_matrix() {
                Some(TransformationMatrix(matrix)) => {
                    let bits: Vec<String> = matrix.iter().flatten().map(|x| format!("{:016X}", x.to_bits())).collect();
                    println!("{}", bits.join(" "));
                }
                None => println!("none"),
            }
        }
    }
}

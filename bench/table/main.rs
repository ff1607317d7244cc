//! Reading a product code into tables, from the static library and in plain Rust, in one run.
//! The seed is 32 by 32 with four ones in each row and column: 2,048 qubits, 1,024 checks and 1,024 generators of 8 qubits.
use std::hint::black_box;
use std::time::{Duration, Instant};

const SIZE: u16 = 32;
const ONES: [u16; 4] = [0, 1, 5, 14];
const TIMES: u16 = 200;
const ROUNDS: usize = 15;

/// The place of a one in a seed, as the library has it.
#[repr(C)]
#[derive(Clone, Copy)]
struct Place {
    row: u16,
    column: u16,
}

unsafe extern "C" {
    fn tables_of_product(rows: u16, columns: u16, ones: *const Place, count: usize, times: u16) -> u16;
}

/// Row a has its ones at the columns a + d (mod 32), so each column has four ones too.
fn seed() -> Vec<Place> {
    let mut ones = Vec::new();
    for row in 0..SIZE {
        let mut columns = ONES.map(|d| (row + d) % SIZE);
        columns.sort_unstable();
        ones.extend(columns.map(|column| Place { row, column }));
    }
    ones
}

/// The seed by its rows and by its columns, as words.
struct Product {
    rows: [u32; 32],
    columns: [u32; 32],
}

impl Product {
    fn new(ones: &[Place]) -> Product {
        let mut code = Product { rows: [0; 32], columns: [0; 32] };
        for p in ones {
            code.rows[p.row as usize] |= 1 << p.column;
            code.columns[p.column as usize] |= 1 << p.row;
        }
        code
    }
}

/// Rows of numbers end to end: row k ends at the place `ends[k]`.
struct Rows {
    places: Vec<u16>,
    ends: Vec<u32>,
}

impl Rows {
    fn row(&self, k: usize) -> &[u16] {
        let start = if k == 0 { 0 } else { self.ends[k - 1] };
        &self.places[start as usize..self.ends[k] as usize]
    }

    /// For each number below `columns` the rows that name it, by counting.
    fn crossing(&self, columns: usize) -> Rows {
        let mut ends = vec![0u32; columns];
        for &q in &self.places {
            ends[q as usize] += 1;
        }
        let mut start = 0;
        for end in &mut ends {
            start += std::mem::replace(end, start);
        }
        let mut places = vec![0; self.places.len()];
        for k in 0..self.ends.len() {
            for &q in self.row(k) {
                places[ends[q as usize] as usize] = k as u16;
                ends[q as usize] += 1;
            }
        }
        Rows { places, ends }
    }
}

/// Made to be timed; only the sides are read.
#[allow(dead_code)]
struct Table {
    checks: Rows,
    generators: Rows,
    checks_at: Rows,
    generators_at: Rows,
    sides: Vec<bool>,
}

fn tell(list: &mut Vec<u16>, mut word: u32, first: u16, step: u16) {
    while word != 0 {
        list.push(first + word.trailing_zeros() as u16 * step);
        word &= word - 1;
    }
}

fn rows_of(code: &Product, generators: bool) -> Rows {
    let mut rows = Rows { places: Vec::new(), ends: Vec::with_capacity(1024) };
    for k in 0..SIZE * SIZE {
        let (x, y) = (k / SIZE, k % SIZE);
        if generators {
            tell(&mut rows.places, code.rows[x as usize], y, SIZE);
            tell(&mut rows.places, code.columns[y as usize], SIZE * SIZE + x * SIZE, 1);
        } else {
            tell(&mut rows.places, code.rows[y as usize], x * SIZE, 1);
            tell(&mut rows.places, code.columns[x as usize], SIZE * SIZE + y, SIZE);
        }
        rows.ends.push(rows.places.len() as u32);
    }
    rows
}

fn plain(code: &Product) -> Table {
    let qubits = 2 * SIZE as usize * SIZE as usize;
    let sides = (0..qubits).map(|q| q >= qubits / 2).collect();
    let checks = rows_of(code, false);
    let generators = rows_of(code, true);
    let checks_at = checks.crossing(qubits);
    let generators_at = generators.crossing(qubits);
    Table { checks, generators, checks_at, generators_at, sides }
}

fn median(mut times: Vec<Duration>) -> f64 {
    times.sort();
    times[times.len() / 2].as_secs_f64() * 1e6 / TIMES as f64
}

fn main() {
    let ones = seed();
    let code = Product::new(&ones);
    let (mut ours, mut theirs) = (Vec::new(), Vec::new());
    for _ in 0..ROUNDS {
        let start = Instant::now();
        let a = unsafe { tables_of_product(SIZE, SIZE, ones.as_ptr(), ones.len(), TIMES) };
        ours.push(start.elapsed());
        let start = Instant::now();
        let mut b = 0;
        for _ in 0..TIMES {
            let table = black_box(plain(black_box(&code)));
            b = table.sides.len() as u16;
        }
        theirs.push(start.elapsed());
        if a != b {
            println!("the answers differ: {a} and {b}");
            std::process::exit(1);
        }
    }
    let (ours, theirs) = (median(ours), median(theirs));
    println!("a table: {ours:.1} microseconds, plain Rust {theirs:.1}, ratio {:.2}", ours / theirs);
}

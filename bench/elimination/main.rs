//! Elimination from the static library against the same in plain Rust with packed words, in one run.
//! Both read a system as a stream: the unknowns of a check, then 65535 if it is odd or 65534 if it is even.
use std::time::{Duration, Instant};

unsafe extern "C" {
    fn eliminate(unknowns: u16, checks: *const u16, words: usize, times: u16) -> u16;
}

const UNKNOWNS: usize = 256;
const CHECKS: usize = 512;
const TIMES: u16 = 50;
const ROUNDS: usize = 9;

/// Pseudo-random numbers (xorshift), the same in every run.
struct Random(u64);

impl Random {
    fn below(&mut self, n: u64) -> u64 {
        self.0 ^= self.0 << 13;
        self.0 ^= self.0 >> 7;
        self.0 ^= self.0 << 17;
        (self.0 >> 11) % n
    }
}

/// Checks that a hidden solution meets, so that none contradicts the others. `each` is the number of unknowns in a check, or none for about half of them.
fn system(seed: u64, each: Option<usize>) -> Vec<u16> {
    let mut random = Random(seed);
    let hidden: Vec<bool> = (0..UNKNOWNS).map(|_| random.below(2) == 1).collect();
    let mut words = Vec::new();
    for _ in 0..CHECKS {
        let mut places: Vec<usize> = match each {
            Some(k) => (0..k).map(|_| random.below(UNKNOWNS as u64) as usize).collect(),
            None => (0..UNKNOWNS).filter(|_| random.below(2) == 1).collect(),
        };
        places.sort_unstable();
        places.dedup();
        let odd = places.iter().filter(|&&p| hidden[p]).count() % 2 == 1;
        words.extend(places.iter().map(|&p| p as u16));
        words.push(if odd { 65535 } else { 65534 });
    }
    words
}

/// A row of 256 coefficients, the highest unknown in the lowest bit, and a right side: five words.
type Packed = [u64; 5];

struct Plain {
    rows: Vec<Packed>,
    used: Vec<bool>,
    least: Vec<bool>,
}

impl Plain {
    fn solve(&mut self, checks: &[u16]) -> u16 {
        self.used.fill(false);
        let mut row: Packed = [0; 5];
        let mut solvable = true;
        for &word in checks {
            if word < 65534 {
                let column = UNKNOWNS - 1 - word as usize;
                row[column / 64] ^= 1 << (column % 64);
                continue;
            }
            row[4] = (word == 65535) as u64;
            solvable &= self.insert(&mut row);
            row = [0; 5];
        }
        if !solvable {
            return 1;
        }
        self.read();
        self.used.iter().filter(|used| !**used).count() as u16 + 2
    }

    /// False where the row contradicts those before.
    fn insert(&mut self, row: &mut Packed) -> bool {
        for word in 0..4 {
            while row[word] != 0 {
                let column = 64 * word + row[word].trailing_zeros() as usize;
                if !self.used[column] {
                    self.rows[column] = *row;
                    self.used[column] = true;
                    return true;
                }
                for k in word..5 {
                    row[k] ^= self.rows[column][k];
                }
            }
        }
        row[4] == 0
    }

    /// The least solution, every free unknown zero.
    fn read(&mut self) {
        let mut x: [u64; 4] = [0; 4];
        for column in (0..UNKNOWNS).rev() {
            if self.used[column] {
                let row = &self.rows[column];
                let ones: u32 = (0..4).map(|k| (row[k] & x[k]).count_ones()).sum();
                if (ones as u64 + row[4]) % 2 == 1 {
                    x[column / 64] |= 1 << (column % 64);
                }
            }
        }
        for p in 0..UNKNOWNS {
            let column = UNKNOWNS - 1 - p;
            self.least[p] = x[column / 64] >> (column % 64) & 1 == 1;
        }
    }
}

fn median(mut times: Vec<Duration>) -> f64 {
    times.sort();
    times[times.len() / 2].as_secs_f64() * 1e6 / TIMES as f64
}

fn main() {
    for (name, each) in [("dense", None), ("sparse", Some(3))] {
        let checks = system(0x9e37_79b9_7f4a_7c15, each);
        let mut plain = Plain {
            rows: vec![[0; 5]; UNKNOWNS],
            used: vec![false; UNKNOWNS],
            least: vec![false; UNKNOWNS],
        };
        let (mut ours, mut theirs) = (Vec::new(), Vec::new());
        for _ in 0..ROUNDS {
            let start = Instant::now();
            let a = unsafe { eliminate(UNKNOWNS as u16, checks.as_ptr(), checks.len(), TIMES) };
            ours.push(start.elapsed());
            let start = Instant::now();
            let mut b = 0;
            for _ in 0..TIMES {
                b = std::hint::black_box(plain.solve(std::hint::black_box(&checks)));
            }
            theirs.push(start.elapsed());
            if a != b || a < 2 {
                println!("{name}: the answers differ: {a} and {b}");
                std::process::exit(1);
            }
        }
        let (ours, theirs) = (median(ours), median(theirs));
        println!("{name}: {ours:.0} microseconds, packed words {theirs:.0}, ratio {:.1}", ours / theirs);
    }
}

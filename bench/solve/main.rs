//! What a solve costs, by the size of its code and by that of its cluster. The run stage with only solving on, of a report whose lost qubits are one
//! cluster: one solve, and nothing to settle, since no qubit of the other side is lost.
use std::hint::black_box;
use std::time::Instant;

#[path = "../runs.rs"]
mod runs;

use runs::{Place, runs};

const ROUNDS: usize = 15;
const TIMES: u16 = 2000;

/// Two ones in each row, at the columns a and a + 1 (mod n): the qubits of a grid line with one seed row in common touch, one after the other.
fn seed(n: u16) -> Vec<Place> {
    let mut ones = Vec::new();
    for row in 0..n {
        let mut columns = [row, (row + 1) % n];
        columns.sort_unstable();
        ones.extend(columns.map(|column| Place { row, column }));
    }
    ones
}

fn seconds(n: u16, lost: &[u16], switches: u16) -> f64 {
    let ones = seed(n);
    let start = Instant::now();
    let answer = runs(n, n, &ones, lost, &[], switches, TIMES);
    black_box(answer);
    start.elapsed().as_secs_f64()
}

fn median(mut values: Vec<f64>) -> f64 {
    values.sort_by(f64::total_cmp);
    values[values.len() / 2]
}

/// Microseconds that a run with solving on takes more than one with nothing on.
fn solve(n: u16, cluster: u16) -> f64 {
    let lost: Vec<u16> = (0..cluster).collect();
    let more = (0..ROUNDS).map(|_| seconds(n, &lost, 4) - seconds(n, &lost, 0)).collect();
    median(more) * 1e6 / f64::from(TIMES)
}

fn main() {
    println!("a cluster of 4 qubits, by the code");
    for n in [8, 12, 16, 24, 32] {
        println!("{:>6} qubits {:>8.2} microseconds", 2 * n * n, solve(n, 4));
    }
    println!("on the code of 2048 qubits, by the cluster");
    for cluster in [1, 2, 4, 8, 16, 31] {
        println!("{cluster:>6} qubits {:>8.2} microseconds", solve(32, cluster));
    }
}

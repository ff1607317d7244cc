//! The run stage of each trial file of a folder: on a table that is made once, as long as a whole trial takes less what the same trial takes with
//! all switches off (opening, copying out and closing).
use std::hint::black_box;
use std::time::Instant;

#[path = "../runs.rs"]
mod runs;

use runs::{Place, runs};

const ROUNDS: usize = 9;

/// A trial file, as far as it is accepted.
struct File {
    rows: u16,
    columns: u16,
    ones: Vec<Place>,
    lost: Vec<u16>,
    odd: Vec<u16>,
    switches: u16,
}

/// The numbers of a section, which begins with its word and their count.
fn section(words: &mut std::str::SplitWhitespace, name: &str) -> Vec<u16> {
    assert_eq!(words.next(), Some(name));
    let count: usize = words.next().unwrap().parse().unwrap();
    (0..count).map(|_| words.next().unwrap().parse().unwrap()).collect()
}

fn read(text: &str) -> File {
    let words = &mut text.split_whitespace();
    let seed = section(words, "seed");
    let ones = section(words, "ones").chunks(2).map(|p| Place { row: p[0], column: p[1] }).collect();
    let lost = section(words, "erased");
    let odd = section(words, "odd");
    let switches = section(words, "stages")[0];
    File { rows: seed[0], columns: seed[1], ones, lost, odd, switches }
}

fn seconds(file: &File, switches: u16, times: u16) -> (f64, u16) {
    let start = Instant::now();
    let answer = runs(file.rows, file.columns, &file.ones, &file.lost, &file.odd, switches, times);
    (start.elapsed().as_secs_f64(), black_box(answer))
}

fn median(mut values: Vec<f64>) -> f64 {
    values.sort_by(f64::total_cmp);
    values[values.len() / 2]
}

/// Microseconds for one trial on a table that is there: of many trials less those of one, so that the table does not count.
fn trial(file: &File, switches: u16, times: u16) -> f64 {
    let taken = (0..ROUNDS).map(|_| seconds(file, switches, times).0 - seconds(file, switches, 1).0).collect();
    median(taken) * 1e6 / f64::from(times - 1)
}

fn main() {
    let folder = std::env::args().nth(1).expect("a folder of trial files");
    let mut names: Vec<_> = std::fs::read_dir(&folder)
        .unwrap()
        .map(|entry| entry.unwrap().path())
        .filter(|path| path.extension().is_some_and(|e| e == "in"))
        .collect();
    names.sort();
    for name in names {
        let file = read(&std::fs::read_to_string(&name).unwrap());
        let one = seconds(&file, file.switches, 2).0.max(1e-6);
        let times = (0.02 / one).clamp(20.0, 2000.0) as u16;
        let whole = trial(&file, file.switches, times);
        let bare = trial(&file, 0, times);
        println!("{} {:.2} {:.2}", name.file_stem().unwrap().to_str().unwrap(), whole - bare, bare);
    }
}

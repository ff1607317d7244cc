//! Prints the lines of the trial file on standard input. An argument sets the size of the output buffer.
use std::io::{self, Read, Write};
use std::process::ExitCode;

/// How many bytes the output buffer has to have, at least.
const ROOM: usize = 65536;
/// One byte more than is ever taken, so that a longer file is seen to be one.
const ENOUGH: u64 = 32769;

unsafe extern "C" {
    fn pearprompt_decode(file: *const u8, file_len: usize, out: *mut u8, out_len: usize) -> usize;
}

/// The lines of a file, in the buffer; none where the buffer is too short, or memory is wanting.
fn decode<'a>(file: &[u8], out: &'a mut [u8]) -> Option<&'a [u8]> {
    // SAFETY: each pointer goes with the length of its slice, and the slices do not overlap.
    let written = unsafe { pearprompt_decode(file.as_ptr(), file.len(), out.as_mut_ptr(), out.len()) };
    (written > 0).then(|| &out[..written])
}

fn main() -> io::Result<ExitCode> {
    let room = std::env::args().nth(1).and_then(|room| room.parse().ok()).unwrap_or(ROOM);
    let mut file = Vec::new();
    io::stdin().take(ENOUGH).read_to_end(&mut file)?;
    let mut out = vec![0; room];
    let Some(lines) = decode(&file, &mut out) else {
        eprintln!("no lines: the buffer is too short, or memory is wanting");
        return Ok(ExitCode::FAILURE);
    };
    io::stdout().write_all(lines)?;
    Ok(ExitCode::SUCCESS)
}

//! Strips standard input of its terminal escapes, to standard output.
//!
//! Usage: filter [BYTES]     takes 1 to 4096 bytes at once, 4096 with no word
//!
//! What comes is handed on before more is waited for, so a line is seen when it is written. Ends
//! with status 1 where reading or writing fails, with 2 for other words, and says so.

mod common;

use ansi_proved::Stripper;
use std::io::Write;
use std::process::ExitCode;

fn main() -> ExitCode {
    let mut stripper = Stripper::new();
    common::run("filter", &mut |piece, output| match piece {
        Some(bytes) => stripper.strip(bytes, |text| output.write_all(text)),
        None => stripper.end(|text| output.write_all(text)),
    })
}

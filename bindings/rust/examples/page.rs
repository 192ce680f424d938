//! Writes standard input as HTML, to standard output: a fragment for a `<pre>`.
//!
//! Usage: page [BYTES]     takes 1 to 4096 bytes at once, 4096 with no word
//!
//! What comes is handed on before more is waited for, so a line is seen when it is written. Ends
//! with status 1 where reading or writing fails, with 2 for other words, and says so.

mod common;

use ansi_proved::{Converter, Styling};
use std::io::Write;
use std::process::ExitCode;

fn main() -> ExitCode {
    let mut converter = Converter::new(Styling::Both);
    common::run("page", &mut |piece, output| match piece {
        Some(bytes) => converter.convert(bytes, |html| output.write_all(html)),
        None => converter.end(|html| output.write_all(html)),
    })
}

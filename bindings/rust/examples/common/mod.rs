//! What filter and page share: the word that they are given, and a loop that reads, converts and writes.

use std::env;
use std::io::{self, ErrorKind, Read, StdoutLock, Write};
use std::process::ExitCode;

const MOST: usize = 4096;

/// How many bytes are taken at once: 1 to [`MOST`].
fn most() -> Option<usize> {
    let mut words = env::args_os().skip(1);
    let most = match words.next() {
        Some(word) => word.to_str()?.parse().ok()?,
        None => MOST,
    };
    (words.next().is_none() && (1..=MOST).contains(&most)).then_some(most)
}

/// What writes to standard output, of a piece that was read or, of `None`, of the end.
pub type Convert<'a> = &'a mut dyn FnMut(Option<&[u8]>, &mut StdoutLock) -> io::Result<()>;

fn convert_all(most: usize, convert: Convert) -> io::Result<()> {
    let mut bytes = [0; MOST];
    let (mut input, mut output) = (io::stdin().lock(), io::stdout().lock());
    loop {
        let count = match input.read(&mut bytes[..most]) {
            Ok(0) => break,
            Ok(count) => count,
            Err(error) if error.kind() == ErrorKind::Interrupted => continue,
            Err(error) => return Err(error),
        };
        convert(Some(&bytes[..count]), &mut output)?;
        output.flush()?;
    }
    convert(None, &mut output)?;
    output.flush()
}

/// Converts standard input piece by piece, each before more is waited for; answers the status, and says why it is not 0.
pub fn run(name: &str, convert: Convert) -> ExitCode {
    let Some(most) = most() else {
        eprintln!("usage: {name} [BYTES]     BYTES is 1 to {MOST}");
        return ExitCode::from(2);
    };
    match convert_all(most, convert) {
        Ok(()) => ExitCode::SUCCESS,
        Err(error) => {
            eprintln!("{name}: {error}");
            ExitCode::FAILURE
        }
    }
}

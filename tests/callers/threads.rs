//! Streams in eight threads at once, each by `Stripper` of bindings/rust: each has its own
//! text, and the program takes no more memory for more calls.
use ansi_proved::Stripper;
use std::convert::Infallible;
use std::thread;

const CALLS: usize = 20_000;
const MEMORY: usize = 64 << 10; // kilobytes: eight threads' calls have 655 MB of rooms

/// Strips lines of one letter, and counts those whose text is another.
fn wrong_lines(letter: u8) -> usize {
    let text = [[letter; 200].as_slice(), b"\n"].concat();
    let line = [b"\x1b[1;31m".as_slice(), &text[..100], b"\x1b]0;title\x07", &text[100..]].concat();
    let mut stripper = Stripper::new();
    let mut wrong = 0;
    for _ in 0..CALLS {
        let mut found = Vec::new();
        let done: Result<(), Infallible> = stripper.strip(&line, |part| {
            thread::yield_now();
            found.extend_from_slice(part);
            Ok(())
        });
        wrong += usize::from(done.is_err() || found != text);
    }
    wrong
}

/// The most memory that the process had, in kilobytes.
fn most_memory() -> usize {
    let status = std::fs::read_to_string("/proc/self/status").expect("Linux");
    let line = status.lines().find(|line| line.starts_with("VmHWM:")).expect("Linux");
    line.split_whitespace().nth(1).and_then(|word| word.parse().ok()).expect("a number")
}

fn main() {
    let threads: Vec<_> = (b'a'..=b'h').map(|letter| thread::spawn(move || wrong_lines(letter))).collect();
    let wrong: usize = threads.into_iter().map(|it| it.join().expect("no panic")).sum();
    assert_eq!(wrong, 0, "lines whose text is another");
    let memory = most_memory();
    assert!(memory < MEMORY, "{memory} kB of memory");
}

//! The memory that is taken: one test at a time, in a process where nothing else runs.
#![cfg(target_os = "linux")]

use ansi_proved::{events, Event};
use std::fs;
use std::sync::Mutex;

static ALONE: Mutex<()> = Mutex::new(());

/// How many kilobytes the process has, or had at most, by the name of the kernel for that.
fn memory(name: &str) -> usize {
    let status = fs::read_to_string("/proc/self/status").unwrap();
    let line = status.lines().find(|line| line.starts_with(name)).unwrap();
    line.split_whitespace().nth(1).unwrap().parse().unwrap()
}

/// A million events and more of one piece: as few as are asked for are made.
#[test]
fn the_events_of_a_large_piece_wait_in_it() {
    let _alone = ALONE.lock().unwrap();
    let piece = b"\x1b[1mA\n".repeat(400_000);
    let before = memory("VmHWM");
    assert_eq!(events([&piece]).filter(|event| *event == Event::Execute(b'\n')).count(), 400_000);
    let more = memory("VmHWM").saturating_sub(before);
    assert!(more < 5_000, "{more} kB more");
}

/// Each of these screens has more than 3 megabytes.
#[cfg(feature = "screen")]
#[test]
fn a_screen_that_goes_gives_its_memory_back() {
    let _alone = ALONE.lock().unwrap();
    let before = memory("VmRSS");
    for _ in 0..50 {
        let mut screen = ansi_proved::screen::Screen::new(300, 300).unwrap();
        screen.feed(b"\x1b[31mred");
        assert_eq!(screen.clone().text(), "red\n");
        assert!(!screen.draw().is_empty() && !screen.to_html(ansi_proved::Styling::Both).is_empty());
    }
    let more = memory("VmRSS").saturating_sub(before);
    assert!(more < 30_000, "{more} kB are not given back");
}

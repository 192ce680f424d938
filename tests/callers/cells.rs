//! Writes what Rust reads of a screen, by the names of the package, as tests/lib/screen_cells.py has it:
//!
//!     cells COLUMNS ROWS STREAM [OTHER]
//!     cells COLUMNS ROWS --changes STREAM ..
//!
//! a line for its size, its modes, its cursor, the style of what comes next, each cell and each link of a cell; and with another stream
//! whether the screen of that shows the same. Or what can have changed by each stream, a line for each row of which some has.

use ansi_proved::screen::{Cell, Color, Modes, Part, Screen, Style, Underline};
use std::fmt::Write;

fn color(name: &str, color: Color) -> String {
    match color {
        Color::Default => String::new(),
        Color::Named(number) => format!(" {name}=named:{number}"),
        Color::Bright(number) => format!(" {name}=bright:{number}"),
        Color::Indexed(number) => format!(" {name}=indexed:{number}"),
        Color::Direct(red, green, blue) => format!(" {name}=direct:{red},{green},{blue}"),
    }
}

/// The names of what is on.
fn words(words: &[(&str, bool)]) -> String {
    words.iter().filter(|word| word.1).map(|word| format!(" {}", word.0)).collect()
}

fn style(style: &Style) -> String {
    let underline = match style.underline {
        Underline::Off => "",
        Underline::Single => " underline=single",
        Underline::Double => " underline=double",
        Underline::Curly => " underline=curly",
        Underline::Dotted => " underline=dotted",
        Underline::Dashed => " underline=dashed",
    };
    let attributes = words(&[
        ("bold", style.bold),
        ("dim", style.dim),
        ("italic", style.italic),
        ("blink", style.blink),
        ("reverse", style.reverse),
        ("hidden", style.hidden),
        ("struck_out", style.struck_out),
        ("overlined", style.overlined),
    ]);
    let colors = color("foreground", style.foreground) + &color("background", style.background);
    format!("{colors}{underline}{attributes}")
}

fn modes(modes: &Modes) -> String {
    words(&[
        ("cursor_shown", modes.cursor_shown),
        ("alternate_screen", modes.alternate_screen),
        ("autowrap", modes.autowrap),
        ("insert", modes.insert),
        ("origin", modes.origin),
    ])
}

fn cell(cell: &Cell) -> String {
    let mut points = format!("{:x}", u32::from(cell.character));
    for mark in cell.marks.iter().flatten() {
        write!(points, " {:x}", u32::from(*mark)).expect("a String takes all");
    }
    let part = match cell.part {
        Part::Empty => "empty",
        Part::Whole => "whole",
        Part::Left => "left",
        Part::Right => "right",
    };
    format!("{points}|{part}|{}|{}|{}", cell.link, u8::from(cell.goes_on), style(&cell.style))
}

fn print(screen: &Screen) {
    let place = screen.cursor();
    println!("size {} {}", screen.columns(), screen.rows());
    println!("modes{}", modes(&screen.modes()));
    println!("cursor {} {}", place.row, place.column);
    println!("style{}", style(&screen.style()));
    for (row, cells) in screen.each_row().enumerate() {
        assert!(screen.row(row).eq(cells.iter().copied()), "a row is told by its number");
        for (column, it) in cells.iter().enumerate() {
            assert_eq!(screen.cell(row, column), Some(*it), "a cell is that of its row");
            println!("cell {row} {column} {}", cell(it));
            if it.link > 0 {
                println!("link {} {}", it.link, screen.link(it.link));
            }
        }
    }
}

fn print_changes(mut screen: Screen, streams: &[String]) {
    for stream in streams {
        screen.feed(stream.as_bytes());
        for row in (0..screen.rows()).filter(|row| !screen.changed(*row).is_empty()) {
            let columns = screen.changed(row);
            println!("change {row} {} {}", columns.start, columns.end);
        }
        assert!(screen.changed(screen.rows()).is_empty(), "there is no further row");
        screen.forget();
        println!("forgotten");
    }
}

fn main() {
    let words: Vec<String> = std::env::args().collect();
    let size = [&words[1], &words[2]].map(|word| word.parse().expect("a number"));
    let shown = |stream: &String| {
        let mut screen = Screen::new(size[0], size[1]).expect("a screen opens");
        screen.feed(stream.as_bytes());
        screen
    };
    if words[3] == "--changes" {
        return print_changes(shown(&String::new()), &words[4..]);
    }
    let screen = shown(&words[3]);
    print(&screen);
    if let Some(stream) = words.get(4) {
        let other = shown(stream);
        assert_eq!(screen == other, other == screen);
        assert_ne!(screen == other, screen != other);
        println!("{}", if screen == other { "equal" } else { "unequal" });
    }
}

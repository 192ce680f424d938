//! Writes what Rust reads of a screen beside what shows, by the names of the package, as tests/lib/screen_parts.py has it:
//!
//!     parts COLUMNS ROWS STREAM
//!     parts --colors
//!
//! a line for each place, for the margins, for the columns at which tabs stop, and for each hidden row its text and where it is bold; or for
//! each colour.

use ansi_proved::screen::{color_rgb, Color, Saved, Screen};

fn print_place(which: u8, saved: &Saved) {
    let words = [
        ("origin", saved.origin),
        ("wrap_pending", saved.wrap_pending),
        ("g0_draws", saved.charsets.g0_draws),
        ("g1_draws", saved.charsets.g1_draws),
        ("uses_g1", saved.charsets.uses_g1),
        ("bold", saved.style.bold),
        ("italic", saved.style.italic),
    ];
    let words: String = words.iter().filter(|word| word.1).map(|word| format!(" {}", word.0)).collect();
    let color = match saved.style.foreground {
        Color::Named(number) => format!(" foreground={number}"),
        _ => String::new(),
    };
    println!("place {which} {} {}{words}{color}", saved.place.row, saved.place.column);
}

fn print(screen: &Screen) {
    print_place(0, &screen.state());
    print_place(1, &screen.saved());
    if let Some(saved) = screen.hidden_saved() {
        print_place(2, &saved);
    }
    assert_eq!((screen.cursor(), screen.style()), (screen.state().place, screen.state().style));
    println!("margins {} {}", screen.margins().start, screen.margins().end);
    println!("stops{}", screen.stops().map(|it| format!(" {it}")).collect::<String>());
    for row in 0..=screen.rows() {
        let cells: Vec<_> = screen.hidden_row(row).collect();
        if !cells.is_empty() {
            let text = cells.iter().map(|it| format!("{}{}", if it.style.bold { "*" } else { "" }, it.character));
            println!("hidden {row} {}", text.collect::<String>());
        }
    }
}

fn main() {
    let words: Vec<String> = std::env::args().collect();
    if words[1] == "--colors" {
        for number in 0..=255 {
            let [red, green, blue] = color_rgb(number);
            println!("color {number} {red:02x}{green:02x}{blue:02x}");
        }
        return;
    }
    let size = [&words[1], &words[2]].map(|word| word.parse().expect("a number"));
    let mut screen = Screen::new(size[0], size[1]).expect("a screen opens");
    screen.feed(words[3].as_bytes());
    print(&screen);
}

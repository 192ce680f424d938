//! The screen, with the feature `screen`, as a user calls it. (What each cell is read as is tested by `tests/screen_library` of the
//! repository.)
#![cfg(feature = "screen")]

use ansi_proved::screen::{Action, Button, CannotOpen, Cell, Color, Encoding, Event, Held, Key, Mouse, Move, Pad, Part, Picture, Place, Rows, Scheme, Screen, Shape, Style};
use ansi_proved::screen::{self, CannotShow, Charsets, Form, How, ShownLog};
use ansi_proved::screen::{Answers, Colors, Rgb, Tracking, Wheel};
use ansi_proved::{to_html, Styling, UnknownStyling};
use std::collections::HashSet;
use std::error::Error;
use std::panic::catch_unwind;
use std::sync::Mutex;
use std::thread;

/// A screen that shows this.
fn shown(columns: usize, rows: usize, stream: &str) -> Screen {
    let mut screen = Screen::new(columns, rows).unwrap();
    screen.feed(stream.as_bytes());
    screen
}

#[test]
fn pieces_are_one_stream() {
    let mut screen = Screen::new(10, 3).unwrap();
    for piece in ["\x1b[3", "1mh\x1b[0mi \u{4E2D}e\u{301}\r\nlong", "er than ten"] {
        screen.feed(piece.as_bytes());
    }
    assert_eq!(screen.text(), "hi \u{4E2D}e\u{301}\nlonger tha\nn ten\n");
    assert_eq!(screen.to_string(), screen.text());
    assert_eq!(format!("{screen:?}"), "Screen(10x3)");
    assert_eq!((screen.row_text(0).as_str(), screen.row_text(3).as_str()), ("hi \u{4E2D}e\u{301}", ""));
    assert_eq!(screen.cursor(), Place { row: 2, column: 5 });
    assert_eq!((screen.columns(), screen.rows()), (10, 3));
}

#[test]
fn cells_by_rows_and_columns() {
    let screen = shown(10, 3, "\x1b[31mh\x1b[0mi \u{4E2D}e\u{301}\r\nlonger than ten");
    let cells: Vec<_> = screen.row(0).collect();
    assert_eq!((cells.len(), cells[0].character, cells[0].style.foreground), (10, 'h', Color::Named(1)));
    assert_eq!((cells[3].part, cells[4].part, cells[5].marks), (Part::Left, Part::Right, [Some('\u{301}'), None]));
    assert!(screen.cell(1, 9).unwrap().goes_on && screen.cell(1, 10).is_none() && screen.cell(3, 0).is_none());
    assert!(screen.row(3).next().is_none());
    let new = Screen::new(10, 3).unwrap();
    assert!(new.each_row().flatten().all(|it| it == Cell::default()) && screen.cell(2, 9) == Some(Cell::default()));
}

#[test]
fn what_can_have_changed() {
    let mut screen = shown(10, 4, "text");
    assert_eq!((screen.changed(0), screen.changed(3)), (0..10, 0..10));
    screen.forget();
    screen.feed(b"\x1b[3;6Hx\x1b[4;10Hy");
    let all: Vec<_> = (0..5).map(|row| screen.changed(row)).filter(|it| !it.is_empty()).collect();
    assert_eq!(all, [4..7, 8..10]);
    let mut copy = screen.clone();
    copy.feed(b"\x1b[Ha");
    assert_eq!((copy.changed(0), copy.changed(2).len(), screen.changed(2)), (0..2, 0, 4..7));
    assert_eq!((screen.text(), screen.cursor()), ("text\n\n     x\n         y\n".into(), Place { row: 3, column: 10 }));
}

/// Many may read a screen: iterators, and what asks it meanwhile.
#[test]
fn a_shared_reference_reads() {
    let screen = &shown(4, 2, "ab\r\nc");
    let all: Vec<String> = screen.each_row().enumerate().map(|(at, row)| format!("{}{}", row[0].character, screen.row_text(at))).collect();
    assert_eq!(all, ["aab", "cc"]);
    assert!(screen.update(screen).is_empty() && screen == screen);
    assert_eq!(catch_unwind(|| screen.text()).unwrap(), "ab\nc\n");
}

/// That all types have, and those that are `Sync` for two reasons: of these the compiler can't tell which is meant.
trait Unshared<Reason> {
    fn is_known() {}
}

impl<T: ?Sized> Unshared<()> for T {}
impl<T: ?Sized + Sync> Unshared<u8> for T {}

/// Reading writes to the handle, so that threads may not read a screen at once.
#[test]
fn threads_do_not_share_it_without_a_lock() {
    <Screen as Unshared<_>>::is_known();
}

#[test]
fn threads_share_it_by_a_lock() {
    let screen = Mutex::new(Screen::new(8, 2).unwrap());
    thread::scope(|scope| {
        for _ in 0..8 {
            scope.spawn(|| screen.lock().unwrap().feed(b"x"));
        }
    });
    assert_eq!(screen.lock().unwrap().text(), "xxxxxxxx\n");
    let mut screen = screen.into_inner().unwrap();
    let text = thread::spawn(move || {
        screen.feed(b"y");
        screen.text()
    });
    assert_eq!(text.join().unwrap(), "xxxxxxxx\ny\n");
}

#[test]
fn a_reset_leaves_a_new_one() {
    let mut screen = Screen::with_history(4, 2, 5).unwrap();
    screen.feed(b"1\r\n2\r\n3\x1b[1m\x1b[?7l\x1b[");
    screen.reset();
    assert_eq!(screen, Screen::new(4, 2).unwrap());
    assert_eq!((screen.history_count(), screen.left_count()), (0, 0));
    screen.feed(b"4mx");
    assert_eq!(screen.text(), "4mx\n");
}

#[test]
fn drawings_and_updates_lead_from_one_to_the_other() {
    let mut screen = shown(10, 3, "\x1b[31mone");
    let mut other = Screen::new(10, 3).unwrap();
    other.feed(&screen.draw());
    assert_eq!(screen, other);
    assert!(screen.update(&other).is_empty());
    screen.feed(b"two");
    let update = other.update(&screen);
    assert!(update.ends_with(b"two") && !screen.draw().is_empty());
    other.feed(&update);
    assert!(screen == other && other.text() == "onetwo\n");
    assert!(other.update(&Screen::new(9, 3).unwrap()).is_empty());
    let large = shown(200, 60, &"\x1b[1mx\x1b[0my".repeat(5000));
    let mut drawn = Screen::new(200, 60).unwrap();
    drawn.feed(&large.draw());
    assert_eq!(drawn.text(), large.text());
}

#[test]
fn rows_that_left_are_kept() {
    let mut screen = Screen::with_history(10, 3, 2).unwrap();
    screen.feed(b"1\r\n\x1b[1m2\r\n3\r\n4\r\n5\r\n6");
    assert_eq!((screen.history_count(), screen.left_count()), (2, 3));
    let texts = [0, 1, 2].map(|number| screen.history_text(number));
    assert_eq!(texts, ["2", "3", ""]);
    let row: Vec<_> = screen.history_row(0).collect();
    assert!(row.len() == 10 && row[0].character == '2' && row[0].style.bold);
    assert!(screen.history_row(2).next().is_none());
    assert_eq!(screen.each_row().map(|row| row[0].character).collect::<String>(), "456");
    // (a byte makes six rows leave at most, and two find room)
    assert_eq!((screen.feed_keeping(b"\n", 3), screen.left_count()), (0, 3));
    let mut all = Screen::with_history(10, 3, 13).unwrap();
    let taken = all.feed_keeping(b"1\n2\n3\n4\n", 0);
    assert_eq!((taken, all.feed_keeping(b"\n\n\n", 0), all.left_count()), (2, 2, 1));
    let none = shown(10, 3, "1\n2\n3\n4\n");
    assert_eq!((none.history_count(), none.left_count(), none.history_text(0).as_str()), (0, 2, ""));
}

#[test]
fn rows_that_are_erased_are_kept_or_not() {
    for (mut screen, kept, left) in [
        (Screen::with_history(4, 2, 3).unwrap(), ["b", "c", "d"], 4),
        (Screen::with_scrolled_history(4, 2, 3).unwrap(), ["a", "d", ""], 2),
    ] {
        screen.feed(b"a\r\nb\r\nc\x1b[2J\x1b[Hd\r\n\r\n");
        assert_eq!([0, 1, 2].map(|number| screen.history_text(number)), kept);
        assert_eq!((screen.left_count(), screen.text().as_str()), (left, ""));
    }
}

#[test]
fn links_and_html() {
    let screen = shown(10, 3, "\x1b]8;;http://x\x1b\\l\x1b]8;;\x1b\\<");
    let link = screen.cell(0, 0).unwrap().link;
    assert_eq!((link, screen.link(link).as_str(), screen.link(2).as_str()), (1, "http://x", ""));
    let html = |attributes: &str| format!("<a rel=\"nofollow noreferrer\" href=\"http://x\" {attributes}>l</a>&lt;\n");
    assert_eq!(screen.to_html(Styling::Classes), html("class=\"ansi-link\""));
    assert_eq!(screen.to_html(Styling::Light), html("style=\"color:inherit;\""));
    for styling in [Styling::Both, Styling::Light, Styling::Dark, Styling::Classes] {
        assert_eq!(shown(10, 3, "\x1b[31mr").to_html(styling), to_html("\x1b[31mr\x1b[0m\n", styling));
    }
}

/// A row that goes on across the top of the screen, with what was printed as blanks, and a link.
#[test]
fn rows_are_written_as_lines() {
    let mut screen = Screen::with_history(4, 2, 2).unwrap();
    screen.feed(b"lost\r\n\x1b[1mbo\x1b[m  \r\n\x1b]8;;http://x\x1b\\l\x1b]8;;\x1b\\<xyz\r\n");
    let texts = [Rows::Shown, Rows::Left, Rows::All].map(|rows| screen.lines(rows));
    assert_eq!(texts, ["z\n", "bo  \nl<xy\n", "bo  \nl<xyz\n"]);
    let (bold, link) = ("<span style=\"font-weight:bold;\">bo</span>  \n", "<a rel=\"nofollow noreferrer\" href=\"http://x\" style=\"color:inherit;\">l</a>");
    assert_eq!(screen.lines_html(Rows::Shown, Styling::Light), "z\n");
    assert_eq!(screen.lines_html(Rows::Left, Styling::Light), format!("{bold}{link}&lt;xy\n"));
    assert_eq!(screen.lines_html(Rows::All, Styling::Dark), format!("{bold}{link}&lt;xyz\n"));
    assert_eq!(screen.lines_html(Rows::Left, Styling::Classes).matches("class=").count(), 2);
}

/// A row that left, one that shows, the cursor below it, and the bar of a window.
#[test]
fn pictures() {
    let mut screen = Screen::with_history(4, 1, 2).unwrap();
    screen.feed(b"a<\r\nb");
    let (left, shown) = ("y=\"15\" textLength=\"20\">a&lt;</text>", "textLength=\"10\">b</text>");
    let plain = screen.to_svg(Picture::default());
    assert!(plain.contains(shown) && !plain.contains(left) && plain.contains("color-scheme:light dark;"));
    assert!(!plain.contains("<title>") && !plain.contains("class=\"cursor\"") && plain.contains("viewBox=\"0 0 40 20\""));
    let dark = Picture { scheme: Scheme::Dark, shown: true, cursor: true, window: true, title: "t&", font: "F" };
    let dark = screen.to_svg(dark);
    assert!(dark.contains(left) && dark.contains(shown) && dark.contains("color-scheme:dark;") && dark.contains("font-family=\"F\""));
    assert!(dark.contains("<title>t&amp;</title>") && dark.contains("class=\"cursor\"") && dark.contains("viewBox=\"0 -30 40 70\""));
    let light = Picture { scheme: Scheme::Light, ..Picture::default() };
    assert!(screen.to_svg(light).contains("color-scheme:light;"));
}

#[test]
fn a_clone_goes_on_by_itself() {
    let mut screen = Screen::with_history(10, 3, 2).unwrap();
    screen.feed(b"1\r\n2\r\n3\r\n4\r\n5\x1b[3");
    let mut clone = screen.clone();
    assert!(clone == screen && clone.history_text(1) == "2" && clone.try_clone().unwrap() == clone);
    assert_eq!((clone.columns(), clone.rows()), (10, 3));
    clone.feed(b"1mx");
    assert!(clone != screen && screen.text() == "3\n4\n5\n" && clone.text() == "3\n4\n5x\n");
    assert_eq!(clone.cell(2, 1).unwrap().style.foreground, Color::Named(1));
    drop(screen);
    assert_eq!(clone.history_text(0), "1");
}

/// What differs in anything that a program can read is not equal.
#[test]
fn each_difference_counts() {
    let colours = ["31", "32", "91", "41", "101", "38;5;1", "38;5;200", "48;5;1", "38;2;1;2;3", "38;2;1;2;4", "38;2;1;3;3", "38;2;2;2;3"];
    let attributes = ["0", "1", "2", "3", "4", "4:2", "4:3", "4:4", "4:5", "5", "7", "8", "9", "53"];
    let mut streams: Vec<String> = colours.iter().chain(&attributes).map(|it| format!("\x1b[{it}mA")).collect();
    streams.extend(["", " ", "B", "A\u{301}", "A\u{302}", "A\u{301}\u{302}", "\u{4E2D}", "\x1b]8;;https://a\x1b\\A"].map(String::from));
    let cells: Vec<_> = streams.iter().map(|it| shown(4, 2, it).cell(0, 0).unwrap()).collect();
    all_differ(&streams, &cells);
    let lines = ["ABCD", "ABCDE"];
    all_differ(&lines, &lines.map(|it| shown(4, 2, it).cell(0, 3).unwrap()));
    let modes = ["", "\x1b[?25l", "\x1b[?1049h", "\x1b[?7l", "\x1b[4h", "\x1b[?6h"];
    all_differ(&modes, &modes.map(|it| shown(4, 2, it).modes()));
    let places = ["", "A", "\r\n", "\r\nA"];
    all_differ(&places, &places.map(|it| shown(4, 2, it).cursor()));
}

/// What is asked for, and what a program reads by it: by xterm's ctlseqs and kitty's page.
#[test]
fn what_is_asked_for_is_told() {
    let (mut screen, none) = (shown(4, 3, "\x1b]2;one\x07"), Held::default());
    let control = Held { control: true, ..none };
    let press = |screen: &Screen, key, held| screen.key(key, held, Event::Press);
    let at = |action| Mouse { action, held: none, column: 4, row: 2, x: 0, y: 0 };
    assert!(screen.asked().title && !screen.asked().title && screen.title() == "one");
    assert_eq!(press(&screen, Key::Move(Move::Up), none), b"\x1b[A");
    assert_eq!(press(&screen, Key::Character('a'), control), b"\x01");
    assert_eq!(press(&screen, Key::Typed('a', 'A'), Held { shift: true, ..none }), b"A");
    assert_eq!(press(&screen, Key::Function(25), none), b"");
    assert_eq!(press(&screen, Key::Pad(Pad::Digit(5)), none), b"5");
    assert_eq!(screen.mouse(at(Action::Press(Button::Left))), b"");
    assert_eq!((screen.focus(true), screen.paste("\x1ba")), (vec![], b"a".to_vec()));
    screen.feed(b"\x1b[?1;66;1003;1004;1006;2004;2026h\x1b[>11u\x1b[4 q");
    let modes = screen.modes();
    assert_eq!((modes.mouse, modes.mouse_encoding, modes.key_flags), (Some(Tracking::Motion), Encoding::Sgr, 11));
    assert_eq!((modes.cursor_shape, modes.cursor_blinks), (Shape::Underline, false));
    assert!(modes.cursor_keys && modes.focus && modes.paste && modes.synchronized && !modes.reverse && modes.autowrap);
    assert_eq!(screen.key(Key::Character('a'), none, Event::Release), b"\x1b[97;1:3u");
    assert_eq!(screen.mouse(at(Action::Turn(Wheel::Right))), b"\x1b[<67;5;3M");
    assert_eq!(screen.mouse(at(Action::Release(Button::Right))), b"\x1b[<2;5;3m");
    assert_eq!(screen.mouse(at(Action::Move(None))), b"\x1b[<35;5;3M");
    assert_eq!((screen.focus(false), screen.paste("a")), (b"\x1b[O".to_vec(), b"\x1b[200~a\x1b[201~".to_vec()));
    screen.reset();
    assert!(screen.title().is_empty() && screen.asked().colors && screen.modes().mouse.is_none());
}

/// What is answered, by xterm's ctlseqs: once, the oldest lost where more wait than can, and colours as they are told.
#[test]
fn who_asks_is_answered() {
    let mut screen = shown(20, 6, "\x1b[3;5H\x1b[6n\x1b[5");
    assert_eq!(screen.answers(), Answers { bytes: b"\x1b[3;5R".to_vec(), lost: false });
    screen.feed(b"n");
    let mut copy = screen.clone();
    assert_eq!((screen.answers().bytes, copy.answers().bytes), (b"\x1b[0n".to_vec(), b"\x1b[0n".to_vec()));
    screen.feed(&b"\x1b[c".repeat(65));
    assert_eq!(screen.answers(), Answers { bytes: b"\x1b[?62;22c".repeat(64), lost: true });
    let red = Rgb { red: 255, green: 1, blue: 2 };
    let mut colors = Colors { background: Some(red), ..Colors::default() };
    colors.palette[255] = Some(red);
    screen.tell_colors(&colors);
    screen.feed(b"\x1b[5n");
    screen.reset();
    screen.feed(b"\x1b]10;?\x07\x1b]11;?\x07\x1b]12;?\x07\x1b]4;255;?\x1b\\");
    let wanted = b"\x1b]11;rgb:ffff/0101/0202\x07\x1b]4;255;rgb:ffff/0101/0202\x1b\\";
    assert_eq!(screen.answers(), Answers { bytes: wanted.to_vec(), lost: false });
}

fn all_differ<T: PartialEq + std::fmt::Debug>(names: &[impl std::fmt::Debug], all: &[T]) {
    for (name, one) in names.iter().zip(all) {
        let same: Vec<_> = names.iter().zip(all).filter(|(_, it)| *it == one).map(|(it, _)| it).collect();
        assert_eq!(same.len(), 1, "{name:?} is equal to all of {same:?}");
    }
}

/// What a program that keeps cells, screens and errors of its own asks of these.
#[test]
fn types_go_into_those_of_a_user() {
    #[derive(PartialEq, Eq)]
    struct Shown(Screen);
    #[derive(Clone, Copy, PartialEq, Eq)]
    struct Failed(CannotOpen, CannotShow, UnknownStyling);
    #[derive(PartialEq, Eq)]
    struct Told(Answers, Colors);

    let mut screen = shown(4, 2, "a");
    assert_eq!((screen.cell(1, 0), screen.style()), (Some(Cell::default()), Style::default()));
    assert_eq!(screen.row(0).chain(screen.row(1)).collect::<HashSet<_>>().len(), 2);
    assert_eq!(HashSet::from([(screen.cursor(), screen.modes()); 2]).len(), 1);
    let mouse = Mouse { action: Action::Turn(Wheel::Up), held: Held::default(), column: 0, row: 0, x: 0, y: 0 };
    let keys = (Key::Pad(Pad::Digit(5)), Key::Move(Move::Up), Event::default(), Button::Left, mouse, screen.asked());
    assert_eq!(HashSet::from([(Cell::default(), screen.saved(), Rows::All, Rgb { red: 1, green: 2, blue: 3 }, keys); 2]).len(), 1);
    assert_eq!((screen.saved().charsets, keys.2, How::from(Form::default())), (Charsets::default(), Event::Press, How::default()));
    assert_eq!(HashSet::from([(How::default(), Form::Text); 2]).len(), 1);
    let failed = [Failed(CannotOpen, CannotShow, "red".parse::<Styling>().unwrap_err()); 2];
    assert!(failed[0] == failed[1]);
    assert!(Told(screen.answers(), Colors::default()) == Told(Answers::default(), Colors::default()));
    let opened = |columns| -> Result<Shown, Box<dyn Error + Send + Sync>> { Ok(Shown(Screen::new(columns, 2)?)) };
    assert!(opened(4).unwrap() != Shown(screen) && opened(1).err().unwrap().is::<CannotOpen>());
    let written = |log: &[u8], columns| -> Result<String, Box<dyn Error + Send + Sync>> {
        let mut shown = ShownLog::with_size(Form::Text, columns, 2)?;
        shown.feed(log)?;
        Ok(shown.end()?)
    };
    assert!(written(b"a", 4).unwrap() == "a\n" && written(b"a", 1).err().unwrap().is::<CannotShow>());
}

#[test]
fn no_screen_of_such_a_size() {
    for (columns, rows) in [(1, 1), (2, 0), (1001, 1), (2, 1001)] {
        assert_eq!(Screen::new(columns, rows).unwrap_err(), CannotOpen);
    }
    assert_eq!(Screen::with_history(10, 3, usize::MAX).unwrap_err(), CannotOpen);
    assert!(CannotOpen.to_string().contains("2 to 1000 columns"));
}

/// What a screen showed of a log is what `--shown` writes: rows worked by hand, in pieces of every size.
#[test]
fn shown_logs() {
    let log = b"[COLUMNS=\"4\" LINES=\"2\"]\n10%\r\x1b[1mabcdef\xff\n<";
    let text = "[COLUMNS=\"4\" LINES=\"2\"]\nabcdef\u{fffd}\n<\n";
    assert_eq!(screen::shown(b" 10%\r 50%\r100%\n", Form::Text).unwrap(), "100%\n");
    for size in 1..=log.len() {
        let mut shown = ShownLog::new(Form::Text).unwrap();
        for piece in log.chunks(size) {
            shown.feed(piece).unwrap();
        }
        assert_eq!(shown.end().unwrap(), text);
    }
    assert_eq!(screen::shown("a\u{202e}".as_bytes(), Form::Safe).unwrap(), "a<U+202E>\n");
    let html = "<span class=\"ansi-bold\">&lt;</span>\n";
    assert_eq!(screen::shown(b"\x1b[1m<", Form::Html(Styling::Classes)).unwrap(), html);
    let log = b"a\x1b[8mb\x1b[28mc\rhttp://a";
    let text = How { no_hidden: true, no_screen: true, ..How::default() };
    assert_eq!(screen::shown(log, text).unwrap(), "ac\rhttp://a");
    assert_eq!(screen::shown(log, How { no_screen: false, ..text }).unwrap(), "http://a\n");
    let html = How::from(Form::Html(Styling::Classes));
    let address = "<a rel=\"nofollow noreferrer\" href=\"http://a\" class=\"ansi-link\">http://a</a>\n";
    assert_eq!(screen::shown(log, How { urls: true, ..html }).unwrap(), address);
    let numbered = "<span id=\"L1\"><a href=\"#L1\" data-line=\"1\"></a>http://a\n</span>";
    assert_eq!(screen::shown(log, How { lines: true, ..html }).unwrap(), numbered);
    let mut small = ShownLog::with_size(Form::Text, 2, 1).unwrap();
    small.feed(b"abc").unwrap();
    assert_eq!(small.end().unwrap(), "abc\n");
    for (columns, rows) in [(0, 0), (1, 1), (2, 0), (0, 1), (1001, 1), (2, 1001)] {
        let opened = ShownLog::with_size(Form::Text, columns, rows);
        assert_eq!(opened.err(), Some(CannotShow), "{columns}x{rows}");
    }
    assert!(CannotShow.to_string().contains("2 to 1000 columns"));
}

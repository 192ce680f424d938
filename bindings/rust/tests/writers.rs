//! The writers, with the feature `std`.
#![cfg(feature = "std")]

use ansi_proved::io::{HtmlWriter, SafeWriter, StripWriter};
use ansi_proved::Styling;
use std::io::{Error, Result, Write};

/// Takes some bytes, and then fails.
struct Full(usize);

impl Write for Full {
    fn write(&mut self, piece: &[u8]) -> Result<usize> {
        if self.0 == 0 {
            return Err(Error::other("full"));
        }
        let count = piece.len().min(self.0);
        self.0 -= count;
        Ok(count)
    }

    fn flush(&mut self) -> Result<()> {
        Err(Error::other("no flush"))
    }
}

/// Writes the pieces, of which each is taken whole.
fn write_each(writer: &mut impl Write, pieces: &[&[u8]]) {
    for piece in pieces {
        assert_eq!(writer.write(piece).unwrap(), piece.len());
    }
}

#[test]
fn text_goes_on() {
    let mut writer = StripWriter::new(Vec::new());
    write_each(&mut writer, &[b"\x1b[3", b"1mre", b"d\xe2\x82", b"\xac"]);
    writer.flush().unwrap();
    assert_eq!(writer.get_ref(), "red\u{20ac}".as_bytes());
    writer.get_mut().clear();
    write!(writer, "\x1b]0;title\x07{}", 5).unwrap();
    assert_eq!(writer.into_inner(), b"5");
    let mut writer = StripWriter::new(Vec::new());
    writer.write_all(b"a\xe2\x82").unwrap();
    assert_eq!(writer.finish().unwrap(), "a\u{fffd}".as_bytes());
    let mut writer = StripWriter::new(Vec::new());
    writer.write_all(b"a\x1b[").unwrap();
    let mut clone = writer.clone();
    write_each(&mut clone, &[b"1mb"]);
    assert_eq!((writer.into_inner(), clone.into_inner()), (b"a".to_vec(), b"ab".to_vec()));
    let mut writer = StripWriter::lf(Vec::new());
    write_each(&mut writer, &[b"a\r", b"\nb\r", b"c\r"]);
    assert_eq!(writer.get_ref(), b"a\nb\rc");
    assert_eq!(writer.finish().unwrap(), b"a\nb\rc\r");
}

#[test]
fn html_goes_on_and_is_closed() {
    let mut writer = HtmlWriter::new(Styling::Light, Vec::new());
    writer.write_all(b"\x1b[31m<").unwrap();
    writer.write_all(b"b").unwrap();
    assert_eq!(writer.finish().unwrap(), b"<span style=\"color:#cf222e;\">&lt;b</span>");
}

#[test]
fn safe_text_goes_on_and_ends() {
    let mut writer = SafeWriter::new(Vec::new());
    write_each(&mut writer, &[b"a\x07<", b"U+", b"\xe2\x80", b"\xae\r"]);
    writer.flush().unwrap();
    assert_eq!(writer.get_ref(), b"a<U+0007><U+003C>U+<U+202E>");
    writer.get_mut().clear();
    writer.write_all(b"\x1b[8ma").unwrap();
    assert_eq!(writer.finish().unwrap(), b"<U+000D><U+hidden>a<U+shown>");
}

#[test]
fn faults_are_told() {
    let mut writer = StripWriter::new(Full(2));
    assert_eq!(writer.write(b"a").unwrap(), 1);
    assert_eq!(writer.write(b"bc").unwrap_err().to_string(), "full");
    assert_eq!(writer.flush().unwrap_err().to_string(), "no flush");
    let mut writer = SafeWriter::new(Full(1));
    assert_eq!(writer.write(b"a\r").unwrap(), 2);
    assert_eq!(writer.flush().unwrap_err().to_string(), "no flush");
    assert_eq!(writer.finish().err().unwrap().to_string(), "full");
    let mut writer = SafeWriter::new(Full(0));
    assert_eq!(writer.write(b"a").unwrap_err().to_string(), "full");
    let mut writer = HtmlWriter::new(Styling::Dark, Full(0));
    assert_eq!(writer.write(b"\x1b[1m").unwrap(), 4);
    assert!(writer.write(b"a").is_err() && writer.finish().is_err());
}

#[cfg(feature = "screen")]
#[test]
fn a_screen_is_written_to() {
    let mut screen = ansi_proved::screen::Screen::with_history(10, 2, 5).unwrap();
    write!(screen, "{}\r\n{}\r\n\x1b[1m{}", 1, 2, 3).unwrap();
    screen.flush().unwrap();
    assert_eq!(screen.text(), "2\n3\n");
    assert_eq!((screen.history_count(), screen.left_count()), (1, 1));
    assert_eq!(screen.history_text(0), "1");
    assert_eq!(screen.history_text(1), "");
    assert_eq!(screen.history_row(0).next().unwrap().character, '1');
    assert!(screen.history_row(1).next().is_none());
    let rows: Vec<_> = screen.each_row().collect();
    assert_eq!((rows.len(), rows[1].len()), (2, 10));
    assert!(rows[1][0].style.bold && !rows[0][0].style.bold);
}

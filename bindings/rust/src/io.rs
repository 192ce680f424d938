//! Writers, with the feature `std`: what is written to them goes on stripped, as safe text, as HTML, or to a screen.
//!
//! ```
//! use ansi_proved::io::StripWriter;
//! use std::io::Write;
//!
//! let mut log = StripWriter::new(Vec::new());
//! write!(log, "\x1b[31mred\x1b[0m").unwrap();
//! assert_eq!(log.into_inner(), b"red");
//! ```
//!
//! A write takes all its bytes. Where the writer below fails, what it did not take of their text or HTML is lost, and the
//! stream goes on after them. What comes at the end, as what closes an element of HTML, is written by [`Writer::finish`] alone: not where a
//! writer is dropped.

use crate::{Converter, SafeStripper, Stripper, Styling};
use std::io::{Result, Write};
use stream::Stream;

/// What a writer asks of a stream; nobody else needs to name it.
mod stream {
    use crate::{Converter, SafeStripper, Stripper};
    use std::io::{Result, Write};

    pub trait Stream {
        /// Writes what the piece becomes.
        fn take(&mut self, piece: &[u8], inner: &mut impl Write) -> Result<()>;

        /// Writes what comes at the end.
        fn finish(&mut self, inner: &mut impl Write) -> Result<()>;
    }

    impl Stream for Stripper {
        fn take(&mut self, piece: &[u8], inner: &mut impl Write) -> Result<()> {
            self.strip(piece, |part| inner.write_all(part))
        }

        fn finish(&mut self, inner: &mut impl Write) -> Result<()> {
            self.end(|part| inner.write_all(part))
        }
    }

    impl Stream for SafeStripper {
        fn take(&mut self, piece: &[u8], inner: &mut impl Write) -> Result<()> {
            self.strip(piece, |part| inner.write_all(part))
        }

        fn finish(&mut self, inner: &mut impl Write) -> Result<()> {
            self.end(|part| inner.write_all(part))
        }
    }

    impl Stream for Converter {
        fn take(&mut self, piece: &[u8], inner: &mut impl Write) -> Result<()> {
            self.convert(piece, |part| inner.write_all(part))
        }

        fn finish(&mut self, inner: &mut impl Write) -> Result<()> {
            self.end(|part| inner.write_all(part))
        }
    }
}

/// A stream and a writer below, to which what the stream becomes goes on.
#[derive(Clone, Debug)]
pub struct Writer<S, W> {
    stream: S,
    inner: W,
}

/// Strips a stream, whose text goes on to a writer.
pub type StripWriter<W> = Writer<Stripper, W>;

/// Makes a stream text that hides nothing, as [`strip_safe`](crate::strip_safe) does, which goes on to a writer.
pub type SafeWriter<W> = Writer<SafeStripper, W>;

/// Converts a stream, whose HTML goes on to a writer.
pub type HtmlWriter<W> = Writer<Converter, W>;

impl<W: Write> Writer<Stripper, W> {
    /// What is written to it goes on to the writer below.
    pub fn new(inner: W) -> StripWriter<W> {
        let stream = Stripper::new();
        Writer { stream, inner }
    }

    /// One whose text has no carriage return right before a line feed, as [`strip_lf`](crate::strip_lf) leaves it.
    pub fn lf(inner: W) -> StripWriter<W> {
        let stream = Stripper::lf();
        Writer { stream, inner }
    }

    /// The writer below. What was begun is dropped, as a sequence or a character that was cut off.
    pub fn into_inner(self) -> W {
        self.inner
    }
}

impl<W: Write> Writer<SafeStripper, W> {
    /// What is written to it goes on to the writer below.
    pub fn new(inner: W) -> SafeWriter<W> {
        let stream = SafeStripper::new();
        Writer { stream, inner }
    }
}

impl<W: Write> Writer<Converter, W> {
    /// What is written to it goes on to the writer below, in the styling.
    pub fn new(styling: Styling, inner: W) -> HtmlWriter<W> {
        let stream = Converter::new(styling);
        Writer { stream, inner }
    }
}

impl<S: Stream, W: Write> Writer<S, W> {
    /// The writer below.
    pub fn get_ref(&self) -> &W {
        &self.inner
    }

    /// The writer below. What is written to it comes before what still waits here.
    pub fn get_mut(&mut self) -> &mut W {
        &mut self.inner
    }

    /// Writes what the end leads to, and hands the writer below back: of text U+FFFD where a character is begun, and a carriage return
    /// that waits for a line feed, of safe text what still waits, of HTML what closes it.
    ///
    /// # Errors
    /// What the writer below answers, which is lost with it.
    pub fn finish(mut self) -> Result<W> {
        self.stream.finish(&mut self.inner)?;
        Ok(self.inner)
    }
}

impl<S: Stream, W: Write> Write for Writer<S, W> {
    fn write(&mut self, piece: &[u8]) -> Result<usize> {
        self.stream.take(piece, &mut self.inner)?;
        Ok(piece.len())
    }

    fn flush(&mut self) -> Result<()> {
        self.inner.flush()
    }
}

/// A screen takes what is written to it.
#[cfg(feature = "screen")]
impl Write for crate::screen::Screen {
    fn write(&mut self, piece: &[u8]) -> Result<usize> {
        self.feed(piece);
        Ok(piece.len())
    }

    fn flush(&mut self) -> Result<()> {
        Ok(())
    }
}

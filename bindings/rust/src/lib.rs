//! Strips terminal output of its escapes, shows it as HTML, or reads it as events, by the proved library.
//!
//! [`strip`], [`strip_lf`], [`strip_safe`] and [`to_html`] take the whole, [`Stripper`], [`SafeStripper`] and [`Converter`] a
//! stream that comes in pieces; [`events`] takes pieces, [`events_of`] a whole, and both are iterators.
//!
//! ```
//! use ansi_proved::{strip, strip_safe, to_html, Event, Styling};
//!
//! assert_eq!(strip("\x1b[31mred\x1b[0m <b>"), "red <b>");
//! assert_eq!(strip_safe("\x1b[31ma\u{202e}b"), "a<U+202E>b");
//! assert_eq!(
//!     to_html("\x1b[1mred\x1b[0m <b>", Styling::Both),
//!     "<span style=\"font-weight:bold;\">red</span> &lt;b&gt;",
//! );
//! let titles = ansi_proved::events([b"\x1b]0;ti".as_slice(), b"tle\x07"]).filter_map(|event| match event {
//!     Event::Osc(parts, _) if parts[0] == b"0" => Some(parts[1..].join(&b';')),
//!     _ => None,
//! });
//! assert_eq!(titles.collect::<Vec<_>>(), [b"title"]);
//! ```
//!
//! With the feature `screen` there is a screen of a terminal too: `screen::Screen`, of a library of its own. With the
//! feature `std`, which is on unless `default-features = false` says otherwise, all are writers: `io::StripWriter`,
//! `io::SafeWriter`, `io::HtmlWriter` and `screen::Screen`.
//!
//! What is not called is not linked. Without `std` an allocator is needed: `Stripper`, `SafeStripper` and `Converter` take
//! no memory.
#![no_std]
#![warn(missing_docs)]

extern crate alloc;
#[cfg(feature = "std")]
extern crate std;

use alloc::borrow::Cow;
use alloc::string::String;
use alloc::vec;
use alloc::vec::Vec;
use core::convert::Infallible;
use core::fmt;
use core::ops::Range;
use core::str::FromStr;

mod ends;
#[cfg(feature = "std")]
pub mod io;
#[cfg(feature = "screen")]
pub mod screen;

pub use ends::{events_with_ends, EventsWithEnds};

/// How many bytes the states of streams hold, as `include/` declares them.
const PENDING: usize = 1042;
const OTHERS_OF_SAFE: usize = 1072;
const OTHERS_OF_HTML: usize = 3184;

#[derive(Clone, Debug)]
#[repr(C)]
struct StripState {
    length: usize,
    pending: [u8; PENDING],
}

#[derive(Clone, Debug)]
#[repr(C)]
struct LineState {
    waits: u8,
}

#[derive(Clone, Debug)]
#[repr(C)]
struct SafeState {
    length: usize,
    others: [u8; OTHERS_OF_SAFE],
}

#[derive(Clone, Debug)]
#[repr(C)]
struct HtmlState {
    length: usize,
    others: [u8; OTHERS_OF_HTML],
}

/// An event as the library writes it: `ansi_event` of `include/ansi_events.h`.
#[repr(C)]
#[derive(Clone, Copy, Default)]
struct Record {
    start: usize,
    length: usize,
    kind: u8,
    byte: u8,
    flag: u8,
    intermediate_count: u8,
    intermediates: [u8; 2],
    _padding: [u8; 2],
}

#[link(name = "ansi", kind = "static")]
unsafe extern "C" {
    fn ansi_strip_feed(
        state: *mut StripState,
        piece: *const u8,
        count: usize,
        room: *mut u8,
        size: usize,
        taken: *mut usize,
        written: *mut usize,
    ) -> bool;

    fn ansi_strip_end(
        state: *mut StripState,
        room: *mut u8,
        size: usize,
        written: *mut usize,
    ) -> bool;

    fn ansi_lf_feed(
        state: *mut LineState,
        text: *const u8,
        count: usize,
        room: *mut u8,
        size: usize,
        taken: *mut usize,
        written: *mut usize,
    ) -> bool;

    fn ansi_lf_end(
        state: *mut LineState,
        room: *mut u8,
        size: usize,
        written: *mut usize,
    ) -> bool;

    fn ansi_safe_feed(
        state: *mut SafeState,
        piece: *const u8,
        count: usize,
        room: *mut u8,
        size: usize,
        taken: *mut usize,
        written: *mut usize,
    ) -> bool;

    fn ansi_safe_end(
        state: *mut SafeState,
        room: *mut u8,
        size: usize,
        written: *mut usize,
    ) -> bool;

    fn ansi_html_init(state: *mut HtmlState, styling: u8);

    fn ansi_html_feed(
        state: *mut HtmlState,
        piece: *const u8,
        count: usize,
        room: *mut u8,
        size: usize,
        taken: *mut usize,
        written: *mut usize,
    ) -> bool;

    fn ansi_html_end(
        state: *mut HtmlState,
        room: *mut u8,
        size: usize,
        written: *mut usize,
    ) -> bool;

    fn ansi_events_feed(
        state: *mut StripState,
        piece: *const u8,
        count: usize,
        events: *mut Record,
        most: usize,
        room: *mut u8,
        size: usize,
        taken: *mut usize,
        written: *mut usize,
        used: *mut usize,
    ) -> bool;

    fn ansi_events_ends(
        before: *const StripState,
        bytes: *const u8,
        count: usize,
        ends: *mut usize,
        most: usize,
    ) -> usize;

    fn ansi_events_may_be_cut(event: *const Record, room: *const u8, size: usize) -> bool;
}

const STRIP_ROOM: usize = 4096;
const SAFE_ROOM: usize = 16384;
const HTML_ROOM: usize = 16384;
const STRIP_END_ROOM: usize = 3;
const LINE_END_ROOM: usize = 1;
const SAFE_END_ROOM: usize = 50;
const HTML_END_ROOM: usize = 6539;
const EVENTS: usize = 1024;
const EVENTS_ROOM: usize = 16384;
const OSC: u8 = 5;

/// A call of the library that takes bytes from the front of a piece, by a stream's state, and writes into a room.
type Feed<State> = unsafe extern "C" fn(
    state: *mut State,
    piece: *const u8,
    count: usize,
    room: *mut u8,
    size: usize,
    taken: *mut usize,
    written: *mut usize,
) -> bool;

/// A call of the library that ends a stream by its state, and writes into a room.
type End<State> =
    unsafe extern "C" fn(state: *mut State, room: *mut u8, size: usize, written: *mut usize) -> bool;

/// Feeds all of the piece, and hands on what each call writes.
fn feed_all<State, E>(
    feed: Feed<State>,
    state: &mut State,
    mut piece: &[u8],
    room: &mut [u8],
    mut write: impl FnMut(&[u8]) -> Result<(), E>,
) -> Result<(), E> {
    while !piece.is_empty() {
        let (mut taken, mut written) = (0, 0);
        // The references are to memory of their own, and none of them is kept.
        let is_fed = unsafe {
            feed(
                state,
                piece.as_ptr(),
                piece.len(),
                room.as_mut_ptr(),
                room.len(),
                &raw mut taken,
                &raw mut written,
            )
        };
        assert!(is_fed, "the room is too small for any byte");
        piece = &piece[taken..];
        write(&room[..written])?;
    }
    Ok(())
}

/// Ends the stream, and hands on what that writes.
fn end_with<State, E>(
    end: End<State>,
    state: &mut State,
    room: &mut [u8],
    write: impl FnOnce(&[u8]) -> Result<(), E>,
) -> Result<(), E> {
    let mut written = 0;
    // The references are to memory of their own, and none of them is kept.
    let is_ended = unsafe { end(state, room.as_mut_ptr(), room.len(), &raw mut written) };
    assert!(is_ended, "the room is too small for any end");
    write(&room[..written])
}

/// A stream that is stripped, which goes on with each piece. A clone goes on from where it was cloned.
#[derive(Clone, Debug)]
pub struct Stripper {
    stream: StripState,
    /// Where the text stands, if its carriage returns before line feeds go.
    lines: Option<LineState>,
}

impl Default for Stripper {
    fn default() -> Stripper {
        Stripper::new()
    }
}

impl Stripper {
    /// The beginning of a stream.
    #[must_use]
    pub fn new() -> Stripper {
        let stream = StripState {
            length: 0,
            pending: [0; PENDING],
        };
        Stripper {
            stream,
            lines: None,
        }
    }

    /// The beginning of a stream whose text has no carriage return right before a line feed, as [`strip_lf`] leaves it. One
    /// that comes last is handed on with the next piece, or at the end.
    #[must_use]
    pub fn lf() -> Stripper {
        let lines = Some(LineState { waits: 0 });
        Stripper {
            lines,
            ..Stripper::new()
        }
    }

    /// Hands on the text of the piece, in one part or several, each UTF-8 by itself.
    ///
    /// # Errors
    /// What `write` answers. Then what was not handed on is lost, and the stream goes on after it.
    pub fn strip<E>(
        &mut self,
        piece: &[u8],
        mut write: impl FnMut(&[u8]) -> Result<(), E>,
    ) -> Result<(), E> {
        let (stream, room) = (&mut self.stream, &mut [0; STRIP_ROOM]);
        let Some(lines) = &mut self.lines else {
            return feed_all(ansi_strip_feed, stream, piece, room, write);
        };
        let line_room = &mut [0; STRIP_ROOM + LINE_END_ROOM];
        feed_all(ansi_strip_feed, stream, piece, room, |text| {
            feed_all(ansi_lf_feed, lines, text, line_room, &mut write)
        })
    }

    /// Hands on what the end leads to: U+FFFD where a character is begun, and a carriage return that waits for a line feed.
    /// Then a stream begins.
    ///
    /// # Errors
    /// What `write` answers. Then what was not handed on is lost.
    pub fn end<E>(&mut self, write: impl FnOnce(&[u8]) -> Result<(), E>) -> Result<(), E> {
        let (stream, room) = (&mut self.stream, &mut [0; STRIP_END_ROOM]);
        let Some(lines) = &mut self.lines else {
            return end_with(ansi_strip_end, stream, room, write);
        };
        let (mut all, mut filled) = ([0; STRIP_END_ROOM + LINE_END_ROOM], 0);
        let mut keep = |part: &[u8]| {
            all[filled..filled + part.len()].copy_from_slice(part);
            filled += part.len();
            Ok::<(), Infallible>(())
        };
        let line_room = &mut [0; STRIP_END_ROOM + LINE_END_ROOM];
        let done = end_with(ansi_strip_end, stream, room, |text| {
            feed_all(ansi_lf_feed, lines, text, line_room, &mut keep)
        });
        let Ok(()) = done.and_then(|()| end_with(ansi_lf_end, lines, &mut [0; LINE_END_ROOM], keep));
        write(&all[..filled])
    }
}

/// A stream that becomes text that hides nothing, as `ansi2text --safe` writes it, which goes on with each
/// piece. A clone goes on from where it was cloned.
#[derive(Clone, Debug)]
pub struct SafeStripper(SafeState);

impl Default for SafeStripper {
    fn default() -> SafeStripper {
        SafeStripper::new()
    }
}

impl SafeStripper {
    /// The beginning of a stream.
    #[must_use]
    pub fn new() -> SafeStripper {
        SafeStripper(SafeState {
            length: 0,
            others: [0; OTHERS_OF_SAFE],
        })
    }

    /// Hands on the text of the piece, in one part or several, each UTF-8 by itself.
    ///
    /// # Errors
    /// What `write` answers. Then what was not handed on is lost, and the stream goes on after it.
    pub fn strip<E>(
        &mut self,
        piece: &[u8],
        write: impl FnMut(&[u8]) -> Result<(), E>,
    ) -> Result<(), E> {
        feed_all(ansi_safe_feed, &mut self.0, piece, &mut [0; SAFE_ROOM], write)
    }

    /// Hands on what still waits, a carriage return, `<`, `<U` or a joiner that came last, U+FFFD where a character is
    /// begun, and `<U+shown>` behind hidden text. Then a stream begins.
    ///
    /// # Errors
    /// What `write` answers. Then what was not handed on is lost.
    pub fn end<E>(&mut self, write: impl FnOnce(&[u8]) -> Result<(), E>) -> Result<(), E> {
        end_with(ansi_safe_end, &mut self.0, &mut [0; SAFE_END_ROOM], write)
    }
}

/// How styles are written, as `include/ansi_html.h` says: by colours, or by classes.
///
/// ```
/// use ansi_proved::Styling;
///
/// assert_eq!("dark".parse(), Ok(Styling::Dark));
/// assert_eq!(Styling::default(), Styling::Both);
/// ```
#[derive(Clone, Copy, Debug, Default, PartialEq, Eq, Hash)]
#[repr(u8)]
pub enum Styling {
    /// Colours for light and dark pages, as the reader has it.
    #[default]
    Both = 0,
    /// Colours for a light page.
    Light = 1,
    /// Colours for a dark page.
    Dark = 2,
    /// Classes, for a stylesheet as `ansi2html --stylesheet` writes it.
    Classes = 3,
}

/// No [`Styling`] has that name.
#[derive(Clone, Copy, Debug, PartialEq, Eq)]
pub struct UnknownStyling;

impl fmt::Display for UnknownStyling {
    fn fmt(&self, formatter: &mut fmt::Formatter<'_>) -> fmt::Result {
        formatter.write_str("a styling is one of both, light, dark and classes")
    }
}

impl core::error::Error for UnknownStyling {}

/// By its name in small letters, as `dark`.
impl FromStr for Styling {
    type Err = UnknownStyling;

    fn from_str(name: &str) -> Result<Styling, UnknownStyling> {
        match name {
            "both" => Ok(Styling::Both),
            "light" => Ok(Styling::Light),
            "dark" => Ok(Styling::Dark),
            "classes" => Ok(Styling::Classes),
            _ => Err(UnknownStyling),
        }
    }
}

/// A stream that becomes HTML, which goes on with each piece. A clone goes on from where it was cloned.
#[derive(Clone, Debug)]
pub struct Converter(HtmlState);

impl Converter {
    /// The beginning of a stream.
    #[must_use]
    pub fn new(styling: Styling) -> Converter {
        let mut state = HtmlState {
            length: 0,
            others: [0; OTHERS_OF_HTML],
        };
        // The reference is not kept.
        unsafe { ansi_html_init(&raw mut state, styling as u8) };
        Converter(state)
    }

    /// Hands on the HTML of the piece, in one part or several, each UTF-8 by itself.
    ///
    /// # Errors
    /// What `write` answers. Then what was not handed on is lost, and the stream goes on after it.
    pub fn convert<E>(
        &mut self,
        piece: &[u8],
        write: impl FnMut(&[u8]) -> Result<(), E>,
    ) -> Result<(), E> {
        feed_all(ansi_html_feed, &mut self.0, piece, &mut [0; HTML_ROOM], write)
    }

    /// Hands on what ends the HTML: U+FFFD where a character is begun, and what closes an element that is open. Then a
    /// stream begins, in the same styling.
    ///
    /// # Errors
    /// What `write` answers. Then what was not handed on is lost.
    pub fn end<E>(&mut self, write: impl FnOnce(&[u8]) -> Result<(), E>) -> Result<(), E> {
        end_with(ansi_html_end, &mut self.0, &mut [0; HTML_END_ROOM], write)
    }
}

const UTF_8: &str = "each part is UTF-8, which is proved";

/// What gathers the parts of a text.
type Gather<'a> = &'a mut dyn FnMut(&[u8]) -> Result<(), Infallible>;

/// All that is handed on, which is UTF-8: borrowed where it is the front of what was given.
fn joined(given: &[u8], hand_on: impl FnOnce(Gather) -> Result<(), Infallible>) -> Cow<'_, str> {
    let mut same = 0;
    let mut other: Option<Vec<u8>> = None;
    let Ok(()) = hand_on(&mut |part| {
        match &mut other {
            Some(text) => text.extend_from_slice(part),
            None if given[same..].starts_with(part) => same += part.len(),
            None => other = Some([&given[..same], part].concat()),
        }
        Ok(())
    });
    match other {
        Some(text) => Cow::Owned(String::from_utf8(text).expect(UTF_8)),
        None => Cow::Borrowed(core::str::from_utf8(&given[..same]).expect(UTF_8)),
    }
}

/// All that a stripper leaves of a whole stream.
fn stripped(stream: &[u8], mut stripper: Stripper) -> Cow<'_, str> {
    joined(stream, |write| {
        stripper.strip(stream, &mut *write)?;
        stripper.end(write)
    })
}

/// The text of terminal output. It drives no terminal: DEL and U+0080 to U+009F, which some terminals take for controls,
/// are left out too. No other byte vanishes: what is broken, and what belongs to no character, is U+FFFD.
///
/// Text that has nothing to strip is not copied: it is borrowed.
///
/// ```
/// use std::borrow::Cow;
///
/// assert!(matches!(ansi_proved::strip("plain"), Cow::Borrowed("plain")));
/// assert!(matches!(ansi_proved::strip("\x1b[1mbold"), Cow::Owned(text) if text == "bold"));
/// ```
#[must_use]
pub fn strip(stream: &(impl AsRef<[u8]> + ?Sized)) -> Cow<'_, str> {
    stripped(stream.as_ref(), Stripper::new())
}

/// The same without each carriage return right before a line feed, as `ansi2text --lf` writes it: a recording by script(1)
/// has one at the end of each line. (Safe text has none of these in any case.)
///
/// Text that has nothing to strip is borrowed here too.
///
/// ```
/// use std::borrow::Cow;
///
/// assert!(matches!(ansi_proved::strip_lf("one\r\ntwo\r"), Cow::Owned(text) if text == "one\ntwo\r"));
/// assert!(matches!(ansi_proved::strip_lf("one\ntwo\r"), Cow::Borrowed("one\ntwo\r")));
/// ```
#[must_use]
pub fn strip_lf(stream: &(impl AsRef<[u8]> + ?Sized)) -> Cow<'_, str> {
    stripped(stream.as_ref(), Stripper::lf())
}

/// The text of terminal output that hides nothing, as `ansi2text --safe` writes it: what shows nothing, turns the order of
/// text round or is a control is written visibly, as `<U+202E>`. Text that a stream hides (SGR 8), or that has
/// the colour of its ground in xterm's palette, stands between `<U+hidden>` and `<U+shown>`.
///
/// Text that is safe as it stands is not copied: it is borrowed.
#[must_use]
pub fn strip_safe(stream: &(impl AsRef<[u8]> + ?Sized)) -> Cow<'_, str> {
    let stream = stream.as_ref();
    joined(stream, |write| {
        let mut stripper = SafeStripper::new();
        stripper.strip(stream, &mut *write)?;
        stripper.end(write)
    })
}

/// The HTML of terminal output: a fragment for a `<pre>`, right after a newline there.
#[must_use]
pub fn to_html(stream: impl AsRef<[u8]>, styling: Styling) -> String {
    let html = joined(&[], |write| {
        let mut converter = Converter::new(styling);
        converter.convert(stream.as_ref(), &mut *write)?;
        converter.end(write)
    });
    html.into_owned()
}

/// A call of the parser, by the names of its crate; characters that are printed one after another are one
/// text.
#[derive(Clone, Debug, PartialEq, Eq)]
pub enum Event {
    /// Characters that are printed.
    Text(String),
    /// A control of one byte, as a line feed.
    Execute(u8),
    /// A device control string begins.
    Hook(Sequence),
    /// A byte of it.
    Put(u8),
    /// It ends.
    Unhook,
    /// An operating system command: its parts, and whether BEL ended it.
    Osc(Vec<Vec<u8>>, bool),
    /// A control sequence, as that of a colour.
    Csi(Sequence),
    /// An escape sequence, which has no parameters.
    Esc(Sequence),
}

impl Event {
    /// Whether it is an operating system command that may have been cut: that has 16 parts, or 1,024 bytes in them, which are
    /// the most that are kept. Where it is not, all that came is there; where it is, nothing tells whether more came.
    #[must_use]
    pub fn may_be_cut(&self) -> bool {
        let Event::Osc(parts, _) = self else {
            return false;
        };
        let text = parts.join(&b';');
        let record = Record {
            length: text.len(),
            kind: OSC,
            ..Record::default()
        };
        // The references are to memory of their own, and none of them is kept.
        unsafe { ansi_events_may_be_cut(&raw const record, text.as_ptr(), text.len()) }
    }
}

/// What an escape or a control sequence says.
#[derive(Clone, Debug, PartialEq, Eq)]
pub struct Sequence {
    /// Groups of fields: `[[38, 2, 9], [1]]` of `38:2:9;1`.
    pub parameters: Vec<Vec<u16>>,
    /// What stands before the byte that ends it, two at most: `?` of `CSI ? 25 h`, `(` of `ESC ( B`.
    pub intermediates: Vec<u8>,
    /// More came than is told.
    pub ignored: bool,
    /// The byte that ends it.
    pub action: u8,
}

/// The events of a stream in pieces.
pub struct Events<I: Iterator> {
    pieces: I,
    /// The piece that is read, and how many of its bytes are.
    piece: Option<I::Item>,
    read: usize,
    state: StripState,
    /// What the library wrote when it read last, and which of the records wait.
    records: Vec<Record>,
    room: Vec<u8>,
    waiting: Range<usize>,
}

/// The events of a stream in pieces. Those of a piece come before the next piece is asked for, and are the same
/// however the stream is cut, but for a text, which is cut where its piece ends, and where it has more bytes than are read at
/// once. They are made when they are asked for, so that a piece may be large.
pub fn events<I: IntoIterator<Item = impl AsRef<[u8]>>>(pieces: I) -> Events<I::IntoIter> {
    Events {
        pieces: pieces.into_iter(),
        piece: None,
        read: 0,
        state: StripState {
            length: 0,
            pending: [0; PENDING],
        },
        records: vec![Record::default(); EVENTS],
        room: vec![0; EVENTS_ROOM],
        waiting: 0..0,
    }
}

/// The events of a whole, such as a `&str` or a `Vec<u8>`: as [`events`] gives those of one piece.
pub fn events_of<T: AsRef<[u8]>>(whole: T) -> Events<core::iter::Once<T>> {
    events(core::iter::once(whole))
}

impl<I: Iterator<Item = impl AsRef<[u8]>>> Events<I> {
    /// Reads some of what the piece still has, or else of the next one; nothing where there is none.
    fn read_on(&mut self) -> Option<()> {
        let piece = self.piece.as_ref().map_or(&[][..], AsRef::as_ref);
        if self.read == piece.len() {
            self.piece = Some(self.pieces.next()?);
            self.read = 0;
            return Some(());
        }
        let (mut taken, mut written, mut used) = (0, 0, 0);
        // The references are to memory of their own, and none of them is kept.
        let is_fed = unsafe {
            ansi_events_feed(
                &raw mut self.state,
                piece[self.read..].as_ptr(),
                piece.len() - self.read,
                self.records.as_mut_ptr(),
                self.records.len(),
                self.room.as_mut_ptr(),
                self.room.len(),
                &raw mut taken,
                &raw mut written,
                &raw mut used,
            )
        };
        assert!(is_fed, "the room is too small for any byte");
        self.read += taken;
        self.waiting = 0..written;
        Some(())
    }
}

impl<I: Iterator<Item = impl AsRef<[u8]>>> Iterator for Events<I> {
    type Item = Event;

    fn next(&mut self) -> Option<Event> {
        while self.waiting.is_empty() {
            self.read_on()?;
        }
        let record = &self.records[self.waiting.next()?];
        Some(event(record, &self.room))
    }
}

impl<I: Iterator<Item: Clone> + Clone> Clone for Events<I> {
    fn clone(&self) -> Events<I> {
        Events {
            pieces: self.pieces.clone(),
            piece: self.piece.clone(),
            read: self.read,
            state: self.state.clone(),
            records: self.records.clone(),
            room: self.room.clone(),
            waiting: self.waiting.clone(),
        }
    }
}

impl<I: Iterator> fmt::Debug for Events<I> {
    fn fmt(&self, formatter: &mut fmt::Formatter<'_>) -> fmt::Result {
        formatter.debug_struct("Events").finish_non_exhaustive()
    }
}

/// The event of a record, with the bytes of the room that it stands for.
fn event(record: &Record, room: &[u8]) -> Event {
    let bytes = &room[record.start..][..record.length];
    let sequence = |parameters| Sequence {
        parameters,
        intermediates: record.intermediates[..record.intermediate_count.into()].to_vec(),
        ignored: record.flag != 0,
        action: record.byte,
    };
    match record.kind {
        0 => Event::Text(String::from_utf8(bytes.to_vec()).expect("a text is UTF-8, which is proved")),
        1 => Event::Execute(record.byte),
        2 => Event::Hook(sequence(groups(bytes))),
        3 => Event::Put(record.byte),
        4 => Event::Unhook,
        OSC => Event::Osc(bytes.split(|byte| *byte == b';').map(<[u8]>::to_vec).collect(), record.flag != 0),
        6 => Event::Csi(sequence(groups(bytes))),
        _ => Event::Esc(sequence(Vec::new())),
    }
}

/// The groups of fields of three bytes: a value, low byte first, and whether the group goes on.
fn groups(bytes: &[u8]) -> Vec<Vec<u16>> {
    let (mut groups, mut group) = (Vec::new(), Vec::new());
    for field in bytes.chunks_exact(3) {
        group.push(u16::from_le_bytes([field[0], field[1]]));
        if field[2] == 0 {
            groups.push(core::mem::take(&mut group));
        }
    }
    groups
}

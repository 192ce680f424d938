//! What a screen showed of a log, or the log itself.

use crate::Styling;
use alloc::string::String;
use alloc::vec;
use core::ffi::c_void;
use core::fmt;
use core::ptr;

/// How many bytes are given at once. (The library copies the first piece.)
const PIECE: usize = 65536;

#[repr(C)]
struct Handle {
    held: *mut c_void,
}

#[repr(C)]
struct Options {
    columns: usize,
    rows: usize,
    form: u8,
    styling: u8,
    lines: u8,
    urls: u8,
    no_hidden: u8,
    no_screen: u8,
    reserved: [u8; 2],
}

unsafe extern "C" {
    fn ansi_shown_open(shown: *mut Handle, options: *const Options) -> bool;

    fn ansi_shown_close(shown: *mut Handle);

    fn ansi_shown_feed(shown: *mut Handle, piece: *const u8, count: usize) -> bool;

    fn ansi_shown_end(shown: *mut Handle) -> bool;

    fn ansi_shown_text(
        shown: *mut Handle,
        room: *mut u8,
        size: usize,
        written: *mut usize,
    ) -> bool;
}

/// The form in which a log is written, or what a screen showed of it.
#[derive(Clone, Copy, Debug, Default, PartialEq, Eq, Hash)]
pub enum Form {
    /// Text, as `ansi2text --shown` writes it.
    #[default]
    Text,
    /// Text that hides nothing, as `ansi2text --shown --safe`.
    Safe,
    /// HTML, as `ansi2html --fragment --shown`.
    Html(Styling),
}

/// How a log is written: a form, and what more is asked for.
///
/// ```
/// use ansi_proved::screen::{Form, How, ShownLog};
/// use ansi_proved::Styling;
///
/// let how = How { urls: true, no_screen: true, ..Form::Html(Styling::Classes).into() };
/// let mut log = ShownLog::new(how)?;
/// log.feed(b"http://a")?;
/// assert!(log.end()?.contains("href=\"http://a\""));
/// # Ok::<(), ansi_proved::screen::CannotShow>(())
/// ```
#[derive(Clone, Copy, Debug, Default, PartialEq, Eq, Hash)]
#[allow(clippy::struct_excessive_bools)] // (they are the programs' options)
pub struct How {
    /// The form.
    pub form: Form,
    /// Of HTML: each line in an element with its number, to link to, as by `--lines`.
    pub lines: bool,
    /// Of HTML: addresses in the text are links too, as by `--urls`.
    pub urls: bool,
    /// Text that SGR 8 hides is left out, as by `--no-hidden`.
    pub no_hidden: bool,
    /// No screen shows the log: it is written as it is, as without `--shown`.
    pub no_screen: bool,
}

impl From<Form> for How {
    fn from(form: Form) -> How {
        How {
            form,
            ..How::default()
        }
    }
}

/// No screen has that size, or there is no memory for a log, or for what is written of it.
#[derive(Clone, Copy, Debug, PartialEq, Eq)]
pub struct CannotShow;

impl fmt::Display for CannotShow {
    fn fmt(&self, formatter: &mut fmt::Formatter<'_>) -> fmt::Result {
        formatter
            .write_str("a screen has 2 to 1000 columns and 1 to 1000 rows, and a log needs memory")
    }
}

impl core::error::Error for CannotShow {}

/// What a screen showed of a log that comes in pieces: the lines of all that scrolled off at its top, or was erased with all of
/// it, and of what still shows at the end.
///
/// ```
/// use ansi_proved::screen::{Form, ShownLog};
///
/// let mut log = ShownLog::new(Form::Text)?;
/// log.feed(b" 10%\r 5")?;
/// log.feed(b"0%\r100%\n")?;
/// assert_eq!(log.end()?, "100%\n");
/// # Ok::<(), ansi_proved::screen::CannotShow>(())
/// ```
pub struct ShownLog {
    handle: Handle,
}

impl ShownLog {
    /// One whose screen has the size that the first line of the log says, as script(1) writes it, and where it says none, 1,000
    /// columns and 100 rows.
    ///
    /// # Errors
    /// There is no memory.
    pub fn new(how: impl Into<How>) -> Result<ShownLog, CannotShow> {
        ShownLog::opened(how.into(), 0, 0)
    }

    /// One whose screen has so many columns (2 to 1000) and rows (1 to 1000).
    ///
    /// # Errors
    /// There is no screen of another size, or no memory.
    pub fn with_size(
        how: impl Into<How>,
        columns: usize,
        rows: usize,
    ) -> Result<ShownLog, CannotShow> {
        if columns == 0 && rows == 0 {
            return Err(CannotShow); // (which is the size of the log to the library)
        }
        ShownLog::opened(how.into(), columns, rows)
    }

    fn opened(how: How, columns: usize, rows: usize) -> Result<ShownLog, CannotShow> {
        let (form, styling) = match how.form {
            Form::Text => (0, 0),
            Form::Safe => (1, 0),
            Form::Html(styling) => (2, styling as u8),
        };
        let options = Options {
            columns,
            rows,
            form,
            styling,
            lines: how.lines.into(),
            urls: how.urls.into(),
            no_hidden: how.no_hidden.into(),
            no_screen: how.no_screen.into(),
            reserved: [0; 2],
        };
        let held = ptr::null_mut();
        let mut log = ShownLog {
            handle: Handle { held },
        };
        if !unsafe { ansi_shown_open(&raw mut log.handle, &raw const options) } {
            return Err(CannotShow);
        }
        Ok(log)
    }

    /// Takes the next bytes of the log, cut anywhere.
    ///
    /// # Errors
    /// There is no memory, now or before.
    pub fn feed(&mut self, piece: &[u8]) -> Result<(), CannotShow> {
        if !unsafe { ansi_shown_feed(&raw mut self.handle, piece.as_ptr(), piece.len()) } {
            return Err(CannotShow);
        }
        Ok(())
    }

    /// Ends the log, and gives what the screen showed of it.
    ///
    /// # Errors
    /// There is no memory, now or before.
    pub fn end(mut self) -> Result<String, CannotShow> {
        if !unsafe { ansi_shown_end(&raw mut self.handle) } {
            return Err(CannotShow);
        }
        let mut text = vec![0; self.text_in(&mut [])];
        self.text_in(&mut text);
        String::from_utf8(text).map_err(|_| CannotShow) // (it is UTF-8)
    }

    /// Writes the text to the front of the room, where it has room, and tells how many bytes it has.
    fn text_in(&mut self, room: &mut [u8]) -> usize {
        let mut length = 0;
        unsafe {
            ansi_shown_text(
                &raw mut self.handle,
                room.as_mut_ptr(),
                room.len(),
                &raw mut length,
            )
        };
        length
    }
}

impl Drop for ShownLog {
    fn drop(&mut self) {
        unsafe { ansi_shown_close(&raw mut self.handle) };
    }
}

impl fmt::Debug for ShownLog {
    fn fmt(&self, formatter: &mut fmt::Formatter<'_>) -> fmt::Result {
        formatter.write_str("ShownLog")
    }
}

/// What a screen of the recording's size showed of a whole log, as [`ShownLog::new`] has it.
///
/// # Errors
/// There is no memory.
pub fn shown(log: &[u8], how: impl Into<How>) -> Result<String, CannotShow> {
    let mut shown = ShownLog::new(how)?;
    for piece in log.chunks(PIECE) {
        shown.feed(piece)?;
    }
    shown.end()
}

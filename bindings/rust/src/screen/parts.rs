//! What decides on a screen beside what shows: places of the cursor, margins, tab stops and hidden rows; and the colours of numbers.

use super::{cell_of, style_of, Cell, CellBytes, Handle, Place, Screen, Style, StyleBytes};
use alloc::vec::{self, Vec};
use core::ops::Range;

#[repr(C)]
#[derive(Default)]
struct PlaceBytes {
    row: usize,
    column: usize,
    style: StyleBytes,
    flags: [u8; 5],
    reserved: [u8; 2],
}

unsafe extern "C" {
    fn ansi_screen_place(screen: *mut Handle, which: u8, place: *mut PlaceBytes) -> bool;

    fn ansi_screen_margins(screen: *mut Handle, top: *mut usize, bottom: *mut usize) -> bool;

    fn ansi_screen_stops(screen: *mut Handle, stops: *mut u8, count: usize) -> bool;

    fn ansi_screen_hidden_row(
        screen: *mut Handle,
        row: usize,
        cells: *mut CellBytes,
        count: usize,
    ) -> bool;

    fn ansi_screen_color_rgb(number: u8, rgb: *mut [u8; 3]);
}

/// The character sets: each draws lines, or has letters.
#[derive(Clone, Copy, Debug, Default, PartialEq, Eq, Hash)]
pub struct Charsets {
    /// G0 is the line drawing set.
    pub g0_draws: bool,
    /// G1 is the line drawing set.
    pub g1_draws: bool,
    /// Characters are those of G1 (SO), and not of G0 (SI).
    pub uses_g1: bool,
}

/// A place of the cursor, and what DECSC saves with it. Autowrap is none of it.
#[derive(Clone, Copy, Debug, PartialEq, Eq, Hash)]
#[non_exhaustive]
pub struct Saved {
    /// Where it is, from the screen's first row and column on.
    pub place: Place,
    /// The style of what comes next.
    pub style: Style,
    /// Lines are counted from the upper margin (DECOM).
    pub origin: bool,
    /// The last column was printed: the next character goes to the next row.
    pub wrap_pending: bool,
    /// The character sets.
    pub charsets: Charsets,
}

impl Screen {
    /// The cursor with all that DECSC would save.
    pub fn state(&self) -> Saved {
        self.numbered(0).1
    }

    /// What DECSC saved on the screen that shows; where nothing was, the top left, plain.
    pub fn saved(&self) -> Saved {
        self.numbered(1).1
    }

    /// While the alternate screen shows, what is saved on the main one: where the cursor was (1049), and goes back to.
    pub fn hidden_saved(&self) -> Option<Saved> {
        let (is_there, saved) = self.numbered(2);
        is_there.then_some(saved)
    }

    /// The place of a number, and whether there is one.
    fn numbered(&self, which: u8) -> (bool, Saved) {
        let mut bytes = PlaceBytes::default();
        let is_there = unsafe { ansi_screen_place(self.handle(), which, &raw mut bytes) };
        let [origin, wrap_pending, g0_draws, g1_draws, uses_g1] = bytes.flags.map(|it| it != 0);
        let saved = Saved {
            place: Place {
                row: bytes.row,
                column: bytes.column,
            },
            style: style_of(bytes.style),
            origin,
            wrap_pending,
            charsets: Charsets {
                g0_draws,
                g1_draws,
                uses_g1,
            },
        };
        (is_there, saved)
    }

    /// The rows that scroll (DECSTBM), counted from 0.
    pub fn margins(&self) -> Range<usize> {
        let (mut top, mut bottom) = (0, 0);
        unsafe { ansi_screen_margins(self.handle(), &raw mut top, &raw mut bottom) };
        top..bottom
    }

    /// The columns at which tabs stop, counted from 0.
    pub fn stops(&self) -> impl Iterator<Item = usize> {
        let mut stops: Vec<u8> = vec::from_elem(0, self.columns());
        unsafe { ansi_screen_stops(self.handle(), stops.as_mut_ptr(), stops.len()) };
        (0..).zip(stops).filter(|it| it.1 != 0).map(|it| it.0)
    }

    /// The cells of a row of the main screen, counted from 0, while the alternate one shows. There are none where the main one does,
    /// and where there is no such row.
    pub fn hidden_row(&self, row: usize) -> impl Iterator<Item = Cell> {
        self.cells_by(|handle, cells, count| unsafe {
            ansi_screen_hidden_row(handle, row, cells, count)
        })
        .map(cell_of)
    }
}

/// The red, green and blue of one of xterm's 256 colours, as xterm has them at first: its eight ([`Color::Named`]), the same in bright
/// ([`Color::Bright`], from 8 on), a cube and greys.
///
/// [`Color::Named`]: super::Color::Named
/// [`Color::Bright`]: super::Color::Bright
#[must_use]
pub fn color_rgb(number: u8) -> [u8; 3] {
    let mut rgb = [0; 3];
    unsafe { ansi_screen_color_rgb(number, &raw mut rgb) };
    rgb
}

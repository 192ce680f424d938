//! What a program that asks is answered, and the terminal's own colours.

use super::{Handle, Screen};
use alloc::vec::Vec;

#[repr(C)]
#[derive(Clone, Copy, Default)]
struct RgbBytes {
    told: u8,
    red: u8,
    green: u8,
    blue: u8,
}

#[repr(C)]
struct ColorsBytes {
    foreground: RgbBytes,
    background: RgbBytes,
    cursor: RgbBytes,
    palette: [RgbBytes; 256],
}

unsafe extern "C" {
    fn ansi_screen_answers(
        screen: *mut Handle,
        room: *mut u8,
        size: usize,
        written: *mut usize,
        lost: *mut u8,
    ) -> bool;

    fn ansi_screen_colors(screen: *mut Handle, colors: *const ColorsBytes) -> bool;
}

/// A colour by its red, green and blue.
#[derive(Debug, Clone, Copy, PartialEq, Eq, Hash)]
pub struct Rgb {
    /// Its red.
    pub red: u8,
    /// Its green.
    pub green: u8,
    /// Its blue.
    pub blue: u8,
}

/// The terminal's own colours, each told or not.
#[derive(Debug, Clone, PartialEq, Eq)]
pub struct Colors {
    /// That of text.
    pub foreground: Option<Rgb>,
    /// That behind it.
    pub background: Option<Rgb>,
    /// That of the cursor.
    pub cursor: Option<Rgb>,
    /// Those that have a number.
    pub palette: [Option<Rgb>; 256],
}

/// None is told.
impl Default for Colors {
    fn default() -> Colors {
        Colors { foreground: None, background: None, cursor: None, palette: [None; 256] }
    }
}

/// Answers that waited.
#[derive(Debug, Clone, Default, PartialEq, Eq)]
pub struct Answers {
    /// The oldest first, at most 4,096 bytes.
    pub bytes: Vec<u8>,
    /// Whether older ones were lost: 64 wait at most.
    pub lost: bool,
}

impl RgbBytes {
    fn of(color: Option<Rgb>) -> RgbBytes {
        color.map_or(RgbBytes::default(), |it| RgbBytes {
            told: 1,
            red: it.red,
            green: it.green,
            blue: it.blue,
        })
    }
}

impl Screen {
    /// What a terminal would have answered since this was called before, to be written to the program: DSR, DA, DECRQM and the
    /// like. No text that the screen was fed comes back.
    ///
    /// ```
    /// let mut screen = ansi_proved::screen::Screen::new(80, 24).unwrap();
    /// screen.feed(b"\x1b[3;5H\x1b[6n");
    /// assert_eq!(screen.answers().bytes, b"\x1b[3;5R");
    /// assert_eq!(screen.answers().bytes, b"");
    /// ```
    pub fn answers(&mut self) -> Answers {
        let mut lost = 0;
        let bytes = self.bytes_by(|handle, room, written| unsafe {
            ansi_screen_answers(
                handle,
                room.as_mut_ptr(),
                room.len(),
                written,
                &raw mut lost,
            )
        });
        Answers { bytes, lost: lost != 0 }
    }

    /// Tells the terminal's own colours, in place of those told before. Who asks for one that neither was told nor is set has no
    /// answer.
    pub fn tell_colors(&mut self, colors: &Colors) {
        let bytes = ColorsBytes {
            foreground: RgbBytes::of(colors.foreground),
            background: RgbBytes::of(colors.background),
            cursor: RgbBytes::of(colors.cursor),
            palette: colors.palette.map(RgbBytes::of),
        };
        unsafe { ansi_screen_colors(self.handle(), &raw const bytes) };
    }
}

//! What a screen shows, or showed, as a picture.

use super::{Handle, Screen};
use alloc::string::String;

#[repr(C)]
struct PictureBytes {
    scheme: u8,
    shown: u8,
    cursor: u8,
    window: u8,
    reserved: [u8; 4],
}

#[link(name = "ansi_screen", kind = "static")]
unsafe extern "C" {
    fn ansi_screen_svg(
        screen: *mut Handle,
        picture: *const PictureBytes,
        title: *const u8,
        title_size: usize,
        font: *const u8,
        font_size: usize,
        room: *mut u8,
        size: usize,
        written: *mut usize,
    ) -> bool;
}

/// The pages that the colours of a picture are for.
#[derive(Clone, Copy, Debug, Default, PartialEq, Eq, Hash)]
pub enum Scheme {
    /// Light and dark ones, as the reader has it (`prefers-color-scheme`).
    #[default]
    Both = 0,
    /// Light ones.
    Light = 1,
    /// Dark ones.
    Dark = 2,
}

/// How a picture is drawn.
///
/// ```
/// use ansi_proved::screen::{Picture, Screen};
///
/// let mut screen = Screen::new(80, 24)?;
/// screen.feed(b"\x1b[32mall passed");
/// let svg = screen.to_svg(Picture { window: true, title: "tests", ..Picture::default() });
/// assert!(svg.starts_with("<svg ") && svg.contains(">all passed</text>"));
/// # Ok::<(), ansi_proved::screen::CannotOpen>(())
/// ```
#[derive(Clone, Copy, Debug, Default, PartialEq, Eq, Hash)]
pub struct Picture<'a> {
    /// The pages that its colours are for.
    pub scheme: Scheme,
    /// All that the screen showed: the last 1,000 of the rows that left and are kept, and then its own up to the last in which something
    /// was printed, and with the cursor to that of the cursor.
    pub shown: bool,
    /// The cursor too, as a frame around its cell, where the screen shows it.
    pub cursor: bool,
    /// The bar of a window above the screen, with the title in it.
    pub window: bool,
    /// Its title. An empty one is none.
    pub title: &'a str,
    /// The fonts, as `font-family` of CSS has them. Where it is empty, they are the usual ones.
    pub font: &'a str,
}

impl Screen {
    /// What it shows as a picture, as `ansi2svg` writes it: SVG, whose text is text. Memory is taken while it is made; where there is none,
    /// it is empty.
    pub fn to_svg(&self, picture: Picture<'_>) -> String {
        let how = PictureBytes {
            scheme: picture.scheme as u8,
            shown: picture.shown.into(),
            cursor: picture.cursor.into(),
            window: picture.window.into(),
            reserved: [0; 4],
        };
        let (title, font) = (picture.title, picture.font);
        self.read(|handle, room, written| unsafe {
            ansi_screen_svg(
                handle,
                &raw const how,
                title.as_ptr(),
                title.len(),
                font.as_ptr(),
                font.len(),
                room.as_mut_ptr(),
                room.len(),
                written,
            )
        })
    }
}

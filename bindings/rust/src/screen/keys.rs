//! What a program asked for, and what it reads of keys, the mouse, a paste and the focus by that.

use super::{Handle, Screen};
use alloc::string::String;
use alloc::vec::Vec;

#[repr(C)]
struct KeyBytes {
    character: u32,
    shifted: u32,
    key: u8,
    modifiers: u8,
    event: u8,
    reserved: u8,
}

#[repr(C)]
struct MouseBytes {
    column: u16,
    row: u16,
    x: u16,
    y: u16,
    action: u8,
    button: u8,
    modifiers: u8,
    reserved: u8,
}

unsafe extern "C" {
    fn ansi_screen_asked(screen: *mut Handle, bits: *mut u16) -> bool;

    fn ansi_screen_title(
        screen: *mut Handle,
        room: *mut u8,
        size: usize,
        written: *mut usize,
    ) -> bool;

    fn ansi_screen_key(
        screen: *mut Handle,
        key: *const KeyBytes,
        room: *mut u8,
        size: usize,
        written: *mut usize,
    ) -> bool;

    fn ansi_screen_mouse(
        screen: *mut Handle,
        mouse: *const MouseBytes,
        room: *mut u8,
        size: usize,
        written: *mut usize,
    ) -> bool;

    fn ansi_screen_paste(
        screen: *mut Handle,
        text: *const u8,
        count: usize,
        room: *mut u8,
        size: usize,
        written: *mut usize,
    ) -> bool;

    fn ansi_screen_focus(
        screen: *mut Handle,
        gained: u8,
        room: *mut u8,
        size: usize,
        written: *mut usize,
    ) -> bool;
}

/// What is told of the mouse.
#[derive(Clone, Copy, Debug, PartialEq, Eq, Hash)]
pub enum Tracking {
    /// 9: presses of buttons.
    Presses,
    /// 1000: presses and releases, and the wheel.
    Buttons,
    /// 1002: motion too, while a button is down.
    Drags,
    /// 1003: all motion.
    Motion,
}

/// How it is written.
#[derive(Clone, Copy, Debug, PartialEq, Eq, Hash)]
pub enum Encoding {
    /// Three bytes.
    Bytes,
    /// 1006.
    Sgr,
    /// 1015.
    Urxvt,
    /// 1016: places are pixels.
    Pixels,
}

/// The shape of the cursor.
#[derive(Clone, Copy, Debug, PartialEq, Eq, Hash)]
pub enum Shape {
    /// The terminal's own.
    Own,
    /// A block.
    Block,
    /// A line below.
    Underline,
    /// A bar.
    Bar,
}

/// What was asked for since it was last told: what was set to what it was is told too.
#[derive(Clone, Copy, Debug, PartialEq, Eq, Hash)]
#[non_exhaustive]
#[allow(clippy::struct_excessive_bools, reason = "each goes with any other")]
pub struct Asked {
    /// How keys are told.
    pub keys: bool,
    /// What is told of the mouse, and how.
    pub mouse: bool,
    /// Whether the focus is told.
    pub focus: bool,
    /// Whether what is pasted comes in brackets.
    pub paste: bool,
    /// Synchronized output (2026).
    pub synchronized: bool,
    /// DECSCNM.
    pub reverse: bool,
    /// The cursor's shape, and whether it blinks.
    pub cursor: bool,
    /// The window's title.
    pub title: bool,
    /// The icon's title.
    pub icon: bool,
    /// The folder (OSC 7).
    pub folder: bool,
    /// How far a program is (OSC 9;4).
    pub progress: bool,
    /// The bell.
    pub bell: bool,
    /// Colours (OSC 4, 10 to 12).
    pub colors: bool,
}

/// A key of the cursor or of editing.
#[derive(Clone, Copy, Debug, PartialEq, Eq, Hash)]
#[allow(missing_docs, reason = "each is what a keyboard has on it")]
pub enum Move {
    Up,
    Down,
    Right,
    Left,
    Home,
    End,
    Insert,
    Delete,
    PageUp,
    PageDown,
}

/// A key of the keypad.
#[derive(Clone, Copy, Debug, PartialEq, Eq, Hash)]
#[allow(missing_docs, reason = "each is what a keyboard has on it")]
pub enum Pad {
    /// 0 to 9; any other number is no key.
    Digit(u8),
    Decimal,
    Divide,
    Multiply,
    Subtract,
    Add,
    Separator,
    Equal,
    Enter,
    /// 5, where Num Lock is off.
    Begin,
    /// Any other, where it is off.
    Move(Move),
}

/// A key.
#[derive(Clone, Copy, Debug, PartialEq, Eq, Hash)]
#[allow(missing_docs, reason = "each is what a keyboard has on it")]
pub enum Key {
    /// What the key types without Shift.
    Character(char),
    /// The same, and what it types with Shift.
    Typed(char, char),
    Enter,
    Tab,
    Backspace,
    Escape,
    Move(Move),
    /// F1 to F24; any other number is no key.
    Function(u8),
    Pad(Pad),
}

/// What is held beside a key or a button.
#[derive(Clone, Copy, Debug, Default, PartialEq, Eq, Hash)]
#[allow(clippy::struct_excessive_bools, reason = "each goes with any other")]
#[allow(missing_docs, reason = "each is what a keyboard has on it")]
pub struct Held {
    pub shift: bool,
    pub alt: bool,
    pub control: bool,
    pub super_key: bool,
    pub hyper: bool,
    pub meta: bool,
    pub caps_lock: bool,
    pub num_lock: bool,
}

/// What happens to a key.
#[derive(Clone, Copy, Debug, Default, PartialEq, Eq, Hash)]
pub enum Event {
    /// It is pressed.
    #[default]
    Press,
    /// It repeats.
    Repeat,
    /// It is released.
    Release,
}

/// A button of the mouse.
#[derive(Clone, Copy, Debug, PartialEq, Eq, Hash)]
#[allow(missing_docs, reason = "each is what a mouse has on it")]
pub enum Button {
    Left,
    Middle,
    Right,
    Back,
    Forward,
}

/// Where the wheel turns to.
#[derive(Clone, Copy, Debug, PartialEq, Eq, Hash)]
#[allow(missing_docs, reason = "each is what it says")]
pub enum Wheel {
    Up,
    Down,
    Left,
    Right,
}

/// What the mouse does.
#[derive(Clone, Copy, Debug, PartialEq, Eq, Hash)]
pub enum Action {
    /// A button is pressed.
    Press(Button),
    /// It is released.
    Release(Button),
    /// The wheel turns by a notch.
    Turn(Wheel),
    /// The mouse comes to another place, and the button that is down.
    Move(Option<Button>),
}

/// What the mouse does, and where: columns, rows and pixels count from 0.
#[derive(Clone, Copy, Debug, PartialEq, Eq, Hash)]
pub struct Mouse {
    /// What it does.
    pub action: Action,
    /// What is held.
    pub held: Held,
    /// The column.
    pub column: u16,
    /// The row.
    pub row: u16,
    /// The pixel, where a program asks for it: from the left,
    pub x: u16,
    /// and from the top.
    pub y: u16,
}

impl Held {
    fn number(self) -> u8 {
        let each = [
            self.shift,
            self.alt,
            self.control,
            self.super_key,
            self.hyper,
            self.meta,
            self.caps_lock,
            self.num_lock,
        ];
        each.iter()
            .rev()
            .fold(0, |number, held| number * 2 + u8::from(*held))
    }
}

impl Pad {
    fn number(self) -> u8 {
        match self {
            Pad::Digit(digit) => {
                if digit <= 9 {
                    40 + digit
                } else {
                    u8::MAX
                }
            }
            Pad::Decimal => 50,
            Pad::Divide => 51,
            Pad::Multiply => 52,
            Pad::Subtract => 53,
            Pad::Add => 54,
            Pad::Separator => 55,
            Pad::Equal => 56,
            Pad::Enter => 57,
            Pad::Begin => 58,
            Pad::Move(key) => 61 + key as u8,
        }
    }
}

impl Key {
    /// Its number, what it types, and what it types with Shift.
    fn numbers(self) -> (u8, char, char) {
        let number = match self {
            Key::Character(character) => return (0, character, '\0'),
            Key::Typed(character, shifted) => return (0, character, shifted),
            Key::Enter => 1,
            Key::Tab => 2,
            Key::Backspace => 3,
            Key::Escape => 4,
            Key::Move(key) => 11 + key as u8,
            Key::Function(number) => {
                if (1..=24).contains(&number) {
                    100 + number
                } else {
                    u8::MAX
                }
            }
            Key::Pad(key) => key.number(),
        };
        (number, '\0', '\0')
    }
}

impl Button {
    fn number(self) -> u8 {
        match self {
            Button::Left => 1,
            Button::Middle => 2,
            Button::Right => 3,
            Button::Back => 8,
            Button::Forward => 9,
        }
    }
}

impl Action {
    /// Its number, and that of the button.
    fn numbers(self) -> (u8, u8) {
        match self {
            Action::Press(button) => (1, button.number()),
            Action::Release(button) => (2, button.number()),
            Action::Turn(wheel) => (1, 4 + wheel as u8),
            Action::Move(button) => (3, button.map_or(0, Button::number)),
        }
    }
}

impl Screen {
    /// What a program asked for since this was called before.
    pub fn asked(&mut self) -> Asked {
        let mut bits = 0;
        unsafe { ansi_screen_asked(self.handle(), &raw mut bits) };
        let is = |place: u16| bits >> place & 1 == 1;
        Asked {
            keys: is(0),
            mouse: is(1),
            focus: is(2),
            paste: is(3),
            synchronized: is(4),
            reverse: is(5),
            cursor: is(6),
            title: is(7),
            icon: is(8),
            folder: is(9),
            progress: is(10),
            bell: is(11),
            colors: is(12),
        }
    }

    /// The title of the window: at most 1,024 bytes, without controls.
    pub fn title(&self) -> String {
        self.read(|handle, room, written| unsafe {
            ansi_screen_title(handle, room.as_mut_ptr(), room.len(), written)
        })
    }

    /// The bytes that a program reads of a key, by what it asked for; none where that is nothing.
    pub fn key(&self, key: Key, held: Held, event: Event) -> Vec<u8> {
        let (number, character, shifted) = key.numbers();
        let given = KeyBytes {
            character: u32::from(character),
            shifted: u32::from(shifted),
            key: number,
            modifiers: held.number(),
            event: 1 + event as u8,
            reserved: 0,
        };
        self.bytes_by(|handle, room, written| unsafe {
            ansi_screen_key(
                handle,
                &raw const given,
                room.as_mut_ptr(),
                room.len(),
                written,
            )
        })
    }

    /// The same of the mouse.
    pub fn mouse(&self, mouse: Mouse) -> Vec<u8> {
        let (action, button) = mouse.action.numbers();
        let given = MouseBytes {
            column: mouse.column,
            row: mouse.row,
            x: mouse.x,
            y: mouse.y,
            action,
            button,
            modifiers: mouse.held.number(),
            reserved: 0,
        };
        self.bytes_by(|handle, room, written| unsafe {
            ansi_screen_mouse(
                handle,
                &raw const given,
                room.as_mut_ptr(),
                room.len(),
                written,
            )
        })
    }

    /// The same of a text that is pasted: without controls but TAB, LF and CR, and in brackets where a program asked for them.
    pub fn paste(&self, text: &str) -> Vec<u8> {
        self.bytes_by(|handle, room, written| unsafe {
            ansi_screen_paste(
                handle,
                text.as_ptr(),
                text.len(),
                room.as_mut_ptr(),
                room.len(),
                written,
            )
        })
    }

    /// The same of the focus, which the terminal has now, or has no longer.
    pub fn focus(&self, gained: bool) -> Vec<u8> {
        self.bytes_by(|handle, room, written| unsafe {
            ansi_screen_focus(
                handle,
                u8::from(gained),
                room.as_mut_ptr(),
                room.len(),
                written,
            )
        })
    }
}

//! Styles, as `syntect::highlighting` has them.

use std::ops::BitOr;

/// A colour.
#[derive(Clone, Copy, Debug, PartialEq, Eq, Hash)]
pub struct Color {
    pub r: u8,
    pub g: u8,
    pub b: u8,
    pub a: u8,
}

impl Color {
    pub(crate) fn of_number(number: u32) -> Color {
        let [r, g, b, a] = number.to_be_bytes();
        Color { r, g, b, a }
    }
}

/// What a font is: bold, underlined, italic, or some of these.
#[derive(Clone, Copy, Debug, Default, PartialEq, Eq, Hash)]
pub struct FontStyle(u8);

impl FontStyle {
    pub const BOLD: FontStyle = FontStyle(1);
    pub const UNDERLINE: FontStyle = FontStyle(2);
    pub const ITALIC: FontStyle = FontStyle(4);

    pub(crate) fn of_flags(flags: u32) -> FontStyle {
        FontStyle(flags as u8 & 7)
    }

    pub fn empty() -> FontStyle {
        FontStyle(0)
    }

    pub fn bits(self) -> u8 {
        self.0
    }

    pub fn contains(self, other: FontStyle) -> bool {
        self.0 & other.0 == other.0
    }
}

impl BitOr for FontStyle {
    type Output = FontStyle;

    fn bitor(self, other: FontStyle) -> FontStyle {
        FontStyle(self.0 | other.0)
    }
}

/// How a piece of text is shown.
#[derive(Clone, Copy, Debug, PartialEq, Eq, Hash)]
pub struct Style {
    pub foreground: Color,
    pub background: Color,
    pub font_style: FontStyle,
}

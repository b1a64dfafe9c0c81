//! Stand-in for color.rs, which is not in the text given.
pub type Color = u8;
pub const WHITE: Color = 0;
pub const BLACK: Color = 1;

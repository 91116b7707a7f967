//! Stands in for the drawing library, so that render.rs compiles. Nothing of it is run.

use std::fmt;

#[derive(Clone, Copy)]
pub struct Color(pub u8, pub u8, pub u8);

#[derive(Default)]
pub struct Attr;

impl Attr {
    pub fn fill(self, _color: Color) -> Attr {
        self
    }

    pub fn stroke(self, _color: Color) -> Attr {
        self
    }

    pub fn stroke_width(self, _width: f32) -> Attr {
        self
    }
}

pub enum Fig {
    Rect(f32, f32, f32, f32),
    Line(f32, f32, f32, f32),
    Multiple(Vec<Fig>),
}

impl Fig {
    pub fn styled(self, _attr: Attr) -> Fig {
        self
    }
}

pub struct Svg(pub Vec<Fig>, pub u32, pub u32);

impl fmt::Display for Svg {
    fn fmt(&self, f: &mut fmt::Formatter) -> fmt::Result {
        f.write_str("no picture")
    }
}

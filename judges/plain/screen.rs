//! The screen: a byte for each pixel, by rows, and what paints on it.

use crate::region::{Point, Rect};

#[derive(Clone, Copy, PartialEq)]
pub enum Kind {
    Mono,
    Map4,
    Map8,
}

impl Kind {
    pub fn name(self) -> &'static str {
        match self {
            Kind::Mono => "mono",
            Kind::Map4 => "map4",
            Kind::Map8 => "map8",
        }
    }

    /// The colour that a tint has on a screen of this kind.
    pub fn colour(self, tint: u8) -> u8 {
        tint.min(match self {
            Kind::Mono => 1,
            Kind::Map4 => 15,
            Kind::Map8 => 255,
        })
    }
}

/// The eight points of a row of a glyph or tile, a byte each.
pub fn spread(bits: u8) -> [u8; 8] {
    std::array::from_fn(|i| bits >> (7 - i) & 1)
}

/// The glyphs of the bytes 32 to 126, already spread. One that is not set is a box.
#[derive(Clone)]
pub struct Font {
    cells: Vec<[[u8; 8]; 8]>,
    set: [bool; 95],
}

impl Font {
    pub fn new() -> Font {
        let empty = [0xff, 0x81, 0x81, 0x81, 0x81, 0x81, 0x81, 0xff];
        Font { cells: vec![empty.map(spread); 95], set: [false; 95] }
    }

    pub fn is_set(&self, byte: u8) -> bool {
        self.set[byte as usize - 32]
    }

    pub fn set(&mut self, byte: u8, rows: [u8; 8]) {
        self.cells[byte as usize - 32] = rows.map(spread);
        self.set[byte as usize - 32] = true;
    }

    fn row(&self, byte: u8, row: usize) -> &[u8; 8] {
        &self.cells[byte as usize - 32][row]
    }
}

#[derive(Clone)]
pub struct Screen {
    pub wide: i32,
    pub high: i32,
    pub kind: Kind,
    pixels: Vec<u8>,
}

impl Screen {
    pub fn new(wide: i32, high: i32, kind: Kind) -> Screen {
        Screen { wide, high, kind, pixels: vec![0; (wide * high) as usize] }
    }

    pub fn whole(&self) -> Rect {
        Rect::of_size(self.wide, self.high)
    }

    /// A screen of another size, with the pixels that both have.
    pub fn resized(&self, wide: i32, high: i32) -> Screen {
        let mut new = Screen::new(wide, high, self.kind);
        for v in 0..high.min(self.high) {
            let common = wide.min(self.wide);
            new.row_mut(v, 0, common).copy_from_slice(self.row(v, 0, common));
        }
        new
    }

    pub fn row(&self, v: i32, west: i32, east: i32) -> &[u8] {
        let start = (v * self.wide) as usize;
        &self.pixels[start + west as usize..start + east as usize]
    }

    pub fn row_mut(&mut self, v: i32, west: i32, east: i32) -> &mut [u8] {
        let start = (v * self.wide) as usize;
        &mut self.pixels[start + west as usize..start + east as usize]
    }

    pub fn sum(&self) -> u64 {
        self.pixels.iter().map(|&x| x as u64).sum()
    }

    pub fn fill(&mut self, rect: &Rect, colour: u8) {
        for v in rect.north..rect.south {
            self.row_mut(v, rect.west, rect.east).fill(colour);
        }
    }

    pub fn exchange(&mut self, rect: &Rect, x: u8, y: u8) {
        for v in rect.north..rect.south {
            for pixel in self.row_mut(v, rect.west, rect.east) {
                *pixel = if *pixel == x {
                    y
                } else if *pixel == y {
                    x
                } else {
                    *pixel
                };
            }
        }
    }

    /// Paints a row of cells that begins at a corner, as far as it lies in the clip, and zeros east
    /// of it. The clip lies on these eight rows of points, and not west of the corner.
    pub fn text(&mut self, font: &Font, clip: &Rect, corner: Point, text: &[u8]) {
        let skip = (clip.west - corner.h) as usize;
        let text = text.get(skip / 8..).unwrap_or_default();
        for v in clip.north..clip.south {
            let glyph_row = (v - corner.v) as usize;
            let mut row = self.row_mut(v, clip.west, clip.east);
            let mut text = text;
            if skip % 8 > 0 {
                let part = row.len().min(8 - skip % 8);
                match text {
                    [byte, rest @ ..] => {
                        let cell = &font.row(*byte, glyph_row)[skip % 8..][..part];
                        row[..part].copy_from_slice(cell);
                        text = rest;
                    }
                    [] => row[..part].fill(0),
                }
                row = &mut row[part..];
            }
            let length = text.len().min(row.len() / 8);
            let (cells, _) = row[..8 * length].as_chunks_mut::<8>();
            for (cell, byte) in cells.iter_mut().zip(text) {
                *cell = *font.row(*byte, glyph_row);
            }
            let rest = &mut row[8 * length..];
            match text.get(length) {
                Some(byte) => rest.copy_from_slice(&font.row(*byte, glyph_row)[..rest.len()]),
                None => rest.fill(0),
            }
        }
    }

    /// Paints a tile that is repeated, with a corner of it at a point.
    pub fn tiles(&mut self, clip: &Rect, corner: Point, tile: &[u8; 8]) {
        let turn = (clip.west - corner.h).rem_euclid(8) as u32;
        for v in clip.north..clip.south {
            let bits = tile[(v - corner.v).rem_euclid(8) as usize];
            let cell = spread(bits.rotate_left(turn));
            let row = self.row_mut(v, clip.west, clip.east);
            let (cells, rest) = row.as_chunks_mut::<8>();
            cells.fill(cell);
            rest.copy_from_slice(&cell[..rest.len()]);
        }
    }

    /// Pixels move by a way, all at once, to these rectangles.
    pub fn move_pixels(&mut self, rects: &[Rect], by: Point, spare: &mut Vec<u8>) {
        spare.clear();
        for r in rects {
            for v in r.north..r.south {
                spare.extend_from_slice(self.row(v - by.v, r.west - by.h, r.east - by.h));
            }
        }
        let mut from = &spare[..];
        for r in rects {
            for v in r.north..r.south {
                let (row, rest) = from.split_at(r.wide() as usize);
                self.row_mut(v, r.west, r.east).copy_from_slice(row);
                from = rest;
            }
        }
    }
}

//! Points, rectangles, and sets of points as bands of rectangles.

#[derive(Clone, Copy, Default, PartialEq)]
pub struct Point {
    pub h: i32,
    pub v: i32,
}

impl Point {
    pub fn minus(self, other: Point) -> Point {
        Point { h: self.h - other.h, v: self.v - other.v }
    }
}

/// A rectangle that has no point is the one of zeros.
#[derive(Clone, Copy, Default, PartialEq)]
pub struct Rect {
    pub west: i32,
    pub east: i32,
    pub north: i32,
    pub south: i32,
}

impl Rect {
    pub fn new(west: i32, east: i32, north: i32, south: i32) -> Rect {
        if west < east && north < south {
            Rect { west, east, north, south }
        } else {
            Rect::default()
        }
    }

    pub fn of_size(wide: i32, high: i32) -> Rect {
        Rect::new(0, wide, 0, high)
    }

    pub fn is_empty(&self) -> bool {
        self.west == self.east
    }

    pub fn wide(&self) -> i32 {
        self.east - self.west
    }

    pub fn high(&self) -> i32 {
        self.south - self.north
    }

    pub fn area(&self) -> u64 {
        self.wide() as u64 * self.high() as u64
    }

    pub fn corner(&self) -> Point {
        Point { h: self.west, v: self.north }
    }

    pub fn has(&self, p: Point) -> bool {
        self.west <= p.h && p.h < self.east && self.north <= p.v && p.v < self.south
    }

    pub fn meet(&self, other: &Rect) -> Rect {
        Rect::new(
            self.west.max(other.west),
            self.east.min(other.east),
            self.north.max(other.north),
            self.south.min(other.south),
        )
    }

    pub fn meets(&self, other: &Rect) -> bool {
        self.west < other.east
            && other.west < self.east
            && self.north < other.south
            && other.north < self.south
    }

    pub fn contains(&self, other: &Rect) -> bool {
        self.west <= other.west
            && other.east <= self.east
            && self.north <= other.north
            && other.south <= self.south
    }

    /// The least rectangle that has both.
    pub fn around(&self, other: &Rect) -> Rect {
        if self.is_empty() {
            *other
        } else if other.is_empty() {
            *self
        } else {
            Rect {
                west: self.west.min(other.west),
                east: self.east.max(other.east),
                north: self.north.min(other.north),
                south: self.south.max(other.south),
            }
        }
    }

    pub fn shift(&self, by: Point) -> Rect {
        if self.is_empty() {
            return *self;
        }
        Rect {
            west: self.west + by.h,
            east: self.east + by.h,
            north: self.north + by.v,
            south: self.south + by.v,
        }
    }
}

/// A set of points. The rectangles go by bands from north to south, and in a band from west to
/// east; what touches in a band, and bands that touch and are alike, are one. So equal sets have
/// equal lists.
#[derive(Clone, Default, PartialEq)]
pub struct Region {
    rects: Vec<Rect>,
}

impl Region {
    pub fn of(rect: Rect) -> Region {
        let mut region = Region::default();
        if !rect.is_empty() {
            region.rects.push(rect);
        }
        region
    }

    pub fn rects(&self) -> &[Rect] {
        &self.rects
    }

    pub fn is_empty(&self) -> bool {
        self.rects.is_empty()
    }

    pub fn clear(&mut self) {
        self.rects.clear();
    }

    pub fn count(&self) -> u64 {
        self.rects.iter().map(Rect::area).sum()
    }

    pub fn meets(&self, rect: &Rect) -> bool {
        self.rects.iter().any(|r| r.meets(rect))
    }

    /// Whether one of the rectangles has all of this one.
    pub fn covers(&self, rect: &Rect) -> bool {
        rect.is_empty() || self.rects.iter().any(|r| r.contains(rect))
    }

    pub fn union(&self, other: &Region) -> Region {
        combine(&self.rects, &other.rects, |a, b| a || b)
    }

    pub fn meet(&self, other: &Region) -> Region {
        combine(&self.rects, &other.rects, |a, b| a && b)
    }

    pub fn minus(&self, other: &Region) -> Region {
        combine(&self.rects, &other.rects, |a, b| a && !b)
    }

    pub fn shift(&self, by: Point) -> Region {
        Region { rects: self.rects.iter().map(|r| r.shift(by)).collect() }
    }

    /// Only what lies in the rectangle stays.
    pub fn clip(&mut self, rect: &Rect) {
        if rect.is_empty() {
            self.clear();
        } else if !self.rects.iter().all(|r| rect.contains(r)) {
            *self = combine(&self.rects, &[*rect], |a, b| a && b);
        }
    }

    /// What lies in the rectangle goes.
    pub fn cut(&mut self, rect: &Rect) {
        if self.meets(rect) {
            *self = combine(&self.rects, &[*rect], |a, b| a && !b);
        }
    }
}

/// The rectangles at the front that are of one band.
fn band(rects: &[Rect]) -> usize {
    let north = rects[0].north;
    rects.iter().position(|r| r.north != north).unwrap_or(rects.len())
}

/// The points that `keep` keeps, by whether they are in the one and the other.
fn combine(mut a: &[Rect], mut b: &[Rect], keep: impl Fn(bool, bool) -> bool) -> Region {
    let mut rects: Vec<Rect> = Vec::with_capacity(a.len() + b.len() + 2);
    let (only_a, only_b) = (keep(true, false), keep(false, true));
    let mut top = i32::MIN;
    let mut last = 0; // where the band before begins
    while (!a.is_empty() || only_b) && (!b.is_empty() || only_a) {
        let (north_a, north_b) = (next(a, top), next(b, top));
        let north = north_a.min(north_b);
        if north == i32::MAX {
            break;
        }
        let (in_a, in_b) = (north_a == north, north_b == north);
        let south_a = if in_a { a[0].south } else { north_a };
        let south_b = if in_b { b[0].south } else { north_b };
        let south = south_a.min(south_b);
        let band_a = if in_a { &a[..band(a)] } else { &[] };
        let band_b = if in_b { &b[..band(b)] } else { &[] };
        let start = rects.len();
        combine_band(band_a, band_b, north, south, &keep, &mut rects);
        let above = last..start;
        if above.len() == rects.len() - start
            && above.clone().all(|i| {
                let (x, y) = (rects[i], rects[start + i - last]);
                x.south == north && x.west == y.west && x.east == y.east
            })
        {
            rects.truncate(start);
            rects[above].iter_mut().for_each(|r| r.south = south);
        } else if rects.len() > start {
            last = start;
        }
        if in_a && a[0].south == south {
            a = &a[band_a.len()..];
        }
        if in_b && b[0].south == south {
            b = &b[band_b.len()..];
        }
        top = south;
    }
    Region { rects }
}

/// Where the first of the bands begins, or goes on.
fn next(rects: &[Rect], top: i32) -> i32 {
    rects.first().map_or(i32::MAX, |r| r.north.max(top))
}

fn combine_band(
    mut a: &[Rect],
    mut b: &[Rect],
    north: i32,
    south: i32,
    keep: &impl Fn(bool, bool) -> bool,
    out: &mut Vec<Rect>,
) {
    let start = out.len();
    let mut left = i32::MIN;
    while !a.is_empty() || !b.is_empty() {
        let west_a = a.first().map_or(i32::MAX, |r| r.west.max(left));
        let west_b = b.first().map_or(i32::MAX, |r| r.west.max(left));
        let west = west_a.min(west_b);
        let (in_a, in_b) = (west_a == west, west_b == west);
        let east_a = if in_a { a[0].east } else { west_a };
        let east_b = if in_b { b[0].east } else { west_b };
        let east = east_a.min(east_b);
        if keep(in_a, in_b) {
            match out[start..].last_mut() {
                Some(r) if r.east == west => r.east = east,
                _ => out.push(Rect { west, east, north, south }),
            }
        }
        if in_a && a[0].east == east {
            a = &a[1..];
        }
        if in_b && b[0].east == east {
            b = &b[1..];
        }
        left = east;
    }
}

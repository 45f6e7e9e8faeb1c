//! The contents of windows: commands, what they have to paint, and pictures.

use crate::editor::Editor;
use crate::region::{Point, Rect};
use crate::screen::{Font, Kind, Screen};
use std::collections::VecDeque;

/// All texts that windows hold: the script, and behind it what answers to events made.
pub struct Texts {
    bytes: Vec<u8>,
}

/// A piece of the texts.
#[derive(Clone, Copy, Default)]
pub struct Span {
    start: u32,
    length: u16,
}

impl Texts {
    pub fn new(bytes: Vec<u8>) -> Texts {
        Texts { bytes }
    }

    pub fn span(start: usize, length: usize) -> Span {
        Span { start: start as u32, length: length as u16 }
    }

    pub fn get(&self, span: Span) -> &[u8] {
        &self.bytes[span.start as usize..][..span.length as usize]
    }

    pub fn add(&mut self, text: &[u8]) -> Span {
        let span = Texts::span(self.bytes.len(), text.len());
        self.bytes.extend_from_slice(text);
        span
    }
}

/// A rectangle of a script or within a window, in less room.
#[derive(Clone, Copy)]
pub struct Edges {
    west: i16,
    east: i16,
    north: i16,
    south: i16,
}

impl Edges {
    pub fn of(rect: Rect) -> Edges {
        let Rect { west, east, north, south } = rect;
        Edges { west: west as i16, east: east as i16, north: north as i16, south: south as i16 }
    }

    pub fn rect(self) -> Rect {
        Rect::new(self.west as i32, self.east as i32, self.north as i32, self.south as i32)
    }
}

#[derive(Clone, Copy)]
pub enum Command {
    Tint(u8),
    Tile([u8; 8]),
    Shift(i16, i16),
    Text(Span),
    Line(Span),
    Clear,
    Figure(Figure),
    Undo,
    Bar(u8, u8),
    Insert(Span),
    Erase,
    Split,
    Goto(u8, u8),
    Copy(u8, u8),
    Paste,
}

#[derive(Clone, Copy)]
pub struct Figure {
    pub area: Edges,
    pub colour: Colour,
}

#[derive(Clone, Copy, PartialEq)]
pub enum Colour {
    Set(u8),
    Exchange(u8, u8),
}

/// What a paint command does with its area.
#[derive(Clone, Copy, PartialEq)]
pub enum Deed {
    /// It has the picture afterwards, whatever was there.
    Draw,
    /// It gets a colour, or exchanges two.
    Colour(Colour),
    /// It gets what stands this many rows further north.
    Scroll(i8),
    /// Nobody knows what is there.
    Spoil,
}

/// What a window has waiting to be painted, in its own coordinates.
#[derive(Default)]
pub struct Batch {
    pub list: Vec<(Edges, Deed)>,
    /// The least rectangle that has all areas.
    pub touched: Rect,
    /// How many points all areas have together.
    pub points: u64,
}

impl Batch {
    pub fn push(&mut self, area: Rect, deed: Deed) {
        if !area.is_empty() {
            self.list.push((Edges::of(area), deed));
            self.touched = self.touched.around(&area);
            self.points += area.area();
        }
    }

    pub fn clear(&mut self) {
        self.list.clear();
        self.touched = Rect::default();
        self.points = 0;
    }
}

#[derive(Clone, Copy, PartialEq)]
pub enum Selection {
    Key,
    Source,
    Target,
}

#[derive(Clone, Copy)]
pub enum Event {
    Mouse { time: u32, click: Click, button: u8, at: Point },
    Position { time: u32, at: Point, gone: bool },
    Key { time: u32, code: u8 },
    Lost(Selection),
    Reshape { wide: u16, high: u16, kind: Kind },
}

#[derive(Clone, Copy, PartialEq)]
pub enum Click {
    FirstDown,
    OtherDown,
    OtherUp,
    LastUp,
}

pub enum Widget {
    Solid(u8),
    Board { tile: [u8; 8], shift: Point },
    Label(Span),
    Lines(VecDeque<Span>),
    Canvas(Vec<Figure>),
    Meter(Vec<u8>),
    Edit(Editor),
}

/// The bar of a meter of this height, in a window of that one.
fn bar(i: usize, height: u8, high: i32) -> Rect {
    let west = 8 * i as i32;
    Rect::new(west, west + 8, (high - height as i32).max(0), high)
}

/// The cells of a text in a row of cells.
pub fn cells(row: i32, text: &[u8]) -> Rect {
    Rect::new(0, 8 * text.len() as i32, 8 * row, 8 * row + 8)
}

impl Widget {
    /// Whether the command is one of this widget.
    pub fn knows(&self, command: &Command) -> bool {
        use Command::*;
        match self {
            Widget::Solid(_) => matches!(command, Tint(_)),
            Widget::Board { .. } => matches!(command, Tile(_) | Shift(..)),
            Widget::Label(_) => matches!(command, Text(_)),
            Widget::Lines(_) => matches!(command, Line(_) | Clear),
            Widget::Canvas(_) => matches!(command, Figure(_) | Undo),
            Widget::Meter(_) => matches!(command, Bar(..)),
            Widget::Edit(_) => {
                matches!(command, Insert(_) | Erase | Split | Goto(..) | Copy(..) | Paste)
            }
        }
    }

    /// Makes a command, and puts what it has to paint into the batch.
    pub fn act(&mut self, command: Command, whole: Rect, texts: &Texts, batch: &mut Batch) {
        match (self, command) {
            (Widget::Solid(tint), Command::Tint(new)) => {
                *tint = new;
                batch.push(whole, Deed::Draw);
            }
            (Widget::Board { tile, .. }, Command::Tile(new)) => {
                *tile = new;
                batch.push(whole, Deed::Draw);
            }
            (Widget::Board { shift, .. }, Command::Shift(h, v)) => {
                *shift = Point { h: h as i32, v: v as i32 };
                batch.push(whole, Deed::Draw);
            }
            (Widget::Label(text), Command::Text(new)) => {
                *text = new;
                batch.push(whole, Deed::Draw);
                batch.push(cells(0, texts.get(new)).meet(&whole), Deed::Draw);
            }
            (Widget::Lines(lines), Command::Line(new)) => {
                let (count, rows) = (lines.len() as i32, whole.high() / 8);
                let text = texts.get(new);
                if count < rows && count < 200 {
                    batch.push(cells(count, text).meet(&whole), Deed::Draw);
                } else if rows > 0 {
                    let last = rows.min(200) - 1;
                    let wide = whole.wide();
                    batch.push(Rect::new(0, wide, 0, 8 * last), Deed::Scroll(-8));
                    batch.push(Rect::new(0, wide, 8 * last, 8 * last + 8), Deed::Draw);
                    batch.push(cells(last, text).meet(&whole), Deed::Draw);
                }
                if lines.len() == 200 {
                    lines.pop_front();
                }
                lines.push_back(new);
            }
            (Widget::Lines(lines), Command::Clear) => {
                lines.clear();
                batch.push(whole, Deed::Draw);
            }
            (Widget::Canvas(figures), Command::Figure(figure)) if figures.len() < 64 => {
                figures.push(figure);
                batch.push(figure.area.rect().meet(&whole), Deed::Colour(figure.colour));
            }
            (Widget::Canvas(figures), Command::Undo) => {
                let Some(gone) = figures.pop() else { return };
                let area = gone.area.rect().meet(&whole);
                batch.push(area, Deed::Colour(Colour::Set(0)));
                for figure in figures {
                    batch.push(figure.area.rect().meet(&area), Deed::Colour(figure.colour));
                }
            }
            (Widget::Meter(bars), Command::Bar(i, height)) => {
                let Some(there) = bars.get_mut(i as usize) else { return };
                *there = height;
                let rect = bar(i as usize, height, whole.high());
                let west = 8 * i as i32;
                let top = (whole.high() - height as i32).max(0);
                batch.push(Rect::new(west, west + 8, 0, top).meet(&whole), Deed::Draw);
                batch.push(rect.meet(&whole), Deed::Draw);
            }
            (Widget::Edit(editor), command) => {
                editor.act(command, whole, texts, batch);
            }
            _ => {}
        }
    }

    /// The command with which an event is answered.
    pub fn answer(&self, event: &Event, texts: &mut Texts) -> Option<Command> {
        match (self, *event) {
            (Widget::Solid(_), Event::Key { code, .. }) => Some(Command::Tint(code)),
            (Widget::Meter(_), Event::Key { code, .. }) => Some(Command::Bar(0, code)),
            (Widget::Canvas(_), Event::Key { code: 8, .. }) => Some(Command::Undo),
            (Widget::Edit(_), Event::Key { code: 8, .. }) => Some(Command::Erase),
            (Widget::Edit(_), Event::Key { code: 13, .. }) => Some(Command::Split),
            (Widget::Canvas(_), Event::Mouse { click: Click::FirstDown, at, .. }) => {
                let Point { h, v } = at;
                let area = Edges::of(Rect::new(h, h + 2, v, v + 2));
                let dot = Figure { area, colour: Colour::Set(1) };
                Rect::of_size(4096, 4096).has(at).then_some(Command::Figure(dot))
            }
            (_, Event::Key { code: code @ 32..=126, .. }) => match self {
                Widget::Label(text) if text.length < 80 => {
                    let text = [texts.get(*text), &[code]].concat();
                    Some(Command::Text(texts.add(&text)))
                }
                Widget::Lines(_) => Some(Command::Line(texts.add(&[code]))),
                Widget::Edit(_) => Some(Command::Insert(texts.add(&[code]))),
                _ => None,
            },
            _ => None,
        }
    }

    /// What others read where the window owns a selection.
    pub fn value(&self, texts: &mut Texts) -> Span {
        match self {
            Widget::Label(text) => *text,
            Widget::Lines(lines) => lines.back().copied().unwrap_or_default(),
            Widget::Edit(editor) => texts.add(&editor.clip),
            Widget::Solid(tint) => texts.add(tint.to_string().as_bytes()),
            Widget::Canvas(figures) => texts.add(figures.len().to_string().as_bytes()),
            Widget::Meter(bars) => texts.add(bars[0].to_string().as_bytes()),
            Widget::Board { tile, .. } => {
                texts.add(format!("{:016x}", u64::from_be_bytes(*tile)).as_bytes())
            }
        }
    }

    /// Where the picture is the same at both sizes.
    pub fn keeps(&self, from: Rect, to: Rect) -> Rect {
        let same = match self {
            Widget::Meter(_) => false,
            Widget::Lines(lines) => {
                let shown = |whole: Rect| (whole.high() / 8).min(lines.len() as i32);
                shown(from) == shown(to)
            }
            Widget::Edit(editor) => editor.shown(from) == editor.shown(to),
            _ => true,
        };
        if same { from.meet(&to) } else { Rect::default() }
    }

    /// How many points it takes to paint the picture anew.
    pub fn points(&self, whole: Rect) -> u64 {
        match self {
            Widget::Canvas(figures) => {
                let parts = figures.iter().map(|figure| figure.area.rect().meet(&whole));
                whole.area() + parts.map(|part| part.area()).sum::<u64>()
            }
            _ => whole.area(),
        }
    }

    /// Paints the picture of a window with this place on the screen, as far as it lies in the clip,
    /// which has a point and lies in both.
    pub fn paint(&self, screen: &mut Screen, font: &Font, texts: &Texts, place: Rect, clip: &Rect) {
        let kind = screen.kind;
        match self {
            Widget::Solid(tint) => screen.fill(clip, kind.colour(*tint)),
            Widget::Board { tile, shift } => {
                let corner = Point { h: place.west + shift.h, v: place.north + shift.v };
                screen.tiles(clip, corner, tile);
            }
            Widget::Label(text) => {
                paint_rows(screen, font, place, clip, |row| (row == 0).then(|| texts.get(*text)))
            }
            Widget::Lines(lines) => {
                let shown = lines.len().min(place.high() as usize / 8);
                let first = lines.len() - shown;
                paint_rows(screen, font, place, clip, |row| {
                    (row < shown).then(|| texts.get(lines[first + row]))
                });
            }
            Widget::Canvas(figures) => {
                // what a figure covers needn't be painted
                let covers = |figure: &Figure| match figure.colour {
                    Colour::Set(_) => figure.area.rect().shift(place.corner()).contains(clip),
                    Colour::Exchange(..) => false,
                };
                let first = figures.iter().rposition(covers);
                if first.is_none() {
                    screen.fill(clip, 0);
                }
                for figure in &figures[first.unwrap_or(0)..] {
                    let area = figure.area.rect().shift(place.corner()).meet(clip);
                    paint_colour(screen, &area, figure.colour);
                }
            }
            Widget::Meter(bars) => {
                screen.fill(clip, 0);
                for (i, &height) in bars.iter().enumerate() {
                    let area = bar(i, height, place.high()).shift(place.corner()).meet(clip);
                    screen.fill(&area, 1);
                }
            }
            Widget::Edit(editor) => {
                let (top, shown) = editor.shown(Rect::of_size(place.wide(), place.high()));
                paint_rows(screen, font, place, clip, |row| {
                    (row < shown).then(|| &editor.lines[top + row][..])
                });
                if shown > 0 {
                    let caret = editor.caret(top).shift(place.corner()).meet(clip);
                    screen.exchange(&caret, 0, 1);
                }
            }
        }
    }
}

/// Gives an area a colour, or exchanges two.
pub fn paint_colour(screen: &mut Screen, area: &Rect, colour: Colour) {
    let kind = screen.kind;
    match colour {
        Colour::Set(tint) => screen.fill(area, kind.colour(tint)),
        Colour::Exchange(a, b) => screen.exchange(area, kind.colour(a), kind.colour(b)),
    }
}

/// Paints rows of cells, with their texts, and zeros elsewhere.
fn paint_rows<'a>(
    screen: &mut Screen,
    font: &Font,
    place: Rect,
    clip: &Rect,
    text_of: impl Fn(usize) -> Option<&'a [u8]>,
) {
    let mut north = clip.north;
    while north < clip.south {
        let row = (north - place.north) / 8;
        let corner = Point { h: place.west, v: place.north + 8 * row };
        let text = text_of(row as usize);
        let south = if text.is_some() { clip.south.min(corner.v + 8) } else { clip.south };
        let part = Rect { north, south, ..*clip };
        match text {
            Some(text) => screen.text(font, &part, corner, text),
            None => screen.fill(&part, 0),
        }
        north = south;
    }
}

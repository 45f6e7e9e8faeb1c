//! The text of an editor, its caret and its clip.

use crate::region::Rect;
use crate::widgets::{Batch, Colour, Command, Deed, Texts, cells};

pub struct Editor {
    pub lines: Vec<Vec<u8>>,
    row: usize,
    column: usize,
    pub clip: Vec<u8>,
}

/// What moves on the screen, but for the caret.
enum Change {
    Line,
    Caret,
    Split,
    Join,
}

impl Editor {
    pub fn new() -> Editor {
        Editor { lines: vec![Vec::new()], row: 0, column: 0, clip: Vec::new() }
    }

    /// The line that stands in the north, and how many stand below one another.
    pub fn shown(&self, whole: Rect) -> (usize, usize) {
        let rows = whole.high() as usize / 8;
        if rows == 0 {
            return (0, 0);
        }
        let top = (self.row + 1).saturating_sub(rows);
        (top, rows.min(self.lines.len() - top))
    }

    /// The caret's cell, where this line stands in the north.
    pub fn caret(&self, top: usize) -> Rect {
        let (h, v) = (8 * self.column as i32, 8 * (self.row - top) as i32);
        Rect::new(h, h + 8, v, v + 8)
    }

    pub fn act(&mut self, command: Command, whole: Rect, texts: &Texts, batch: &mut Batch) {
        let (top, shown) = self.shown(whole);
        let caret = if shown > 0 { self.caret(top) } else { Rect::default() };
        let Some(change) = self.change(command, texts) else { return };
        let rows = whole.high() / 8;
        if rows == 0 {
            return;
        }
        let wide = whole.wide();
        let (new_top, _) = self.shown(whole);
        let row = (self.row - new_top) as i32;
        let strips = |from: i32, to: i32| Rect::new(0, wide, 8 * from, 8 * to);
        let put = |batch: &mut Batch, row: i32| {
            batch.push(strips(row, row + 1), Deed::Draw);
            if let Some(line) = self.lines.get(new_top + row as usize) {
                batch.push(cells(row, line).meet(&whole), Deed::Draw);
            }
        };
        let exchange = Deed::Colour(Colour::Exchange(0, 1));
        let moved = new_top as isize - top as isize;
        match change {
            Change::Line => put(batch, row),
            Change::Caret if moved.abs() <= 1 => {
                batch.push(caret.meet(&whole), exchange);
                if moved == 1 {
                    batch.push(strips(0, rows - 1), Deed::Scroll(-8));
                    put(batch, rows - 1);
                } else if moved == -1 {
                    batch.push(strips(1, rows), Deed::Scroll(8));
                    put(batch, 0);
                }
            }
            Change::Split if moved == 0 => {
                batch.push(strips(row + 1, rows), Deed::Scroll(8));
                put(batch, row - 1);
                put(batch, row);
            }
            Change::Join if moved == 0 => {
                batch.push(strips(row + 1, rows - 1), Deed::Scroll(-8));
                put(batch, rows - 1);
                put(batch, row);
            }
            _ => {
                batch.push(whole, Deed::Draw);
                for (row, line) in self.lines[new_top..].iter().take(rows as usize).enumerate() {
                    batch.push(cells(row as i32, line).meet(&whole), Deed::Draw);
                }
            }
        }
        batch.push(self.caret(new_top).meet(&whole), exchange);
    }

    /// Changes the text or the caret. None comes where nothing is to be painted.
    fn change(&mut self, command: Command, texts: &Texts) -> Option<Change> {
        match command {
            Command::Insert(text) => self.insert(texts.get(text)),
            Command::Paste => {
                let clip = std::mem::take(&mut self.clip);
                let change = self.insert(&clip);
                self.clip = clip;
                change
            }
            Command::Erase if self.column > 0 => {
                self.column -= 1;
                self.lines[self.row].remove(self.column);
                Some(Change::Line)
            }
            Command::Erase if self.row > 0 => {
                let above = self.lines[self.row - 1].len();
                if above + self.lines[self.row].len() > 80 {
                    return None;
                }
                let line = self.lines.remove(self.row);
                self.row -= 1;
                self.column = above;
                self.lines[self.row].extend(line);
                Some(Change::Join)
            }
            Command::Split if self.lines.len() < 200 => {
                let rest = self.lines[self.row].split_off(self.column);
                self.row += 1;
                self.column = 0;
                self.lines.insert(self.row, rest);
                Some(Change::Split)
            }
            Command::Goto(row, column) => {
                let row = (row as usize).min(self.lines.len() - 1);
                let column = (column as usize).min(self.lines[row].len());
                let stays = (row, column) == (self.row, self.column);
                (self.row, self.column) = (row, column);
                (!stays).then_some(Change::Caret)
            }
            Command::Copy(from, to) => {
                let line = &self.lines[self.row];
                let to = (to as usize).min(line.len());
                self.clip = line.get(from as usize..to).unwrap_or_default().to_vec();
                None
            }
            _ => None,
        }
    }

    fn insert(&mut self, text: &[u8]) -> Option<Change> {
        let line = &mut self.lines[self.row];
        if text.is_empty() || line.len() + text.len() > 80 {
            return None;
        }
        line.splice(self.column..self.column, text.iter().copied());
        self.column += text.len();
        Some(Change::Line)
    }
}

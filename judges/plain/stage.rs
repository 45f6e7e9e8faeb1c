//! The whole state: tree, screen and what is good of it, windows, desk and journal.

use crate::region::{Point, Rect, Region};
use crate::screen::{Font, Kind, Screen};
use crate::tree::{Edit, Effect, Fault, LeafId, NodeId, NodeKind, Spot, Tree};
use crate::widgets::{
    Batch, Click, Colour, Command, Deed, Edges, Event, Selection, Span, Texts, Widget, paint_colour,
};
use std::collections::VecDeque;

const INBOX: usize = 64;

#[derive(Clone, Copy)]
pub struct Cage {
    pub edges: Edges,
    pub here: bool,
    pub gone: bool,
}

#[derive(Clone, Copy)]
pub enum Report {
    Dump,
    Peek,
    Journal,
    Where(i16, i16),
    Inbox(LeafId),
}

#[derive(Clone, Copy)]
pub enum Step {
    Act(LeafId, Command),
    Mark(LeafId, Edges),
    Flush(LeafId),
    Force(LeafId),
    Take(LeafId),
    Cage(LeafId, Cage),
    Free(LeafId),
    Own(LeafId, Selection, u32),
    Disown(LeafId, Selection),
    Read(LeafId, Selection),
    Mouse { time: u32, button: u8, down: bool },
    Motion { time: u32, h: i16, v: i16 },
    Key { time: u32, code: u8 },
    Alter(Edit),
    Sync,
    Report(Report),
}

#[derive(Clone, Copy)]
pub enum Answer {
    Ok,
    Took(Event),
    Value(Span),
    Empty,
    /// N with this number.
    Refused(u8),
    Earlier(u32),
    NotCurrent(u32, u32),
}

/// What an entry of the journal tells of: a step of the script by its place, or one of the painter.
#[derive(Clone, Copy)]
pub enum Made {
    Step(u32),
    Repaint(LeafId),
    Frame,
}

pub struct Entry {
    pub made: Made,
    pub answer: Answer,
    /// Where its deliveries end.
    pub sent: u32,
}

pub struct Delivery {
    pub leaf: LeafId,
    pub dropped: bool,
    pub event: Event,
}

pub struct Window {
    pub node: NodeId,
    widget: Widget,
    batch: Batch,
    pub inbox: VecDeque<Event>,
    pub dropped: u32,
    cage: Cage,
    /// The time of the last mouse or key event.
    last: u32,
}

impl Window {
    pub fn new(node: NodeId, widget: Widget) -> Window {
        let cage = Cage { edges: Edges::of(Rect::default()), here: false, gone: false };
        let (batch, inbox) = (Batch::default(), VecDeque::new());
        Window { node, widget, batch, inbox, dropped: 0, cage, last: 0 }
    }

    pub fn widget(&self) -> &Widget {
        &self.widget
    }
}

#[derive(Default)]
struct Desk {
    cursor: Point,
    time: u32,
    /// A bit for each button.
    held: u8,
    focus: Option<LeafId>,
    owners: [Option<LeafId>; 3],
    /// A bit for each leaf that has a cage.
    caged: u32,
}

impl Desk {
    fn is_in_time(&self, time: u32) -> Result<(), Answer> {
        if time < self.time { Err(Answer::Earlier(self.time)) } else { Ok(()) }
    }
}

pub struct Peek {
    pub bad: u64,
    pub waiting: usize,
    pub stale: u64,
}

pub struct Stage {
    pub tree: Tree,
    font: Font,
    pub texts: Texts,
    pub screen: Screen,
    pub windows: Vec<Window>,
    /// For each node the points of its own that show what was painted last.
    good: Vec<Region>,
    /// For each node its visible points, and at which age of the places they were found.
    seen: Vec<(u32, Region)>,
    age: u32,
    desk: Desk,
    pub journal: Vec<Entry>,
    pub sent: Vec<Delivery>,
    moving: Vec<Rect>,
    spare: Vec<u8>,
}

impl Stage {
    pub fn new(
        mut tree: Tree,
        font: Font,
        kind: Kind,
        windows: Vec<Window>,
        texts: Texts,
    ) -> Stage {
        tree.place();
        let count = tree.nodes.len();
        Stage {
            screen: Screen::new(tree.wide, tree.high, kind),
            tree,
            font,
            texts,
            windows,
            good: vec![Region::default(); count],
            seen: vec![(0, Region::default()); count],
            age: 1,
            desk: Desk { cursor: Point { h: -1, v: -1 }, ..Desk::default() },
            journal: Vec::new(),
            sent: Vec::new(),
            moving: Vec::new(),
            spare: Vec::new(),
        }
    }

    /// Makes the step at this place of the script, and keeps it in the journal.
    pub fn step(&mut self, place: usize, step: Step) {
        let answer = self.answer(step).unwrap_or_else(|refused| refused);
        self.record(Made::Step(place as u32), answer);
    }

    fn answer(&mut self, step: Step) -> Result<Answer, Answer> {
        match step {
            Step::Act(leaf, command) => self.act(leaf, command),
            Step::Mark(leaf, edges) => {
                let area = edges.rect().meet(&self.whole(leaf));
                self.windows[leaf as usize].batch.push(area, Deed::Spoil);
            }
            Step::Flush(leaf) => self.flush(leaf, false),
            Step::Force(leaf) => self.flush(leaf, true),
            Step::Take(leaf) => return Ok(self.take(leaf)),
            Step::Cage(leaf, cage) => {
                self.windows[leaf as usize].cage = cage;
                self.desk.caged |= 1 << leaf;
                self.tell_position(leaf, self.leaf_at_cursor());
            }
            Step::Free(leaf) => self.desk.caged &= !(1 << leaf),
            Step::Own(leaf, selection, time) => self.own(leaf, selection, time)?,
            Step::Disown(leaf, selection) => {
                let owner = &mut self.desk.owners[selection as usize];
                *owner = if *owner == Some(leaf) { None } else { return Err(Answer::Refused(11)) };
            }
            Step::Read(_, selection) => {
                let owner = self.desk.owners[selection as usize].ok_or(Answer::Refused(12))?;
                let widget = &self.windows[owner as usize].widget;
                return Ok(Answer::Value(widget.value(&mut self.texts)));
            }
            Step::Mouse { time, button, down } => self.mouse(time, button, down)?,
            Step::Motion { time, h, v } => {
                self.desk.is_in_time(time)?;
                self.desk.time = time;
                self.desk.cursor = Point { h: h as i32, v: v as i32 };
                self.tell_positions();
            }
            Step::Key { time, code } => {
                self.desk.is_in_time(time)?;
                self.desk.time = time;
                if let Some(owner) = self.desk.owners[Selection::Key as usize] {
                    self.send(owner, Event::Key { time, code });
                }
            }
            Step::Alter(edit) => self.alter(edit).map_err(Answer::Refused)?,
            Step::Sync | Step::Report(_) => {}
        }
        Ok(Answer::Ok)
    }

    fn record(&mut self, made: Made, answer: Answer) {
        self.journal.push(Entry { made, answer, sent: self.sent.len() as u32 });
    }

    pub fn place(&self, leaf: LeafId) -> Rect {
        self.tree.node(self.windows[leaf as usize].node).domain
    }

    fn whole(&self, leaf: LeafId) -> Rect {
        let place = self.place(leaf);
        Rect::of_size(place.wide(), place.high())
    }

    fn act(&mut self, leaf: LeafId, command: Command) {
        let whole = self.whole(leaf);
        let Window { widget, batch, .. } = &mut self.windows[leaf as usize];
        widget.act(command, whole, &self.texts, batch);
    }

    // Events

    fn send(&mut self, leaf: LeafId, event: Event) {
        let window = &mut self.windows[leaf as usize];
        let dropped = window.inbox.len() == INBOX;
        if dropped {
            window.dropped = window.dropped.saturating_add(1);
        } else {
            window.inbox.push_back(event);
            if let Event::Mouse { time, .. } | Event::Key { time, .. } = event {
                window.last = time;
            }
        }
        self.sent.push(Delivery { leaf, dropped, event });
    }

    fn take(&mut self, leaf: LeafId) -> Answer {
        let window = &mut self.windows[leaf as usize];
        let Some(event) = window.inbox.pop_front() else { return Answer::Empty };
        if let Some(command) = window.widget.answer(&event, &mut self.texts) {
            self.act(leaf, command);
        }
        Answer::Took(event)
    }

    fn own(&mut self, leaf: LeafId, selection: Selection, time: u32) -> Result<(), Answer> {
        let (now, last) = (self.desk.time, self.windows[leaf as usize].last);
        if time != now || time != last {
            return Err(Answer::NotCurrent(now, last));
        }
        let old = self.desk.owners[selection as usize].replace(leaf);
        if let Some(old) = old.filter(|&old| old != leaf) {
            self.send(old, Event::Lost(selection));
        }
        Ok(())
    }

    fn leaf_at_cursor(&self) -> Option<LeafId> {
        match self.tree.spot(self.desk.cursor) {
            Spot::Leaf(leaf) => Some(leaf),
            _ => None,
        }
    }

    fn mouse(&mut self, time: u32, button: u8, down: bool) -> Result<(), Answer> {
        let bit = 1 << button;
        self.desk.is_in_time(time)?;
        if down == (self.desk.held & bit != 0) {
            return Err(Answer::Refused(if down { 8 } else { 9 }));
        }
        self.desk.time = time;
        let before = self.desk.held;
        self.desk.held ^= bit;
        let click = match (down, before, self.desk.held) {
            (true, 0, _) => Click::FirstDown,
            (true, ..) => Click::OtherDown,
            (false, _, 0) => Click::LastUp,
            (false, ..) => Click::OtherUp,
        };
        if click == Click::FirstDown {
            self.desk.focus = self.leaf_at_cursor();
        }
        if let Some(focus) = self.desk.focus {
            let at = self.desk.cursor.minus(self.place(focus).corner());
            self.send(focus, Event::Mouse { time, click, button, at });
        }
        if click == Click::LastUp {
            self.desk.focus = None;
        }
        Ok(())
    }

    /// Tells each leaf in a cage where the cursor is, unless that is in the cage.
    fn tell_positions(&mut self) {
        let mut caged = self.desk.caged;
        if caged > 0 {
            let on = self.leaf_at_cursor();
            while caged > 0 {
                self.tell_position(caged.trailing_zeros() as LeafId, on);
                caged &= caged - 1;
            }
        }
    }

    fn tell_position(&mut self, leaf: LeafId, on: Option<LeafId>) {
        let cage = &self.windows[leaf as usize].cage;
        let at = self.desk.cursor.minus(self.place(leaf).corner());
        let gone = on != Some(leaf);
        let is_held = if gone { cage.gone } else { cage.here };
        if !(is_held && cage.edges.rect().has(at)) {
            self.desk.caged &= !(1 << leaf);
            self.send(leaf, Event::Position { time: self.desk.time, at, gone });
        }
    }

    // Edits of the tree

    fn alter(&mut self, edit: Edit) -> Result<(), Fault> {
        match self.tree.edit(edit)? {
            Effect::None => return Ok(()),
            Effect::Tint(node) => self.good[node as usize].clear(),
            Effect::Moved(child, way) => {
                self.age += 1;
                self.cover(child, way);
            }
            Effect::Lifted(child) => {
                self.age += 1;
                self.cover(child, Point::default());
            }
            Effect::Placed => self.place_anew(),
            Effect::Kind(kind) if kind == self.screen.kind => {}
            Effect::Kind(kind) => {
                self.screen = Screen::new(self.screen.wide, self.screen.high, kind);
                self.good.iter_mut().for_each(Region::clear);
                for leaf in 0..self.windows.len() {
                    self.reshape(leaf as LeafId);
                }
            }
        }
        self.tell_positions();
        Ok(())
    }

    /// A node came forward or was moved: it takes its pixels along, and others lose what it covers.
    fn cover(&mut self, child: NodeId, way: Point) {
        let area = self.tree.area(child);
        self.moving.clear();
        for (node, good) in self.good.iter_mut().enumerate().filter(|(_, good)| !good.is_empty()) {
            if !self.tree.is_below(node as NodeId, child) {
                area.rects().iter().for_each(|r| good.cut(r));
            } else if way != Point::default() {
                *good = good.shift(way).meet(&area);
                self.moving.extend_from_slice(good.rects());
            }
        }
        self.screen.move_pixels(&self.moving, way, &mut self.spare);
    }

    /// Any places may have changed.
    fn place_anew(&mut self) {
        let old: Vec<Rect> = self.tree.nodes.iter().map(|n| n.domain).collect();
        self.tree.place();
        if self.tree.nodes.iter().map(|n| n.domain).eq(old.iter().copied()) {
            return;
        }
        self.age += 1;
        if (self.screen.wide, self.screen.high) != (self.tree.wide, self.tree.high) {
            self.screen = self.screen.resized(self.tree.wide, self.tree.high);
        }
        for node in 0..self.good.len() {
            if self.good[node].is_empty() {
                continue;
            }
            let (from, to) = (old[node], self.tree.nodes[node].domain);
            if let NodeKind::Leaf { leaf, .. } = self.tree.nodes[node].kind {
                if from.corner() != to.corner() || to.is_empty() {
                    self.good[node].clear();
                } else if from != to {
                    self.keep(leaf, from, to);
                }
            }
            let seen = self.tree.visible(node as NodeId);
            self.good[node] = self.good[node].meet(&seen);
            self.seen[node] = (self.age, seen);
        }
        for leaf in 0..self.windows.len() {
            let node = self.windows[leaf].node as usize;
            let (from, to) = (old[node], self.tree.nodes[node].domain);
            if (from.wide(), from.high()) != (to.wide(), to.high()) {
                self.reshape(leaf as LeafId);
            }
        }
    }

    /// A leaf has another size: good is what it keeps, where nothing waits to be painted.
    fn keep(&mut self, leaf: LeafId, from: Rect, to: Rect) {
        let window = &self.windows[leaf as usize];
        let whole = |place: Rect| Rect::of_size(place.wide(), place.high());
        let good = &mut self.good[window.node as usize];
        good.clip(&window.widget.keeps(whole(from), whole(to)).shift(to.corner()));
        for (area, _) in &window.batch.list {
            good.cut(&area.rect().shift(to.corner()));
        }
    }

    fn reshape(&mut self, leaf: LeafId) {
        self.windows[leaf as usize].batch.clear();
        let whole = self.whole(leaf);
        let (wide, high) = (whole.wide() as u16, whole.high() as u16);
        self.send(leaf, Event::Reshape { wide, high, kind: self.screen.kind });
    }

    // Painting

    /// Brings the node's visible points up to date.
    fn see(&mut self, node: NodeId) {
        let (age, seen) = &mut self.seen[node as usize];
        if *age != self.age {
            (*age, *seen) = (self.age, self.tree.visible(node));
        }
    }

    /// Paints what waits; to repaint is to leave nothing bad.
    ///
    /// What a batch does to the pixels is, where they are known afterwards, the present picture. So
    /// that is painted on what the batch touches, unless its own colours take less work; and the
    /// batch is gone through only for what becomes bad.
    fn flush(&mut self, leaf: LeafId, repaint: bool) {
        let node = self.windows[leaf as usize].node;
        self.see(node);
        let Window { widget, batch, .. } = &mut self.windows[leaf as usize];
        let (good, (_, seen)) = (&mut self.good[node as usize], &self.seen[node as usize]);
        let place = self.tree.node(node).domain;
        let mut lost = if good == seen { Region::default() } else { seen.minus(good) };
        if batch.list.is_empty() && (lost.is_empty() || !repaint) {
            return;
        }
        let whole = Rect::of_size(place.wide(), place.high());
        let by_colours =
            matches!(widget, Widget::Canvas(_)) && batch.points <= widget.points(whole);
        let mut anew = Region::default();
        if by_colours {
            paint_batch(&mut self.screen, batch, place.corner(), seen);
        } else {
            anew = seen.clone();
            anew.clip(&batch.touched.shift(place.corner()));
        }
        if by_colours || !repaint {
            find_lost(batch, place.corner(), seen, &mut lost);
        }
        if repaint {
            anew = anew.union(&lost);
            lost.clear();
        }
        for clip in anew.rects() {
            widget.paint(&mut self.screen, &self.font, &self.texts, place, clip);
        }
        *good = if lost.is_empty() { seen.clone() } else { seen.minus(&lost) };
        batch.clear();
    }

    /// Repaints all that isn't the present picture; `told` hears of each entry.
    pub fn settle(&mut self, mut told: impl FnMut(&Stage)) {
        for leaf in 0..self.windows.len() {
            let node = self.windows[leaf].node;
            self.see(node);
            let is_bad = self.good[node as usize] != self.seen[node as usize].1;
            if is_bad || !self.windows[leaf].batch.list.is_empty() {
                self.flush(leaf as LeafId, true);
                self.record(Made::Repaint(leaf as LeafId), Answer::Ok);
                told(self);
            }
        }
        if self.paint_frames() {
            self.record(Made::Frame, Answer::Ok);
            told(self);
        }
    }

    /// Paints the bad points of frames, and answers whether there were any.
    fn paint_frames(&mut self) -> bool {
        let mut any = false;
        for node in 0..self.tree.nodes.len() {
            let there = &self.tree.nodes[node];
            if matches!(there.kind, NodeKind::Leaf { .. }) {
                continue;
            }
            let tint = there.tint;
            self.see(node as NodeId);
            let (good, (_, seen)) = (&mut self.good[node], &self.seen[node]);
            if good != seen {
                any = true;
                for rect in seen.minus(good).rects() {
                    self.screen.fill(rect, self.screen.kind.colour(tint));
                }
                *good = seen.clone();
            }
        }
        any
    }

    pub fn peek(&self) -> Peek {
        let good: u64 = self.good.iter().map(Region::count).sum();
        let waiting = self.windows.iter().map(|window| window.batch.list.len()).sum();
        let mut stale = 0;
        if waiting > 0 {
            let mut screen = self.screen.clone();
            for window in self.windows.iter().filter(|window| !window.batch.list.is_empty()) {
                let place = self.tree.node(window.node).domain;
                let mut touched = self.good[window.node as usize].clone();
                touched.clip(&window.batch.touched.shift(place.corner()));
                for r in touched.rects() {
                    window.widget.paint(&mut screen, &self.font, &self.texts, place, r);
                    for v in r.north..r.south {
                        let rows =
                            (self.screen.row(v, r.west, r.east), screen.row(v, r.west, r.east));
                        stale += rows.0.iter().zip(rows.1).filter(|(old, new)| old != new).count();
                    }
                }
            }
        }
        Peek { bad: self.screen.whole().area() - good, waiting, stale: stale as u64 }
    }
}

/// Gives the visible areas of a canvas their colours, one after another.
fn paint_batch(screen: &mut Screen, batch: &Batch, corner: Point, seen: &Region) {
    for (area, deed) in &batch.list {
        if let Deed::Colour(colour) = *deed {
            let area = area.rect().shift(corner);
            for rect in seen.rects() {
                paint_colour(screen, &rect.meet(&area), colour);
            }
        }
    }
}

/// What of the visible points nobody knows after the batch.
fn find_lost(batch: &Batch, corner: Point, seen: &Region, lost: &mut Region) {
    let within = |area: &Rect| {
        let mut part = seen.clone();
        part.clip(area);
        part
    };
    for (area, deed) in &batch.list {
        let area = area.rect().shift(corner);
        match *deed {
            Deed::Draw | Deed::Colour(Colour::Set(_)) => lost.cut(&area),
            Deed::Colour(Colour::Exchange(..)) => {}
            Deed::Spoil => *lost = lost.union(&within(&area)),
            Deed::Scroll(by) => {
                let way = Point { h: 0, v: by as i32 };
                let back = Point { h: 0, v: -way.v };
                if lost.is_empty() && seen.covers(&area.shift(back)) {
                    continue;
                }
                let known = seen.minus(lost).shift(way);
                let unknown = within(&area).minus(&known);
                lost.cut(&area);
                *lost = lost.union(&unknown);
            }
        }
    }
}

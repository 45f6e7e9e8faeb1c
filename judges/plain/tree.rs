//! The tree of windows: shapes, places, edits, and which of them has a point.

use crate::region::{Point, Rect, Region};
use crate::screen::Kind;

pub type NodeId = u8;
pub type LeafId = u8;

/// The least, the preferred and the greatest length.
pub type Shape = [i32; 3];
/// The shapes across and down.
pub type Shapes = [Shape; 2];

const MOST: i32 = 4096;
const DEEPEST: usize = 16;

#[derive(Clone, Copy)]
pub enum NodeKind {
    H,
    V,
    Z,
    T { shown: Option<NodeId> },
    Page { per: u8, page: u8 },
    Pack { down: bool, gap: u8 },
    Border { width: u8 },
    Rigid { wide: u16, high: u16 },
    Translate { by: Point },
    Leaf { leaf: LeafId, shapes: Shapes },
}

#[derive(Clone)]
pub struct Node {
    pub kind: NodeKind,
    pub tint: u8,
    pub parent: Option<NodeId>,
    /// Those of a z go from front to back.
    pub children: Vec<NodeId>,
    /// Where it stands in a z.
    pub at: Point,
    /// Its place on the screen, which may reach past its parent's.
    pub domain: Rect,
    shape: Shapes,
}

#[derive(Clone, Copy)]
pub enum Edit {
    Attach { child: NodeId, parent: NodeId, h: i16, v: i16 },
    Detach { child: NodeId },
    Tint { node: NodeId, tint: u8 },
    Border { node: NodeId, width: u8 },
    Offset { node: NodeId, h: i16, v: i16 },
    Fix { node: NodeId, wide: u16, high: u16 },
    Move { child: NodeId, h: i16, v: i16 },
    Lift { child: NodeId },
    Show { node: NodeId, child: NodeId },
    Turn { node: NodeId, page: u8 },
    Shapes { node: NodeId, shapes: [u16; 6] },
    Resize { wide: u16, high: u16 },
    Rescreen { kind: Kind },
}

/// What an edit changes beside the tree's own fields.
pub enum Effect {
    None,
    /// The frame's colour.
    Tint(NodeId),
    /// All places below it move by a way.
    Moved(NodeId, Point),
    Lifted(NodeId),
    /// Any place.
    Placed,
    Kind(Kind),
}

/// The number of a refusal: 1 to 6.
pub type Fault = u8;

pub enum Spot {
    Leaf(LeafId),
    Frame(NodeId),
    Off,
}

#[derive(Clone)]
pub struct Tree {
    pub nodes: Vec<Node>,
    pub root: Option<NodeId>,
    pub wide: i32,
    pub high: i32,
}

/// A shape from the six numbers of a script.
pub fn shapes_of(numbers: [u16; 6]) -> Shapes {
    let [a, b, c, d, e, f] = numbers.map(i32::from);
    [[a, b, c], [d, e, f]]
}

impl Tree {
    pub fn new(wide: i32, high: i32) -> Tree {
        Tree { nodes: Vec::new(), root: None, wide, high }
    }

    pub fn add(&mut self, kind: NodeKind, tint: u8) {
        self.nodes.push(Node {
            kind,
            tint,
            parent: None,
            children: Vec::new(),
            at: Point::default(),
            domain: Rect::default(),
            shape: Shapes::default(),
        });
    }

    pub fn node(&self, node: NodeId) -> &Node {
        &self.nodes[node as usize]
    }

    fn node_mut(&mut self, node: NodeId) -> &mut Node {
        &mut self.nodes[node as usize]
    }

    /// Whether the node is the other one, or lies below it.
    pub fn is_below(&self, node: NodeId, other: NodeId) -> bool {
        self.path(node).any(|n| n == other)
    }

    /// The node, its parent, and so on to the top.
    pub fn path(&self, node: NodeId) -> impl Iterator<Item = NodeId> {
        std::iter::successors(Some(node), |&n| self.node(n).parent)
    }

    fn height(&self, node: NodeId) -> usize {
        1 + self.node(node).children.iter().map(|&c| self.height(c)).max().unwrap_or(0)
    }

    fn may_attach(&self, child: NodeId, parent: NodeId) -> Result<(), Fault> {
        use NodeKind::*;
        let above = self.node(parent);
        if matches!(above.kind, Leaf { .. }) {
            return Err(1);
        }
        if self.is_below(parent, child) {
            return Err(2);
        }
        let for_one = matches!(above.kind, Border { .. } | Rigid { .. } | Translate { .. });
        if for_one && !above.children.is_empty() {
            return Err(3);
        }
        if self.node(child).parent.is_some() || self.root == Some(child) {
            return Err(4);
        }
        if self.path(parent).count() + self.height(child) > DEEPEST {
            return Err(5);
        }
        Ok(())
    }

    /// Puts a child below its parent; the places stay as they are.
    pub fn attach(&mut self, child: NodeId, parent: NodeId, at: Point) -> Result<(), Fault> {
        self.may_attach(child, parent)?;
        let above = self.node_mut(parent);
        let front = if matches!(above.kind, NodeKind::Z) { 0 } else { above.children.len() };
        above.children.insert(front, child);
        let node = self.node_mut(child);
        (node.parent, node.at) = (Some(parent), at);
        Ok(())
    }

    fn parent_z(&self, child: NodeId) -> Result<NodeId, Fault> {
        let parent = self.node(child).parent.ok_or(6)?;
        if matches!(self.node(parent).kind, NodeKind::Z) { Ok(parent) } else { Err(1) }
    }

    /// Makes an edit; places are brought up to date where it moves a child, and else by `place`.
    pub fn edit(&mut self, edit: Edit) -> Result<Effect, Fault> {
        use NodeKind::*;
        match edit {
            Edit::Attach { child, parent, h, v } => {
                self.attach(child, parent, Point { h: h as i32, v: v as i32 })?;
            }
            Edit::Detach { child } => {
                let parent = self.node(child).parent.ok_or(6)?;
                let above = self.node_mut(parent);
                above.children.retain(|&c| c != child);
                if let T { shown } = &mut above.kind {
                    *shown = shown.filter(|&c| c != child);
                }
                self.node_mut(child).parent = None;
            }
            Edit::Tint { node, tint } => {
                let there = self.node_mut(node);
                if matches!(there.kind, Leaf { .. }) {
                    return Err(1);
                }
                let same = there.tint == tint;
                there.tint = tint;
                return Ok(if same { Effect::None } else { Effect::Tint(node) });
            }
            Edit::Border { node, width: new } => {
                let Border { width } = &mut self.node_mut(node).kind else { return Err(1) };
                *width = new;
            }
            Edit::Offset { node, h, v } => {
                let new = Point { h: h as i32, v: v as i32 };
                let there = self.node_mut(node);
                let Translate { by } = &mut there.kind else { return Err(1) };
                let way = new.minus(*by);
                *by = new;
                let child = there.children.first().copied();
                return Ok(child.map_or(Effect::None, |child| self.shift(child, way)));
            }
            Edit::Fix { node, wide: new_wide, high: new_high } => {
                let Rigid { wide, high } = &mut self.node_mut(node).kind else { return Err(1) };
                (*wide, *high) = (new_wide, new_high);
            }
            Edit::Move { child, h, v } => {
                self.parent_z(child)?;
                let at = Point { h: h as i32, v: v as i32 };
                let way = at.minus(self.node(child).at);
                self.node_mut(child).at = at;
                return Ok(self.shift(child, way));
            }
            Edit::Lift { child } => {
                let children = &mut self.parent_z(child).map(|p| self.node_mut(p))?.children;
                let place = children.iter().position(|&c| c == child).unwrap_or(0);
                children[..=place].rotate_right(1);
                return Ok(if place == 0 { Effect::None } else { Effect::Lifted(child) });
            }
            Edit::Show { node, child } => {
                let is_child = self.node(child).parent == Some(node);
                let T { shown } = &mut self.node_mut(node).kind else { return Err(1) };
                if !is_child {
                    return Err(6);
                }
                *shown = Some(child);
            }
            Edit::Turn { node, page: new } => {
                let Page { page, .. } = &mut self.node_mut(node).kind else { return Err(1) };
                *page = new;
            }
            Edit::Shapes { node, shapes: new } => {
                let Leaf { shapes, .. } = &mut self.node_mut(node).kind else { return Err(1) };
                *shapes = shapes_of(new);
            }
            Edit::Resize { wide, high } => {
                (self.wide, self.high) = (wide as i32, high as i32);
            }
            Edit::Rescreen { kind } => return Ok(Effect::Kind(kind)),
        }
        Ok(Effect::Placed)
    }

    /// Moves all places below a node, if it has one.
    fn shift(&mut self, node: NodeId, way: Point) -> Effect {
        if self.node(node).domain.is_empty() || way == Point::default() {
            return Effect::None;
        }
        self.shift_below(node, way);
        Effect::Moved(node, way)
    }

    fn shift_below(&mut self, node: NodeId, way: Point) {
        self.node_mut(node).domain = self.node(node).domain.shift(way);
        for i in 0..self.node(node).children.len() {
            self.shift_below(self.node(node).children[i], way);
        }
    }

    /// Finds all places anew.
    pub fn place(&mut self) {
        self.nodes.iter_mut().for_each(|n| n.domain = Rect::default());
        if let Some(root) = self.root {
            self.measure(root);
            self.place_at(root, Rect::of_size(self.wide, self.high));
        }
    }

    fn measure(&mut self, node: NodeId) {
        for i in 0..self.node(node).children.len() {
            self.measure(self.node(node).children[i]);
        }
        let shape = self.shape_of(node);
        self.node_mut(node).shape = shape;
    }

    fn shape_of(&self, node: NodeId) -> Shapes {
        let there = self.node(node);
        let fold = |axis: usize, join: fn(i32, i32) -> i32| -> Shape {
            let shapes = there.children.iter().map(|&c| self.node(c).shape[axis]);
            shapes.fold([0; 3], |a, b| std::array::from_fn(|i| join(a[i], b[i]).min(MOST)))
        };
        let sum = |axis| fold(axis, |a, b| a + b);
        let most = |axis| fold(axis, i32::max);
        let at_most = |shape: Shape| shape.map(|x| x.min(MOST));
        match there.kind {
            NodeKind::H => [sum(0), most(1)],
            NodeKind::V => [most(0), sum(1)],
            NodeKind::Z | NodeKind::T { .. } => [most(0), most(1)],
            NodeKind::Page { per, .. } => [most(0), at_most(most(1).map(|x| x * per as i32))],
            NodeKind::Pack { .. } if there.children.is_empty() => Shapes::default(),
            NodeKind::Pack { down, gap } => {
                let (along, beside) = if down { (1, 0) } else { (0, 1) };
                let gaps = gap as i32 * (there.children.len() as i32 - 1);
                let mut shapes = Shapes::default();
                shapes[along] = [most(along)[0], (sum(along)[1] + gaps).min(MOST), MOST];
                shapes[beside] = [most(beside)[0], most(beside)[1], MOST];
                shapes
            }
            NodeKind::Border { width } => {
                [most(0), most(1)].map(|shape| at_most(shape.map(|x| x + 2 * width as i32)))
            }
            NodeKind::Rigid { wide, high } => [[wide as i32; 3], [high as i32; 3]],
            NodeKind::Translate { .. } => [[0, most(0)[1], MOST], [0, most(1)[1], MOST]],
            NodeKind::Leaf { shapes, .. } => shapes,
        }
    }

    fn place_at(&mut self, node: NodeId, rect: Rect) {
        self.node_mut(node).domain = rect;
        if rect.is_empty() || self.node(node).children.is_empty() {
            return;
        }
        let there = self.node(node);
        let children = there.children.clone();
        let Rect { west, east, north, south } = rect;
        let preferred = |child: NodeId, corner: Point| {
            let [across, down] = self.node(child).shape;
            Rect::of_size(across[1], down[1]).shift(corner)
        };
        let places: Vec<Rect> = match there.kind {
            NodeKind::H => {
                let mut h = west;
                let lengths = self.lengths(&children, 0, rect.wide());
                let row = lengths.iter().map(|length| {
                    h += length;
                    Rect::new(h - length, h, north, south)
                });
                row.collect()
            }
            NodeKind::V => {
                let mut v = north;
                let lengths = self.lengths(&children, 1, rect.high());
                let column = lengths.iter().map(|length| {
                    v += length;
                    Rect::new(west, east, v - length, v)
                });
                column.collect()
            }
            NodeKind::Z => {
                let at = |c: NodeId| self.node(c).at;
                let corner = |c| Point { h: west + at(c).h, v: north + at(c).v };
                children.iter().map(|&c| preferred(c, corner(c))).collect()
            }
            NodeKind::T { shown } => {
                let shown = shown.unwrap_or(children[0]);
                let place = |&c: &NodeId| if c == shown { rect } else { Rect::default() };
                children.iter().map(place).collect()
            }
            NodeKind::Page { per, page } => {
                let strip = rect.high() / per as i32;
                let place = |i: usize| {
                    let k = i as i32 - page as i32 * per as i32;
                    let v = north + strip * k;
                    let on_page = 0 <= k && k < per as i32;
                    if on_page { Rect::new(west, east, v, v + strip) } else { Rect::default() }
                };
                (0..children.len()).map(place).collect()
            }
            NodeKind::Pack { down, gap } => self.pack(&children, rect, down, gap as i32),
            NodeKind::Border { width } => {
                let width = width as i32;
                vec![Rect::new(west + width, east - width, north + width, south - width)]
            }
            NodeKind::Rigid { .. } => vec![rect],
            NodeKind::Translate { by } => {
                vec![preferred(children[0], Point { h: west + by.h, v: north + by.v })]
            }
            NodeKind::Leaf { .. } => vec![],
        };
        for (child, place) in children.into_iter().zip(places) {
            self.place_at(child, place);
        }
    }

    /// Deals a length out: first what each wants at least, then what it prefers, then the most.
    fn lengths(&self, children: &[NodeId], axis: usize, length: i32) -> Vec<i32> {
        let mut left = length;
        let mut lengths = vec![0; children.len()];
        for wish in 0..3 {
            for (got, &child) in lengths.iter_mut().zip(children) {
                let more = (self.node(child).shape[axis][wish] - *got).min(left);
                *got += more;
                left -= more;
            }
        }
        lengths
    }

    /// Children in rows, as words in a paragraph; or in columns.
    fn pack(&self, children: &[NodeId], rect: Rect, down: bool, gap: i32) -> Vec<Rect> {
        let turn = |r: Rect| Rect::new(r.north, r.south, r.west, r.east);
        let rect = if down { turn(rect) } else { rect };
        let (mut h, mut v, mut high) = (rect.west, rect.north, 0);
        let mut is_first = true;
        let mut place = |&child: &NodeId| {
            let shape = self.node(child).shape;
            let (along, beside) = if down { (shape[1], shape[0]) } else { (shape[0], shape[1]) };
            let length = along[1].min(rect.wide());
            if !is_first && h + gap + length > rect.east {
                (h, v, high) = (rect.west, (v + high + gap).min(rect.south), 0);
            } else if !is_first {
                h += gap;
            }
            is_first = false;
            high = high.max(beside[1]);
            h += length;
            let place = Rect::new(h - length, h, v, v + beside[1]).meet(&rect);
            if down { turn(place) } else { place }
        };
        children.iter().map(&mut place).collect()
    }

    /// Whose a point is: the first child's that has it, and so on from the root.
    pub fn spot(&self, p: Point) -> Spot {
        if !Rect::of_size(self.wide, self.high).has(p) {
            return Spot::Off;
        }
        let Some(mut node) = self.root else { return Spot::Off };
        loop {
            let there = self.node(node);
            if let NodeKind::Leaf { leaf, .. } = there.kind {
                return Spot::Leaf(leaf);
            }
            match there.children.iter().find(|&&c| self.node(c).domain.has(p)) {
                Some(&child) => node = child,
                None => return Spot::Frame(node),
            }
        }
    }

    /// The points of a place that are seen, with those of what lies below the node.
    pub fn area(&self, node: NodeId) -> Region {
        let screen = Rect::of_size(self.wide, self.high);
        let clip = self.path(node).fold(screen, |clip, n| clip.meet(&self.node(n).domain));
        let mut region = Region::of(clip);
        for n in self.path(node) {
            let Some(parent) = self.node(n).parent else { break };
            for &sibling in self.node(parent).children.iter().take_while(|&&c| c != n) {
                region.cut(&self.node(sibling).domain);
            }
        }
        region
    }

    /// The points that are the node's own.
    pub fn visible(&self, node: NodeId) -> Region {
        let mut region = self.area(node);
        for &child in &self.node(node).children {
            if region.is_empty() {
                break;
            }
            region.cut(&self.node(child).domain);
        }
        region
    }
}

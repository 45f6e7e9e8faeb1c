//! Reads a script: its opening, its steps, and the first fault of one that is none.

use crate::editor::Editor;
use crate::region::{Point, Rect};
use crate::screen::{Font, Kind};
use crate::stage::{Cage, Report, Step, Window};
use crate::tree::{Edit, LeafId, NodeId, NodeKind, Tree, shapes_of};
use crate::widgets::{Colour, Command, Edges, Figure, Selection, Span, Texts, Widget};
use std::collections::VecDeque;

const LONGEST_TEXT: usize = 4 << 20;
const LONGEST_LINE: usize = 1024;
const MOST_LINES: usize = 100_000;

/// The codes of faults, in the order in which those of a line are looked for.
#[derive(Clone, Copy, PartialEq, PartialOrd, Debug)]
pub enum Code {
    B9,
    B1,
    B5,
    B2,
    B4,
    B3,
    B10,
    B6,
    B7,
    B8,
}

pub struct Refused {
    pub line: usize,
    pub code: Code,
}

pub struct Script {
    pub tree: Tree,
    pub font: Font,
    pub kind: Kind,
    pub windows: Vec<Window>,
    pub names: Vec<Span>,
    pub steps: Vec<Step>,
    /// The line of each step.
    pub lines: Vec<Span>,
    /// How many lines are steps of a leaf or of the desk.
    pub step_lines: usize,
    /// The points of the greatest screen.
    pub most_points: u64,
}

/// The names of nodes, found by a hash of their bytes.
struct Names {
    keys: Vec<u128>,
    slots: Vec<Option<NodeId>>,
}

impl Names {
    fn new() -> Names {
        Names { keys: Vec::new(), slots: vec![None; 1024] }
    }

    fn key(name: &[u8]) -> Option<u128> {
        let mut bytes = [0; 16];
        bytes.get_mut(..name.len())?.copy_from_slice(name);
        Some(u128::from_le_bytes(bytes))
    }

    /// Where a key is, or would be put.
    fn slot(&self, key: u128) -> usize {
        let folded = (key as u64 ^ (key >> 64) as u64).wrapping_mul(0x9e37_79b9_7f4a_7c15);
        let mut slot = (folded >> 54) as usize;
        while self.slots[slot].is_some_and(|node| self.keys[node as usize] != key) {
            slot = (slot + 1) % self.slots.len();
        }
        slot
    }

    fn find(&self, name: &[u8]) -> Option<NodeId> {
        self.slots[self.slot(Names::key(name)?)]
    }

    fn add(&mut self, name: &[u8]) {
        let Some(key) = Names::key(name) else { return };
        let slot = self.slot(key);
        self.slots[slot] = Some(self.keys.len() as NodeId);
        self.keys.push(key);
    }
}

/// A line whose words are taken one after another. Of its faults the first in their order counts.
struct Line<'a> {
    /// None behind the last word.
    rest: Option<&'a [u8]>,
    /// Where the line ends in the text.
    end: usize,
    length: usize,
    fault: Option<Code>,
}

impl<'a> Line<'a> {
    fn fail(&mut self, code: Code) {
        if self.fault.is_none_or(|fault| code < fault) {
            self.fault = Some(code);
        }
    }

    fn word(&mut self) -> &'a [u8] {
        let Some(rest) = self.rest else {
            self.fail(Code::B1);
            return b"";
        };
        match rest.iter().position(|&b| b == b' ') {
            Some(end) => {
                self.rest = Some(&rest[end + 1..]);
                &rest[..end]
            }
            None => {
                self.rest = None;
                rest
            }
        }
    }

    fn has_more(&self) -> bool {
        self.rest.is_some()
    }

    /// The rest of the line.
    fn text(&mut self) -> Span {
        let text = self.rest.take().unwrap_or_default();
        if text.len() > 80 {
            self.fail(Code::B2);
        }
        Texts::span(self.end - text.len(), text.len())
    }

    fn number(&mut self, least: i64, most: i64) -> i64 {
        let word = self.word();
        match number(word, least < 0) {
            Some(number) if least <= number && number <= most => number,
            _ => {
                self.fail(Code::B2);
                least
            }
        }
    }

    fn byte(&mut self) -> u8 {
        self.number(0, 255) as u8
    }

    fn time(&mut self) -> u32 {
        self.number(1, u32::MAX as i64) as u32
    }

    fn size(&mut self, least: i64, most: i64) -> (u16, u16) {
        (self.number(least, most) as u16, self.number(least, most) as u16)
    }

    fn point(&mut self, least: i64, most: i64) -> (i16, i16) {
        (self.number(least, most) as i16, self.number(least, most) as i16)
    }

    fn edges(&mut self) -> Edges {
        let [west, east, north, south] = std::array::from_fn(|_| self.number(-8192, 8192) as i32);
        Edges::of(Rect::new(west, east, north, south))
    }

    fn shapes(&mut self) -> [u16; 6] {
        let shapes = std::array::from_fn(|_| self.number(0, 4096) as u16);
        let [a, b, c, d, e, f] = shapes;
        if !(a <= b && b <= c && d <= e && e <= f) {
            self.fail(Code::B2);
        }
        shapes
    }

    fn rows(&mut self) -> [u8; 8] {
        let word = self.word();
        let is_hex = word.len() == 16 && word.iter().all(u8::is_ascii_hexdigit);
        let rows = str::from_utf8(word).ok().and_then(|word| u64::from_str_radix(word, 16).ok());
        if !is_hex {
            self.fail(Code::B2);
        }
        rows.unwrap_or(0).to_be_bytes()
    }

    /// One of some words.
    fn choice<T: Copy>(&mut self, choices: &[(&[u8], T)]) -> T {
        let word = self.word();
        match choices.iter().find(|(name, _)| *name == word) {
            Some((_, choice)) => *choice,
            None => {
                self.fail(Code::B1);
                choices[0].1
            }
        }
    }

    fn selection(&mut self) -> Selection {
        use Selection::*;
        self.choice(&[(b"key", Key), (b"source", Source), (b"target", Target)])
    }
}

/// A number without leading zeros; -0 is none.
pub fn number(word: &[u8], may_be_negative: bool) -> Option<i64> {
    let (digits, sign) = match word {
        [b'-', digits @ ..] if may_be_negative => (digits, -1),
        _ => (word, 1),
    };
    let leading_zero = digits.starts_with(b"0") && (digits.len() > 1 || sign < 0);
    if digits.is_empty() || digits.len() > 10 || leading_zero {
        return None;
    }
    let mut value = 0;
    for &digit in digits {
        if !digit.is_ascii_digit() {
            return None;
        }
        value = 10 * value + (digit - b'0') as i64;
    }
    Some(sign * value)
}

#[derive(Clone, Copy, PartialEq)]
enum Phase {
    Version,
    Screen,
    Opening,
    Steps,
    Ended,
}

struct Reader {
    phase: Phase,
    version: i64,
    /// Whether a report may stand here.
    is_quiet: bool,
    names: Names,
    syncs: usize,
    reports: usize,
    script: Script,
}

/// The script of a text, or its first fault.
pub fn read(text: &[u8]) -> Result<Script, Refused> {
    if text.len() > LONGEST_TEXT {
        return Err(Refused { line: 0, code: Code::B7 });
    }
    let script = Script {
        tree: Tree::new(1, 1),
        font: Font::new(),
        kind: Kind::Mono,
        windows: Vec::new(),
        names: Vec::new(),
        steps: Vec::new(),
        lines: Vec::new(),
        step_lines: 0,
        most_points: 0,
    };
    let mut reader = Reader {
        phase: Phase::Version,
        version: 1,
        is_quiet: true,
        names: Names::new(),
        syncs: 0,
        reports: 0,
        script,
    };
    let (mut start, mut count) = (0, 0);
    while start < text.len() {
        let length = text[start..].iter().position(|&b| b == b'\n');
        let end = length.map_or(text.len(), |length| start + length);
        count += 1;
        let fault = reader.line(&text[start..end], end, count);
        if let Some(code) = fault {
            return Err(Refused { line: count, code });
        }
        start = end + 1;
    }
    match reader.phase {
        Phase::Ended => Ok(reader.script),
        _ => Err(Refused { line: count + 1, code: Code::B8 }),
    }
}

impl Reader {
    fn line(&mut self, bytes: &[u8], end: usize, count: usize) -> Option<Code> {
        let is_plain = bytes.iter().fold(true, |ok, b| ok & (b' '..=b'~').contains(b));
        if !is_plain || bytes.len() > LONGEST_LINE {
            return Some(Code::B9);
        }
        let is_comment = matches!(bytes, [] | [b'#', ..]);
        if self.phase == Phase::Ended {
            return (!is_comment).then_some(Code::B8);
        }
        let mut line = Line { rest: Some(bytes), end, length: bytes.len(), fault: None };
        if !is_comment {
            match line.word() {
                [b'@', name @ ..] => self.leaf_step(&mut line, name),
                word => self.word(&mut line, word),
            }
            if line.has_more() {
                line.fail(Code::B1);
            }
        }
        if count > MOST_LINES {
            line.fail(Code::B7);
        }
        line.fault
    }

    fn stands(&self, line: &mut Line, phase: Phase) {
        if self.phase != phase {
            line.fail(Code::B5);
        }
    }

    fn word(&mut self, line: &mut Line, word: &[u8]) {
        match word {
            b"trestle" => {
                self.stands(line, Phase::Version);
                self.version = line.number(1, 2);
                self.phase = Phase::Screen;
            }
            b"screen" => {
                self.stands(line, Phase::Screen);
                let (wide, high) = line.size(1, 1024);
                self.script.kind = self.kind(line);
                self.script.tree = Tree::new(wide as i32, high as i32);
                self.script.most_points = wide as u64 * high as u64;
                self.phase = Phase::Opening;
            }
            b"glyph" => self.glyph(line),
            b"node" => self.node_line(line),
            b"leaf" => self.leaf_line(line),
            b"put" => {
                self.stands(line, Phase::Opening);
                let (child, parent) = (self.node(line), self.node(line));
                let (h, v) = self.place(line);
                let at = Point { h: h as i32, v: v as i32 };
                if line.fault.is_none() && self.script.tree.attach(child, parent, at).is_err() {
                    line.fail(Code::B6);
                }
            }
            b"root" => {
                self.stands(line, Phase::Opening);
                let node = self.node(line);
                let tree = &mut self.script.tree;
                if line.fault.is_none() {
                    if tree.root.is_some() || tree.node(node).parent.is_some() {
                        line.fail(Code::B6);
                    }
                    tree.root = Some(node);
                }
            }
            b"begin" => {
                self.stands(line, Phase::Opening);
                if self.script.tree.root.is_none() {
                    line.fail(Code::B6);
                }
                self.phase = Phase::Steps;
            }
            b"sync" => {
                self.stands(line, Phase::Steps);
                self.syncs += 1;
                if self.syncs > 1000 {
                    line.fail(Code::B7);
                }
                self.is_quiet = true;
                self.push(line, Step::Sync);
            }
            b"dump" => self.report(line, Report::Dump),
            b"peek" => self.report(line, Report::Peek),
            b"journal" => self.report(line, Report::Journal),
            b"where" => {
                let (h, v) = line.point(-8192, 8191);
                self.report(line, Report::Where(h, v));
            }
            b"inbox" => {
                let name = line.word();
                let leaf = self.leaf(line, name);
                self.report(line, Report::Inbox(leaf));
            }
            b"end" => {
                self.stands(line, Phase::Steps);
                if !self.is_quiet {
                    line.fail(Code::B5);
                }
                self.phase = Phase::Ended;
            }
            _ => self.desk_step(line, word),
        }
    }

    fn glyph(&mut self, line: &mut Line) {
        self.stands(line, Phase::Opening);
        let word = line.word();
        let is_hex = word.len() == 2 && word.iter().all(u8::is_ascii_hexdigit);
        let byte = str::from_utf8(word).ok().and_then(|word| u8::from_str_radix(word, 16).ok());
        let byte = byte.filter(|&byte| is_hex && (32..=126).contains(&byte));
        let rows = line.rows();
        match byte {
            None => line.fail(Code::B2),
            Some(byte) if self.script.font.is_set(byte) => line.fail(Code::B4),
            Some(byte) => self.script.font.set(byte, rows),
        }
    }

    fn node_line(&mut self, line: &mut Line) {
        self.stands(line, Phase::Opening);
        let name = self.new_name(line);
        let word = line.word();
        let tint = line.byte();
        let kind = match word {
            b"h" => NodeKind::H,
            b"v" => NodeKind::V,
            b"z" => NodeKind::Z,
            b"t" => NodeKind::T { shown: None },
            b"page" => NodeKind::Page { per: line.number(1, 16) as u8, page: 0 },
            b"pack" if self.version == 2 => {
                let down = line.choice(&[(b"across", false), (b"down", true)]);
                NodeKind::Pack { down, gap: line.number(0, 64) as u8 }
            }
            b"border" => NodeKind::Border { width: line.byte() },
            b"rigid" => {
                let (wide, high) = line.size(0, 4096);
                NodeKind::Rigid { wide, high }
            }
            b"translate" => {
                let (h, v) = line.point(-2048, 2048);
                NodeKind::Translate { by: Point { h: h as i32, v: v as i32 } }
            }
            _ => return line.fail(Code::B1),
        };
        self.add(line, name, kind, tint);
    }

    fn leaf_line(&mut self, line: &mut Line) {
        self.stands(line, Phase::Opening);
        let name = self.new_name(line);
        let shapes = shapes_of(line.shapes());
        let widget = match line.word() {
            b"solid" => Widget::Solid(line.byte()),
            b"board" => {
                let tile = line.rows();
                let (h, v) = line.point(-4096, 4096);
                Widget::Board { tile, shift: Point { h: h as i32, v: v as i32 } }
            }
            b"label" => Widget::Label(line.text()),
            b"lines" => Widget::Lines(VecDeque::new()),
            b"canvas" => Widget::Canvas(Vec::new()),
            b"meter" => Widget::Meter(vec![0; line.number(1, 32) as usize]),
            b"edit" if self.version == 2 => Widget::Edit(Editor::new()),
            _ => return line.fail(Code::B1),
        };
        if self.script.windows.len() == 32 {
            line.fail(Code::B7);
        }
        let leaf = self.script.windows.len() as LeafId;
        let node = self.script.tree.nodes.len() as NodeId;
        self.script.windows.push(Window::new(node, widget));
        self.add(line, name, NodeKind::Leaf { leaf, shapes }, 0);
    }

    fn add(&mut self, line: &mut Line, (name, span): (&[u8], Span), kind: NodeKind, tint: u8) {
        if self.script.tree.nodes.len() == 256 {
            line.fail(Code::B7);
        }
        if line.fault.is_none() {
            self.names.add(name);
            self.script.names.push(span);
            self.script.tree.add(kind, tint);
        }
    }

    fn kind(&self, line: &mut Line) -> Kind {
        let kinds: [(&[u8], Kind); 3] =
            [(b"mono", Kind::Mono), (b"map8", Kind::Map8), (b"map4", Kind::Map4)];
        line.choice(if self.version == 2 { &kinds } else { &kinds[..2] })
    }

    /// A name that is declared.
    fn new_name<'a>(&self, line: &mut Line<'a>) -> (&'a [u8], Span) {
        let name = line.word();
        let behind = line.rest.map_or(0, |rest| rest.len() + 1);
        let is_name = match name {
            [b'a'..=b'z', rest @ ..] if rest.len() < 16 => {
                rest.iter().all(|b| matches!(b, b'a'..=b'z' | b'0'..=b'9' | b'_'))
            }
            _ => false,
        };
        if !is_name {
            line.fail(Code::B2);
        } else if self.names.find(name).is_some() {
            line.fail(Code::B4);
        }
        (name, Texts::span(line.end - behind - name.len(), name.len()))
    }

    fn node(&self, line: &mut Line) -> NodeId {
        let name = line.word();
        self.names.find(name).unwrap_or_else(|| {
            line.fail(Code::B3);
            0
        })
    }

    fn leaf(&self, line: &mut Line, name: &[u8]) -> LeafId {
        let node = self.names.find(name).map(|node| self.script.tree.node(node));
        match node.map(|node| node.kind) {
            Some(NodeKind::Leaf { leaf, .. }) => leaf,
            _ => {
                line.fail(Code::B3);
                0
            }
        }
    }

    /// The place of a child, which may be left out.
    fn place(&self, line: &mut Line) -> (i16, i16) {
        if line.has_more() { line.point(-2048, 2048) } else { (0, 0) }
    }

    fn report(&mut self, line: &mut Line, report: Report) {
        self.stands(line, Phase::Steps);
        if !self.is_quiet {
            line.fail(Code::B5);
        }
        self.reports += 1;
        if self.reports > 64 {
            line.fail(Code::B7);
        }
        self.push(line, Step::Report(report));
    }

    fn step(&mut self, line: &mut Line, step: Step) {
        self.stands(line, Phase::Steps);
        self.is_quiet = false;
        self.script.step_lines += 1;
        self.push(line, step);
    }

    fn push(&mut self, line: &Line, step: Step) {
        self.script.steps.push(step);
        self.script.lines.push(Texts::span(line.end - line.length, line.length));
    }

    fn desk_step(&mut self, line: &mut Line, word: &[u8]) {
        let step = match word {
            b"motion" => {
                let time = line.time();
                let (h, v) = line.point(-8192, 8191);
                Step::Motion { time, h, v }
            }
            b"mouse" => {
                let time = line.time();
                let down = line.choice(&[(b"down", true), (b"up", false)]);
                Step::Mouse { time, button: line.number(1, 5) as u8, down }
            }
            b"key" => Step::Key { time: line.time(), code: line.byte() },
            _ => match self.edit(line, word) {
                Some(edit) => Step::Alter(edit),
                None => return line.fail(Code::B1),
            },
        };
        self.step(line, step);
    }

    fn edit(&mut self, line: &mut Line, word: &[u8]) -> Option<Edit> {
        Some(match word {
            b"attach" => {
                let (child, parent) = (self.node(line), self.node(line));
                let (h, v) = self.place(line);
                Edit::Attach { child, parent, h, v }
            }
            b"detach" => Edit::Detach { child: self.node(line) },
            b"tint" => Edit::Tint { node: self.node(line), tint: line.byte() },
            b"border" => Edit::Border { node: self.node(line), width: line.byte() },
            b"offset" => {
                let node = self.node(line);
                let (h, v) = line.point(-2048, 2048);
                Edit::Offset { node, h, v }
            }
            b"fix" => {
                let node = self.node(line);
                let (wide, high) = line.size(0, 4096);
                Edit::Fix { node, wide, high }
            }
            b"move" => {
                let child = self.node(line);
                let (h, v) = line.point(-2048, 2048);
                Edit::Move { child, h, v }
            }
            b"lift" => Edit::Lift { child: self.node(line) },
            b"show" => Edit::Show { node: self.node(line), child: self.node(line) },
            b"turn" => Edit::Turn { node: self.node(line), page: line.byte() },
            b"shapes" => Edit::Shapes { node: self.node(line), shapes: line.shapes() },
            b"resize" => {
                let (wide, high) = line.size(1, 1024);
                let points = wide as u64 * high as u64;
                self.script.most_points = self.script.most_points.max(points);
                Edit::Resize { wide, high }
            }
            b"rescreen" => Edit::Rescreen { kind: self.kind(line) },
            _ => return None,
        })
    }

    fn leaf_step(&mut self, line: &mut Line, name: &[u8]) {
        let leaf = self.leaf(line, name);
        let step = match line.word() {
            b"mark" => Step::Mark(leaf, line.edges()),
            b"flush" => Step::Flush(leaf),
            b"force" => Step::Force(leaf),
            b"take" => Step::Take(leaf),
            b"cage" => {
                let edges = line.edges();
                let (here, gone) = line.choice(&[
                    (b"here", (true, false)),
                    (b"gone", (false, true)),
                    (b"both", (true, true)),
                ]);
                Step::Cage(leaf, Cage { edges, here, gone })
            }
            b"free" => Step::Free(leaf),
            b"own" => Step::Own(leaf, line.selection(), line.time()),
            b"disown" => Step::Disown(leaf, line.selection()),
            b"read" => Step::Read(leaf, line.selection()),
            word => match self.command(line, word) {
                None => return line.fail(Code::B1),
                Some(command) => {
                    let window = self.script.windows.get(leaf as usize);
                    if window.is_some_and(|window| !window.widget().knows(&command)) {
                        line.fail(Code::B10);
                    }
                    Step::Act(leaf, command)
                }
            },
        };
        self.step(line, step);
    }

    fn command(&self, line: &mut Line, word: &[u8]) -> Option<Command> {
        let figure = |area, colour| Command::Figure(Figure { area, colour });
        Some(match word {
            b"line" => Command::Line(line.text()),
            b"clear" => Command::Clear,
            b"rect" => figure(line.edges(), Colour::Set(line.byte())),
            b"swap" => figure(line.edges(), Colour::Exchange(0, 1)),
            b"exchange" if self.version == 2 => {
                figure(line.edges(), Colour::Exchange(line.byte(), line.byte()))
            }
            b"undo" => Command::Undo,
            b"tint" => Command::Tint(line.byte()),
            b"tile" => Command::Tile(line.rows()),
            b"shift" => {
                let (h, v) = line.point(-4096, 4096);
                Command::Shift(h, v)
            }
            b"text" => Command::Text(line.text()),
            b"bar" => Command::Bar(line.number(0, 31) as u8, line.byte()),
            _ if self.version < 2 => return None,
            b"insert" => Command::Insert(line.text()),
            b"erase" => Command::Erase,
            b"split" => Command::Split,
            b"goto" => Command::Goto(line.number(0, 199) as u8, line.number(0, 80) as u8),
            b"copy" => Command::Copy(line.number(0, 80) as u8, line.number(0, 80) as u8),
            b"paste" => Command::Paste,
            _ => return None,
        })
    }
}

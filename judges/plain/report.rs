//! The texts of reports, and the buffer that they go through.

use crate::region::{Point, Rect};
use crate::stage::{Answer, Cage, Made, Report, Stage, Step};
use crate::tree::{Edit, LeafId, NodeId, Spot};
use crate::widgets::{Click, Colour, Command, Edges, Event, Figure, Selection, Span};
use std::fs::File;
use std::io::{self, Write};

const ROOM: usize = 1 << 18;

/// Gathers text, and hands it on in large pieces.
pub struct Out {
    text: Vec<u8>,
    file: Option<File>,
}

impl Out {
    /// Text for a file, or for nobody.
    pub fn new(file: Option<File>) -> Out {
        Out { text: Vec::with_capacity(ROOM), file }
    }

    pub fn flush(&mut self) -> io::Result<()> {
        if let Some(file) = &mut self.file {
            file.write_all(&self.text)?;
        }
        self.text.clear();
        Ok(())
    }

    fn end_line(&mut self) -> io::Result<()> {
        self.text.push(b'\n');
        if self.text.len() < ROOM - 4096 { Ok(()) } else { self.flush() }
    }

    fn put(&mut self, text: &[u8]) -> &mut Out {
        self.text.extend_from_slice(text);
        self
    }

    /// A space and a word.
    fn word(&mut self, word: &[u8]) -> &mut Out {
        self.text.push(b' ');
        self.put(word)
    }

    fn number(&mut self, number: impl Into<i64>) -> &mut Out {
        self.text.push(b' ');
        self.digits(number.into())
    }

    fn digits(&mut self, number: i64) -> &mut Out {
        let mut digits = [0; 20];
        let (mut place, mut rest) = (digits.len(), number.unsigned_abs());
        loop {
            place -= 1;
            digits[place] = b'0' + (rest % 10) as u8;
            rest /= 10;
            if rest == 0 {
                break;
            }
        }
        if number < 0 {
            self.text.push(b'-');
        }
        self.put(&digits[place..])
    }

    fn point(&mut self, p: Point) -> &mut Out {
        self.number(p.h).number(p.v)
    }

    fn edges(&mut self, edges: Edges) -> &mut Out {
        let Rect { west, east, north, south } = edges.rect();
        self.number(west).number(east).number(north).number(south)
    }
}

fn hex_digit(n: u8) -> u8 {
    n + if n < 10 { b'0' } else { b'a' - 10 }
}

pub struct Writer<'a> {
    pub out: Out,
    pub names: &'a [Span],
    pub steps: &'a [Step],
    /// The line of each step.
    pub lines: &'a [Span],
}

impl Writer<'_> {
    fn node(&mut self, stage: &Stage, node: NodeId) -> &mut Out {
        self.out.put(stage.texts.get(self.names[node as usize]))
    }

    fn leaf(&mut self, stage: &Stage, leaf: LeafId) -> &mut Out {
        self.node(stage, stage.windows[leaf as usize].node)
    }

    /// What a check prints behind each step.
    pub fn check(&mut self, stage: &Stage) -> io::Result<()> {
        let peek = stage.peek();
        self.out.put(b"step").number(stage.journal.len() as i64);
        self.out.put(b" bad").number(peek.bad as i64);
        self.out.put(b" stale").number(peek.stale as i64).put(b" outside 0");
        self.out.end_line()
    }

    /// Writes a report; what a dump needs is painted already.
    pub fn report(&mut self, stage: &Stage, report: Report) -> io::Result<()> {
        match report {
            Report::Dump => self.dump(stage),
            Report::Peek => {
                let peek = stage.peek();
                self.out.put(b"peek bad").number(peek.bad as i64);
                self.out.put(b" waiting").number(peek.waiting as i64);
                self.out.put(b" stale").number(peek.stale as i64);
                self.out.end_line()
            }
            Report::Journal => self.journal(stage),
            Report::Where(h, v) => {
                let p = Point { h: h as i32, v: v as i32 };
                self.out.put(b"where").point(p);
                let out = match stage.tree.spot(p) {
                    Spot::Off => self.out.put(b" off"),
                    Spot::Frame(node) => {
                        self.out.put(b" frame ");
                        self.node(stage, node)
                    }
                    Spot::Leaf(leaf) => {
                        let corner = stage.place(leaf).corner();
                        self.out.put(b" leaf ");
                        self.leaf(stage, leaf).point(p.minus(corner))
                    }
                };
                out.end_line()
            }
            Report::Inbox(leaf) => {
                let window = &stage.windows[leaf as usize];
                self.out.put(b"inbox ");
                let out = self.leaf(stage, leaf);
                out.put(b" waiting").number(window.inbox.len() as i64);
                out.put(b" dropped").number(window.dropped).end_line()?;
                for event in &window.inbox {
                    self.event(event).end_line()?;
                }
                Ok(())
            }
        }
    }

    fn dump(&mut self, stage: &Stage) -> io::Result<()> {
        let screen = &stage.screen;
        self.out.put(b"dump").number(screen.wide).number(screen.high);
        self.out.word(screen.kind.name().as_bytes()).end_line()?;
        for v in 0..screen.high {
            let text = &mut self.out.text;
            let start = text.len();
            text.resize(start + 2 * screen.wide as usize, 0);
            let (pairs, _) = text[start..].as_chunks_mut::<2>();
            for (pair, &pixel) in pairs.iter_mut().zip(screen.row(v, 0, screen.wide)) {
                *pair = [hex_digit(pixel >> 4), hex_digit(pixel & 15)];
            }
            self.out.end_line()?;
        }
        Ok(())
    }

    fn event(&mut self, event: &Event) -> &mut Out {
        let out = &mut self.out;
        match *event {
            Event::Mouse { time, click, button, at } => {
                let click: &[u8] = match click {
                    Click::FirstDown => b"firstdown",
                    Click::OtherDown => b"otherdown",
                    Click::OtherUp => b"otherup",
                    Click::LastUp => b"lastup",
                };
                out.put(b"mouse").number(time).word(click).number(button).point(at)
            }
            Event::Position { time, at, gone } => {
                out.put(b"position").number(time).point(at);
                out.put(if gone { b" gone" } else { b" here" })
            }
            Event::Key { time, code } => out.put(b"key").number(time).number(code),
            Event::Lost(Selection::Key) => out.put(b"lost key"),
            Event::Lost(Selection::Source) => out.put(b"lost source"),
            Event::Lost(Selection::Target) => out.put(b"lost target"),
            Event::Reshape { wide, high, kind } => {
                out.put(b"reshape").number(wide).number(high).word(kind.name().as_bytes())
            }
        }
    }

    fn journal(&mut self, stage: &Stage) -> io::Result<()> {
        self.out.put(b"journal").number(stage.journal.len() as i64).end_line()?;
        let mut sent = 0;
        for (k, entry) in stage.journal.iter().enumerate() {
            self.out.digits(k as i64 + 1).put(b" ");
            match entry.made {
                Made::Step(place) => self.step(stage, place as usize),
                Made::Frame => self.out.put(b"painter mu frame"),
                Made::Repaint(leaf) => {
                    self.out.put(b"painter mu repaint ");
                    self.leaf(stage, leaf)
                }
            };
            self.out.put(b" = ");
            match &entry.answer {
                Answer::Ok => self.out.put(b"ok"),
                Answer::Empty => self.out.put(b"empty"),
                Answer::Took(event) => {
                    self.out.put(b"took ");
                    self.event(event)
                }
                Answer::Value(text) => match stage.texts.get(*text) {
                    [] => self.out.put(b"value"),
                    text => self.out.put(b"value ").put(text),
                },
                Answer::Refused(n) => self.out.put(b"N").digits(*n as i64),
                Answer::Earlier(now) => self.out.put(b"N7").number(*now),
                Answer::NotCurrent(now, last) => self.out.put(b"N10").number(*now).number(*last),
            };
            for delivery in &stage.sent[sent as usize..entry.sent as usize] {
                self.out.put(b"; ");
                self.leaf(stage, delivery.leaf);
                self.out.put(if delivery.dropped { b" dropped " } else { b" " });
                self.event(&delivery.event);
            }
            sent = entry.sent;
            self.out.end_line()?;
        }
        Ok(())
    }

    /// The actor and the levels of a step, and its words as they stand in the script; but what can
    /// be written in several ways is written in one.
    fn step(&mut self, stage: &Stage, place: usize) -> &mut Out {
        let line = stage.texts.get(self.lines[place]);
        let step = self.steps[place];
        let (leaf, levels) = match step {
            Step::Sync | Step::Report(_) => return self.out.put(b"player mu ").put(line),
            Step::Mouse { .. } | Step::Motion { .. } | Step::Key { .. } | Step::Alter(_) => {
                let has_no_place = line.split(|&b| b == b' ').count() == 3;
                let zeros = has_no_place && matches!(step, Step::Alter(Edit::Attach { .. }));
                return self.out.put(b"desk mu ").put(line).put(if zeros { b" 0 0" } else { b"" });
            }
            Step::Flush(leaf) | Step::Force(leaf) => (leaf, " mu"),
            Step::Act(leaf, _) => (leaf, " win:"),
            Step::Mark(leaf, _)
            | Step::Take(leaf)
            | Step::Cage(leaf, _)
            | Step::Free(leaf)
            | Step::Own(leaf, ..)
            | Step::Disown(leaf, _)
            | Step::Read(leaf, _) => (leaf, " mu,win:"),
        };
        self.out.put(b"leaf:");
        self.leaf(stage, leaf).put(levels.as_bytes());
        if levels.ends_with(':') {
            self.leaf(stage, leaf);
        }
        let first = line.iter().position(|&b| b == b' ').unwrap_or(line.len());
        let words = &line[first..];
        let is_swap = |figure: &Figure| figure.colour == Colour::Exchange(0, 1);
        let edges = match step {
            Step::Mark(_, edges) | Step::Cage(_, Cage { edges, .. }) => edges,
            Step::Act(_, Command::Figure(figure)) if is_swap(&figure) => {
                return self.out.put(b" swap").edges(figure.area);
            }
            Step::Act(_, Command::Figure(figure)) => figure.area,
            Step::Act(_, Command::Tile(_)) => return self.out.put(&words.to_ascii_lowercase()),
            Step::Act(_, Command::Text(text) | Command::Line(text) | Command::Insert(text))
                if stage.texts.get(text).is_empty() =>
            {
                return self.out.put(words.trim_ascii_end());
            }
            _ => return self.out.put(words),
        };
        let mut words = words[1..].splitn(6, |&b| b == b' ');
        self.out.word(words.next().unwrap_or_default()).edges(edges);
        match words.nth(4) {
            Some(rest) => self.out.word(rest),
            None => &mut self.out,
        }
    }
}

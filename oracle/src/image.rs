//! A sheet image read into records, after document 01, "The sheet image".
//!
//! Reading holds to the field rules in the order of the words, so what cannot
//! be read is what document 01 refuses with the codes 1 to 4, at the same place.

use crate::layout::{
    CODE_POINT_LIMIT, COORDINATE_LIMIT, EDGES, ELEMENTS, FIRST_COUNT_WORD, GLYPHS, HEADER_LIMITS,
    HEADER_WORDS, NODES, PLACED_LABELS, POINTS, RECORD_WORDS, SUBGRAPHS, TABLES, TABLE_NAMES,
    WIDTH_RANGES,
};

/// Why an image cannot be read or must not be painted: document 01's code of
/// refusal and its place, and what is wrong in words.
#[derive(Debug)]
pub struct Unreadable {
    pub code: u32,
    pub place: usize,
    pub what: String,
}

impl std::fmt::Display for Unreadable {
    fn fmt(&self, f: &mut std::fmt::Formatter<'_>) -> std::fmt::Result {
        let (place, code) = (self.place, self.code);
        write!(f, "{} at word {place} (code {code})", self.what)
    }
}

fn unreadable<T>(code: u32, place: usize, what: String) -> Result<T, Unreadable> {
    Err(Unreadable { code, place, what })
}

/// A stretch of the glyph or the point table.
#[derive(Debug, Clone, Copy)]
pub struct Span {
    pub start: usize,
    pub count: usize,
}

#[derive(Debug, Clone, Copy, PartialEq, Eq)]
pub enum Weight {
    Dashed,
    Light,
    Double,
}

#[derive(Debug, Clone, Copy, PartialEq, Eq)]
pub enum NodeLook {
    Simple,
    Boxed,
    Blank,
    Dummy,
}

#[derive(Debug, Clone)]
pub struct Node {
    pub x: usize,
    pub y: usize,
    pub width: usize,
    pub height: usize,
    pub label: Span,
    pub look: NodeLook,
    pub self_loop: Option<(usize, usize)>,
}

#[derive(Debug, Clone, Copy)]
pub enum Path {
    Direct,
    Corner {
        bend: usize,
    },
    SideChannel {
        channel: usize,
        span_start: usize,
        span_end: usize,
    },
    MultiSegment {
        points: Span,
        start_offset: usize,
    },
    Orthogonal {
        points: Span,
    },
    Spline,
}

#[derive(Debug, Clone)]
pub struct Edge {
    pub from: (usize, usize),
    pub to: (usize, usize),
    pub path: Path,
    pub flows_along_x: bool,
    pub reversed: bool,
    pub start_marker: bool,
    pub end_marker: bool,
    pub weight: Weight,
    pub label: Option<Span>,
    pub colour: u32,
    pub label_colour: u32,
}

#[derive(Debug, Clone)]
pub struct Subgraph {
    pub x: usize,
    pub y: usize,
    pub width: usize,
    pub height: usize,
    pub label: Span,
    pub border: Option<Weight>,
    pub label_at_bottom: bool,
    pub colour: u32,
}

#[derive(Debug, Clone)]
pub struct PlacedLabel {
    pub edge: usize,
    pub x: usize,
    pub y: usize,
    pub placeable: bool,
    pub row_has_node: bool,
}

#[derive(Debug, Clone, Copy, PartialEq, Eq)]
pub enum ElementKind {
    Node,
    Edge,
    Subgraph,
}

#[derive(Debug, Clone)]
pub struct Element {
    pub kind: ElementKind,
    pub index: usize,
    pub first_row: usize,
    pub last_row: usize,
}

#[derive(Debug, Clone)]
pub struct WidthRange {
    pub first: u32,
    pub last: u32,
    pub width: usize,
}

#[derive(Debug)]
pub struct Image {
    pub width: usize,
    pub height: usize,
    pub run_capacity: usize,
    pub avoids_node_rows: bool,
    pub shows_dummies: bool,
    pub nodes: Vec<Node>,
    pub edges: Vec<Edge>,
    pub subgraphs: Vec<Subgraph>,
    pub placed_labels: Vec<PlacedLabel>,
    pub elements: Vec<Element>,
    pub points: Vec<(usize, usize)>,
    pub glyphs: Vec<char>,
    pub width_ranges: Vec<WidthRange>,
}

/// The words of a file, "most significant byte first".
pub fn words_of(bytes: &[u8]) -> Option<Vec<u32>> {
    let words = bytes.chunks_exact(4);
    if !words.remainder().is_empty() {
        return None;
    }
    let word = |w: &[u8]| u32::from_be_bytes([w[0], w[1], w[2], w[3]]);
    Some(words.map(word).collect())
}

impl Image {
    pub fn read(words: &[u32]) -> Result<Image, Unreadable> {
        if words.len() < HEADER_WORDS {
            return unreadable(1, 0, format!("only {} words", words.len()));
        }
        let mut r = Reader::of(words);
        let (width, height) = r.size()?;
        let run_capacity = r.at_most("run capacity", HEADER_LIMITS[2], 2)?;
        let policy = r.header_flags()?;
        r.counts()?;
        Ok(Image {
            width,
            height,
            run_capacity,
            avoids_node_rows: bits(policy, 31, 1) == 1,
            shows_dummies: bits(policy, 30, 1) == 1,
            nodes: r.table(NODES, Reader::node)?,
            edges: r.table(EDGES, Reader::edge)?,
            subgraphs: r.table(SUBGRAPHS, Reader::subgraph)?,
            placed_labels: r.table(PLACED_LABELS, Reader::placed_label)?,
            elements: r.table(ELEMENTS, Reader::element)?,
            points: r.table(POINTS, Reader::point)?,
            glyphs: r.table(GLYPHS, Reader::glyph)?,
            width_ranges: r.table(WIDTH_RANGES, Reader::width_range)?,
        })
    }

    pub fn text(&self, label: Span) -> String {
        self.glyphs[label.start..][..label.count].iter().collect()
    }

    pub fn points_of(&self, span: Span) -> &[(usize, usize)] {
        &self.points[span.start..][..span.count]
    }

    /// Code 6, "a MultiSegment corner lies below 0": the original makes a huge
    /// number of such a corner and practically never ends.
    pub fn corner_below_zero(&self) -> Option<Unreadable> {
        let edge = self.edges.iter().position(|e| self.sinks_below_zero(e))?;
        let place =
            HEADER_WORDS + self.nodes.len() * RECORD_WORDS[NODES] + edge * RECORD_WORDS[EDGES];
        let what = format!("edge {edge} has a MultiSegment corner below 0");
        Some(Unreadable {
            code: 6,
            place,
            what,
        })
    }

    fn sinks_below_zero(&self, edge: &Edge) -> bool {
        let Path::MultiSegment {
            points,
            start_offset,
        } = edge.path
        else {
            return false;
        };
        // Every point as (along the flow, across the flow).
        let along = |(x, y): (usize, usize)| match edge.flows_along_x {
            true => (x as i64, y as i64),
            false => (y as i64, x as i64),
        };
        let (from, to) = (along(edge.from), along(edge.to));
        let sign = if to.0 >= from.0 { 1 } else { -1 };
        let mut here = from;
        let mut step = 1 + start_offset as i64;
        for next in self.points_of(points).iter().map(|&p| along(p)).chain([to]) {
            if here.1 != next.1 && here.0 + sign * step < 0 {
                return true;
            }
            here = next;
            step = 1;
        }
        false
    }
}

/// `count` bits of a flag word, the topmost of them bit `top`.
fn bits(flags: u32, top: u32, count: u32) -> u32 {
    (flags >> (top + 1 - count)) & ((1 << count) - 1)
}

fn weight_of(bits: u32) -> Option<Weight> {
    match bits {
        1 => Some(Weight::Dashed),
        2 => Some(Weight::Light),
        3 => Some(Weight::Double),
        _ => None,
    }
}

struct Reader<'w> {
    words: &'w [u32],
    at: usize,
    counts: [usize; TABLES],
}

impl<'w> Reader<'w> {
    fn of(words: &'w [u32]) -> Reader<'w> {
        Reader {
            words,
            at: 0,
            counts: [0; TABLES],
        }
    }

    fn next(&mut self) -> u32 {
        self.at += 1;
        self.words[self.at - 1]
    }

    /// Refuses the word read last.
    fn bad<T>(&self, code: u32, what: String) -> Result<T, Unreadable> {
        unreadable(code, self.at - 1, what)
    }

    fn at_most(&mut self, what: &str, limit: u32, code: u32) -> Result<usize, Unreadable> {
        let value = self.next();
        if value > limit {
            return self.bad(code, format!("{what} {value} is over {limit}"));
        }
        Ok(value as usize)
    }

    fn far(&mut self, what: &str) -> Result<usize, Unreadable> {
        self.at_most(what, COORDINATE_LIMIT, 4)
    }

    fn unused(&mut self, what: &str) -> Result<(), Unreadable> {
        self.at_most(what, 0, 4).map(|_| ())
    }

    /// A flag word of which only the uppermost `used` bits have a meaning.
    fn flags(&mut self, used: u32, code: u32) -> Result<u32, Unreadable> {
        let flags = self.next();
        if flags << used != 0 {
            return self.bad(code, format!("flags {flags:08X} have a spare bit set"));
        }
        Ok(flags)
    }

    /// A start and a count; "a span that leaves: its start".
    fn span(&mut self, what: &str, table: usize) -> Result<Span, Unreadable> {
        let (start, count) = (self.next(), self.next());
        if u64::from(start) + u64::from(count) > self.counts[table] as u64 {
            let table = TABLE_NAMES[table];
            let what = format!("{what} {start} + {count} leaves the {table}");
            return unreadable(4, self.at - 2, what);
        }
        Ok(Span {
            start: start as usize,
            count: count as usize,
        })
    }

    fn index(&mut self, what: &str, table: usize) -> Result<usize, Unreadable> {
        let index = self.next() as usize;
        if index >= self.counts[table] {
            return self.bad(
                4,
                format!("{what} {index} leaves the {}", TABLE_NAMES[table]),
            );
        }
        Ok(index)
    }

    fn size(&mut self) -> Result<(usize, usize), Unreadable> {
        let width = self.at_most("sheet width", HEADER_LIMITS[0], 2)?;
        let height = self.at_most("sheet height", HEADER_LIMITS[1], 2)?;
        Ok((width, height))
    }

    fn header_flags(&mut self) -> Result<u32, Unreadable> {
        self.flags(2, 2)
    }

    fn counts(&mut self) -> Result<(), Unreadable> {
        let mut wanted = HEADER_WORDS;
        for (table, name) in TABLE_NAMES.into_iter().enumerate() {
            let limit = HEADER_LIMITS[FIRST_COUNT_WORD + table];
            self.counts[table] = self.at_most(&format!("count of {name}"), limit, 2)?;
            wanted += self.counts[table] * RECORD_WORDS[table];
        }
        if self.words.len() != wanted {
            let what = format!("{} words where {wanted} are wanted", self.words.len());
            return unreadable(3, wanted, what);
        }
        Ok(())
    }

    fn table<R>(
        &mut self,
        table: usize,
        record: impl Fn(&mut Self) -> Result<R, Unreadable>,
    ) -> Result<Vec<R>, Unreadable> {
        (0..self.counts[table]).map(|_| record(self)).collect()
    }

    fn node(&mut self) -> Result<Node, Unreadable> {
        let (x, y) = (self.far("node x")?, self.far("node y")?);
        let (width, height) = (self.far("node width")?, self.far("node height")?);
        let label = self.span("node label", GLYPHS)?;
        let flags = self.flags(3, 4)?;
        Ok(Node {
            x,
            y,
            width,
            height,
            label,
            look: match bits(flags, 31, 2) {
                0 => NodeLook::Simple,
                1 => NodeLook::Boxed,
                2 => NodeLook::Blank,
                _ => NodeLook::Dummy,
            },
            self_loop: if bits(flags, 29, 1) == 1 {
                Some((self.far("loop x")?, self.far("loop y")?))
            } else {
                self.unused("loop x of a node without self-loop")?;
                self.unused("loop y of a node without self-loop")?;
                None
            },
        })
    }

    fn edge(&mut self) -> Result<Edge, Unreadable> {
        let from = (self.far("from x")?, self.far("from y")?);
        let to = (self.far("to x")?, self.far("to y")?);
        let flags = self.flags(10, 4)?;
        if bits(flags, 31, 3) > 5 {
            return self.bad(4, format!("flags {flags:08X} name no path"));
        }
        let Some(weight) = weight_of(bits(flags, 24, 2)) else {
            return self.bad(4, format!("flags {flags:08X} name no weight"));
        };
        Ok(Edge {
            from,
            to,
            path: self.path(bits(flags, 31, 3))?,
            flows_along_x: bits(flags, 28, 1) == 1,
            reversed: bits(flags, 27, 1) == 1,
            start_marker: bits(flags, 26, 1) == 1,
            end_marker: bits(flags, 25, 1) == 1,
            weight,
            label: if bits(flags, 22, 1) == 1 {
                Some(self.span("edge label", GLYPHS)?)
            } else {
                self.unused("label start of an edge without label")?;
                self.unused("label count of an edge without label")?;
                None
            },
            colour: self.next(),
            label_colour: self.next(),
        })
    }

    /// The words a, b and c: "Unused a, b, c are 0."
    fn path(&mut self, kind: u32) -> Result<Path, Unreadable> {
        let path = match kind {
            1 => Path::Corner {
                bend: self.far("bend")?,
            },
            2 => Path::SideChannel {
                channel: self.far("channel")?,
                span_start: self.far("span start")?,
                span_end: self.far("span end")?,
            },
            3 => Path::MultiSegment {
                points: self.span("path", POINTS)?,
                start_offset: self.far("start offset")?,
            },
            4 => Path::Orthogonal {
                points: self.span("path", POINTS)?,
            },
            5 => Path::Spline,
            _ => Path::Direct,
        };
        let used = [0, 1, 3, 3, 2, 0][kind as usize];
        for name in &["a", "b", "c"][used..] {
            self.unused(&format!("unused {name}"))?;
        }
        Ok(path)
    }

    fn subgraph(&mut self) -> Result<Subgraph, Unreadable> {
        let (x, y) = (self.far("subgraph x")?, self.far("subgraph y")?);
        let (width, height) = (self.far("subgraph width")?, self.far("subgraph height")?);
        let label = self.span("subgraph label", GLYPHS)?;
        let flags = self.flags(3, 4)?;
        Ok(Subgraph {
            x,
            y,
            width,
            height,
            label,
            border: weight_of(bits(flags, 31, 2)),
            label_at_bottom: bits(flags, 29, 1) == 1,
            colour: self.next(),
        })
    }

    fn placed_label(&mut self) -> Result<PlacedLabel, Unreadable> {
        let edge = self.index("labelled edge", EDGES)?;
        let (x, y) = (self.far("label x")?, self.far("label y")?);
        let flags = self.flags(2, 4)?;
        Ok(PlacedLabel {
            edge,
            x,
            y,
            placeable: bits(flags, 31, 1) == 1,
            row_has_node: bits(flags, 30, 1) == 1,
        })
    }

    fn element(&mut self) -> Result<Element, Unreadable> {
        let (kind, table) = match self.at_most("element kind", 2, 4)? {
            0 => (ElementKind::Node, NODES),
            1 => (ElementKind::Edge, EDGES),
            _ => (ElementKind::Subgraph, SUBGRAPHS),
        };
        Ok(Element {
            kind,
            index: self.index("element", table)?,
            first_row: self.far("first row")?,
            last_row: self.far("last row")?,
        })
    }

    fn point(&mut self) -> Result<(usize, usize), Unreadable> {
        Ok((self.far("point x")?, self.far("point y")?))
    }

    fn glyph(&mut self) -> Result<char, Unreadable> {
        let word = self.next();
        let Some(glyph) = char::from_u32(word) else {
            let what = format!("glyph {word:X} is no Unicode scalar value, Rust cannot hold it");
            return self.bad(4, what);
        };
        Ok(glyph)
    }

    fn width_range(&mut self) -> Result<WidthRange, Unreadable> {
        let first = self.at_most("first of a width range", CODE_POINT_LIMIT, 4)? as u32;
        let last = self.at_most("last of a width range", CODE_POINT_LIMIT, 4)? as u32;
        let width = self.at_most("width", 2, 4)?;
        if width == 1 {
            return self.bad(4, "width 1 needs no width range".to_string());
        }
        Ok(WidthRange { first, last, width })
    }
}

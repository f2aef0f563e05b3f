//! `compare-edges`: the product's program `paintlines`, asked for every sheet with one
//! edge out of a family of small ones, whole, plain and coloured, and held against
//! the original.

use crate::asking::{in_streams, Asked, Comparison};
use crate::draft::{edge_record, Draft};
use crate::generate::accepted;
use crate::layout::{
    CORNER, DIRECT, EDGES, END_MARKER_BIT, MULTI_SEGMENT, ORTHOGONAL, PATH_NAMES, POINTS,
    REVERSED_BIT, SIDE_CHANNEL, SPLINE, START_MARKER_BIT, X_FLOW_BIT,
};
use crate::paintlines::{asked, Form, PROGRAM};
use crate::requests::{Request, Rows, Subject};
use crate::slow_check::slow_check;
use crate::wrong_use;
use std::cell::Cell;
use std::io;
use std::process::ExitCode;
use std::rc::Rc;

pub fn command(options: &[String]) -> io::Result<ExitCode> {
    if !options.is_empty() {
        return Ok(wrong_use("compare-edges, and nothing more"));
    }
    let headings = PATH_NAMES.map(str::to_string).to_vec();
    let Some(mut comparison) = Comparison::with(PROGRAM, headings) else {
        return Ok(wrong_use("start it by oracle/run"));
    };
    let left_out = Cell::new(0);
    let shapes = FAMILIES.iter().flat_map(shapes_of);
    let asked = shapes.flat_map(|shape| requests_of(&shape, &left_out));
    comparison.ask_all(in_streams(asked))?;
    let (images, left_out) = (comparison.asked(), left_out.get());
    comparison.report(&format!(
        "images: {images}, left out for code 6: {left_out}"
    ))
}

// ---- The family ----------------------------------------------------------

const WIDTH: u32 = 4;
const HEIGHT: u32 = 4;
const COLOUR: u32 = 0xC010_4A11;

/// What a coordinate may be. Few values leave every order and lengths of 0, 1, 2
/// and 3; 4 lies beside the sheet.
const FIVE: &[u32] = &[0, 1, 2, 3, 4];
const FOUR: &[u32] = &[0, 1, 2, 4];
const THREE: &[u32] = &[0, 1, 3];
/// Where the source stands still, so that the others may be more.
const STILL: &[u32] = &[1];

/// Edges of one path kind, every choice of these values: across the flow and along
/// it, for the source and for all else.
struct Family {
    path: u32,
    points: usize,
    source: [&'static [u32]; 2],
    others: [&'static [u32]; 2],
    /// Start offsets, for MultiSegment alone.
    offsets: &'static [u32],
}

const fn family(
    path: u32,
    points: usize,
    source: [&'static [u32]; 2],
    others: [&'static [u32]; 2],
) -> Family {
    let offsets: &[u32] = if path == MULTI_SEGMENT {
        &[0, 1, 2]
    } else {
        &[0]
    };
    Family {
        path,
        points,
        source,
        others,
        offsets,
    }
}

const FAMILIES: [Family; 11] = [
    family(DIRECT, 0, [FIVE, FIVE], [FIVE, FIVE]),
    family(CORNER, 0, [FIVE, FIVE], [FIVE, FIVE]),
    family(SIDE_CHANNEL, 0, [THREE, FOUR], [THREE, FOUR]),
    family(MULTI_SEGMENT, 0, [FIVE, FIVE], [FIVE, FIVE]),
    family(MULTI_SEGMENT, 1, [THREE, FOUR], [THREE, FOUR]),
    family(MULTI_SEGMENT, 2, [STILL, THREE], [THREE, THREE]),
    family(ORTHOGONAL, 0, [FIVE, FIVE], [FIVE, FIVE]),
    family(ORTHOGONAL, 1, [THREE, FOUR], [THREE, FOUR]),
    family(ORTHOGONAL, 2, [THREE, THREE], [THREE, THREE]),
    family(ORTHOGONAL, 3, [STILL, STILL], [THREE, THREE]),
    family(SPLINE, 0, [FIVE, FIVE], [FIVE, FIVE]),
];

impl Family {
    /// Coordinates besides those of the two ends and the points, across the flow
    /// and along it: a bend; a channel and the two ends of its span.
    fn more(&self) -> [usize; 2] {
        match self.path {
            CORNER => [0, 1],
            SIDE_CHANNEL => [1, 2],
            _ => [0, 0],
        }
    }
}

/// Where an edge goes. Of the coordinates across the flow and along it the first
/// is the source's, the second the target's; then come those of the points, or a
/// channel, a bend or a span.
struct Shape {
    path: u32,
    on_x_flow: bool,
    points: usize,
    across: Vec<u32>,
    along: Vec<u32>,
    offset: u32,
}

/// Every shape of a family, on both flows.
fn shapes_of(family: &'static Family) -> impl Iterator<Item = Shape> {
    let [more_across, more_along] = family.more();
    let axis = |nth: usize, more: usize| {
        let others = 1 + family.points + more;
        [vec![family.source[nth]], vec![family.others[nth]; others]].concat()
    };
    let (across, along) = (axis(0, more_across), axis(1, more_along));
    let flows: &[u32] = &[0, 1];
    let sets = [across.clone(), along.clone(), vec![family.offsets, flows]].concat();
    choices(sets).map(move |chosen| {
        let (chosen_across, rest) = chosen.split_at(across.len());
        let (chosen_along, rest) = rest.split_at(along.len());
        Shape {
            path: family.path,
            on_x_flow: rest[1] == 1,
            points: family.points,
            across: chosen_across.to_vec(),
            along: chosen_along.to_vec(),
            offset: rest[0],
        }
    })
}

/// One value of each set, in every way.
fn choices(sets: Vec<&'static [u32]>) -> impl Iterator<Item = Vec<u32>> {
    let count: usize = sets.iter().map(|set| set.len()).product();
    (0..count).map(move |mut number| {
        let pick = |set: &&[u32]| {
            let value = set[number % set.len()];
            number /= set.len();
            value
        };
        sets.iter().map(pick).collect()
    })
}

impl Shape {
    /// The coordinates of this number as x and y.
    fn point(&self, nth: usize) -> [u32; 2] {
        match self.on_x_flow {
            true => [self.along[nth], self.across[nth]],
            false => [self.across[nth], self.along[nth]],
        }
    }

    /// The edge alone on its sheet, without flags but those of path and flow.
    fn draft(&self) -> Draft {
        let mut draft = Draft::blank_sheet(WIDTH, HEIGHT);
        for nth in 0..self.points {
            draft.add(POINTS, &self.point(2 + nth));
        }
        let abc = match self.path {
            CORNER => [self.along[2], 0, 0],
            SIDE_CHANNEL => [self.across[2], self.along[2], self.along[3]],
            _ => [0, self.points as u32, self.offset],
        };
        let [source, target] = [self.point(0), self.point(1)];
        let ends = [source[0], source[1], target[0], target[1]];
        let mut record = edge_record(ends, self.flags(1), abc);
        record[10] = COLOUR;
        draft.add(EDGES, &record);
        draft
    }

    fn flags(&self, weight: u32) -> u32 {
        let flow = if self.on_x_flow { X_FLOW_BIT } else { 0 };
        self.path << 29 | flow | weight << 23
    }
}

// ---- The requests --------------------------------------------------------

/// The images of a shape: every weight, reversed or not, every choice of markers.
/// None of these changes where the edge writes, so one list serves them all.
fn requests_of(shape: &Shape, left_out: &Cell<usize>) -> Vec<Asked> {
    let mut more_flags = Vec::new();
    for weight in 1..=3 {
        for reversed in [0, REVERSED_BIT] {
            for start in [0, START_MARKER_BIT] {
                for end in [0, END_MARKER_BIT] {
                    more_flags.push(shape.flags(weight) | reversed | start | end);
                }
            }
        }
    }
    let draft = shape.draft();
    if slow_check(&draft.to_words()).code == 6 {
        left_out.set(left_out.get() + more_flags.len());
        return Vec::new();
    }
    let place = draft.place(EDGES, 0, 4) as usize;
    let words = accepted(&draft);
    let image = |flags: u32| {
        let mut words = words.clone();
        words[place] = flags;
        both_ways(words, shape.path)
    };
    more_flags.into_iter().map(image).collect()
}

/// The whole sheet, plain and coloured; counted under the path.
fn both_ways(words: Vec<u32>, path: u32) -> Asked {
    let subject = Rc::new(Subject::painted(words));
    let lent = subject.room(HEIGHT as usize).map(|wanted| wanted + 1);
    let [plain, coloured] = [false, true].map(|coloured| {
        let request = Request {
            subject: Rc::clone(&subject),
            rows: Rows::Band {
                first: 0,
                rows: u64::from(HEIGHT),
            },
            coloured,
            output: None,
            lent,
        };
        asked(request, Form::Short, PATH_NAMES[path as usize])
    });
    let heading = path as usize;
    Asked {
        heading,
        ..plain.and(coloured)
    }
}

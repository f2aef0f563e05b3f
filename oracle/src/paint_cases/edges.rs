//! One edge alone: every path, flow, direction, weight and choice of markers, and
//! the places at which a rule of document 01 turns.

use super::{Cases, WEIGHTS};
use crate::draft::{edge_record, Draft};
use crate::layout::{
    CORNER, DIRECT, EDGES, END_MARKER_BIT, MULTI_SEGMENT, ORTHOGONAL, PATH_NAMES, REVERSED_BIT,
    SIDE_CHANNEL, SPLINE, START_MARKER_BIT, X_FLOW_BIT,
};

const BOTH: u32 = START_MARKER_BIT | END_MARKER_BIT;
const COLOUR: u32 = 0x00C0_FFEE;
const LIGHT: u32 = 2;

pub fn add(cases: &mut Cases) {
    every_path(cases);
    every_marker(cases);
    corner_arrows(cases);
    offsets(cases);
    points(cases);
    channels(cases);
    level_ends(cases);
    crossings(cases);
    orthogonal_legs(cases);
    orthogonal_markers(cases);
    off_the_sheet(cases);
    over_itself(cases);
}

/// An edge as Y flow has it; X flow exchanges x and y everywhere.
struct Way<'a> {
    path: u32,
    ends: [u32; 4],
    abc: [u32; 3],
    points: &'a [[u32; 2]],
}

fn way(path: u32, ends: [u32; 4], abc: [u32; 3], points: &[[u32; 2]]) -> Way<'_> {
    Way {
        path,
        ends,
        abc,
        points,
    }
}

/// A name, the ends of an edge and its points.
type Named<'a> = (&'a str, [u32; 4], &'a [[u32; 2]]);

/// A sheet of this width and height, the edge on it with these flags.
fn draft_of((width, height): (u32, u32), way: &Way, flags: u32) -> Draft {
    let mut draft = Draft::blank_sheet(width, height);
    let on_x_flow = flags & X_FLOW_BIT != 0;
    let turned = |[x, y]: [u32; 2]| if on_x_flow { [y, x] } else { [x, y] };
    let mut abc = way.abc;
    if !way.points.is_empty() {
        let points = way.points.iter().map(|point| turned(*point));
        abc[..2].copy_from_slice(&draft.add_points(points));
    }
    let [from_x, from_y, to_x, to_y] = way.ends;
    let ends = [turned([from_x, from_y]), turned([to_x, to_y])].concat();
    let ends = [ends[0], ends[1], ends[2], ends[3]];
    let mut record = edge_record(ends, way.path << 29 | flags, abc);
    record[10] = COLOUR;
    draft.add(EDGES, &record);
    draft
}

fn flags_of(on_x_flow: bool, weight: u32, more: u32) -> u32 {
    let flow = if on_x_flow { X_FLOW_BIT } else { 0 };
    flow | weight << 23 | more
}

fn flow_name(on_x_flow: bool) -> &'static str {
    match on_x_flow {
        true => "X",
        false => "Y",
    }
}

/// Each path over a sheet of five by five, there and back.
fn ways() -> Vec<(&'static str, Way<'static>)> {
    let (there, back) = ([1, 0, 4, 4], [4, 4, 1, 0]);
    vec![
        ("there", way(DIRECT, there, [0; 3], &[])),
        ("back", way(DIRECT, back, [0; 3], &[])),
        ("there", way(CORNER, there, [2, 0, 0], &[])),
        ("back", way(CORNER, back, [2, 0, 0], &[])),
        ("there", way(SIDE_CHANNEL, there, [0, 1, 2], &[])),
        ("back", way(SIDE_CHANNEL, back, [0, 3, 2], &[])),
        ("there", way(MULTI_SEGMENT, there, [0; 3], &[[3, 2]])),
        ("back", way(MULTI_SEGMENT, back, [0; 3], &[[2, 2]])),
        ("there", way(ORTHOGONAL, there, [0; 3], &[[1, 2], [4, 2]])),
        ("back", way(ORTHOGONAL, back, [0; 3], &[[4, 2], [1, 2]])),
        ("there", way(SPLINE, there, [0; 3], &[])),
        ("back", way(SPLINE, back, [0; 3], &[])),
    ]
}

fn every_path(cases: &mut Cases) {
    for (direction, way) in ways() {
        for on_x_flow in [false, true] {
            for (weight, name) in WEIGHTS {
                let (path, flow) = (PATH_NAMES[way.path as usize], flow_name(on_x_flow));
                let name = format!("{path} {flow}, {direction}, {name}, both arrows");
                let flags = flags_of(on_x_flow, weight, BOTH);
                cases.painted(name, &draft_of((5, 5), &way, flags));
            }
        }
    }
}

/// "Reversed swaps start and end markers and makes arrows dashed."
fn every_marker(cases: &mut Cases) {
    let choices = [
        ("no arrow", 0),
        ("start arrow", START_MARKER_BIT),
        ("end arrow", END_MARKER_BIT),
        ("reversed, start arrow", REVERSED_BIT | START_MARKER_BIT),
        ("reversed, end arrow", REVERSED_BIT | END_MARKER_BIT),
        ("reversed, both arrows", REVERSED_BIT | BOTH),
    ];
    for (direction, way) in ways() {
        for on_x_flow in [false, true] {
            // There on Y flow and back on X flow: one of each is enough.
            if (direction == "back") != on_x_flow {
                continue;
            }
            for (markers, bits) in choices {
                let (path, flow) = (PATH_NAMES[way.path as usize], flow_name(on_x_flow));
                let name = format!("{path} {flow}, {direction}, {markers}");
                let flags = flags_of(on_x_flow, LIGHT, bits);
                cases.painted(name, &draft_of((5, 5), &way, flags));
            }
        }
    }
}

/// A named edge on both flows, Light, with these bits.
fn both_flows(cases: &mut Cases, name: &str, way: Way, more: u32) {
    for on_x_flow in [false, true] {
        let path = PATH_NAMES[way.path as usize];
        let name = format!("{path} {}, {name}", flow_name(on_x_flow));
        let flags = flags_of(on_x_flow, LIGHT, more);
        cases.painted(name, &draft_of((5, 5), &way, flags));
    }
}

/// "The corner arrow when (bend − from y)·s ≤ 1"; on X flow "bend = from x + s
/// exactly".
fn corner_arrows(cases: &mut Cases) {
    for (bend, where_it_is) in [
        (0, "two before the source"),
        (1, "one before the source"),
        (2, "level with the source"),
        (3, "one after the source"),
        (4, "two after the source"),
    ] {
        let name = format!("start arrow, bend {where_it_is}");
        let way = way(CORNER, [0, 2, 3, 4], [bend, 0, 0], &[]);
        both_flows(cases, &name, way, START_MARKER_BIT);
    }
    for start in [0, 1, 2] {
        let name = format!("start arrow, span start {start}");
        let way = way(SIDE_CHANNEL, [1, 0, 3, 4], [4, start, 3], &[]);
        both_flows(cases, &name, way, START_MARKER_BIT);
    }
}

/// "with offset > 0 the first leg has a trunk to it (start arrow only)"
fn offsets(cases: &mut Cases) {
    for offset in 0..=3 {
        for (direction, ends, markers) in [
            ("there, both arrows", [0, 0, 3, 4], BOTH),
            ("there, start arrow", [0, 0, 3, 4], START_MARKER_BIT),
            ("back, both arrows", [3, 4, 0, 0], BOTH),
            ("back, end arrow", [3, 4, 0, 0], END_MARKER_BIT),
        ] {
            let name = format!("offset {offset}, {direction}");
            let way = way(MULTI_SEGMENT, ends, [0, 0, offset], &[]);
            both_flows(cases, &name, way, markers);
        }
    }
}

/// "Every later leg strokes the vertical at its own start."
fn points(cases: &mut Cases) {
    let by: [Named; 8] = [
        ("a point straight on", [1, 0, 1, 4], &[[1, 2]]),
        ("a point repeated", [1, 0, 3, 4], &[[1, 2], [1, 2]]),
        ("the source repeated", [1, 0, 3, 4], &[[1, 0]]),
        ("the target repeated", [1, 0, 3, 4], &[[3, 4]]),
        ("a corner in row 0", [2, 3, 0, 2], &[[2, 1]]),
        ("back and forth", [0, 1, 4, 3], &[[3, 3], [1, 1]]),
        ("all on one cell", [2, 2, 2, 2], &[[2, 2]]),
        ("the corner of a later leg last", [0, 0, 1, 1], &[[0, 1]]),
    ];
    for (name, ends, points) in by {
        let way = way(MULTI_SEGMENT, ends, [0; 3], points);
        both_flows(cases, name, way, BOTH);
    }
}

/// "crossing at span start, vertical in the channel, crossing at span end, vertical to
/// the target": each of them missing once.
fn channels(cases: &mut Cases) {
    for (name, ends, abc) in [
        ("all parts", [1, 0, 2, 4], [4, 1, 3]),
        ("in the source's column", [1, 0, 3, 4], [1, 1, 2]),
        ("in the target's column", [1, 0, 3, 4], [3, 1, 2]),
        ("both crossings together", [1, 0, 3, 4], [2, 2, 2]),
        ("span end at the target", [1, 0, 3, 4], [2, 1, 4]),
        ("span against the flow", [1, 0, 3, 4], [4, 3, 1]),
    ] {
        let way = way(SIDE_CHANNEL, ends, abc, &[]);
        both_flows(cases, name, way, BOTH | REVERSED_BIT);
    }
}

/// s is "+1 if to y ≥ from y", so also where they are equal.
fn level_ends(cases: &mut Cases) {
    let ends = [1, 2, 4, 2];
    for (path, abc) in [
        (DIRECT, [0; 3]),
        (CORNER, [1, 0, 0]),
        (CORNER, [2, 0, 0]),
        (CORNER, [3, 0, 0]),
        (CORNER, [4, 0, 0]),
        (SIDE_CHANNEL, [0, 1, 3]),
        (MULTI_SEGMENT, [0; 3]),
        (MULTI_SEGMENT, [0, 0, 1]),
        (ORTHOGONAL, [0; 3]),
    ] {
        let name = format!("ends at one height, {abc:?}");
        both_flows(cases, &name, way(path, ends, abc, &[]), BOTH);
    }
}

/// "nothing if equal; else a run strictly inside (none if adjacent)"
fn crossings(cases: &mut Cases) {
    for (name, ends) in [
        ("nothing to cross", [2, 0, 2, 4]),
        ("to the next column", [2, 0, 3, 4]),
        ("to the column before", [2, 0, 1, 4]),
        ("over one column", [2, 0, 4, 4]),
        ("over one column back", [2, 0, 0, 4]),
    ] {
        let way = way(CORNER, ends, [2, 0, 0], &[]);
        both_flows(cases, name, way, BOTH);
    }
}

/// "skip repeated points; slanted legs paint no interior and give no marker";
/// "arms toward both neighbours, x compared first".
fn orthogonal_legs(cases: &mut Cases) {
    let by: [Named; 8] = [
        ("straight", [1, 0, 1, 4], &[]),
        ("a leg of one cell", [1, 1, 1, 2], &[]),
        ("one cell throughout", [1, 1, 1, 1], &[[1, 1]]),
        ("repeated points", [0, 0, 4, 4], &[[0, 0], [0, 4], [0, 4]]),
        ("slanted", [0, 0, 3, 4], &[]),
        ("a slanted first leg", [0, 0, 4, 4], &[[2, 2], [4, 2]]),
        ("a slanted last leg", [0, 0, 4, 4], &[[2, 0], [2, 2]]),
        ("back on itself", [0, 2, 1, 2], &[[4, 2]]),
    ];
    for (name, ends, points) in by {
        orthogonal(cases, name, ends, points);
    }
}

fn orthogonal(cases: &mut Cases, name: &str, ends: [u32; 4], points: &[[u32; 2]]) {
    let way = way(ORTHOGONAL, ends, [0; 3], points);
    both_flows(cases, name, way, BOTH);
}

/// "one cell inside a leg of length ≥ 2, else the neighbouring bend, else none;
/// target wins; drawn wherever the path passes that cell".
fn orthogonal_markers(cases: &mut Cases) {
    let by: [Named; 6] = [
        ("both arrows on one cell", [1, 1, 1, 3], &[]),
        ("a first leg of one cell", [0, 0, 4, 4], &[[1, 0], [1, 4]]),
        ("a last leg of one cell", [0, 0, 4, 4], &[[0, 3], [4, 3]]),
        ("both arrows on one bend", [1, 1, 2, 2], &[[2, 1]]),
        (
            "over the arrow's cell again",
            [0, 2, 4, 0],
            &[[4, 2], [4, 4], [1, 4], [1, 0]],
        ),
        (
            "a bend on the source",
            [2, 2, 4, 4],
            &[[4, 2], [2, 2], [2, 4]],
        ),
    ];
    for (name, ends, points) in by {
        orthogonal(cases, name, ends, points);
    }
}

/// "Writes off the band vanish."
fn off_the_sheet(cases: &mut Cases) {
    let far = 32_767;
    let ways = [
        (DIRECT, [2, 1, 2, far], [0; 3]),
        (DIRECT, [7, 0, 7, 4], [0; 3]),
        (CORNER, [1, 1, far, 4], [2, 0, 0]),
        (CORNER, [1, 1, 3, far], [6, 0, 0]),
        (SIDE_CHANNEL, [1, 0, 1, 4], [far, 1, 3]),
        (MULTI_SEGMENT, [1, 1, 3, far], [0, 0, far]),
    ];
    for (path, ends, abc) in ways {
        let name = format!("off the sheet, {ends:?} {abc:?}");
        let way = way(path, ends, abc, &[]);
        both_flows(cases, &name, way, BOTH);
    }
}

/// A later stroke of the edge on its own arrow: with a Double arm "an Arrow first
/// becomes a Light stem in its direction, then merges".
fn over_itself(cases: &mut Cases) {
    let points = [[2, 3], [4, 0]];
    let way = way(MULTI_SEGMENT, [2, 0, 0, 3], [0; 3], &points);
    for on_x_flow in [false, true] {
        for (weight, name) in WEIGHTS {
            let flow = flow_name(on_x_flow);
            let name = format!("MultiSegment {flow} over its own arrow, {name}");
            let flags = flags_of(on_x_flow, weight, BOTH);
            cases.painted(name, &draft_of((5, 5), &way, flags));
        }
    }
}

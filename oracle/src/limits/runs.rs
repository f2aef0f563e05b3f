//! Code 10: "run capacity below the run count".

use super::Cases;
use crate::draft::{edge_record, Draft};
use crate::layout::{
    path_flags, COORDINATE_LIMIT, CORNER, DIRECT, EDGES, MULTI_SEGMENT, ORTHOGONAL, POINTS,
    RUN_CAPACITY_WORD, SIDE_CHANNEL, SPLINE, X_FLOW_BIT,
};

const FAR: u32 = COORDINATE_LIMIT;
const PLACE: u32 = RUN_CAPACITY_WORD as u32;

pub fn add(cases: &mut Cases) {
    one_edge(cases);
    columns(cases);
    rows(cases);
    paths_without_runs(cases);
    several_edges(cases);
    sheets(cases);
    most_runs(cases);
}

/// An image whose edges are all listed for every row.
fn listed(size: (u32, u32), edges: &[Vec<u32>], points: &[[u32; 2]]) -> Draft {
    let mut draft = Draft::blank_sheet(size.0, size.1);
    for edge in edges {
        let index = draft.add(EDGES, edge);
        draft.list(EDGES, index, 0, FAR);
    }
    for point in points {
        draft.add(POINTS, point);
    }
    draft
}

/// Accepted with the capacity at the count, refused with one below it.
fn counted(cases: &mut Cases, name: &str, mut draft: Draft, runs: u32) {
    let mut with = |capacity: u32| {
        draft.head[RUN_CAPACITY_WORD] = capacity;
        let name = format!("{name}, {runs} runs, capacity {capacity}");
        match capacity >= runs {
            true => cases.accepted_with_runs(name, &draft, runs),
            false => cases.refused(name, &draft, 10, PLACE),
        }
    };
    with(runs);
    if runs > 0 {
        with(runs - 1);
    }
}

fn corner(from_x: u32, to_x: u32, bend: u32) -> Vec<u32> {
    let ends = [from_x, bend, to_x, bend];
    edge_record(ends, path_flags(CORNER), [bend, 0, 0])
}

fn one_edge(cases: &mut Cases) {
    let mut draft = listed((4, 6), &[corner(0, 3, 2)], &[]);
    counted(cases, "Corner", draft.clone(), 1);
    for capacity in [2, 16_384] {
        draft.head[RUN_CAPACITY_WORD] = capacity;
        let name = format!("Corner, 1 run, capacity {capacity}");
        cases.accepted_with_runs(name, &draft, 1);
    }
    let flags = path_flags(SIDE_CHANNEL);
    for (name, abc, runs) in [
        ("SideChannel", [3, 1, 4], 2),
        ("SideChannel with both crossings on a row", [3, 2, 2], 2),
        ("SideChannel next to its ends", [1, 1, 4], 0),
        ("SideChannel with its span end below", [3, 1, 6], 1),
    ] {
        let edge = edge_record([0, 0, 0, 5], flags, abc);
        counted(cases, name, listed((4, 6), &[edge], &[]), runs);
    }
    let edge = edge_record([0, 0, 3, 5], path_flags(MULTI_SEGMENT), [0, 2, 0]);
    let draft = listed((4, 6), &[edge], &[[3, 2], [0, 3]]);
    counted(cases, "MultiSegment of three legs", draft, 3);
}

/// "a run strictly inside (none if adjacent)", columns of the sheet or not.
fn columns(cases: &mut Cases) {
    for (from_x, to_x, runs) in [
        (2, 2, 0),
        (1, 2, 0),
        (2, 1, 0),
        (1, 3, 1),
        (3, 1, 1),
        (3, 5, 1),
        (4, 6, 1),
        (0, FAR, 1),
        (FAR, FAR - 2, 1),
        (FAR, FAR - 1, 0),
    ] {
        let name = format!("columns {from_x} to {to_x}");
        let draft = listed((4, 6), &[corner(from_x, to_x, 2)], &[]);
        counted(cases, &name, draft, runs);
    }
}

/// "The run count is the number of runs on rows of the sheet."
fn rows(cases: &mut Cases) {
    for (bend, runs) in [(0, 1), (5, 1), (6, 0), (FAR, 0)] {
        let name = format!("crossing in row {bend} of 6");
        let draft = listed((4, 6), &[corner(0, 3, bend)], &[]);
        counted(cases, &name, draft, runs);
    }
}

/// On X flow "crossings are immediate strokes"; the other paths cross nothing.
fn paths_without_runs(cases: &mut Cases) {
    for (name, flags, abc) in [
        ("Corner X", path_flags(CORNER) | X_FLOW_BIT, [2, 0, 0]),
        (
            "SideChannel X",
            path_flags(SIDE_CHANNEL) | X_FLOW_BIT,
            [5, 1, 3],
        ),
        (
            "MultiSegment X",
            path_flags(MULTI_SEGMENT) | X_FLOW_BIT,
            [0, 1, 0],
        ),
        ("Orthogonal", path_flags(ORTHOGONAL), [0, 1, 0]),
        ("Direct", path_flags(DIRECT), [0, 0, 0]),
        ("Spline", path_flags(SPLINE), [0, 0, 0]),
    ] {
        let edge = edge_record([0, 1, 9, 4], flags, abc);
        let draft = listed((4, 6), &[edge], &[[0, 4]]);
        counted(cases, name, draft, 0);
    }
}

fn several_edges(cases: &mut Cases) {
    let (here, there) = (corner(0, 3, 2), corner(0, 3, 4));
    let edges = [here.clone(), there.clone()];
    counted(cases, "two edges", listed((4, 6), &edges, &[]), 2);
    let edges = [here.clone(), here.clone(), here.clone()];
    let name = "three edges that coincide";
    counted(cases, name, listed((4, 6), &edges, &[]), 3);
    let edges = [corner(0, 1, 2), here, corner(0, 3, 6), there];
    let name = "four edges, two without a run";
    counted(cases, name, listed((4, 6), &edges, &[]), 2);
}

fn sheets(cases: &mut Cases) {
    let edge = [corner(0, 3, 2)];
    counted(cases, "no columns", listed((0, 6), &edge, &[]), 1);
    counted(cases, "no rows", listed((4, 0), &edge, &[]), 0);
    counted(cases, "row 2 of 2", listed((4, 2), &edge, &[]), 0);
    counted(cases, "row 2 of 3", listed((4, 3), &edge, &[]), 1);
    counted(cases, "32767 rows", listed((1, FAR), &edge, &[]), 1);
}

/// As many runs as the largest capacity holds, and one more: edges that share
/// one zigzag of points, each leg of which crosses.
fn most_runs(cases: &mut Cases) {
    let points: Vec<[u32; 2]> = (0..1_023).map(|nth| [(nth + 1) % 2 * 2, nth % 5]).collect();
    let zigzag = edge_record([0, 0, 0, 4], path_flags(MULTI_SEGMENT), [0, 1_023, 0]);
    let mut edges = vec![zigzag; 16];
    let mut draft = listed((4, 6), &edges, &points);
    draft.head[RUN_CAPACITY_WORD] = 16_384;
    cases.accepted_with_runs("16384 runs, capacity 16384", &draft, 16_384);
    edges.push(corner(0, 3, 2));
    let mut draft = listed((4, 6), &edges, &points);
    draft.head[RUN_CAPACITY_WORD] = 16_384;
    cases.refused("16385 runs, capacity 16384", &draft, 10, PLACE);
}

//! Code 6: "a MultiSegment corner lies below 0".

use super::{add_points, Cases};
use crate::draft::{edge_record, Draft};
use crate::layout::{
    path_flags, COORDINATE_LIMIT, CORNER, EDGES, MULTI_SEGMENT, ORTHOGONAL, POINTS,
    RUN_CAPACITY_WORD, X_FLOW_BIT,
};

pub fn add(cases: &mut Cases) {
    named_in_the_text(cases);
    for flow in [Flow::Y, Flow::X] {
        first_legs(cases, flow);
        straight_legs(cases, flow);
        later_legs(cases, flow);
        signs(cases, flow);
        other_paths(cases, flow);
    }
    which_edge(cases);
}

#[derive(Clone, Copy)]
enum Flow {
    Y,
    X,
}

impl Flow {
    fn name(self) -> &'static str {
        match self {
            Flow::Y => "Y",
            Flow::X => "X",
        }
    }

    fn flags(self) -> u32 {
        match self {
            Flow::Y => 0,
            Flow::X => X_FLOW_BIT,
        }
    }

    /// The x and y of a point told as across and along the flow.
    fn point(self, [across, along]: [u32; 2]) -> [u32; 2] {
        match self {
            Flow::Y => [across, along],
            Flow::X => [along, across],
        }
    }

    /// An edge through points told as across and along the flow, with this
    /// offset, on a sheet without rows: only its corners can be at fault.
    fn edge(self, path: u32, points: &[[u32; 2]], offset: u32) -> Draft {
        let mut draft = Draft::blank_sheet(4, 0);
        let (from, to) = (points[0], points[points.len() - 1]);
        let ([from_x, from_y], [to_x, to_y]) = (self.point(from), self.point(to));
        let between = points[1..points.len() - 1].iter();
        let between: Vec<[u32; 2]> = between.map(|point| self.point(*point)).collect();
        let [first_point, count] = add_points(&mut draft, &between);
        let flags = path_flags(path) | self.flags();
        let ends = [from_x, from_y, to_x, to_y];
        draft.add(
            EDGES,
            &edge_record(ends, flags, [first_point, count, offset]),
        );
        draft
    }

    fn good(self, cases: &mut Cases, name: &str, points: &[[u32; 2]], offset: u32) {
        let draft = self.edge(MULTI_SEGMENT, points, offset);
        cases.accepted(format!("corner on {} flow, {name}", self.name()), &draft);
    }

    fn bad(self, cases: &mut Cases, name: &str, points: &[[u32; 2]], offset: u32) {
        let draft = self.edge(MULTI_SEGMENT, points, offset);
        let name = format!("corner on {} flow, {name}", self.name());
        cases.refused(name, &draft, 6, draft.place(EDGES, 0, 0));
    }
}

/// "MultiSegment (2,3), point (2,0), to (0,2): 6; point (2,1): corner row 0,
/// no 6."
fn named_in_the_text(cases: &mut Cases) {
    let through = |y: u32| {
        let mut draft = Draft::blank_sheet(3, 4);
        draft.head[RUN_CAPACITY_WORD] = 1;
        let flags = path_flags(MULTI_SEGMENT);
        draft.add(EDGES, &edge_record([2, 3, 0, 2], flags, [0, 1, 0]));
        draft.add(POINTS, &[2, y]);
        draft.list(EDGES, 0, 0, 2);
        draft
    };
    let name = "MultiSegment (2,3), point (2,0), to (0,2)";
    cases.refused(name, &through(0), 6, 12);
    let name = "MultiSegment (2,3), point (2,1), to (0,2)";
    cases.accepted_with_runs(name, &through(1), 1);
}

/// "the corner row is py + s·(1 + offset on the first leg, 0 later)"
fn first_legs(cases: &mut Cases, flow: Flow) {
    let far = COORDINATE_LIMIT;
    flow.good(cases, "first leg at 0 by the offset", &[[0, 3], [3, 1]], 2);
    flow.bad(cases, "first leg at -1 by the offset", &[[0, 3], [3, 1]], 3);
    flow.bad(cases, "largest offset from 3", &[[0, 3], [3, 1]], far);
    flow.good(cases, "at 0 without offset", &[[0, 1], [3, 0]], 0);
    flow.bad(cases, "at -1 by an offset of 1", &[[0, 1], [3, 0]], 1);
    let from_afar = [[0, far], [1, 0]];
    flow.good(cases, "at 0 from 32767", &from_afar, far - 1);
    flow.bad(cases, "at -1 from 32767", &from_afar, far);
    flow.bad(cases, "from 32766", &[[0, far - 1], [1, 0]], far);
    let with_a_point = [[0, 3], [3, 2], [3, 0]];
    flow.good(cases, "at 0 before a point", &with_a_point, 2);
    flow.bad(cases, "at -1 before a point", &with_a_point, 3);
}

/// Equal across the flow: no corner, whatever the offset.
fn straight_legs(cases: &mut Cases, flow: Flow) {
    let far = COORDINATE_LIMIT;
    flow.good(cases, "straight, largest offset", &[[2, 3], [2, 0]], far);
    flow.good(
        cases,
        "straight by way of 0",
        &[[2, 3], [2, 0], [2, 1]],
        far,
    );
    let then_a_corner = [[2, 5], [2, 3], [0, 1]];
    let name = "straight first, largest offset, then a corner at 2";
    flow.good(cases, name, &then_a_corner, far);
    let then_at_0 = [[2, 5], [2, 1], [0, 0]];
    flow.good(cases, "straight first, then a corner at 0", &then_at_0, far);
    let then_below = [[2, 5], [2, 0], [0, 1]];
    flow.bad(cases, "straight first, then a corner at -1", &then_below, 0);
}

fn later_legs(cases: &mut Cases, flow: Flow) {
    let middle = |along| [[0, 5], [3, 4], [3, along], [0, 3], [0, 1]];
    flow.good(cases, "middle leg at 0", &middle(1), 0);
    flow.bad(cases, "middle leg at -1", &middle(0), 0);
    let last = |along| [[0, 5], [0, 4], [0, 2], [0, along], [3, 2]];
    flow.good(cases, "last leg at 0", &last(1), 0);
    flow.bad(cases, "last leg at -1", &last(0), 0);
    let repeated = [[0, 5], [0, 0], [0, 0], [0, 2]];
    flow.good(cases, "a repeated point at 0", &repeated, 0);
}

/// s is "+1 if to y ≥ from y, else −1", for the whole edge.
fn signs(cases: &mut Cases, flow: Flow) {
    let far = COORDINATE_LIMIT;
    flow.good(cases, "ends level at 0", &[[0, 0], [3, 0]], 0);
    flow.good(cases, "ends level, largest offset", &[[0, 3], [3, 3]], far);
    flow.good(cases, "forward, largest offset", &[[0, 0], [3, 1]], far);
    flow.good(cases, "forward from 32767", &[[0, far], [3, far]], far);
    let back_and_on = [[0, 2], [3, 0], [0, 3]];
    flow.good(cases, "forward with a leg back to 0", &back_and_on, 0);
    let on_and_back = [[0, 3], [0, 0], [3, 5], [3, 2]];
    flow.bad(cases, "back with a leg forward from 0", &on_and_back, 0);
}

/// The rule is about MultiSegment alone.
fn other_paths(cases: &mut Cases, flow: Flow) {
    let name = flow.name();
    let draft = flow.edge(ORTHOGONAL, &[[2, 3], [2, 0], [0, 2]], 0);
    cases.accepted(format!("Orthogonal {name} by way of 0, then aside"), &draft);
    let mut draft = flow.edge(CORNER, &[[2, 3], [0, 2]], 0);
    cases.accepted(format!("Corner {name} with its bend at 0"), &draft);
    draft.tables[EDGES][0][5] = COORDINATE_LIMIT;
    cases.accepted(format!("Corner {name} with its bend at 32767"), &draft);
}

/// "edge's first word": of the first edge at fault.
fn which_edge(cases: &mut Cases) {
    let [good, bad] = [2, 3].map(|offset| {
        let flags = path_flags(MULTI_SEGMENT);
        edge_record([0, 3, 3, 1], flags, [0, 0, offset])
    });
    for (name, edges, at) in [
        ("second of two edges", [&good, &bad, &good], 1),
        ("last of three edges", [&good, &good, &bad], 2),
        ("second and third of three edges", [&good, &bad, &bad], 1),
    ] {
        let mut draft = Draft::blank_sheet(4, 0);
        for edge in edges {
            draft.add(EDGES, edge);
        }
        let name = format!("corner below 0: {name}");
        cases.refused(name, &draft, 6, draft.place(EDGES, at, 0));
    }
}

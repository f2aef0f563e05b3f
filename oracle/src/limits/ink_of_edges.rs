//! Code 9 for edges: each path on each axis, and each of its parts alone at the
//! first or at the last row.

use super::ink::{row, Rows, Thing, SHEET};
use super::{add_points, Cases};
use crate::draft::{edge_record, Draft};
use crate::layout::{
    path_flags, COORDINATE_LIMIT, CORNER, DIRECT, EDGES, END_MARKER_BIT, MULTI_SEGMENT, ORTHOGONAL,
    PATH_NAMES, REVERSED_BIT, RUN_CAPACITY_WORD, SIDE_CHANNEL, SPLINE, START_MARKER_BIT,
    X_FLOW_BIT,
};

const FAR: u32 = COORDINATE_LIMIT;
const Y: u32 = 0;
const X: u32 = X_FLOW_BIT;

pub fn add(cases: &mut Cases) {
    named_in_the_text(cases);
    straight_on_y(cases);
    straight_on_x(cases);
    corner_on_y(cases);
    corner_off_the_sheet(cases);
    corner_on_x(cases);
    side_channel_on_y(cases);
    side_channel_parts_on_y(cases);
    side_channel_on_x(cases);
    multi_segment_on_y(cases);
    multi_segment_points_on_y(cases);
    multi_segment_repeats_on_y(cases);
    multi_segment_on_x(cases);
    for flow in [Y, X] {
        orthogonal_legs(cases, flow);
        orthogonal_bends(cases, flow);
    }
    with_markers(cases);
}

/// An edge alone on the sheet, with room for its runs. Where it has points,
/// they decide a and b.
struct Edge<'a> {
    name: String,
    flags: u32,
    ends: [u32; 4],
    abc: [u32; 3],
    points: &'a [[u32; 2]],
    rows: Rows,
    runs: u32,
}

impl Edge<'_> {
    fn add(&self, cases: &mut Cases) {
        let mut draft = Draft::blank_sheet(SHEET.0, SHEET.1);
        draft.head[RUN_CAPACITY_WORD] = self.runs;
        let mut abc = self.abc;
        if !self.points.is_empty() {
            abc[..2].copy_from_slice(&add_points(&mut draft, self.points));
        }
        draft.add(EDGES, &edge_record(self.ends, self.flags, abc));
        let thing = Thing {
            name: &self.name,
            kind: EDGES,
            draft: &draft,
            rows: self.rows,
            runs: self.runs,
        };
        thing.add(cases);
    }
}

fn path_name(path: u32, flow: u32) -> String {
    let axis = if flow == X { "X" } else { "Y" };
    format!("{} {axis}", PATH_NAMES[path as usize])
}

/// A path without points: its ends, and what it has in a, b and c.
fn plain(
    cases: &mut Cases,
    (path, flow): (u32, u32),
    ends: [u32; 4],
    abc: [u32; 3],
    rows: Rows,
    runs: u32,
) {
    let edge = Edge {
        name: format!("{} {ends:?} {abc:?}", path_name(path, flow)),
        flags: path_flags(path) | flow,
        ends,
        abc,
        points: &[],
        rows,
        runs,
    };
    edge.add(cases);
}

/// A path through points, with an offset (MultiSegment only).
fn through(
    cases: &mut Cases,
    (path, flow): (u32, u32),
    ends: [u32; 4],
    (points, offset): (&[[u32; 2]], u32),
    rows: Rows,
    runs: u32,
) {
    let name = path_name(path, flow);
    let edge = Edge {
        name: format!("{name} {ends:?} by {points:?} offset {offset}"),
        flags: path_flags(path) | flow,
        ends,
        abc: [0, 0, offset],
        points,
        rows,
        runs,
    };
    edge.add(cases);
}

/// "P7 listed 1..1 accepted, 0..0 refused 9."
fn named_in_the_text(cases: &mut Cases) {
    let listed = |row: u32| {
        let mut draft = Draft::blank_sheet(3, 3);
        let flags = path_flags(DIRECT) | START_MARKER_BIT | END_MARKER_BIT;
        draft.add(EDGES, &edge_record([1, 0, 1, 2], flags, [0; 3]));
        draft.list(EDGES, 0, row, row);
        draft
    };
    cases.accepted("P7 listed 1..1", &listed(1));
    cases.refused("P7 listed 0..0", &listed(0), 9, 12);
}

/// "Direct, Spline: vertical at from x, between"
fn straight_on_y(cases: &mut Cases) {
    for path in [DIRECT, SPLINE] {
        let mut ends = |ends: [u32; 4], rows: Rows| {
            plain(cases, (path, Y), ends, [0; 3], rows, 0);
        };
        ends([1, 0, 1, 5], Some((1, 4)));
        ends([1, 5, 1, 0], Some((1, 4)));
        // The target's column has no say.
        ends([1, 1, 3, 4], Some((2, 3)));
        ends([1, 2, 1, 4], row(3));
        ends([1, 2, 1, 3], None);
        ends([1, 2, 3, 2], None);
        ends([1, FAR, 1, 2], Some((3, 5)));
        ends([1, 4, 1, FAR], row(5));
        ends([1, 5, 1, FAR], None);
        ends([FAR, 0, FAR, 2], row(1));
    }
}

fn straight_on_x(cases: &mut Cases) {
    for path in [DIRECT, SPLINE] {
        let mut ends = |ends: [u32; 4], rows: Rows| {
            plain(cases, (path, X), ends, [0; 3], rows, 0);
        };
        ends([0, 3, 2, 3], row(3));
        ends([2, 3, 0, 3], row(3));
        // The target's row has no say.
        ends([0, 0, 3, 5], row(0));
        ends([0, 3, 1, 3], None);
        ends([0, 3, 0, 5], None);
        ends([0, 5, 2, 0], row(5));
        ends([0, 6, 2, 0], None);
        ends([4, 3, 6, 3], row(3));
        ends([FAR, 3, 0, FAR], row(3));
    }
}

/// "Corner: vertical, crossing at the bend, vertical at to x."
fn corner_on_y(cases: &mut Cases) {
    let mut corner = |ends: [u32; 4], bend: u32, rows: Rows, runs: u32| {
        plain(cases, (CORNER, Y), ends, [bend, 0, 0], rows, runs);
    };
    // All three parts, down and up.
    corner([0, 0, 3, 4], 2, Some((1, 3)), 1);
    corner([0, 4, 3, 0], 2, Some((1, 3)), 1);
    // The crossing alone, also of columns that leave no room for a run.
    corner([0, 2, 3, 2], 2, row(2), 1);
    corner([3, 2, 0, 2], 2, row(2), 1);
    corner([0, 2, 1, 2], 2, row(2), 0);
    corner([0, 2, 2, 2], 2, row(2), 1);
    // The crossing first, level with the source and above it.
    corner([0, 2, 3, 4], 2, Some((2, 3)), 1);
    corner([0, 2, 3, 4], 1, Some((1, 3)), 1);
    // The crossing last.
    corner([0, 0, 3, 2], 3, Some((1, 3)), 1);
    // Either vertical alone: no crossing where the columns are equal.
    corner([1, 0, 1, 3], 3, Some((1, 2)), 0);
    corner([1, 1, 1, 4], 1, Some((2, 3)), 0);
    // Both verticals, the row of the bend staying free.
    corner([1, 0, 1, 4], 2, Some((1, 3)), 0);
    corner([1, 0, 1, 2], 1, None, 0);
    corner([1, 2, 1, 2], 2, None, 0);
    // The vertical to the target last.
    corner([0, 0, 1, 5], 1, Some((1, 4)), 0);
}

fn corner_off_the_sheet(cases: &mut Cases) {
    let mut corner = |ends: [u32; 4], bend: u32, rows: Rows, runs: u32| {
        plain(cases, (CORNER, Y), ends, [bend, 0, 0], rows, runs);
    };
    corner([0, 2, 3, 2], 0, Some((0, 1)), 1);
    corner([0, 0, 3, 9], 5, Some((1, 5)), 1);
    corner([0, 5, 3, 9], 5, row(5), 1);
    corner([0, 0, 3, 9], 6, Some((1, 5)), 0);
    corner([0, 5, 3, 9], 6, None, 0);
    corner([0, 3, 3, FAR], FAR, Some((4, 5)), 0);
    corner([0, FAR, 3, 3], FAR, Some((4, 5)), 0);
    corner([4, 2, 9, 2], 2, row(2), 1);
    corner([0, 2, FAR, 2], 2, row(2), 1);
}

/// "X flow exchanges the axes, but crossings are immediate strokes".
fn corner_on_x(cases: &mut Cases) {
    let mut corner = |ends: [u32; 4], bend: u32, rows: Rows| {
        plain(cases, (CORNER, X), ends, [bend, 0, 0], rows, 0);
    };
    corner([0, 1, 3, 4], 2, Some((1, 4)));
    corner([3, 4, 0, 1], 2, Some((1, 4)));
    // The crossing alone, with both its ends.
    corner([2, 1, 2, 4], 2, Some((1, 4)));
    corner([2, 3, 2, 2], 2, Some((2, 3)));
    // Either horizontal alone: no crossing where the rows are equal.
    corner([0, 3, 2, 3], 2, row(3));
    corner([1, 3, 3, 3], 1, row(3));
    corner([0, 3, 2, 3], 1, None);
    // Over the last row, below it, right of the sheet.
    corner([0, 4, 3, FAR], 2, Some((4, 5)));
    corner([0, 6, 3, FAR], 2, None);
    corner([4, 1, 9, 2], 6, Some((1, 2)));
    corner([0, 1, 3, 2], FAR, Some((1, 2)));
}

/// "crossing at span start, vertical in the channel, crossing at span end,
/// vertical to the target". In a, b, c: channel, span start, span end.
fn side_channel_on_y(cases: &mut Cases) {
    let mut channel = |ends: [u32; 4], abc: [u32; 3], rows: Rows, runs: u32| {
        plain(cases, (SIDE_CHANNEL, Y), ends, abc, rows, runs);
    };
    channel([0, 0, 0, 5], [3, 1, 4], Some((1, 4)), 2);
    channel([0, 5, 0, 0], [3, 4, 1], Some((1, 4)), 2);
    channel([0, 0, 0, 5], [1, 1, 4], Some((1, 4)), 0);
    channel([0, 0, 0, 5], [FAR, 1, 4], Some((1, 4)), 2);
    // Both crossings on one row.
    channel([0, 0, 0, 3], [3, 2, 2], row(2), 2);
    channel([0, 0, 0, 1], [3, 0, 0], row(0), 2);
    channel([0, 0, 0, 5], [3, 5, 9], row(5), 1);
    channel([0, 0, 0, 5], [3, 9, 5], row(5), 1);
    channel([0, 0, 0, 5], [3, 6, 9], None, 0);
    channel([0, 0, 0, 4], [3, 6, FAR], row(5), 0);
    channel([4, 0, 4, 3], [9, 2, 2], row(2), 2);
}

/// Each part by itself.
fn side_channel_parts_on_y(cases: &mut Cases) {
    let mut channel = |ends: [u32; 4], abc: [u32; 3], rows: Rows, runs: u32| {
        plain(cases, (SIDE_CHANNEL, Y), ends, abc, rows, runs);
    };
    // "No source trunk or arrow": rows 1 to 3 stay free.
    channel([0, 0, 3, 5], [3, 4, 4], row(4), 1);
    channel([3, 0, 0, 5], [3, 4, 4], row(4), 1);
    channel([3, 0, 3, 4], [3, 1, 4], Some((2, 3)), 0);
    channel([1, 0, 1, 5], [1, 1, 1], Some((2, 4)), 0);
    channel([1, 0, 1, 3], [1, 1, 2], None, 0);
    // The channel first or last.
    channel([3, 0, 0, 5], [3, 1, 4], Some((2, 4)), 1);
    channel([0, 0, 3, 5], [3, 1, 4], Some((1, 3)), 1);
    // The vertical to the target last, and first.
    channel([0, 0, 3, 5], [3, 1, 2], Some((1, 4)), 1);
    channel([0, 5, 3, 0], [3, 4, 3], Some((1, 4)), 1);
}

/// "SideChannel has a source trunk and start arrow, its bend being span
/// start": the channel is a row, the spans are columns.
fn side_channel_on_x(cases: &mut Cases) {
    let mut channel = |ends: [u32; 4], abc: [u32; 3], rows: Rows| {
        plain(cases, (SIDE_CHANNEL, X), ends, abc, rows, 0);
    };
    channel([0, 1, 5, 1], [4, 2, 4], Some((1, 4)));
    channel([5, 4, 0, 4], [1, 4, 2], Some((1, 4)));
    // The trunk, the channel and the line to the target, each alone.
    channel([0, 3, 2, 3], [3, 2, 2], row(3));
    channel([2, 3, 4, 3], [3, 2, 4], row(3));
    channel([2, 3, 4, 3], [3, 2, 2], row(3));
    channel([2, 3, 2, 3], [3, 2, 2], None);
    channel([2, 3, 3, 3], [3, 2, 3], None);
    // Either crossing alone.
    channel([2, 1, 2, 3], [3, 2, 2], Some((1, 3)));
    channel([2, 3, 2, 1], [3, 2, 2], Some((1, 3)));
    // The channel below the sheet, all below it, all right of it.
    channel([0, 1, 5, 2], [9, 2, 4], Some((1, 5)));
    channel([0, 5, 5, 6], [FAR, 2, 4], row(5));
    channel([0, 6, 5, 7], [9, 2, 4], None);
    channel([0, 6, 5, 7], [4, 2, 4], Some((4, 5)));
    channel([4, 1, 9, 1], [2, FAR, 7], Some((1, 2)));
}

/// "equal x gives a vertical [..]. Else the corner row is py + s·(1 + offset
/// [..]); with offset > 0 the first leg has a trunk to it"
fn multi_segment_on_y(cases: &mut Cases) {
    let mut bare = |ends: [u32; 4], offset: u32, rows: Rows, runs: u32| {
        through(cases, (MULTI_SEGMENT, Y), ends, (&[], offset), rows, runs);
    };
    bare([1, 0, 1, 4], 0, Some((1, 3)), 0);
    bare([1, 4, 1, 0], FAR, Some((1, 3)), 0);
    bare([1, 2, 1, 3], 0, None, 0);
    bare([1, 2, 1, 2], 0, None, 0);
    // The crossing alone: s is +1 where the ends are level.
    bare([0, 2, 3, 2], 0, row(3), 1);
    bare([0, 2, 1, 2], 0, row(3), 0);
    bare([0, 3, 3, 2], 0, row(2), 1);
    // Trunk, crossing, vertical; down and up.
    bare([0, 0, 3, 4], 0, Some((1, 3)), 1);
    bare([0, 0, 3, 4], 1, Some((1, 3)), 1);
    bare([0, 5, 3, 2], 0, Some((3, 4)), 1);
    bare([0, 5, 3, 2], 1, Some((3, 4)), 1);
    // The trunk first, the crossing last.
    bare([0, 0, 3, 3], 2, Some((1, 3)), 1);
    bare([0, 0, 3, 1], 3, Some((1, 4)), 1);
    bare([0, 5, 3, 4], 4, Some((0, 4)), 1);
    // A trunk of one cell.
    bare([0, 1, 3, 3], 1, Some((2, 3)), 1);
    bare([0, 4, 3, 9], 0, row(5), 1);
    bare([0, 5, 3, 9], 0, None, 0);
    bare([0, 3, 3, 3], FAR, Some((4, 5)), 0);
    bare([4, 0, 9, 2], 0, row(1), 1);
}

/// "Every later leg strokes the vertical at its own start."
fn multi_segment_points_on_y(cases: &mut Cases) {
    let mut by = |ends: [u32; 4], points: &[[u32; 2]], offset: u32, rows: Rows, runs: u32| {
        let way = (points, offset);
        through(cases, (MULTI_SEGMENT, Y), ends, way, rows, runs);
    };
    by([1, 0, 1, 4], &[[1, 2]], 0, Some((1, 3)), 0);
    // The stroke at the start of a later leg alone.
    by([1, 2, 1, 4], &[[1, 3]], 9, row(3), 0);
    by([1, 4, 1, 2], &[[1, 3]], 0, row(3), 0);
    by([1, 0, 1, 0], &[[1, 1]], 0, row(1), 0);
    // The corner row of a later leg last, whatever the offset.
    by([0, 0, 1, 1], &[[0, 1]], 0, Some((1, 2)), 0);
    by([0, 0, 3, 1], &[[0, 1]], 0, Some((1, 2)), 1);
    by([0, 0, 3, 1], &[[0, 1]], 3, Some((1, 2)), 1);
    // The corner row of a later leg first, on the way up.
    by([0, 4, 3, 3], &[[0, 3]], 0, Some((2, 3)), 1);
    by([2, 3, 0, 2], &[[2, 1]], 0, Some((0, 2)), 1);
    // The vertical of a later leg last.
    by([0, 0, 3, 5], &[[0, 1]], 0, Some((1, 4)), 1);
    // A corner in the first leg and in a later one.
    by([0, 0, 0, 4], &[[3, 2]], 0, Some((1, 3)), 2);
    by([0, 0, 0, 4], &[[0, 1], [3, 3]], 0, Some((1, 4)), 2);
    by([0, 0, 0, 4], &[[3, 2]], 1, Some((1, 3)), 2);
    // A point below the sheet.
    by([0, 4, 3, 4], &[[0, FAR]], 0, row(5), 0);
    by([0, 5, 3, 9], &[[0, 7]], 0, None, 0);
}

/// A repeated point is a leg of length 0, and its start is stroked.
fn multi_segment_repeats_on_y(cases: &mut Cases) {
    let mut by = |ends: [u32; 4], points: &[[u32; 2]], rows: Rows| {
        through(cases, (MULTI_SEGMENT, Y), ends, (points, 0), rows, 0);
    };
    by([1, 2, 1, 2], &[[1, 2]], row(2));
    by([1, 1, 1, 1], &[[1, 3], [1, 3]], Some((2, 3)));
    by([1, 1, 1, 4], &[[1, 1]], Some((1, 3)));
    by([1, 1, 1, 4], &[[1, 4]], Some((2, 4)));
    by([1, 6, 1, 6], &[[1, 6]], None);
}

fn multi_segment_on_x(cases: &mut Cases) {
    let mut by = |ends: [u32; 4], points: &[[u32; 2]], offset: u32, rows: Rows| {
        through(cases, (MULTI_SEGMENT, X), ends, (points, offset), rows, 0);
    };
    by([0, 3, 2, 3], &[], FAR, row(3));
    by([0, 3, 1, 3], &[], 0, None);
    by([0, 6, 3, 6], &[], 0, None);
    // The crossing alone, on either side of the source.
    by([2, 1, 2, 4], &[], 0, Some((1, 4)));
    by([3, 4, 2, 1], &[], 0, Some((1, 4)));
    by([0, 1, 3, 2], &[], 1, Some((1, 2)));
    by([0, 4, 3, FAR], &[], FAR, Some((4, 5)));
    // The stroke at the start of a later leg alone.
    by([0, 3, 2, 3], &[[1, 3]], 9, row(3));
    by([2, 3, 2, 3], &[[2, 3]], 0, row(3));
    // The corner of a later leg, and of both.
    by([0, 2, 1, 4], &[[1, 2]], 0, Some((2, 4)));
    by([0, 1, 3, 1], &[[1, 4]], 0, Some((1, 4)));
    by([0, 1, 3, 1], &[[1, 9]], 0, Some((1, 5)));
    by([4, 2, 9, 2], &[[6, 3]], 0, Some((2, 3)));
}

/// "skip repeated points; slanted legs paint no interior"
fn orthogonal_legs(cases: &mut Cases, flow: u32) {
    let mut by = |ends: [u32; 4], points: &[[u32; 2]], rows: Rows| {
        through(cases, (ORTHOGONAL, flow), ends, (points, 0), rows, 0);
    };
    by([1, 0, 1, 4], &[], Some((1, 3)));
    by([1, 4, 1, 0], &[], Some((1, 3)));
    by([0, 3, 3, 3], &[], row(3));
    by([3, 3, 1, 3], &[], row(3));
    by([1, 2, 1, 3], &[], None);
    by([1, 2, 2, 2], &[], None);
    by([0, 0, 3, 4], &[], None);
    by([1, 2, 1, 2], &[[1, 2], [1, 2]], None);
    by([1, 2, 1, 4], &[[1, 2], [1, 4]], row(3));
    by([1, 4, 1, FAR], &[], row(5));
    by([0, 6, 3, 6], &[], None);
    by([4, 2, FAR, 2], &[], row(2));
}

fn orthogonal_bends(cases: &mut Cases, flow: u32) {
    let mut by = |ends: [u32; 4], points: &[[u32; 2]], rows: Rows| {
        through(cases, (ORTHOGONAL, flow), ends, (points, 0), rows, 0);
    };
    by([0, 1, 3, 4], &[[0, 4]], Some((2, 4)));
    by([0, 1, 3, 4], &[[3, 1]], Some((1, 3)));
    by([0, 1, 3, 4], &[[0, 4], [0, 4]], Some((2, 4)));
    // A bend alone, also between slanted legs.
    by([0, 3, 2, 3], &[[1, 3]], row(3));
    by([0, 1, 3, 1], &[[1, 4]], row(4));
    by([1, 2, 1, 4], &[[1, 3]], row(3));
    // A slanted leg, then a straight one.
    by([0, 0, 1, 5], &[[1, 2]], Some((2, 4)));
    // A way back, and a bend that lies on an end point.
    by([1, 1, 1, 1], &[[1, 3]], Some((2, 3)));
    by([1, 1, 1, 4], &[[1, 3], [1, 1]], Some((1, 3)));
    by([0, 2, 0, 9], &[[3, 2], [3, 7]], Some((2, 5)));
    by([0, 7, 0, 9], &[[3, 7]], None);
}

/// Arrows stand in the place of strokes: they change no row.
fn with_markers(cases: &mut Cases) {
    let flags = REVERSED_BIT | START_MARKER_BIT | END_MARKER_BIT | 3 << 23;
    for (path, flow, abc, rows, runs) in [
        (DIRECT, Y, [0, 0, 0], (1, 4), 0),
        (DIRECT, X, [0, 0, 0], (0, 0), 0),
        (CORNER, Y, [1, 0, 0], (1, 4), 1),
        (CORNER, X, [1, 0, 0], (0, 5), 0),
        (SIDE_CHANNEL, Y, [6, 1, 3], (1, 4), 2),
        (SIDE_CHANNEL, X, [2, 1, 2], (0, 5), 0),
        (MULTI_SEGMENT, Y, [0, 0, 1], (1, 4), 1),
        (MULTI_SEGMENT, X, [0, 0, 1], (0, 5), 0),
        (SPLINE, Y, [0, 0, 0], (1, 4), 0),
        (SPLINE, X, [0, 0, 0], (0, 0), 0),
    ] {
        let edge = Edge {
            name: format!("{} with both arrows, reversed", path_name(path, flow)),
            flags: path << 29 | flow | flags,
            ends: [0, 0, 3, 5],
            abc,
            points: &[],
            rows: Some(rows),
            runs,
        };
        edge.add(cases);
    }
    for flow in [Y, X] {
        let edge = Edge {
            name: format!("{} with both arrows", path_name(ORTHOGONAL, flow)),
            flags: ORTHOGONAL << 29 | flow | flags,
            ends: [0, 1, 3, 4],
            abc: [0, 0, 0],
            points: &[[0, 4]],
            rows: Some((2, 4)),
            runs: 0,
        };
        edge.add(cases);
    }
}

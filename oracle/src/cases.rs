//! The cases of document 01's proof table and its example, made by our own code:
//! those about one cell or one canvas asked of the original directly, the
//! others as images.

use crate::draft::{edge_record, Draft};
use crate::engine::cell::{Cell, Dir, MarkerKind, Weight};
use crate::engine::compose::{BandCanvas, Paint};
use crate::image::WidthRange;
use crate::layout::{
    path_flags, CORNER, DIRECT, EDGES, END_MARKER_BIT, GLYPHS, MULTI_SEGMENT, NODES, POINTS,
    RUN_CAPACITY_WORD, START_MARKER_BIT, SUBGRAPHS, WIDTH_RANGES,
};
use crate::text;

/// What the original is asked.
pub enum Asked {
    /// A call or two on its Cell or BandCanvas; the answer is one row.
    Directly(fn() -> Vec<u32>),
    /// A whole image.
    Image(Vec<u32>),
}

/// The cells that document 01 states, from this place on.
pub struct Stated {
    pub row: usize,
    pub column: usize,
    pub cells: &'static [u32],
}

pub struct Case {
    pub name: &'static str,
    pub how: &'static str,
    pub asked: Asked,
    /// None where document 01 names the case and states no cells of it.
    pub stated: Option<Stated>,
}

pub fn all() -> Vec<Case> {
    let mut cases = cell_cases();
    cases.extend(canvas_cases());
    cases.extend(text_images());
    cases.extend(edge_images());
    cases.extend(corner_images());
    cases
}

fn directly(
    name: &'static str,
    how: &'static str,
    ask: fn() -> Vec<u32>,
    column: usize,
    cells: &'static [u32],
) -> Case {
    let row = 0;
    let stated = Some(Stated { row, column, cells });
    Case {
        name,
        how,
        asked: Asked::Directly(ask),
        stated,
    }
}

fn painted(
    name: &'static str,
    how: &'static str,
    draft: Draft,
    (row, column): (usize, usize),
    cells: &'static [u32],
) -> Case {
    let stated = Some(Stated { row, column, cells });
    Case {
        name,
        how,
        asked: Asked::Image(draft.to_words()),
        stated,
    }
}

fn cell_cases() -> Vec<Case> {
    vec![
        directly(
            "P1",
            "empty cell, Light vertical, Light horizontal",
            || {
                let upright = upright(Cell::EMPTY, Weight::Light);
                vec![level(upright, Weight::Light).word()]
            },
            0,
            &[0x8000_0492],
        ),
        directly(
            "P2",
            "Arrow Down, Double horizontal",
            || {
                let arrow = Cell::marker(MarkerKind::Arrow, Dir::Down, false);
                vec![level(arrow, Weight::Double).word()]
            },
            0,
            &[0x8000_06D0],
        ),
        directly(
            "P3",
            "text A, Light horizontal",
            || vec![level(Cell::text('A'), Weight::Light).word()],
            0,
            &[0x4000_0041],
        ),
        directly(
            "P4",
            "text A, Double horizontal",
            || vec![level(Cell::text('A'), Weight::Double).word()],
            0,
            &[0x8000_06C0],
        ),
    ]
}

fn upright(cell: Cell, weight: Weight) -> Cell {
    cell.painted_stroke(weight, weight, Weight::None, Weight::None)
}

fn level(cell: Cell, weight: Weight) -> Cell {
    cell.painted_stroke(Weight::None, Weight::None, weight, weight)
}

fn canvas_cases() -> Vec<Case> {
    vec![
        directly(
            "P5",
            "canvas of four columns, 6F22 of width 2 at column 3",
            || four_columns(&[(3, '\u{6F22}')]),
            3,
            &[0x4000_0020],
        ),
        directly(
            "P6",
            "canvas of four columns, 6F22 of width 2 at column 1, then A at column 2",
            || four_columns(&[(1, '\u{6F22}'), (2, 'A')]),
            0,
            &[0, 0x4000_0020, 0x4000_0041, 0],
        ),
    ]
}

fn four_columns(glyphs: &[(usize, char)]) -> Vec<u32> {
    text::use_width_ranges(&[WidthRange {
        first: 0x6F22,
        last: 0x6F22,
        width: 2,
    }]);
    let mut cells = [Cell::EMPTY; 4];
    let mut canvas = BandCanvas::new(&mut cells, None, 4, 0, 1);
    for &(column, glyph) in glyphs {
        canvas.text(column, 0, glyph, Paint::KeepColor);
    }
    canvas.row(0).iter().map(|cell| cell.word()).collect()
}

/// The bare text of an image stands in the labels of subgraphs without border:
/// nodes and placed labels bring a bracket or a quote with them.
fn text_images() -> Vec<Case> {
    let wide_label = with_label(with_wide_6f22(Draft::blank_sheet(5, 3)), 0, 0x6F22);
    let two_labels = with_label(wide_label, 1, 0x41);
    vec![
        painted(
            "example",
            "the image of the sheetcells example",
            example(),
            (0, 0),
            &[0x4000_005B, 0x4000_0041, 0x4000_005D],
        ),
        painted(
            "P5-image",
            "four columns, 6F22 at column 3 of row 1 as the label of a subgraph at x 1",
            with_label(with_wide_6f22(Draft::blank_sheet(4, 3)), 1, 0x6F22),
            (1, 3),
            &[0x4000_0020],
        ),
        painted(
            "P6-image",
            "one column further right, the first that bare text can reach: labels of subgraphs at x 0 and 1",
            two_labels,
            (1, 1),
            &[0, 0x4000_0020, 0x4000_0041, 0],
        ),
    ]
}

fn example() -> Draft {
    let mut draft = Draft::blank_sheet(3, 1);
    draft.add(NODES, &[0, 0, 3, 1, 0, 1, 0, 0, 0]);
    draft.list(NODES, 0, 0, 0);
    draft.add(GLYPHS, &[0x41]);
    draft
}

fn edge_images() -> Vec<Case> {
    let mut cases = arrow_images();
    let sheet = Draft::blank_sheet(3, 5);
    let straight = with_edge(sheet, [1, 0, 1, 4], path_flags(CORNER), [2, 0, 0], (1, 3));
    let sheet = with_runs(Draft::blank_sheet(4, 4), 1);
    let flags = path_flags(CORNER) | START_MARKER_BIT;
    let turning = with_edge(sheet, [0, 0, 3, 3], flags, [1, 0, 0], (1, 2));
    cases.extend([
        painted(
            "P9-image",
            "Corner (1,0) to (1,4), bend 2",
            straight,
            (2, 0),
            &[0, 0, 0],
        ),
        painted(
            "P10-image",
            "Corner (0,0) to (3,3), bend 1, start arrow",
            turning,
            (1, 0),
            &[0xC000_0001, 0x8000_0480, 0x8000_0480, 0x8000_0090],
        ),
    ]);
    cases
}

fn arrow_images() -> Vec<Case> {
    let both_arrows = |path: u32| {
        let sheet = Draft::blank_sheet(3, 3);
        let flags = path_flags(path) | START_MARKER_BIT | END_MARKER_BIT;
        with_edge(sheet, [1, 0, 1, 2], flags, [0; 3], (1, 1))
    };
    vec![
        painted(
            "P7-image",
            "Direct (1,0) to (1,2), both arrows, listed 1..1",
            both_arrows(DIRECT),
            (1, 1),
            &[0xC000_0011],
        ),
        painted(
            "P8-image",
            "the same as MultiSegment without points",
            both_arrows(MULTI_SEGMENT),
            (1, 1),
            &[0xC000_0001],
        ),
    ]
}

/// The two run-only MultiSegment cases: a corner row below 0, and one at 0.
fn corner_images() -> Vec<Case> {
    let through = |y: u32| {
        let sheet = with_runs(Draft::blank_sheet(3, 4), 1);
        let flags = path_flags(MULTI_SEGMENT);
        let mut draft = with_edge(sheet, [2, 3, 0, 2], flags, [0, 1, 0], (0, 3));
        draft.add(POINTS, &[2, y]);
        Asked::Image(draft.to_words())
    };
    vec![
        Case {
            name: "corner-row-below-0",
            how: "MultiSegment (2,3), point (2,0), to (0,2): code 6, kept from the original",
            asked: through(0),
            stated: None,
        },
        Case {
            name: "corner-row-0",
            how: "MultiSegment (2,3), point (2,1), to (0,2): corner row 0",
            asked: through(1),
            stated: None,
        },
    ]
}

fn with_runs(mut draft: Draft, capacity: u32) -> Draft {
    draft.head[RUN_CAPACITY_WORD] = capacity;
    draft
}

fn with_wide_6f22(mut draft: Draft) -> Draft {
    draft.add(WIDTH_RANGES, &[0x6F22, 0x6F22, 2]);
    draft
}

/// A glyph alone at column x + 2 of row 1: the label of a subgraph without
/// border, six columns by three rows.
fn with_label(mut draft: Draft, x: u32, glyph: u32) -> Draft {
    let start = draft.add(GLYPHS, &[glyph]);
    let subgraph = draft.add(SUBGRAPHS, &[x, 0, 6, 3, start, 1, 0, 0]);
    draft.list(SUBGRAPHS, subgraph, 1, 1);
    draft
}

/// An edge without label or colour, listed for the rows given.
fn with_edge(
    mut draft: Draft,
    ends: [u32; 4],
    flags: u32,
    abc: [u32; 3],
    rows: (u32, u32),
) -> Draft {
    let edge = draft.add(EDGES, &edge_record(ends, flags, abc));
    draft.list(EDGES, edge, rows.0, rows.1);
    draft
}

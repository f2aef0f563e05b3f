//! The sheets that `bench` times: some that each load one thing, and rows of
//! sheets in which one table grows. Every one is listed exactly and has the run
//! capacity that it needs, so that the check accepts it.

use crate::draft::{edge_record, Draft};
use crate::full::full_draft;
use crate::generate::accepted;
use crate::layout::{
    path_flags, BLANK, BOXED, CORNER, DIRECT, EDGES, ELEMENTS, END_MARKER_BIT, FIRST_COUNT_WORD,
    GLYPHS, HEADER_LIMITS, LABEL_PRESENT_BIT, MULTI_SEGMENT, NODES, ORTHOGONAL, PLACED_LABELS,
    POINTS, SIDE_CHANNEL, SIMPLE, START_MARKER_BIT, SUBGRAPHS, WIDTH_RANGES, X_FLOW_BIT,
};

/// A zero-width glyph, and the width range that makes it so.
const COMBINING: u32 = 0x0301;
const COMBINING_RANGE: [u32; 3] = [0x0300, 0x036F, 0];

/// A border of Light lines, in a subgraph's flags.
const LIGHT_BORDER: u32 = 2 << 30;

pub struct Sheet {
    /// What it loads; also the name of its file.
    pub name: &'static str,
    pub words: Vec<u32>,
}

/// The sheets, the small one first.
pub fn sheets() -> Vec<Sheet> {
    let drafts = [
        ("small-card", small_card()),
        ("coloured-card", coloured_card()),
        ("dense", dense()),
        ("tall", tall()),
        ("fan-in", fan_in()),
        ("long-cables", long_cables()),
        ("short-legs", short_legs()),
    ];
    let mut sheets: Vec<Sheet> = drafts
        .into_iter()
        .map(|(name, draft)| Sheet {
            name,
            words: accepted(&draft),
        })
        .collect();
    // Its list is as long as a list can be, and is its own.
    sheets.push(Sheet {
        name: "full-tables",
        words: full_draft().to_words(),
    });
    sheets
}

// ---- Parts of a sheet ----------------------------------------------------

fn add_box(draft: &mut Draft, [x, y, width, height]: [u32; 4], text: &str) {
    let [start, count] = draft.write(text);
    draft.add(
        NODES,
        &[x, y, width, height, start, count, BOXED << 30, 0, 0],
    );
}

fn add_group(draft: &mut Draft, [x, y, width, height]: [u32; 4], text: &str) {
    let [start, count] = draft.write(text);
    draft.add(
        SUBGRAPHS,
        &[x, y, width, height, start, count, LIGHT_BORDER, 0],
    );
}

/// An edge with an end arrow; `more` are further flags.
fn add_edge(draft: &mut Draft, ends: [u32; 4], path: u32, more: u32, abc: [u32; 3]) -> u32 {
    let flags = path_flags(path) | END_MARKER_BIT | more;
    draft.add(EDGES, &edge_record(ends, flags, abc))
}

// ---- The sheets ----------------------------------------------------------

/// Four gear stages in a gearbox: what the fitter's handheld shows.
fn small_card() -> Draft {
    let mut draft = Draft::blank_sheet(29, 10);
    add_card(&mut draft);
    draft
}

fn add_card(draft: &mut Draft) {
    add_card_at(draft, 0);
}

/// The card with its first row there.
fn add_card_at(draft: &mut Draft, top: u32) {
    add_box(draft, [2, top + 2, 9, 3], "Motor");
    add_box(draft, [17, top + 2, 10, 3], "Ring");
    add_box(draft, [2, top + 6, 9, 3], "Worm");
    add_box(draft, [17, top + 6, 10, 3], "Pinion");
    add_group(draft, [0, top, 29, 10], "Azimuth gearbox");
    add_edge(draft, [6, top + 4, 6, top + 6], DIRECT, 0, [0; 3]);
    let along = [10, top + 7, 17, top + 7];
    add_edge(draft, along, DIRECT, X_FLOW_BIT, [0; 3]);
    add_edge(draft, [21, top + 6, 21, top + 4], DIRECT, 0, [0; 3]);
}

/// A screen of 80 columns by 24 rows: sixteen named groups, an edge from each to the one
/// below and to the one beside it, and every border and edge in a colour, one after the other.
fn coloured_card() -> Draft {
    const COLOURS: [u32; 8] = [1, 4, 7, 33, 208, 255, 0x0012_3456, 0x00FF_8000];
    let mut draft = Draft::blank_sheet(80, 24);
    for nth in 0..16 {
        let [x, y] = [20 * (nth % 4), 6 * (nth / 4)];
        add_group(&mut draft, [x, y, 19, 5], "Grease of stage");
        add_edge(&mut draft, [x + 9, y + 4, x + 9, y + 6], DIRECT, 0, [0; 3]);
        let ends = [x + 3, y + 3, x + 22, y + 3];
        add_edge(&mut draft, ends, DIRECT, X_FLOW_BIT, [0; 3]);
    }
    for (table, field) in [(SUBGRAPHS, 7), (EDGES, 10)] {
        for (nth, record) in draft.tables[table].iter_mut().enumerate() {
            record[field] = COLOURS[nth % COLOURS.len()];
        }
    }
    draft
}

/// 200 columns by 120 rows: 280 boxes, each with edges of several kinds to the
/// next ones, in 20 groups, with labels on a part of the edges.
fn dense() -> Draft {
    let (columns, rows) = (14, 20);
    let mut draft = Draft::blank_sheet(200, 120);
    for row in 0..rows {
        add_group(&mut draft, [1, 6 * row, 198, 6], "Stage of the gearbox");
        for column in 0..columns {
            add_box(&mut draft, [2 + 14 * column, 6 * row, 10, 3], "Gear 42");
        }
    }
    for row in 0..rows - 1 {
        for column in 0..columns - 1 {
            add_dense_edges(&mut draft, 7 + 14 * column, 6 * row + 2);
        }
    }
    draft
}

/// From under a box: straight down, to the box on the right below by a bend or
/// by points, and along the row.
fn add_dense_edges(draft: &mut Draft, x: u32, y: u32) {
    let below = [x, y, x, y + 4];
    let right_below = [x, y, x + 14, y + 4];
    let labelled = add_edge(draft, below, DIRECT, START_MARKER_BIT, [0; 3]);
    if (x / 14 + y / 6) % 3 == 0 {
        label_edge(draft, labelled, [x + 1, y + 2]);
    }
    match (x / 14 + y / 6) % 4 {
        0 => add_edge(draft, right_below, CORNER, 0, [y + 2, 0, 0]),
        1 => add_edge(draft, right_below, SIDE_CHANNEL, 0, [x + 7, y + 1, y + 3]),
        2 => {
            let [first, count] = draft.add_points([[x + 3, y + 1], [x + 9, y + 2]]);
            add_edge(draft, right_below, MULTI_SEGMENT, 0, [first, count, 0])
        }
        _ => {
            let [first, count] = draft.add_points([[x, y + 2], [x + 14, y + 2]]);
            add_edge(draft, right_below, ORTHOGONAL, 0, [first, count, 0])
        }
    };
    let along = [x + 5, y - 1, x + 9, y - 1];
    add_edge(draft, along, DIRECT, X_FLOW_BIT, [0; 3]);
}

fn label_edge(draft: &mut Draft, edge: u32, [x, y]: [u32; 2]) {
    write_edge_label(draft, edge);
    draft.add(PLACED_LABELS, &[edge, x, y, 1 << 31]);
}

fn write_edge_label(draft: &mut Draft, edge: u32) {
    let [start, count] = draft.write("oil");
    let record = &mut draft.tables[EDGES][edge as usize];
    record[4] |= LABEL_PRESENT_BIT;
    (record[8], record[9]) = (start, count);
}

/// 2,000 rows; 40 boxes and 120 edges that pass over a thousand of them.
fn tall() -> Draft {
    let mut draft = Draft::blank_sheet(80, 2_000);
    for nth in 0..40 {
        add_box(&mut draft, [2, 50 * nth, 12, 3], "Stage");
    }
    for nth in 0..120 {
        let x = 16 + nth % 60;
        let (top, bottom) = (5 * nth, 1_000 + 8 * nth);
        let ends = [x, top, x + 2, bottom];
        match nth % 4 {
            0 => add_edge(&mut draft, [x, top, x, bottom], DIRECT, 0, [0; 3]),
            1 => add_edge(&mut draft, ends, CORNER, 0, [top + 250, 0, 0]),
            2 => {
                let channel = [x + 1, top + 3, bottom - 3];
                add_edge(&mut draft, ends, SIDE_CHANNEL, 0, channel)
            }
            _ => {
                let middle = [[x + 1, top + 225], [x, top + 450], [x + 1, top + 675]];
                let [first, count] = draft.add_points(middle);
                add_edge(&mut draft, ends, MULTI_SEGMENT, 0, [first, count, 0])
            }
        };
    }
    draft
}

/// 500 sources and one target, with 500 runs on one row.
fn fan_in() -> Draft {
    let mut draft = Draft::blank_sheet(1_024, 24);
    for nth in 0..500 {
        let x = 2 * nth;
        draft.add(NODES, &[x, 0, 1, 1, 0, 0, SIMPLE << 30, 0, 0]);
        add_edge(&mut draft, [x, 0, 1_010, 20], CORNER, 0, [10, 0, 0]);
    }
    add_box(&mut draft, [1_004, 20, 12, 3], "Ring");
    draft
}

/// 32 Orthogonal paths of 24 points that go to and fro over the whole width.
fn long_cables() -> Draft {
    let mut draft = Draft::blank_sheet(500, 400);
    for nth in 0..32 {
        let points = (0..12).flat_map(|turn| {
            let row = 4 + 33 * turn + nth;
            let (near, far) = (10 + nth, 490 - nth);
            match turn % 2 {
                0 => [[near, row], [far, row]],
                _ => [[far, row], [near, row]],
            }
        });
        let [first, count] = draft.add_points(points);
        let ends = [10 + nth, 0, 10 + nth, 399];
        let abc = [first, count, 0];
        add_edge(&mut draft, ends, ORTHOGONAL, START_MARKER_BIT, abc);
    }
    draft
}

/// One MultiSegment of 8,192 points, each one cell from the next.
fn short_legs() -> Draft {
    let points = HEADER_LIMITS[FIRST_COUNT_WORD + POINTS];
    staircase(MULTI_SEGMENT, points)
}

/// One edge through so many points: in turn a cell down and a cell across, to
/// the right and back again.
fn staircase(path: u32, points: u32) -> Draft {
    let mut draft = Draft::blank_sheet(64, 4_200);
    let place = |nth: u32| {
        let across = (nth + 1) / 2 % 120;
        [across.min(120 - across), 1 + nth / 2]
    };
    let [first, count] = draft.add_points((0..points).map(place));
    let [x, y] = place(points);
    add_edge(&mut draft, [0, 0, x, y + 1], path, 0, [first, count, 0]);
    draft
}

// ---- Growth --------------------------------------------------------------

/// A table that grows: what its records are, and its steps.
pub struct Growth {
    pub what: &'static str,
    pub steps: Vec<Step>,
}

/// A sheet with so many records, and the same without them.
pub struct Step {
    pub count: u32,
    pub with: Vec<u32>,
    pub without: Vec<u32>,
}

/// Every table, from an eighth of its limit doubled up to it.
pub fn growths() -> Vec<Growth> {
    let kinds: [(&str, usize, fn(u32) -> Draft); 9] = [
        ("nodes, listed", NODES, boxes),
        ("edges, listed", EDGES, bent_edges),
        ("subgraphs, listed", SUBGRAPHS, groups),
        ("placed labels", PLACED_LABELS, placed_labels),
        ("elements", ELEMENTS, elements),
        ("points, MultiSegment", POINTS, |n| {
            staircase(MULTI_SEGMENT, n)
        }),
        ("points, Orthogonal", POINTS, |n| staircase(ORTHOGONAL, n)),
        ("glyphs, one with ink", GLYPHS, inkless_glyphs),
        ("width ranges", WIDTH_RANGES, width_ranges),
    ];
    let grown = |(what, table, made): (_, usize, fn(u32) -> Draft)| {
        let limit = HEADER_LIMITS[FIRST_COUNT_WORD + table];
        let counts = [limit / 8, limit / 4, limit / 2, limit];
        Growth {
            what,
            steps: counts.map(|count| step(table, count, made)).into(),
        }
    };
    kinds.into_iter().map(grown).collect()
}

fn step(table: usize, count: u32, made: fn(u32) -> Draft) -> Step {
    let draft = made(count);
    if table != ELEMENTS {
        return Step {
            count,
            with: accepted(&draft),
            without: accepted(&made(0)),
        };
    }
    // Its list was made by hand, and without it the things stay.
    let mut unlisted = draft.clone();
    unlisted.tables[ELEMENTS].clear();
    Step {
        count,
        with: draft.to_words(),
        without: unlisted.to_words(),
    }
}

/// A sheet that doubles three times.
pub struct GrowingSheet {
    pub what: &'static str,
    pub sheets: Vec<Vec<u32>>,
}

/// In width, in height and in both, and nothing else does: under things that stay as they are
/// and under things that reach over the whole sheet.
pub fn growing_sheets() -> Vec<GrowingSheet> {
    let kinds: [(&str, [u32; 2], fn(&mut Draft)); 6] = [
        ("width, a small card", [1, 0], add_card),
        ("height, a small card", [0, 1], add_card),
        ("both, a small card", [1, 1], add_card),
        ("width, things from end to end", [1, 0], add_end_to_end),
        ("height, things from end to end", [0, 1], add_end_to_end),
        ("both, things from end to end", [1, 1], add_end_to_end),
    ];
    let grown = |(what, grows, fill): (_, [u32; 2], fn(&mut Draft))| GrowingSheet {
        what,
        sheets: (0..4)
            .map(|step| {
                let [width, height] = grows.map(|grows| 128 << (grows * step));
                let mut draft = Draft::blank_sheet(width, height);
                fill(&mut draft);
                accepted(&draft)
            })
            .collect(),
    };
    kinds.into_iter().map(grown).collect()
}

/// In height alone: the same things on twice the rows, and twice the things on them, up to
/// the limit of the nodes.
pub fn taller_sheets() -> Vec<GrowingSheet> {
    const ROWS: u32 = 32 * CARD_ROWS;
    let kinds: [(&str, fn(&mut Draft)); 4] = [
        ("rows, one card on them", add_card),
        ("rows, things from end to end", add_end_to_end),
        ("rows and cards, one on twelve rows", add_cards),
        ("rows and placed labels, one on three rows", add_label_rows),
    ];
    let grown = |(what, fill): (_, fn(&mut Draft))| GrowingSheet {
        what,
        sheets: (0..4)
            .map(|step| {
                let mut draft = Draft::blank_sheet(29, ROWS << step);
                fill(&mut draft);
                accepted(&draft)
            })
            .collect(),
    };
    kinds.into_iter().map(grown).collect()
}

/// The rows of a card, and two below it.
const CARD_ROWS: u32 = 12;

/// Cards one below the other on the whole sheet.
fn add_cards(draft: &mut Draft) {
    for nth in 0..draft.head[1] / CARD_ROWS {
        add_card_at(draft, nth * CARD_ROWS);
    }
}

/// A placed label on every third row.
fn add_label_rows(draft: &mut Draft) {
    let edge = add_edge(draft, [5, 0, 5, 8], DIRECT, 0, [0; 3]);
    write_edge_label(draft, edge);
    for nth in 0..draft.head[1] / 3 {
        draft.add(PLACED_LABELS, &[edge, 5, 3 * nth, 1 << 31]);
    }
}

/// A group around the sheet, and an edge of each flow from end to end.
fn add_end_to_end(draft: &mut Draft) {
    let [width, height] = [draft.head[0], draft.head[1]];
    add_group(draft, [0, 0, width, height], "Azimuth gearbox");
    let (down, along) = ([5, 0, 5, height - 1], [0, 7, width - 1, 7]);
    add_edge(draft, down, DIRECT, 0, [0; 3]);
    add_edge(draft, along, DIRECT, X_FLOW_BIT, [0; 3]);
    let ends = [9, 0, width - 9, height - 1];
    add_edge(draft, ends, CORNER, 0, [height / 2, 0, 0]);
}

/// The sheet under growing tables is small, so that its cells cost little beside the
/// records.
const GROWTH_ROWS: u32 = 64;

/// Every other row, then those again.
fn row_of(nth: u32) -> u32 {
    2 * nth % 50
}

fn boxes(count: u32) -> Draft {
    let mut draft = Draft::blank_sheet(200, GROWTH_ROWS);
    draft.write("Gear 42");
    for nth in 0..count {
        draft.add(NODES, &[5, row_of(nth), 11, 3, 0, 7, BOXED << 30, 0, 0]);
    }
    draft
}

fn bent_edges(count: u32) -> Draft {
    let mut draft = Draft::blank_sheet(200, GROWTH_ROWS);
    for nth in 0..count {
        let y = row_of(nth);
        add_edge(&mut draft, [5, y, 90, y + 8], CORNER, 0, [y + 4, 0, 0]);
    }
    draft
}

fn groups(count: u32) -> Draft {
    let mut draft = Draft::blank_sheet(200, GROWTH_ROWS);
    draft.write("Gearbox");
    for nth in 0..count {
        draft.add(SUBGRAPHS, &[5, row_of(nth), 30, 5, 0, 7, LIGHT_BORDER, 0]);
    }
    draft
}

fn placed_labels(count: u32) -> Draft {
    let mut draft = Draft::blank_sheet(200, GROWTH_ROWS);
    let edge = add_edge(&mut draft, [5, 0, 5, 8], DIRECT, 0, [0; 3]);
    write_edge_label(&mut draft, edge);
    for nth in 0..count {
        draft.add(PLACED_LABELS, &[edge, 5, row_of(nth), 1 << 31]);
    }
    draft
}

/// So many things, none of which touches a row, and each of them listed.
fn elements(count: u32) -> Draft {
    let mut draft = Draft::blank_sheet(200, GROWTH_ROWS);
    for nth in 0..count / 3 {
        let row = nth * (GROWTH_ROWS - 1) / (count / 3);
        draft.add(NODES, &[5, 5, 5, 5, 0, 0, BLANK << 30, 0, 0]);
        add_edge(&mut draft, [5, 5, 5, 5], DIRECT, 0, [0; 3]);
        draft.add(SUBGRAPHS, &[5, 5, 5, 5, 0, 0, 0, 0]);
        for kind in [NODES, EDGES, SUBGRAPHS] {
            draft.list(kind, nth, row, row + 1);
        }
    }
    draft
}

/// One subgraph's label whose glyphs have width 0, all but the last: every one is looked
/// at, and the subgraph is painted.
fn inkless_glyphs(count: u32) -> Draft {
    let mut draft = Draft::blank_sheet(200, GROWTH_ROWS);
    draft.add(WIDTH_RANGES, &COMBINING_RANGE);
    for nth in 0..count {
        let is_last = nth + 1 == count;
        draft.add(GLYPHS, &[if is_last { 0x41 } else { COMBINING }]);
    }
    draft.add(SUBGRAPHS, &[5, 5, 30, 5, 0, count, 0, 0]);
    draft
}

fn width_ranges(count: u32) -> Draft {
    let mut draft = Draft::blank_sheet(200, GROWTH_ROWS);
    for nth in 0..count {
        let first = 0x1000 + 16 * nth;
        draft.add(WIDTH_RANGES, &[first, first + 7, 2]);
    }
    draft
}

//! Code 9: "a node, edge or subgraph touches a sheet row that its listing
//! lacks (unlisted: any)". Here nodes and subgraphs.

use super::Cases;
use crate::draft::{edge_record, Draft};
use crate::layout::{
    path_flags, BLANK, BOXED, COORDINATE_LIMIT, DIRECT, DUMMY, EDGES, GLYPHS, HEADER_FLAGS_WORD,
    INSIDE_BOTTOM_BIT, LABEL_PRESENT_BIT, NODES, PLACED_LABELS, SELF_LOOP_BIT, SHOW_DUMMIES_BIT,
    SIMPLE, SUBGRAPHS, WIDTH_RANGES,
};

/// Each thing stands alone on a sheet of this size.
pub const SHEET: (u32, u32) = (4, 6);

const FAR: u32 = COORDINATE_LIMIT;

/// First and last sheet row that a thing touches.
pub type Rows = Option<(u32, u32)>;

/// A row alone.
pub const fn row(row: u32) -> Rows {
    Some((row, row))
}

pub fn add(cases: &mut Cases) {
    example(cases);
    placed_label(cases);
    simple_nodes(cases);
    boxes(cases);
    blank_nodes(cases);
    loops(cases);
    dummies(cases);
    borders(cases);
    subgraph_labels(cases);
    label_rows(cases);
    cut_labels(cases);
    widths_of_glyphs(cases);
}

/// The image of a thing, not listed, and the rows and runs that it has.
pub struct Thing<'a> {
    pub name: &'a str,
    pub kind: usize,
    pub draft: &'a Draft,
    pub rows: Rows,
    pub runs: u32,
}

impl Thing<'_> {
    /// Listed exactly, one row short at either end, and not at all.
    pub fn add(&self, cases: &mut Cases) {
        let Some((first, last)) = self.rows else {
            return self.add_untouching(cases);
        };
        self.listed(cases, "listed exactly", (first, last), true);
        let below = (first + 1, last.max(first + 1));
        self.listed(cases, "its first row not listed", below, false);
        if last > 0 {
            let above = (first.min(last - 1), last - 1);
            self.listed(cases, "its last row not listed", above, false);
        }
        let name = format!("{}, unlisted", self.name);
        let place = self.draft.place(self.kind, 0, 0);
        cases.refused(name, self.draft, 9, place);
    }

    fn add_untouching(&self, cases: &mut Cases) {
        let name = format!("{}, touches no row, unlisted", self.name);
        cases.accepted_with_runs(name, self.draft, self.runs);
    }

    fn listed(&self, cases: &mut Cases, how: &str, (first, last): (u32, u32), is_good: bool) {
        let mut draft = self.draft.clone();
        draft.list(self.kind, 0, first, last);
        let name = format!("{}, {how}", self.name);
        match is_good {
            true => cases.accepted_with_runs(name, &draft, self.runs),
            false => cases.refused(name, &draft, 9, draft.place(self.kind, 0, 0)),
        }
    }
}

/// The image that document 01 gives for `sheetcells`.
fn example(cases: &mut Cases) {
    let mut draft = Draft::blank_sheet(3, 1);
    draft.add(NODES, &[0, 0, 3, 1, 0, 1, SIMPLE << 30, 0, 0]);
    draft.list(NODES, 0, 0, 0);
    draft.add(GLYPHS, &[0x41]);
    cases.accepted("the image of the sheetcells example", &draft);
}

/// "A placed label is no element's."
fn placed_label(cases: &mut Cases) {
    let mut draft = Draft::blank_sheet(SHEET.0, SHEET.1);
    let mut edge = edge_record([1, 2, 1, 3], path_flags(DIRECT) | LABEL_PRESENT_BIT, [0; 3]);
    edge[9] = 1;
    draft.add(EDGES, &edge);
    draft.add(PLACED_LABELS, &[0, 1, 4, 1 << 31]);
    draft.add(GLYPHS, &[0x41]);
    let name = "placed label in row 4 of an edge that touches no row, unlisted";
    cases.accepted(name, &draft);
}

// ---- Nodes ---------------------------------------------------------------

/// A node at x, y with this width and height, without label or self-loop.
fn node(cases: &mut Cases, name: &str, kind: u32, [x, y, width, height]: [u32; 4], rows: Rows) {
    let record = [x, y, width, height, 0, 0, kind << 30, 0, 0];
    node_record(cases, name, 0, record, rows);
}

fn node_record(cases: &mut Cases, name: &str, header_flags: u32, record: [u32; 9], rows: Rows) {
    let mut draft = Draft::blank_sheet(SHEET.0, SHEET.1);
    draft.head[HEADER_FLAGS_WORD] = header_flags;
    draft.add(NODES, &record);
    let thing = Thing {
        name,
        kind: NODES,
        draft: &draft,
        rows,
        runs: 0,
    };
    thing.add(cases);
}

/// "`[` always": the row y alone, whatever the extent.
fn simple_nodes(cases: &mut Cases) {
    node(cases, "simple node", SIMPLE, [1, 2, 3, 1], row(2));
    node(cases, "simple node 0 by 0", SIMPLE, [1, 2, 0, 0], row(2));
    node(cases, "simple node 9 high", SIMPLE, [1, 2, 3, 9], row(2));
    node(cases, "simple node in row 0", SIMPLE, [0, 0, 1, 1], row(0));
    node(cases, "simple node in row 5", SIMPLE, [0, 5, 1, 3], row(5));
    node(cases, "simple node in row 6", SIMPLE, [0, 6, 1, 1], None);
    node(cases, "simple node far below", SIMPLE, [0, FAR, 1, 1], None);
    let name = "simple node in the column right of the sheet";
    node(cases, name, SIMPLE, [4, 2, 1, 1], row(2));
    let name = "simple node far right, of largest extent";
    node(cases, name, SIMPLE, [FAR, 2, FAR, FAR], row(2));
}

/// "Boxed with height ≥ 3 and width ≥ 2: Light box"; otherwise the simple look.
fn boxes(cases: &mut Cases) {
    node(cases, "box 2 by 3", BOXED, [1, 1, 2, 3], Some((1, 3)));
    node(cases, "box 1 by 3", BOXED, [1, 1, 1, 3], row(1));
    node(cases, "box 0 by 9", BOXED, [1, 1, 0, 9], row(1));
    node(cases, "box 2 by 2", BOXED, [1, 1, 2, 2], row(1));
    node(cases, "box 9 by 0", BOXED, [1, 1, 9, 0], row(1));
    node(cases, "box on row 0", BOXED, [0, 0, 4, 3], Some((0, 2)));
    node(cases, "box on all rows", BOXED, [0, 0, 4, 6], Some((0, 5)));
    let name = "box 32767 by 32767";
    node(cases, name, BOXED, [1, 1, FAR, FAR], Some((1, 5)));
    let name = "box over the last row";
    node(cases, name, BOXED, [1, 4, 2, 3], Some((4, 5)));
    let name = "box with its top in the last row";
    node(cases, name, BOXED, [1, 5, 2, 3], row(5));
    node(cases, "box below the sheet", BOXED, [1, 6, 2, 3], None);
    let name = "box at 32767, of largest extent";
    node(cases, name, BOXED, [FAR, FAR, FAR, FAR], None);
    let name = "box right of the sheet";
    node(cases, name, BOXED, [4, 1, 2, 3], Some((1, 3)));
}

/// "Blank: none."
fn blank_nodes(cases: &mut Cases) {
    node(cases, "blank node", BLANK, [1, 1, 3, 3], None);
    node(cases, "blank node of no extent", BLANK, [1, 2, 0, 0], None);
}

/// "Then the self-loop marker, Up."
fn loops(cases: &mut Cases) {
    let mut looped = |name: &str, kind: u32, y: u32, height: u32, at: [u32; 2], rows: Rows| {
        let flags = kind << 30 | SELF_LOOP_BIT;
        let record = [1, y, 2, height, 0, 0, flags, at[0], at[1]];
        let name = format!("{name}, self-loop at ({},{})", at[0], at[1]);
        node_record(cases, &name, 0, record, rows);
    };
    looped("blank node", BLANK, 2, 1, [1, 4], row(4));
    looped("blank node", BLANK, 2, 1, [0, 0], row(0));
    looped("blank node", BLANK, 2, 1, [FAR, 5], row(5));
    looped("blank node", BLANK, 2, 1, [1, 6], None);
    looped("blank node", BLANK, 2, 1, [1, FAR], None);
    looped("simple node in row 2", SIMPLE, 2, 1, [1, 4], Some((2, 4)));
    looped("simple node in row 2", SIMPLE, 2, 1, [1, 0], Some((0, 2)));
    looped("simple node in row 2", SIMPLE, 2, 1, [1, 2], row(2));
    looped("simple node in row 2", SIMPLE, 2, 1, [1, 6], row(2));
    looped("simple node in row 6", SIMPLE, 6, 1, [1, 3], row(3));
    looped("box in rows 1 to 3", BOXED, 1, 3, [1, 0], Some((0, 3)));
    looped("box in rows 1 to 3", BOXED, 1, 3, [1, 5], Some((1, 5)));
    looped("box in rows 1 to 3", BOXED, 1, 3, [1, 2], Some((1, 3)));
    looped("box of simple look", BOXED, 1, 2, [9, 3], Some((1, 3)));
}

/// "Dummy: a Dummy Up marker if shown, nothing else."
fn dummies(cases: &mut Cases) {
    let looped = DUMMY << 30 | SELF_LOOP_BIT;
    let large = [1, 2, 9, 9, 0, 0, DUMMY << 30, 0, 0];
    let with_loop = [1, 2, 1, 1, 0, 0, looped, 1, 4];
    let below = [1, 6, 1, 1, 0, 0, looped, 1, 4];
    let shown = SHOW_DUMMIES_BIT;
    // The other header flag has no say.
    let avoiding = 1 << 31;
    node_record(cases, "hidden dummy", 0, large, None);
    let name = "hidden dummy with self-loop";
    node_record(cases, name, 0, with_loop, None);
    let name = "hidden dummy, AvoidNodeRows";
    node_record(cases, name, avoiding, large, None);
    node_record(cases, "shown dummy", shown, large, row(2));
    let name = "shown dummy with self-loop";
    node_record(cases, name, shown, with_loop, row(2));
    let name = "shown dummy, AvoidNodeRows";
    node_record(cases, name, shown | avoiding, large, row(2));
    let name = "shown dummy below the sheet, self-loop on it";
    node_record(cases, name, shown, below, None);
}

// ---- Subgraphs -----------------------------------------------------------

/// The glyphs of `labelled`: A of width 1, an accent of width 0, a wide one,
/// and A again.
const TEXT: [u32; 4] = [0x41, 0x301, 0x6F22, 0x41];
const LETTER: [u32; 2] = [0, 1];
const ACCENT: [u32; 2] = [1, 1];
const WIDE: [u32; 2] = [2, 1];
const NO_TEXT: [u32; 2] = [0, 0];

/// A subgraph at x, y with this width and height, a span of `TEXT` as its
/// label, and these flags.
fn subgraph(
    cases: &mut Cases,
    name: &str,
    [x, y, width, height]: [u32; 4],
    label: [u32; 2],
    flags: u32,
    rows: Rows,
) {
    let mut draft = Draft::blank_sheet(SHEET.0, SHEET.1);
    let [start, count] = label;
    draft.add(SUBGRAPHS, &[x, y, width, height, start, count, flags, 7]);
    if label != NO_TEXT {
        for glyph in TEXT {
            draft.add(GLYPHS, &[glyph]);
        }
        draft.add(WIDTH_RANGES, &[0x300, 0x36F, 0]);
        draft.add(WIDTH_RANGES, &[0x4E00, 0x9FFF, 2]);
    }
    let thing = Thing {
        name,
        kind: SUBGRAPHS,
        draft: &draft,
        rows,
        runs: 0,
    };
    thing.add(cases);
}

/// "Border if width and height ≥ 2."
fn borders(cases: &mut Cases) {
    for (weight, name) in [(1, "Dashed"), (2, "Light"), (3, "Double")] {
        let name = format!("{name} border 2 by 2");
        let rows = Some((1, 2));
        subgraph(cases, &name, [1, 1, 2, 2], NO_TEXT, weight << 30, rows);
    }
    let mut light = |name: &str, at: [u32; 4], rows: Rows| {
        subgraph(cases, name, at, NO_TEXT, 2 << 30, rows);
    };
    light("border 1 by 9", [1, 1, 1, 9], None);
    light("border 9 by 1", [1, 1, 9, 1], None);
    light("border 0 by 0", [1, 1, 0, 0], None);
    light("border on all rows", [0, 0, 4, 6], Some((0, 5)));
    light("border over the last row", [1, 4, 2, 9], Some((4, 5)));
    light("border's top in the last row", [1, 5, 2, 2], row(5));
    light("border below the sheet", [1, 6, 2, 2], None);
    light("border far below", [FAR, FAR, FAR, FAR], None);
    light("border 32767 by 32767", [1, 1, FAR, FAR], Some((1, 5)));
    light("border right of the sheet", [4, 1, 2, 3], Some((1, 3)));
    let mut bare = |name: &str, flags: u32| {
        subgraph(cases, name, [0, 1, 9, 4], NO_TEXT, flags, None);
    };
    bare("subgraph without border or label", 0);
    bare("the same, InsideBottom", INSIDE_BOTTOM_BIT);
}

/// "Label at x + 2 if nonempty, width ≥ 4, height ≥ 3"
fn subgraph_labels(cases: &mut Cases) {
    let mut letter = |name: &str, at: [u32; 4], rows: Rows| {
        subgraph(cases, name, at, LETTER, 0, rows);
    };
    letter("label in 5 by 3", [0, 1, 5, 3], row(2));
    letter("label in 5 by 2", [0, 1, 5, 2], None);
    letter("label in 4 by 3", [0, 1, 4, 3], None);
    letter("label in 3 by 3", [0, 1, 3, 3], None);
    letter("label in 0 by 0", [0, 1, 0, 0], None);
    letter("label in 5 by 0", [0, 1, 5, 0], None);
    letter("label in 32767 by 32767", [0, 1, FAR, FAR], row(2));
    letter("label right of the sheet", [FAR, 1, 5, 3], row(2));
    letter("label in the last row", [0, 4, 5, 3], row(5));
    letter("label just below the sheet", [0, 5, 5, 3], None);
    letter("label far below", [FAR, FAR, FAR, FAR], None);
}

/// "on row y + 1 or y + height − 2", also where there is a border.
fn label_rows(cases: &mut Cases) {
    let bottom = INSIDE_BOTTOM_BIT;
    let mut letter = |name: &str, at: [u32; 4], flags: u32, rows: Rows| {
        subgraph(cases, name, at, LETTER, flags, rows);
    };
    letter("InsideTop of 4 rows", [0, 1, 5, 4], 0, row(2));
    letter("InsideBottom of 3 rows", [0, 1, 5, 3], bottom, row(2));
    letter("InsideBottom of 4 rows", [0, 1, 5, 4], bottom, row(3));
    letter("InsideBottom in row 5", [0, 0, 5, 7], bottom, row(5));
    letter("InsideBottom in row 6", [0, 0, 5, 8], bottom, None);
    let name = "InsideBottom of 32767 rows";
    letter(name, [0, 1, 5, FAR], bottom, None);
    let name = "InsideBottom far below";
    letter(name, [0, FAR, 5, FAR], bottom, None);
    let bordered = 1 << 30;
    let name = "border and InsideTop label";
    letter(name, [0, 1, 5, 4], bordered, Some((1, 4)));
    let name = "border and InsideBottom label";
    letter(name, [0, 1, 5, 4], bordered | bottom, Some((1, 4)));
    let name = "border whose label is below the sheet";
    letter(name, [0, 5, 5, 4], bordered, row(5));
}

/// "the longest prefix of at most max(width,4) − 4 columns"; "Width 0 paints
/// nothing".
fn cut_labels(cases: &mut Cases) {
    let mut cut = |name: &str, width: u32, label: [u32; 2], rows: Rows| {
        let name = format!("label {name} in {width} columns");
        subgraph(cases, &name, [0, 1, width, 3], label, 0, rows);
    };
    cut("of width 0", 9, ACCENT, None);
    cut("of width 0", 4, ACCENT, None);
    cut("of width 2", 5, WIDE, None);
    cut("of width 2", 6, WIDE, row(2));
    cut("of widths 0 and 2", 5, [1, 2], None);
    cut("of widths 0 and 2", 6, [1, 2], row(2));
    cut("of widths 0, 2 and 1", 5, [1, 3], None);
    // The first that does not fit ends it: the letter after it is not tried.
    cut("of widths 2 and 1", 5, [2, 2], None);
    cut("of widths 1 and 0", 5, [0, 2], row(2));
    cut("of widths 1 and 0", 4, [0, 2], None);
    cut("empty", 9, [4, 0], None);
}

/// "Width range, 3: first, last [..], width 0 or 2; all others 1.": a label of
/// one glyph, in and beside each of seven ranges, where there is room for one
/// column.
fn widths_of_glyphs(cases: &mut Cases) {
    let mut draft = Draft::blank_sheet(SHEET.0, SHEET.1);
    draft.add(SUBGRAPHS, &[0, 1, 5, 3, 0, 1, 0, 0]);
    for nth in 0..7 {
        let first = 0x300 + 4 * nth;
        draft.add(WIDTH_RANGES, &[first, first + 2, nth % 2 * 2]);
    }
    for glyph in 0x2FF..0x31D {
        draft.tables[GLYPHS] = vec![vec![glyph]];
        let is_beside_the_ranges = glyph % 4 == 3 || glyph >= 0x31C;
        let name = format!("unlisted label {glyph:04X} among seven ranges");
        match is_beside_the_ranges {
            true => cases.refused(name, &draft, 9, draft.place(SUBGRAPHS, 0, 0)),
            false => cases.accepted(name, &draft),
        }
    }
}

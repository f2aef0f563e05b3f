//! A second check of a sheet image, written from document 01, from request
//! #105 (code 13) and, where they leave a point open, from docs/DECISIONS.md
//! (D16 to D24).
//!
//! It is slow and plain on purpose: every rule is worded as the table
//! "Refusals in order" or the request words it, and the rows that a thing
//! touches are gathered write by write, never by reasoning about spans. It
//! answers for every list of words, with sums in 64 bits.

use crate::layout::{
    BLANK, BOXED, CODE_POINT_LIMIT, COORDINATE_LIMIT, CORNER, DUMMY, EDGES, ELEMENTS,
    FIRST_COUNT_WORD, GLYPHS, HEADER_FLAGS_WORD, HEADER_LIMITS, HEADER_WORDS, INSIDE_BOTTOM_BIT,
    LABEL_PRESENT_BIT, MULTI_SEGMENT, NODES, ORTHOGONAL, PLACED_LABELS, POINTS, RECORD_WORDS,
    RUN_CAPACITY_WORD, SELF_LOOP_BIT, SHOW_DUMMIES_BIT, SIDE_CHANNEL, SPLINE, SUBGRAPHS, TABLES,
    WIDTH_RANGES, X_FLOW_BIT,
};

/// The answer of the check: "a code and a place; check adds the run count,
/// 0 on refusal. Accepted: code 0, place 0."
#[derive(Clone, Copy, Debug, PartialEq, Eq)]
pub struct Answer {
    pub code: u32,
    pub place: u32,
    pub runs: u32,
}

// The spare bits of each flags word: "packed from bit 31 down; spare bits are
// 0".
const HEADER_SPARE_BITS: u32 = 0x3FFF_FFFF;
const NODE_SPARE_BITS: u32 = 0x1FFF_FFFF;
const EDGE_SPARE_BITS: u32 = 0x003F_FFFF;
const SUBGRAPH_SPARE_BITS: u32 = 0x1FFF_FFFF;
const PLACED_LABEL_SPARE_BITS: u32 = 0x3FFF_FFFF;

/// The space, the quote and the two brackets keep width 1.
const FIXED_CHARACTERS: [u32; 4] = [0x0020, 0x0022, 0x005B, 0x005D];

/// The element kinds are the numbers of their tables: 0 Node, 1 Edge,
/// 2 Subgraph; refusal 9 goes through them in this order.
const ELEMENT_KINDS: [usize; 3] = [NODES, EDGES, SUBGRAPHS];

/// A refusal: its code and its place.
type Refusal = (u32, u64);

/// The codes in the order 1 to 5, 13, 6 to 10: the earlier one wins over the
/// whole image (D16).
pub fn slow_check(words: &[u32]) -> Answer {
    let refusal = refusal_of_the_form(words).or_else(|| refusal_of_the_listing(&Image { words }));
    match refusal {
        Some((code, place)) => Answer {
            code,
            place: place as u32,
            runs: 0,
        },
        None => Answer {
            code: 0,
            place: 0,
            runs: run_count(&Image { words }) as u32,
        },
    }
}

/// First and last sheet row that the node, edge or subgraph touches; none
/// where it touches none, where there is no such thing, or where the image
/// has no ink to speak of because its form is refused.
pub fn touched_rows(words: &[u32], kind: u32, index: u32) -> Option<(u32, u32)> {
    if refusal_of_the_form(words).is_some() {
        return None;
    }
    let image = Image { words };
    let kind = kind as usize;
    if !ELEMENT_KINDS.contains(&kind) || u64::from(index) >= image.count(kind) {
        return None;
    }
    rows_of(&image, kind, index)
}

/// The same of every node, edge and subgraph in turn: its kind, its index and its rows.
pub fn all_touched_rows(words: &[u32]) -> Vec<(usize, u32, Option<(u32, u32)>)> {
    let image = Image { words };
    let has_ink = refusal_of_the_form(words).is_none();
    let mut things = Vec::new();
    for kind in ELEMENT_KINDS {
        for index in 0..image.count(kind) as u32 {
            let rows = has_ink.then(|| rows_of(&image, kind, index)).flatten();
            things.push((kind, index, rows));
        }
    }
    things
}

fn rows_of(image: &Image, kind: usize, index: u32) -> Option<(u32, u32)> {
    let touched = ink_of(image, kind, u64::from(index)).touched();
    Some((*touched.first()?, *touched.last()?))
}

/// Codes 1 to 5, 13 and 6: those which come before any talk of elements.
fn refusal_of_the_form(words: &[u32]) -> Option<Refusal> {
    let image = Image { words };
    code_1_too_short(words)
        .or_else(|| code_2_header(words))
        .or_else(|| code_3_length(&image))
        .or_else(|| code_4_field(&image))
        .or_else(|| code_5_width_range(&image))
        .or_else(|| code_13_control_character(&image))
        .or_else(|| code_6_corner_below_zero(&image))
}

/// Codes 7 to 10, on an image whose form is in order.
fn refusal_of_the_listing(image: &Image) -> Option<Refusal> {
    code_7_listed_twice(image)
        .or_else(|| code_8_rows_out_of_order(image))
        .or_else(|| code_9_row_not_listed(image))
        .or_else(|| code_10_run_capacity(image))
}

// ---- Reading words -------------------------------------------------------

/// The words, read by table, record and field. A word past the end reads 0.
struct Image<'a> {
    words: &'a [u32],
}

impl Image<'_> {
    fn word(&self, place: u64) -> u32 {
        match usize::try_from(place) {
            Ok(place) => self.words.get(place).copied().unwrap_or(0),
            Err(_) => 0,
        }
    }

    fn height(&self) -> u32 {
        self.word(1)
    }

    fn shows_dummies(&self) -> bool {
        self.word(HEADER_FLAGS_WORD as u64) & SHOW_DUMMIES_BIT != 0
    }

    fn count(&self, table: usize) -> u64 {
        u64::from(self.word((FIRST_COUNT_WORD + table) as u64))
    }

    fn table_start(&self, table: usize) -> u64 {
        let mut start = HEADER_WORDS as u64;
        for (earlier, record_words) in RECORD_WORDS.iter().enumerate().take(table) {
            start += self.count(earlier) * *record_words as u64;
        }
        start
    }

    fn record_start(&self, table: usize, record: u64) -> u64 {
        self.table_start(table) + record * RECORD_WORDS[table] as u64
    }

    /// The fields of one record; those past its own number of words are 0.
    fn record(&self, table: usize, record: u64) -> [u32; 12] {
        let start = self.record_start(table, record);
        let mut fields = [0; 12];
        for (field, word) in fields.iter_mut().enumerate().take(RECORD_WORDS[table]) {
            *word = self.word(start + field as u64);
        }
        fields
    }

    fn point(&self, record: u64) -> Point {
        let fields = self.record(POINTS, record);
        Point::new(fields[0], fields[1])
    }

    /// "Width range, 3: first, last, width 0 or 2; all others 1."
    fn glyph_width(&self, glyph: u32) -> u64 {
        for range in 0..self.count(WIDTH_RANGES) {
            let fields = self.record(WIDTH_RANGES, range);
            if fields[0] <= glyph && glyph <= fields[1] {
                return u64::from(fields[2]);
            }
        }
        1
    }

    fn label_widths(&self, start: u32, count: u32) -> Vec<u64> {
        (0..u64::from(count))
            .map(|nth| self.record(GLYPHS, u64::from(start) + nth)[0])
            .map(|glyph| self.glyph_width(glyph))
            .collect()
    }
}

/// A cell of the plane; no cell is off it, so both are signed.
#[derive(Clone, Copy, PartialEq, Eq)]
struct Point {
    x: i64,
    y: i64,
}

impl Point {
    fn new(x: u32, y: u32) -> Point {
        Point {
            x: i64::from(x),
            y: i64::from(y),
        }
    }
}

// ---- Codes 1 to 3 --------------------------------------------------------

fn code_1_too_short(words: &[u32]) -> Option<Refusal> {
    (words.len() < HEADER_WORDS).then_some((1, 0))
}

fn code_2_header(words: &[u32]) -> Option<Refusal> {
    for place in 0..HEADER_WORDS {
        let over_its_limit = words[place] > HEADER_LIMITS[place];
        let spare_bit = place == HEADER_FLAGS_WORD && words[place] & HEADER_SPARE_BITS != 0;
        if over_its_limit || spare_bit {
            return Some((2, place as u64));
        }
    }
    None
}

fn code_3_length(image: &Image) -> Option<Refusal> {
    let wanted = image.table_start(TABLES);
    (image.words.len() as u64 != wanted).then_some((3, wanted))
}

// ---- Code 4 --------------------------------------------------------------

/// "first such word": a plain scan in the order of tables, records and fields
/// (D19).
fn code_4_field(image: &Image) -> Option<Refusal> {
    for (table, record_words) in RECORD_WORDS.iter().enumerate() {
        for record in 0..image.count(table) {
            let fields = image.record(table, record);
            for field in 0..*record_words {
                if field_breaks_its_rule(image, table, &fields, field) {
                    return Some((4, image.record_start(table, record) + field as u64));
                }
            }
        }
    }
    None
}

fn field_breaks_its_rule(image: &Image, table: usize, fields: &[u32; 12], field: usize) -> bool {
    match table {
        NODES => node_field_breaks(image, fields, field),
        EDGES => edge_field_breaks(image, fields, field),
        SUBGRAPHS => subgraph_field_breaks(image, fields, field),
        PLACED_LABELS => placed_label_field_breaks(image, fields, field),
        ELEMENTS => element_field_breaks(image, fields, field),
        POINTS => fields[field] > COORDINATE_LIMIT,
        GLYPHS => !is_scalar_value(fields[0]),
        _ => width_range_field_breaks(fields, field),
    }
}

/// "start + count leaves its table", by the true sum. It offends at the
/// start, also where only the count is absurd (D19).
fn span_leaves(image: &Image, table: usize, start: u32, count: u32) -> bool {
    u64::from(start) + u64::from(count) > image.count(table)
}

fn node_field_breaks(image: &Image, fields: &[u32; 12], field: usize) -> bool {
    let has_loop = fields[6] & SELF_LOOP_BIT != 0;
    match field {
        0..=3 => fields[field] > COORDINATE_LIMIT,
        4 => span_leaves(image, GLYPHS, fields[4], fields[5]),
        5 => false,
        6 => fields[6] & NODE_SPARE_BITS != 0,
        // "loop x, loop y (both 0 without the bit)"
        _ if has_loop => fields[field] > COORDINATE_LIMIT,
        _ => fields[field] != 0,
    }
}

fn edge_field_breaks(image: &Image, fields: &[u32; 12], field: usize) -> bool {
    let has_label = fields[4] & LABEL_PRESENT_BIT != 0;
    match field {
        0..=3 => fields[field] > COORDINATE_LIMIT,
        4 => edge_flags_break(fields[4]),
        5..=7 => edge_path_field_breaks(image, fields, field),
        8 if has_label => span_leaves(image, GLYPHS, fields[8], fields[9]),
        9 if has_label => false,
        // "label present 1 (else start and count 0)"
        8 | 9 => fields[field] != 0,
        // "Colours are any u32."
        _ => false,
    }
}

fn edge_flags_break(flags: u32) -> bool {
    let unknown_path = flags >> 29 > SPLINE;
    let no_weight = (flags >> 23) & 3 == 0;
    unknown_path || no_weight || flags & EDGE_SPARE_BITS != 0
}

/// The fields a, b and c (5, 6 and 7): "Unused a, b, c are 0."
fn edge_path_field_breaks(image: &Image, fields: &[u32; 12], field: usize) -> bool {
    let over_the_limit = fields[field] > COORDINATE_LIMIT;
    let points_leave = span_leaves(image, POINTS, fields[5], fields[6]);
    match (fields[4] >> 29, field) {
        (CORNER, 5) => over_the_limit,
        (SIDE_CHANNEL, _) => over_the_limit,
        (MULTI_SEGMENT, 5) | (ORTHOGONAL, 5) => points_leave,
        (MULTI_SEGMENT, 6) | (ORTHOGONAL, 6) => false,
        (MULTI_SEGMENT, 7) => over_the_limit,
        _ => fields[field] != 0,
    }
}

fn subgraph_field_breaks(image: &Image, fields: &[u32; 12], field: usize) -> bool {
    match field {
        0..=3 => fields[field] > COORDINATE_LIMIT,
        4 => span_leaves(image, GLYPHS, fields[4], fields[5]),
        6 => fields[6] & SUBGRAPH_SPARE_BITS != 0,
        _ => false,
    }
}

fn placed_label_field_breaks(image: &Image, fields: &[u32; 12], field: usize) -> bool {
    match field {
        0 => u64::from(fields[0]) >= image.count(EDGES),
        1 | 2 => fields[field] > COORDINATE_LIMIT,
        _ => fields[3] & PLACED_LABEL_SPARE_BITS != 0,
    }
}

fn element_field_breaks(image: &Image, fields: &[u32; 12], field: usize) -> bool {
    let kind = fields[0] as usize;
    match field {
        0 => !ELEMENT_KINDS.contains(&kind),
        // An unknown kind has been found at field 0 and names no table.
        1 if ELEMENT_KINDS.contains(&kind) => u64::from(fields[1]) >= image.count(kind),
        1 => false,
        _ => fields[field] > COORDINATE_LIMIT,
    }
}

fn is_scalar_value(glyph: u32) -> bool {
    glyph <= 0xD7FF || (0xE000..=CODE_POINT_LIMIT).contains(&glyph)
}

fn width_range_field_breaks(fields: &[u32; 12], field: usize) -> bool {
    match field {
        0 | 1 => fields[field] > CODE_POINT_LIMIT,
        _ => fields[2] != 0 && fields[2] != 2,
    }
}

// ---- Codes 5, 13 and 6 ---------------------------------------------------

/// "a width range has first > last, first not above the last before it, or
/// holds 0020, 0022, 005B or 005D"
fn code_5_width_range(image: &Image) -> Option<Refusal> {
    let mut last_before: Option<u32> = None;
    for range in 0..image.count(WIDTH_RANGES) {
        let fields = image.record(WIDTH_RANGES, range);
        let (first, last) = (fields[0], fields[1]);
        let not_above = last_before.is_some_and(|before| first <= before);
        let holds_fixed = FIXED_CHARACTERS
            .iter()
            .any(|fixed| first <= *fixed && *fixed <= last);
        if first > last || not_above || holds_fixed {
            return Some((5, image.record_start(WIDTH_RANGES, range)));
        }
        last_before = Some(last);
    }
    None
}

/// "Values 0000 to 001F and 007F to 009F are no longer glyphs": no word of the
/// glyph table may be one, whether a label uses it or not.
fn code_13_control_character(image: &Image) -> Option<Refusal> {
    for glyph in 0..image.count(GLYPHS) {
        let place = image.record_start(GLYPHS, glyph);
        if matches!(image.word(place), 0x0000..=0x001F | 0x007F..=0x009F) {
            return Some((13, place));
        }
    }
    None
}

/// "a MultiSegment corner lies below 0": the corner's row on Y flow, its
/// column on X flow.
fn code_6_corner_below_zero(image: &Image) -> Option<Refusal> {
    for index in 0..image.count(EDGES) {
        let edge = Edge::read(image, index);
        if edge.path != MULTI_SEGMENT {
            continue;
        }
        for leg in edge.multi_segment_legs(image) {
            if edge.corner_of(&leg).is_some_and(|corner| corner < 0) {
                return Some((6, image.record_start(EDGES, index)));
            }
        }
    }
    None
}

// ---- Codes 7 to 10 -------------------------------------------------------

/// "an element names one already listed"
fn code_7_listed_twice(image: &Image) -> Option<Refusal> {
    let mut listed = std::collections::BTreeSet::new();
    for element in 0..image.count(ELEMENTS) {
        let fields = image.record(ELEMENTS, element);
        if !listed.insert((fields[0], fields[1])) {
            return Some((7, image.record_start(ELEMENTS, element)));
        }
    }
    None
}

/// "first row > last row, or first row below the previous element's"
fn code_8_rows_out_of_order(image: &Image) -> Option<Refusal> {
    let mut previous_first = 0;
    for element in 0..image.count(ELEMENTS) {
        let fields = image.record(ELEMENTS, element);
        let (first, last) = (fields[2], fields[3]);
        if first > last || first < previous_first {
            return Some((8, image.record_start(ELEMENTS, element)));
        }
        previous_first = first;
    }
    None
}

/// "a node, edge or subgraph touches a sheet row that its listing lacks
/// (unlisted: any)"; the place is the thing's own first word.
fn code_9_row_not_listed(image: &Image) -> Option<Refusal> {
    for kind in ELEMENT_KINDS {
        for index in 0..image.count(kind) {
            let listing = listing_of(image, kind, index);
            let lacks =
                |row: &u32| !listing.is_some_and(|(first, last)| first <= *row && *row <= last);
            if ink_of(image, kind, index).touched().iter().any(lacks) {
                return Some((9, image.record_start(kind, index)));
            }
        }
    }
    None
}

/// First and last row of the element that names this thing.
fn listing_of(image: &Image, kind: usize, index: u64) -> Option<(u32, u32)> {
    (0..image.count(ELEMENTS))
        .map(|element| image.record(ELEMENTS, element))
        .find(|fields| fields[0] as usize == kind && u64::from(fields[1]) == index)
        .map(|fields| (fields[2], fields[3]))
}

fn code_10_run_capacity(image: &Image) -> Option<Refusal> {
    let place = RUN_CAPACITY_WORD as u64;
    (u64::from(image.word(place)) < run_count(image)).then_some((10, place))
}

/// "The run count is the number of runs on rows of the sheet."
fn run_count(image: &Image) -> u64 {
    (0..image.count(EDGES))
        .map(|index| ink_of(image, EDGES, index).runs_on_the_sheet)
        .sum()
}

// ---- What a thing writes -------------------------------------------------

/// Every write that one thing makes. Only whether it falls on a row of the
/// sheet is kept: "columns disregarded".
struct Ink {
    row_is_touched: Vec<bool>,
    runs_on_the_sheet: u64,
}

impl Ink {
    fn on_a_sheet_of(height: u32) -> Ink {
        Ink {
            row_is_touched: vec![false; height as usize],
            runs_on_the_sheet: 0,
        }
    }

    /// The touched rows of the sheet, ascending.
    fn touched(&self) -> Vec<u32> {
        let rows = self.row_is_touched.iter().zip(0..);
        rows.filter(|(is_touched, _)| **is_touched)
            .map(|(_, row)| row)
            .collect()
    }

    fn is_on_the_sheet(&self, row: i64) -> bool {
        0 <= row && row < self.row_is_touched.len() as i64
    }

    /// One stroke, marker or glyph of width 1 or 2. A marker drawn in the
    /// place of a stroke is a write on the same cell, so the two are not
    /// told apart.
    fn write(&mut self, cell: Point) {
        if self.is_on_the_sheet(cell.y) {
            self.row_is_touched[cell.y as usize] = true;
        }
    }

    /// A vertical line: '"Between" excludes both ends.'
    fn vertical_between(&mut self, x: i64, y_one: i64, y_other: i64) {
        for y in y_one.min(y_other) + 1..y_one.max(y_other) {
            self.write(Point { x, y });
        }
    }

    /// A horizontal line of immediate strokes, without its ends.
    fn horizontal_between(&mut self, y: i64, x_one: i64, x_other: i64) {
        for x in x_one.min(x_other) + 1..x_one.max(x_other) {
            self.write(Point { x, y });
        }
    }

    /// Y flow: "nothing if equal; else a run strictly inside (none if
    /// adjacent), first corner [...], last".
    fn crossing_on_row(&mut self, row: i64, x_first: i64, x_last: i64) {
        if x_first == x_last {
            return;
        }
        let has_room_inside = (x_first - x_last).abs() >= 2;
        if has_room_inside && self.is_on_the_sheet(row) {
            self.runs_on_the_sheet += 1;
        }
        self.horizontal_between(row, x_first, x_last);
        self.write(Point { x: x_first, y: row });
        self.write(Point { x: x_last, y: row });
    }

    /// X flow: "crossings are immediate strokes", so there is no run.
    fn crossing_in_column(&mut self, column: i64, y_first: i64, y_last: i64) {
        if y_first == y_last {
            return;
        }
        self.vertical_between(column, y_first, y_last);
        for y in [y_first, y_last] {
            self.write(Point { x: column, y });
        }
    }

    /// A border or a box of at least two columns and two rows.
    fn frame(&mut self, corner: Point, width: i64, height: i64) {
        let right = corner.x + width - 1;
        let bottom = corner.y + height - 1;
        for x in corner.x..=right {
            self.write(Point { x, y: corner.y });
            self.write(Point { x, y: bottom });
        }
        for y in corner.y..=bottom {
            self.write(Point { x: corner.x, y });
            self.write(Point { x: right, y });
        }
    }

    /// The fitting part of a label: "the longest prefix of at most
    /// max(width,4) - 4 columns". "Width 0 paints nothing."
    fn fitting_label(&mut self, start: Point, glyph_widths: &[u64], width: u32) {
        let room = i64::from(width.max(4)) - 4;
        let mut used = 0;
        for glyph_width in glyph_widths {
            let glyph_width = *glyph_width as i64;
            if used + glyph_width > room {
                break;
            }
            self.glyph(start.x + used, start.y, glyph_width);
            used += glyph_width;
        }
    }

    fn glyph(&mut self, x: i64, y: i64, glyph_width: i64) {
        for column in 0..glyph_width {
            self.write(Point { x: x + column, y });
        }
    }
}

/// All that the thing writes, on rows of this image's sheet.
fn ink_of(image: &Image, kind: usize, index: u64) -> Ink {
    let mut ink = Ink::on_a_sheet_of(image.height());
    match kind {
        NODES => ink_node(image, index, &mut ink),
        EDGES => ink_edge(image, index, &mut ink),
        _ => ink_subgraph(image, index, &mut ink),
    }
    ink
}

// ---- Nodes and subgraphs -------------------------------------------------

/// "Dummy: a Dummy Up marker if shown, nothing else. [...] Then the
/// self-loop marker, Up."
fn ink_node(image: &Image, index: u64, ink: &mut Ink) {
    let fields = image.record(NODES, index);
    let corner = Point::new(fields[0], fields[1]);
    let (width, height) = (fields[2], fields[3]);
    let glyph_widths = image.label_widths(fields[4], fields[5]);
    let kind = fields[6] >> 30;
    if kind == DUMMY {
        if image.shows_dummies() {
            ink.write(corner);
        }
        return;
    }
    if kind == BOXED && height >= 3 && width >= 2 {
        ink.frame(corner, i64::from(width), i64::from(height));
        let label_start = Point {
            x: corner.x + 2,
            y: corner.y + 1,
        };
        ink.fitting_label(label_start, &glyph_widths, width);
    } else if kind != BLANK {
        ink_simple_node(corner, width, &glyph_widths, ink);
    }
    if fields[6] & SELF_LOOP_BIT != 0 {
        ink.write(Point::new(fields[7], fields[8]));
    }
}

/// "`[` always; glyphs until the first that would reach the closing column
/// x + max(width,1) - 1; `]` there if width >= 2."
fn ink_simple_node(corner: Point, width: u32, glyph_widths: &[u64], ink: &mut Ink) {
    let closing_column = corner.x + i64::from(width.max(1)) - 1;
    ink.write(corner);
    let mut x = corner.x + 1;
    for glyph_width in glyph_widths {
        let glyph_width = *glyph_width as i64;
        if x + glyph_width > closing_column {
            break;
        }
        ink.glyph(x, corner.y, glyph_width);
        x += glyph_width;
    }
    if width >= 2 {
        ink.write(Point {
            x: closing_column,
            y: corner.y,
        });
    }
}

/// "Border if width and height >= 2. Label at x + 2 if nonempty, width >= 4,
/// height >= 3, on row y + 1 or y + height - 2."
fn ink_subgraph(image: &Image, index: u64, ink: &mut Ink) {
    let fields = image.record(SUBGRAPHS, index);
    let corner = Point::new(fields[0], fields[1]);
    let (width, height) = (fields[2], fields[3]);
    let has_border = fields[6] >> 30 != 0;
    if has_border && width >= 2 && height >= 2 {
        ink.frame(corner, i64::from(width), i64::from(height));
    }
    if fields[5] > 0 && width >= 4 && height >= 3 {
        let inside_bottom = fields[6] & INSIDE_BOTTOM_BIT != 0;
        let label_row = if inside_bottom {
            corner.y + i64::from(height) - 2
        } else {
            corner.y + 1
        };
        let label_start = Point {
            x: corner.x + 2,
            y: label_row,
        };
        ink.fitting_label(
            label_start,
            &image.label_widths(fields[4], fields[5]),
            width,
        );
    }
}

// ---- Edges ---------------------------------------------------------------

/// An edge with what decides where it writes. Markers and weight do not:
/// arrows stand in the place of strokes, and every weight makes a stroke.
struct Edge {
    from: Point,
    to: Point,
    path: u32,
    on_x_flow: bool,
    a: u32,
    b: u32,
    c: u32,
}

/// One leg of a MultiSegment path, from one point to the next.
struct Leg {
    start: Point,
    end: Point,
    is_first: bool,
}

impl Edge {
    fn read(image: &Image, index: u64) -> Edge {
        let fields = image.record(EDGES, index);
        Edge {
            from: Point::new(fields[0], fields[1]),
            to: Point::new(fields[2], fields[3]),
            path: fields[4] >> 29,
            on_x_flow: fields[4] & X_FLOW_BIT != 0,
            a: fields[5],
            b: fields[6],
            c: fields[7],
        }
    }

    /// The source, the points of the span a, b, and the target.
    fn all_points(&self, image: &Image) -> Vec<Point> {
        let mut points = vec![self.from];
        for nth in 0..u64::from(self.b) {
            points.push(image.point(u64::from(self.a) + nth));
        }
        points.push(self.to);
        points
    }

    fn multi_segment_legs(&self, image: &Image) -> Vec<Leg> {
        let points = self.all_points(image);
        let pairs = points.windows(2).enumerate();
        pairs
            .map(|(nth, pair)| Leg {
                start: pair[0],
                end: pair[1],
                is_first: nth == 0,
            })
            .collect()
    }

    /// s: "+1 if to y >= from y, else -1", columns taking the place of rows
    /// on X flow. It is the whole edge's, for each of its legs.
    fn sign(&self) -> i64 {
        let goes_forward = if self.on_x_flow {
            self.to.x >= self.from.x
        } else {
            self.to.y >= self.from.y
        };
        if goes_forward {
            1
        } else {
            -1
        }
    }

    /// "the corner row is py + s(1 + offset on the first leg, 0 later)",
    /// the corner column on X flow; none on a leg which goes straight.
    fn corner_of(&self, leg: &Leg) -> Option<i64> {
        let offset = if leg.is_first { i64::from(self.c) } else { 0 };
        if self.on_x_flow {
            (leg.start.y != leg.end.y).then(|| leg.start.x + self.sign() * (1 + offset))
        } else {
            (leg.start.x != leg.end.x).then(|| leg.start.y + self.sign() * (1 + offset))
        }
    }
}

fn ink_edge(image: &Image, index: u64, ink: &mut Ink) {
    let edge = Edge::read(image, index);
    match (edge.path, edge.on_x_flow) {
        // "Orthogonal, both axes"
        (ORTHOGONAL, _) => ink_orthogonal(&edge.all_points(image), ink),
        (MULTI_SEGMENT, false) => ink_multi_segment_y(image, &edge, ink),
        (MULTI_SEGMENT, true) => ink_multi_segment_x(image, &edge, ink),
        (_, false) => ink_edge_y(&edge, ink),
        (_, true) => ink_edge_x(&edge, ink),
    }
}

/// Direct, Spline, Corner and SideChannel on Y flow.
fn ink_edge_y(edge: &Edge, ink: &mut Ink) {
    let (from, to) = (edge.from, edge.to);
    match edge.path {
        // "vertical, crossing at the bend, vertical at to x"
        CORNER => {
            let bend = i64::from(edge.a);
            ink.vertical_between(from.x, from.y, bend);
            ink.crossing_on_row(bend, from.x, to.x);
            ink.vertical_between(to.x, bend, to.y);
        }
        // "crossing at span start, vertical in the channel, crossing at span
        // end, vertical to the target. No source trunk or arrow."
        SIDE_CHANNEL => {
            let channel = i64::from(edge.a);
            let (span_start, span_end) = (i64::from(edge.b), i64::from(edge.c));
            ink.crossing_on_row(span_start, from.x, channel);
            ink.vertical_between(channel, span_start, span_end);
            ink.crossing_on_row(span_end, channel, to.x);
            ink.vertical_between(to.x, span_end, to.y);
        }
        // "Direct, Spline: vertical at from x, between"
        _ => ink.vertical_between(from.x, from.y, to.y),
    }
}

/// The same on X flow: bend and spans are columns, the channel is a row, and
/// "SideChannel has a source trunk", up to span start.
fn ink_edge_x(edge: &Edge, ink: &mut Ink) {
    let (from, to) = (edge.from, edge.to);
    match edge.path {
        CORNER => {
            let bend = i64::from(edge.a);
            ink.horizontal_between(from.y, from.x, bend);
            ink.crossing_in_column(bend, from.y, to.y);
            ink.horizontal_between(to.y, bend, to.x);
        }
        SIDE_CHANNEL => {
            let channel = i64::from(edge.a);
            let (span_start, span_end) = (i64::from(edge.b), i64::from(edge.c));
            ink.horizontal_between(from.y, from.x, span_start);
            ink.crossing_in_column(span_start, from.y, channel);
            ink.horizontal_between(channel, span_start, span_end);
            ink.crossing_in_column(span_end, channel, to.y);
            ink.horizontal_between(to.y, span_end, to.x);
        }
        _ => ink.horizontal_between(from.y, from.x, to.x),
    }
}

/// "equal x gives a vertical. Else [...] with offset > 0 the first leg has a
/// trunk to it; crossing; vertical to the next point. Every later leg
/// strokes the vertical at its own start."
fn ink_multi_segment_y(image: &Image, edge: &Edge, ink: &mut Ink) {
    for leg in edge.multi_segment_legs(image) {
        let (start, end) = (leg.start, leg.end);
        match edge.corner_of(&leg) {
            None => ink.vertical_between(start.x, start.y, end.y),
            Some(corner_row) => {
                if leg.is_first && edge.c > 0 {
                    ink.vertical_between(start.x, start.y, corner_row);
                }
                ink.crossing_on_row(corner_row, start.x, end.x);
                ink.vertical_between(end.x, corner_row, end.y);
            }
        }
        if !leg.is_first {
            ink.write(start);
        }
    }
}

/// The same on X flow: equal y gives a horizontal, and the corner is a
/// column.
fn ink_multi_segment_x(image: &Image, edge: &Edge, ink: &mut Ink) {
    for leg in edge.multi_segment_legs(image) {
        let (start, end) = (leg.start, leg.end);
        match edge.corner_of(&leg) {
            None => ink.horizontal_between(start.y, start.x, end.x),
            Some(corner_column) => {
                if leg.is_first && edge.c > 0 {
                    ink.horizontal_between(start.y, start.x, corner_column);
                }
                ink.crossing_in_column(corner_column, start.y, end.y);
                ink.horizontal_between(end.y, corner_column, end.x);
            }
        }
        if !leg.is_first {
            ink.write(start);
        }
    }
}

/// "skip repeated points; slanted legs paint no interior"; every bend is a
/// stroke or a marker, and so is every cell inside a straight leg.
fn ink_orthogonal(all_points: &[Point], ink: &mut Ink) {
    let mut points = all_points.to_vec();
    points.dedup();
    for (nth, leg) in points.windows(2).enumerate() {
        let (start, end) = (leg[0], leg[1]);
        if nth > 0 {
            ink.write(start);
        }
        if start.x == end.x {
            ink.vertical_between(start.x, start.y, end.y);
        } else if start.y == end.y {
            ink.horizontal_between(start.y, start.x, end.x);
        }
    }
}

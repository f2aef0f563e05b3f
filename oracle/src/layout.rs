//! The numbers of document 01's "The sheet image": how long the parts are, what
//! they may be at most, and where each flag stands.

pub const HEADER_WORDS: usize = 12;

/// "Coordinates, extents, rows and offsets are at most 32,767."
pub const COORDINATE_LIMIT: u32 = 32_767;

/// The highest code point, for glyphs and for the ends of width ranges.
pub const CODE_POINT_LIMIT: u32 = 0x10_FFFF;

/// Place of the run capacity, which is also the place of refusal 10.
pub const RUN_CAPACITY_WORD: usize = 2;

/// Place of the header's flags: two bits from bit 31 down, the rest spare.
pub const HEADER_FLAGS_WORD: usize = 3;
pub const SHOW_DUMMIES_BIT: u32 = 1 << 30;

/// What each header number may be at most. The flags word has no such limit;
/// its spare bits are looked at apart.
pub const HEADER_LIMITS: [u32; HEADER_WORDS] = [
    1_024,
    32_767,
    16_384,
    u32::MAX,
    1_024,
    1_024,
    1_024,
    1_024,
    3_072,
    8_192,
    16_384,
    1_024,
];

/// The header's first count; the counts stand in the order of the tables.
pub const FIRST_COUNT_WORD: usize = 4;

/// The tables "follow in that order". The first three are also the kinds of
/// elements: "0 Node, 1 Edge, 2 Subgraph".
pub const NODES: usize = 0;
pub const EDGES: usize = 1;
pub const SUBGRAPHS: usize = 2;
pub const PLACED_LABELS: usize = 3;
pub const ELEMENTS: usize = 4;
pub const POINTS: usize = 5;
pub const GLYPHS: usize = 6;
pub const WIDTH_RANGES: usize = 7;
pub const TABLES: usize = 8;

pub const TABLE_NAMES: [&str; TABLES] = [
    "nodes",
    "edges",
    "subgraphs",
    "placed labels",
    "elements",
    "points",
    "glyphs",
    "width ranges",
];

/// Words of one record, for each table.
pub const RECORD_WORDS: [usize; TABLES] = [9, 12, 8, 4, 4, 2, 1, 3];

/// The numbers of the path kinds in an edge's flags.
pub const DIRECT: u32 = 0;
pub const CORNER: u32 = 1;
pub const SIDE_CHANNEL: u32 = 2;
pub const MULTI_SEGMENT: u32 = 3;
pub const ORTHOGONAL: u32 = 4;
pub const SPLINE: u32 = 5;

/// By these numbers.
pub const PATH_NAMES: [&str; 6] = [
    "Direct",
    "Corner",
    "SideChannel",
    "MultiSegment",
    "Orthogonal",
    "Spline",
];

pub const X_FLOW_BIT: u32 = 1 << 28;
pub const REVERSED_BIT: u32 = 1 << 27;
pub const START_MARKER_BIT: u32 = 1 << 26;
pub const END_MARKER_BIT: u32 = 1 << 25;
pub const LABEL_PRESENT_BIT: u32 = 1 << 22;

/// Flags of an edge that has this path and is Light, all else being 0.
pub const fn path_flags(path: u32) -> u32 {
    path << 29 | 2 << 23
}

/// The numbers of the node kinds in a node's flags.
pub const SIMPLE: u32 = 0;
pub const BOXED: u32 = 1;
pub const BLANK: u32 = 2;
pub const DUMMY: u32 = 3;

pub const SELF_LOOP_BIT: u32 = 1 << 29;

/// In a subgraph's flags: "label position 1 bit, 0 InsideTop, 1 InsideBottom".
pub const INSIDE_BOTTOM_BIT: u32 = 1 << 29;

/// "Room: width × rows words each, scratch 8 × run capacity + elements", in the order
/// cells, colours, stamps, scratch. A word that the image lacks is 0.
#[cfg(original)]
pub fn room(words: &[u32], rows: usize) -> [usize; 4] {
    let [width, _, run_part, element_part] = room_numbers(words);
    let plane = width * rows;
    [plane, plane, plane, run_part + element_part]
}

/// "Cells, colours and stamps need width × height words, scratch twice 01's element part
/// besides its run part", in the same order.
#[cfg(original)]
pub fn sheet_room(words: &[u32]) -> [usize; 4] {
    let [width, height, run_part, element_part] = room_numbers(words);
    let plane = width * height;
    [plane, plane, plane, run_part + 2 * element_part]
}

/// Width, height, and the two parts of the scratch.
#[cfg(original)]
fn room_numbers(words: &[u32]) -> [usize; 4] {
    let head = |place: usize| words.get(place).copied().unwrap_or(0) as usize;
    let elements = head(FIRST_COUNT_WORD + ELEMENTS);
    [head(0), head(1), 8 * head(RUN_CAPACITY_WORD), elements]
}

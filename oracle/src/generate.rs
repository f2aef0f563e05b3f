//! Random sheet images and random damage to them, each decided by its seed.
//!
//! The images are of every kind that document 01 describes. Most are
//! accepted: their element list is made from the rows that the slow check
//! finds touched.

pub mod controls;

use crate::codes::{Meant, Target};
use crate::dice::Dice;
use crate::draft::{edge_record, Draft};
use crate::layout::{
    path_flags, BLANK, BOXED, CODE_POINT_LIMIT, COORDINATE_LIMIT, CORNER, DIRECT, EDGES, ELEMENTS,
    FIRST_COUNT_WORD, GLYPHS, HEADER_FLAGS_WORD, HEADER_LIMITS, HEADER_WORDS, INSIDE_BOTTOM_BIT,
    LABEL_PRESENT_BIT, MULTI_SEGMENT, NODES, ORTHOGONAL, PLACED_LABELS, POINTS, RECORD_WORDS,
    RUN_CAPACITY_WORD, SELF_LOOP_BIT, SIDE_CHANNEL, SIMPLE, SPLINE, SUBGRAPHS, TABLES,
    WIDTH_RANGES, X_FLOW_BIT,
};
use crate::slow_check::{all_touched_rows, slow_check, touched_rows, Answer};
use controls::{put_controls, sometimes_put_controls};

fn answer_to(draft: &Draft) -> Answer {
    slow_check(&draft.to_words())
}

// ---- Random images -------------------------------------------------------

/// An image of any kind; the same one for the same seed.
pub fn random_image(seed: u64) -> Vec<u32> {
    let mut dice = Dice::new(seed);
    random_draft(&mut dice).to_words()
}

fn random_draft(dice: &mut Dice) -> Draft {
    let mut draft = random_sheet(dice);
    let crowd = random_crowd(dice);
    add_width_ranges(dice, &mut draft);
    for _ in 0..dice.below(crowd) {
        add_node(dice, &mut draft);
    }
    for _ in 0..dice.below(crowd) {
        add_edge(dice, &mut draft);
    }
    for _ in 0..dice.below(crowd / 2 + 1) {
        add_subgraph(dice, &mut draft);
    }
    for _ in 0..dice.below(crowd) {
        add_placed_label(dice, &mut draft);
    }
    // A corner below 0 is left in now and then: it is refusal 6.
    if dice.percent(95) {
        lift_corners(&mut draft);
    }
    list_things(dice, &mut draft);
    set_run_capacity(dice, &mut draft);
    // At the end: a sheet that is refused for them has no rows to be listed for.
    sometimes_put_controls(dice, &mut draft);
    draft
}

/// Never both the greatest width and the greatest height: such a sheet is
/// dear to paint and shows nothing that a smaller one does not.
fn random_sheet(dice: &mut Dice) -> Draft {
    let mut width = dice.below(41);
    let mut height = dice.below(61);
    match dice.below(200) {
        0 => height = COORDINATE_LIMIT,
        1..=3 => height = 1_024,
        4..=9 => width = 1_024,
        10..=29 => width = dice.below(3),
        30..=49 => height = dice.below(3),
        _ => {}
    }
    let mut draft = Draft::blank_sheet(width, height);
    draft.head[HEADER_FLAGS_WORD] = dice.below(4) << 30;
    draft
}

/// How many things of each kind there may be, roughly.
fn random_crowd(dice: &mut Dice) -> u32 {
    match dice.below(400) {
        0 => 120,
        1..=20 => 40,
        21..=80 => 2,
        _ => 9,
    }
}

/// Mostly on the sheet or just beside it, sometimes to its right or below
/// it, seldom far off.
fn random_coordinate(dice: &mut Dice, extent: u32) -> u32 {
    let coordinate = match dice.below(100) {
        0..=2 => COORDINATE_LIMIT - dice.below(3),
        3 => dice.below(COORDINATE_LIMIT + 1),
        4..=12 => extent + dice.below(12),
        13..=20 => dice.below(3),
        21..=28 => extent.saturating_sub(1),
        _ => dice.below(extent.min(80) + 3),
    };
    coordinate.min(COORDINATE_LIMIT)
}

fn random_x(dice: &mut Dice, draft: &Draft) -> u32 {
    random_coordinate(dice, draft.head[0])
}

fn random_y(dice: &mut Dice, draft: &Draft) -> u32 {
    random_coordinate(dice, draft.head[1])
}

fn random_point(dice: &mut Dice, draft: &Draft) -> (u32, u32) {
    (random_x(dice, draft), random_y(dice, draft))
}

/// The width or height of a node or subgraph, small values above all: the
/// rules part at 1, 2, 3 and 4.
fn random_extent(dice: &mut Dice) -> u32 {
    match dice.below(50) {
        0 => COORDINATE_LIMIT - dice.below(2),
        1..=20 => dice.below(6),
        _ => dice.below(16),
    }
}

/// At the edges of the kinds of sequences by which a text shows colours, and of how many
/// digits these have.
pub const EDGE_COLOURS: [u32; 16] = [
    1,
    7,
    8,
    9,
    10,
    99,
    100,
    255,
    256,
    0x0009_0A63,
    0x0064_FF00,
    0x00FF_FFFF,
    0x0100_0000,
    0xFF00_0001,
    u32::MAX,
    0,
];

/// Any colour, often one of these.
fn random_colour(dice: &mut Dice) -> u32 {
    match dice.below(4) {
        0 => 0,
        1 => dice.pick(&EDGE_COLOURS),
        2 => dice.below(256),
        _ => dice.any_word(),
    }
}

// ---- Glyphs and their widths ---------------------------------------------

/// Any glyph, mostly ones which the likely ranges make wide or of width 0, which
/// the painters write themselves, which stand just beside what is no glyph, or at which
/// another number of bytes begins.
fn random_glyph(dice: &mut Dice) -> u32 {
    const NOTABLE: [u32; 22] = [
        0x6F22, 0x5B57, 0x0301, 0x0308, 0x200D, 0xAC00, 0x1F600, 0x0020, 0x0022, 0x005B, 0x005D,
        0x007E, 0x00A0, 0x00A1, 0xD7FF, 0xE000, 0x10FFFF, 0x2500, 0x07FF, 0x0800, 0xFFFF, 0x10000,
    ];
    match dice.below(10) {
        0..=4 => 0x20 + dice.below(0x5F),
        5..=7 => dice.pick(&NOTABLE),
        8 => 0xA0 + dice.below(0xD800 - 0xA0),
        _ => 0xE000 + dice.below(CODE_POINT_LIMIT - 0xE000 + 1),
    }
}

/// A span of the glyph table: mostly fresh glyphs, sometimes a part already
/// there, sometimes empty at the very end of the table.
fn random_label(dice: &mut Dice, draft: &mut Draft) -> (u32, u32) {
    let size = draft.count(GLYPHS);
    if dice.one_in(6) {
        let start = dice.below(size + 1);
        return (start, dice.below((size - start).min(20) + 1));
    }
    let longest = if dice.one_in(10) { 30 } else { 8 };
    let count = dice.below(longest);
    for _ in 0..count {
        draft.tables[GLYPHS].push(vec![random_glyph(dice)]);
    }
    (size, count)
}

/// Ranges in order, disjoint, touching now and then, and without the four
/// characters that no range may hold.
fn add_width_ranges(dice: &mut Dice, draft: &mut Draft) {
    if dice.one_in(5) {
        return;
    }
    let mut candidates = likely_ranges(dice);
    let others = if dice.one_in(300) { 3_000 } else { 6 };
    for _ in 0..dice.below(others) {
        candidates.push(random_range(dice));
    }
    candidates.sort();
    let mut free_from = 0;
    for range in candidates {
        let holds_fixed = [0x20, 0x22, 0x5B, 0x5D]
            .iter()
            .any(|fixed| range[0] <= *fixed && *fixed <= range[1]);
        if range[0] >= free_from && !holds_fixed && draft.has_room(WIDTH_RANGES) {
            free_from = range[1] + 1;
            draft.tables[WIDTH_RANGES].push(range);
        }
    }
}

fn likely_ranges(dice: &mut Dice) -> Vec<Vec<u32>> {
    const LIKELY: [[u32; 3]; 13] = [
        // Control characters are no glyphs, but a range may hold them.
        [0x0000, 0x001F, 0],
        [0x0041, 0x0045, 2],
        [0x0061, 0x0063, 0],
        [0x007E, 0x00A0, 2],
        [0x0300, 0x036F, 0],
        [0x1100, 0x115F, 2],
        [0x200B, 0x200F, 0],
        [0x4E00, 0x9FFF, 2],
        [0xAC00, 0xD7A3, 2],
        // Nor are surrogates.
        [0xD800, 0xDFFF, 0],
        [0xFE00, 0xFE0F, 0],
        [0x1F300, 0x1F64F, 2],
        [0x10FFFF, 0x10FFFF, 2],
    ];
    let mut chosen = Vec::new();
    for range in LIKELY {
        if dice.percent(60) {
            chosen.push(range.to_vec());
        }
    }
    chosen
}

fn random_range(dice: &mut Dice) -> Vec<u32> {
    let first = if dice.percent(50) {
        dice.below(0x400)
    } else {
        dice.below(CODE_POINT_LIMIT + 1)
    };
    let last = (first + dice.below(40)).min(CODE_POINT_LIMIT);
    vec![first, last, 2 * dice.below(2)]
}

// ---- Nodes, subgraphs, placed labels -------------------------------------

fn add_node(dice: &mut Dice, draft: &mut Draft) {
    let (x, y) = random_point(dice, draft);
    let (width, height) = (random_extent(dice), random_extent(dice));
    let (label_start, label_count) = random_label(dice, draft);
    let mut flags = dice.below(4) << 30;
    let (mut loop_x, mut loop_y) = (0, 0);
    if dice.one_in(4) {
        flags |= SELF_LOOP_BIT;
        (loop_x, loop_y) = random_point(dice, draft);
    }
    draft.tables[NODES].push(vec![
        x,
        y,
        width,
        height,
        label_start,
        label_count,
        flags,
        loop_x,
        loop_y,
    ]);
}

fn add_subgraph(dice: &mut Dice, draft: &mut Draft) {
    let (x, y) = random_point(dice, draft);
    let (width, height) = (random_extent(dice), random_extent(dice));
    let (label_start, label_count) = random_label(dice, draft);
    // Border and label position, every combination.
    let flags = dice.below(8) << 29;
    draft.tables[SUBGRAPHS].push(vec![
        x,
        y,
        width,
        height,
        label_start,
        label_count,
        flags,
        random_colour(dice),
    ]);
}

fn add_placed_label(dice: &mut Dice, draft: &mut Draft) {
    let edges = draft.count(EDGES);
    if edges == 0 {
        return;
    }
    let (x, y) = random_point(dice, draft);
    let edge = dice.below(edges);
    let flags = dice.below(4) << 30;
    draft.tables[PLACED_LABELS].push(vec![edge, x, y, flags]);
}

// ---- Edges ---------------------------------------------------------------

fn add_edge(dice: &mut Dice, draft: &mut Draft) {
    let from = random_point(dice, draft);
    let mut to = random_point(dice, draft);
    match dice.below(8) {
        0 => to.0 = from.0,
        1 => to.1 = from.1,
        2 => to = from,
        _ => {}
    }
    let path = dice.below(SPLINE + 1);
    let weight = 1 + dice.below(3);
    let axis_reversed_markers = dice.below(16);
    let mut flags = path << 29 | axis_reversed_markers << 25 | weight << 23;
    let [a, b, c] = random_path_fields(dice, draft, flags, [from, to]);
    let (mut label_start, mut label_count) = (0, 0);
    if dice.percent(60) {
        flags |= LABEL_PRESENT_BIT;
        (label_start, label_count) = random_label(dice, draft);
    }
    draft.tables[EDGES].push(vec![
        from.0,
        from.1,
        to.0,
        to.1,
        flags,
        a,
        b,
        c,
        label_start,
        label_count,
        random_colour(dice),
        random_colour(dice),
    ]);
}

/// The fields a, b and c for the path in these flags.
fn random_path_fields(
    dice: &mut Dice,
    draft: &mut Draft,
    flags: u32,
    ends: [(u32, u32); 2],
) -> [u32; 3] {
    let on_x_flow = flags & X_FLOW_BIT != 0;
    match flags >> 29 {
        CORNER => [random_bend(dice, draft, on_x_flow, ends), 0, 0],
        SIDE_CHANNEL => {
            let channel = random_channel(dice, draft, on_x_flow, ends);
            let span_start = random_bend(dice, draft, on_x_flow, ends);
            let span_end = random_bend(dice, draft, on_x_flow, ends);
            [channel, span_start, span_end]
        }
        MULTI_SEGMENT => {
            let (first_point, count) = random_points(dice, draft, ends[0]);
            [first_point, count, random_offset(dice)]
        }
        ORTHOGONAL => {
            let (first_point, count) = random_points(dice, draft, ends[0]);
            [first_point, count, 0]
        }
        _ => [0; 3],
    }
}

/// A row on Y flow, a column on X flow; often beside the source, where the
/// corner arrow is decided, or beside the target.
fn random_bend(dice: &mut Dice, draft: &Draft, on_x_flow: bool, ends: [(u32, u32); 2]) -> u32 {
    let near = if dice.one_in(4) { ends[1] } else { ends[0] };
    let coordinate = if on_x_flow { near.0 } else { near.1 };
    if dice.percent(40) {
        return (coordinate + dice.below(5))
            .saturating_sub(2)
            .min(COORDINATE_LIMIT);
    }
    if on_x_flow {
        random_x(dice, draft)
    } else {
        random_y(dice, draft)
    }
}

/// A column on Y flow, a row on X flow; sometimes that of the source or of
/// the target, where a crossing falls away.
fn random_channel(dice: &mut Dice, draft: &Draft, on_x_flow: bool, ends: [(u32, u32); 2]) -> u32 {
    let end = ends[dice.index(ends.len())];
    match (dice.one_in(4), on_x_flow) {
        (true, true) => end.1,
        (true, false) => end.0,
        (false, true) => random_y(dice, draft),
        (false, false) => random_x(dice, draft),
    }
}

fn random_offset(dice: &mut Dice) -> u32 {
    match dice.below(40) {
        0 => COORDINATE_LIMIT - dice.below(2),
        1..=18 => 0,
        _ => dice.below(6),
    }
}

/// A span of points: mostly fresh ones, each following from the one before
/// it, sometimes a part of the table already there.
fn random_points(dice: &mut Dice, draft: &mut Draft, from: (u32, u32)) -> (u32, u32) {
    let size = draft.count(POINTS);
    if dice.one_in(8) {
        let start = dice.below(size + 1);
        return (start, dice.below((size - start).min(12) + 1));
    }
    let most = if dice.one_in(12) { 14 } else { 5 };
    let count = dice.below(most);
    let mut previous = from;
    for _ in 0..count {
        previous = random_next_point(dice, draft, previous);
        draft.tables[POINTS].push(vec![previous.0, previous.1]);
    }
    (size, count)
}

/// Straight on in either axis, by one cell, not at all, or slanted.
fn random_next_point(dice: &mut Dice, draft: &Draft, previous: (u32, u32)) -> (u32, u32) {
    let (x, y) = random_point(dice, draft);
    match dice.below(10) {
        0 => previous,
        1 => ((previous.0 + 1).min(COORDINATE_LIMIT), previous.1),
        2 => (previous.0, previous.1.saturating_sub(1)),
        3..=5 => (x, previous.1),
        6..=8 => (previous.0, y),
        _ => (x, y),
    }
}

/// Takes the corners of MultiSegment edges off the ground: without offset, a
/// corner is below 0 only next to a point at 0 along the flow. Each round
/// raises a point or clears an offset, so there are few rounds.
fn lift_corners(draft: &mut Draft) {
    let mut answer = answer_to(draft);
    while answer.code == 6 {
        let words_before = answer.place - draft.place(EDGES, 0, 0);
        let index = words_before as usize / RECORD_WORDS[EDGES];
        let edge = &mut draft.tables[EDGES][index];
        edge[7] = 0;
        let along_the_flow = if edge[4] & X_FLOW_BIT != 0 { 0 } else { 1 };
        let (first_point, count) = (edge[5] as usize, edge[6] as usize);
        for point in &mut draft.tables[POINTS][first_point..first_point + count] {
            point[along_the_flow] = point[along_the_flow].max(1);
        }
        answer = answer_to(draft);
    }
}

// ---- The element list ----------------------------------------------------

/// Lists what touches the sheet, with exactly its rows or wider ones; what
/// touches nothing is listed sometimes.
fn list_things(dice: &mut Dice, draft: &mut Draft) {
    for (kind, index, touched) in all_touched_rows(&draft.to_words()) {
        match touched {
            Some(rows) => {
                let (first_row, last_row) = random_cover(dice, rows);
                draft.list(kind, index, first_row, last_row);
            }
            None if dice.percent(40) => {
                let first_row = random_y(dice, draft);
                let last_row = (first_row + random_extent(dice)).min(COORDINATE_LIMIT);
                draft.list(kind, index, first_row, last_row);
            }
            None => {}
        }
    }
    shuffle(dice, &mut draft.tables[ELEMENTS]);
    draft.sort_elements();
}

fn random_cover(dice: &mut Dice, rows: (u32, u32)) -> (u32, u32) {
    let (mut first_row, mut last_row) = rows;
    if dice.one_in(4) {
        first_row = first_row.saturating_sub(dice.below(5));
    }
    if dice.one_in(4) {
        last_row = (last_row + dice.below(5)).min(COORDINATE_LIMIT);
    }
    match dice.below(30) {
        0 => first_row = 0,
        1 => last_row = COORDINATE_LIMIT,
        _ => {}
    }
    (first_row, last_row)
}

/// Elements of one first row may stand in any order.
fn shuffle(dice: &mut Dice, records: &mut [Vec<u32>]) {
    for place in (1..records.len()).rev() {
        records.swap(place, dice.index(place + 1));
    }
}

/// At least the run count, which the slow check tells where the capacity is
/// no hindrance.
fn set_run_capacity(dice: &mut Dice, draft: &mut Draft) {
    let most = HEADER_LIMITS[RUN_CAPACITY_WORD];
    draft.head[RUN_CAPACITY_WORD] = most;
    let runs = answer_to(draft).runs;
    draft.head[RUN_CAPACITY_WORD] = match dice.below(10) {
        0 => most,
        1..=3 => (runs + dice.below(5)).min(most),
        _ => runs,
    };
}

// ---- Damage --------------------------------------------------------------

/// Values at which some rule of the check changes its answer.
const BOUNDARY_VALUES: [u32; 32] = [
    0,
    1,
    2,
    3,
    9,
    0x1F,
    0x20,
    0x7E,
    0x7F,
    0x9F,
    0xA0,
    1_023,
    1_024,
    1_025,
    3_072,
    3_073,
    8_192,
    8_193,
    16_384,
    16_385,
    32_766,
    32_767,
    32_768,
    0xD7FF,
    0xD800,
    0xDFFF,
    0xE000,
    CODE_POINT_LIMIT,
    CODE_POINT_LIMIT + 1,
    0x8000_0000,
    u32::MAX - 1,
    u32::MAX,
];

/// So many random damages.
pub fn damage(words: &mut Vec<u32>, times: u32, seed: u64) {
    let mut dice = Dice::new(seed ^ 0xDA3A_6E00);
    for _ in 0..times {
        match dice.below(14) {
            0 | 1 => set_a_word(&mut dice, words),
            2 | 3 => flip_a_bit(&mut dice, words),
            4 => change_the_length(&mut dice, words),
            5 => change_a_count(&mut dice, words),
            _ => damage_a_record(&mut dice, words),
        }
    }
}

fn set_a_word(dice: &mut Dice, words: &mut [u32]) {
    if words.is_empty() {
        return;
    }
    let place = dice.index(words.len());
    words[place] = match dice.below(6) {
        0 => dice.any_word(),
        1 => dice.below(64),
        _ => dice.pick(&BOUNDARY_VALUES),
    };
}

fn flip_a_bit(dice: &mut Dice, words: &mut [u32]) {
    if words.is_empty() {
        return;
    }
    let place = dice.index(words.len());
    words[place] ^= 1 << dice.below(32);
}

fn change_the_length(dice: &mut Dice, words: &mut Vec<u32>) {
    match dice.below(4) {
        0 => words.truncate(dice.index(HEADER_WORDS)),
        1 => words.truncate(dice.index(words.len() + 1)),
        2 => words.truncate(words.len().saturating_sub(1 + dice.index(12))),
        _ => {
            for _ in 0..1 + dice.below(12) {
                words.push(dice.any_word());
            }
        }
    }
}

/// A count by one up or down, or at its limit, or just over it.
fn change_a_count(dice: &mut Dice, words: &mut [u32]) {
    let place = FIRST_COUNT_WORD + dice.index(TABLES);
    let Some(count) = words.get_mut(place) else {
        return;
    };
    *count = match dice.below(5) {
        0 => count.wrapping_add(1),
        1 => count.wrapping_sub(1),
        2 => HEADER_LIMITS[place],
        3 => HEADER_LIMITS[place] + 1,
        _ => dice.any_word(),
    };
}

/// A damage which keeps the length in step with the counts, so that the
/// later rules get to speak.
fn damage_a_record(dice: &mut Dice, words: &mut Vec<u32>) {
    let Some(mut draft) = Draft::from_words(words) else {
        return flip_a_bit(dice, words);
    };
    match dice.below(13) {
        0 | 1 => narrow_an_element(dice, &mut draft),
        2 => repeat_an_element(dice, &mut draft),
        3 => remove_an_element(dice, &mut draft),
        4 => reorder_elements(dice, &mut draft),
        5 | 6 => disorder_a_width_range(dice, &mut draft),
        7 => push_a_corner_below_zero(dice, &mut draft),
        8 => lower_the_run_capacity(dice, &mut draft),
        9 => move_a_span_out(dice, &mut draft),
        10 => remove_a_record(dice, &mut draft),
        11 => {
            put_controls(dice, &mut draft);
        }
        _ => raise_the_height(dice, &mut draft),
    }
    *words = draft.to_words();
}

fn random_record<'a>(
    dice: &mut Dice,
    draft: &'a mut Draft,
    table: usize,
) -> Option<&'a mut Vec<u32>> {
    let records = &mut draft.tables[table];
    let place = dice.index(records.len());
    records.get_mut(place)
}

fn narrow_an_element(dice: &mut Dice, draft: &mut Draft) {
    let words = draft.to_words();
    let lacks_first = dice.one_in(2);
    let by_one_touched_row = dice.percent(80);
    let Some(element) = random_record(dice, draft, ELEMENTS) else {
        return;
    };
    match touched_rows(&words, element[0], element[1]) {
        Some(touched) if by_one_touched_row => {
            (element[2], element[3]) = just_short_of(touched, lacks_first);
        }
        _ if lacks_first => element[2] = element[2].saturating_add(1),
        _ => element[3] = element[3].saturating_sub(1),
    }
    // Mostly back in order, so that rule 9 decides and not rule 8.
    if dice.percent(80) {
        draft.sort_elements();
    }
}

/// Rows for a listing that lacks only the first or only the last touched
/// row: a check that misses a single stroke there takes it for complete.
fn just_short_of(touched: (u32, u32), lacks_first: bool) -> (u32, u32) {
    let (first, last) = touched;
    if lacks_first || last == 0 {
        (first + 1, last.max(first + 1))
    } else {
        (first.min(last - 1), last - 1)
    }
}

fn repeat_an_element(dice: &mut Dice, draft: &mut Draft) {
    let Some(element) = random_record(dice, draft, ELEMENTS) else {
        return;
    };
    let again = element.clone();
    let place = dice.index(draft.tables[ELEMENTS].len() + 1);
    draft.tables[ELEMENTS].insert(place, again);
    if dice.percent(50) {
        draft.sort_elements();
    }
}

fn remove_an_element(dice: &mut Dice, draft: &mut Draft) {
    let elements = &mut draft.tables[ELEMENTS];
    if !elements.is_empty() {
        elements.remove(dice.index(elements.len()));
    }
}

fn reorder_elements(dice: &mut Dice, draft: &mut Draft) {
    let elements = &mut draft.tables[ELEMENTS];
    let one = dice.index(elements.len());
    let other = dice.index(elements.len());
    if elements.is_empty() {
        return;
    }
    match dice.below(3) {
        0 => elements[one].swap(2, 3),
        1 => elements.reverse(),
        _ => elements.swap(one, other),
    }
}

fn disorder_a_width_range(dice: &mut Dice, draft: &mut Draft) {
    if draft.tables[WIDTH_RANGES].is_empty() {
        draft.tables[WIDTH_RANGES].push(vec![0x300, 0x301, 0]);
    }
    let way = dice.below(6);
    let places = draft.tables[WIDTH_RANGES].len();
    let (one, other) = (dice.index(places), dice.index(places));
    let fixed = dice.pick(&[0x20, 0x22, 0x5B, 0x5D]);
    let ranges = &mut draft.tables[WIDTH_RANGES];
    match way {
        0 => ranges[one].swap(0, 1),
        1 => ranges.swap(one, other),
        2 => ranges[one][0] = ranges[one][0].saturating_sub(dice.below(0x400)),
        3 => ranges[one][1] = ranges[one][1].saturating_add(dice.below(0x400)),
        4 => ranges.insert(0, vec![fixed, fixed, 2 * dice.below(2)]),
        _ => {
            let again = ranges[one].clone();
            ranges.insert(one, again);
        }
    }
}

/// Turns an edge against the flow and gives it a corner before row or
/// column 0, by its offset or by a point at 0.
fn push_a_corner_below_zero(dice: &mut Dice, draft: &mut Draft) {
    let by_offset = dice.one_in(2);
    let on_x_flow = dice.one_in(2);
    let first_point = draft.count(POINTS);
    let short_of_it = u32::from(dice.one_in(4));
    let Some(edge) = random_record(dice, draft, EDGES) else {
        return;
    };
    edge[..4].copy_from_slice(&[5, 5, 3, 3]);
    let other_flags = edge[4] & 0x0FFF_FFFF;
    edge[4] = MULTI_SEGMENT << 29 | u32::from(on_x_flow) << 28 | other_flags;
    if by_offset {
        // The corner is at 5 - 1 - offset: just below 0, or just not.
        edge[5..8].copy_from_slice(&[0, 0, 5 - short_of_it]);
    } else {
        edge[5..8].copy_from_slice(&[first_point, 1, 0]);
        draft.tables[POINTS].push(vec![short_of_it, short_of_it]);
    }
}

fn lower_the_run_capacity(dice: &mut Dice, draft: &mut Draft) {
    let capacity = &mut draft.head[RUN_CAPACITY_WORD];
    *capacity = match dice.below(3) {
        0 => 0,
        1 => capacity.saturating_sub(1),
        _ => capacity.saturating_sub(4),
    };
}

/// A span whose start and count leave the table, also such that their sum
/// would come out small at 32 bits.
fn move_a_span_out(dice: &mut Dice, draft: &mut Draft) {
    let (table, field, spanned) = match dice.below(4) {
        0 => (NODES, 4, GLYPHS),
        1 => (SUBGRAPHS, 4, GLYPHS),
        2 => (EDGES, 8, GLYPHS),
        _ => (EDGES, 5, POINTS),
    };
    let size = draft.count(spanned);
    let way = dice.below(5);
    let little = dice.below(3);
    let Some(record) = random_record(dice, draft, table) else {
        return;
    };
    let (start, count) = (record[field], record[field + 1]);
    (record[field], record[field + 1]) = match way {
        0 => (0u32.wrapping_sub(count), count),
        1 => (start, 0u32.wrapping_sub(start)),
        2 => (u32::MAX, 1 + little),
        3 => (size, little),
        _ => (size.wrapping_add(1).wrapping_sub(count), count),
    };
}

/// What named a later record now names another, or none.
fn remove_a_record(dice: &mut Dice, draft: &mut Draft) {
    let records = &mut draft.tables[dice.index(TABLES)];
    if !records.is_empty() {
        records.remove(dice.index(records.len()));
    }
}

/// What was below the sheet is on it now.
fn raise_the_height(dice: &mut Dice, draft: &mut Draft) {
    let height = draft.head[1].saturating_add(1 + dice.below(40));
    draft.head[1] = height.min(COORDINATE_LIMIT);
}

// ---- Images for each code ------------------------------------------------

/// Images together with what each must get: the code, for code 13 the place too. It
/// follows from how the image was made out of an accepted one.
pub fn code_targets(seed: u64) -> Vec<Target> {
    let mut dice = Dice::new(seed ^ 0x7A26_E700);
    let base = accepted_base(&mut dice);
    let mut coded = vec![(0, base.to_words())];
    let mut add = |code: u32, images: Vec<Vec<u32>>| {
        coded.extend(images.into_iter().map(|image| (code, image)));
    };
    add(1, targets_of_code_1(&mut dice, &base));
    add(2, targets_of_code_2(&mut dice, &base));
    add(3, targets_of_code_3(&mut dice, &base));
    add(4, targets_of_code_4_records(&mut dice, &base));
    add(4, targets_of_code_4_spans(&base));
    add(5, targets_of_code_5(&mut dice, &base));
    add(6, targets_of_code_6(&base));
    add(7, targets_of_code_7(&mut dice, &base));
    add(8, targets_of_code_8(&base));
    add(9, targets_of_code_9_by_one_row(&base));
    add(10, targets_of_code_10(&base));
    add(0, vec![listed_exactly(&base).to_words()]);
    coded.extend(targets_by_hand(&base));
    coded.extend(targets_at_the_limits(&base));
    coded.extend(targets_named_in_the_text());
    let coded = coded.into_iter();
    let targets = coded.map(|(code, image)| (Meant::code(code), image));
    targets.chain(controls::targets(&mut dice, &base)).collect()
}

/// An accepted image of at least four rows that has room in every table.
fn accepted_base(dice: &mut Dice) -> Draft {
    for _ in 0..1_000 {
        let draft = random_draft(dice);
        let has_room = (0..TABLES).all(|table| draft.has_room(table));
        if draft.head[1] >= 4 && has_room && answer_to(&draft).code == 0 {
            return draft;
        }
    }
    Draft::blank_sheet(8, 8)
}

fn changed(base: &Draft, change: impl FnOnce(&mut Draft)) -> Vec<u32> {
    let mut draft = base.clone();
    change(&mut draft);
    draft.to_words()
}

fn with_record(base: &Draft, table: usize, record: &[u32]) -> Vec<u32> {
    changed(base, |draft| draft.tables[table].push(record.to_vec()))
}

fn targets_of_code_1(dice: &mut Dice, base: &Draft) -> Vec<Vec<u32>> {
    let mut cut = base.to_words();
    cut.truncate(dice.index(HEADER_WORDS));
    let mut longest = base.to_words();
    longest.truncate(HEADER_WORDS - 1);
    vec![Vec::new(), cut, longest, vec![u32::MAX; 11]]
}

fn targets_of_code_2(dice: &mut Dice, base: &Draft) -> Vec<Vec<u32>> {
    let words = base.to_words();
    let mut images = Vec::new();
    for place in 0..HEADER_WORDS {
        let bad_values = if place == HEADER_FLAGS_WORD {
            [1, 1 << 29, u32::MAX, 1 << dice.below(30)]
        } else {
            let over = HEADER_LIMITS[place] + 1;
            [over, u32::MAX, 1 << 31, over + dice.below(1_000)]
        };
        for bad_value in bad_values {
            let mut image = words.clone();
            image[place] = bad_value;
            images.push(image);
        }
    }
    images
}

fn targets_of_code_3(dice: &mut Dice, base: &Draft) -> Vec<Vec<u32>> {
    let words = base.to_words();
    let mut longer = words.clone();
    longer.extend((0..1 + dice.below(20)).map(|_| 0));
    let mut images = vec![longer];
    for table in 0..TABLES {
        let mut one_more = words.clone();
        one_more[FIRST_COUNT_WORD + table] += 1;
        images.push(one_more);
    }
    if words.len() > HEADER_WORDS {
        images.push(words[..words.len() - 1].to_vec());
        images.push(words[..HEADER_WORDS].to_vec());
    }
    images
}

/// A record that keeps every rule and makes no ink on any row, for each
/// table, so that only the field that is then spoilt can be at fault.
fn harmless_record(table: usize) -> Vec<u32> {
    match table {
        NODES => vec![0, 0, 0, 0, 0, 0, BLANK << 30, 0, 0],
        EDGES => edge_record([0; 4], path_flags(DIRECT), [0; 3]),
        SUBGRAPHS => vec![0; 8],
        GLYPHS => vec![0x20],
        WIDTH_RANGES => vec![CODE_POINT_LIMIT, CODE_POINT_LIMIT, 0],
        _ => vec![0; RECORD_WORDS[table]],
    }
}

/// Table, field and a value that the field may not have in a harmless
/// record.
fn bad_fields() -> Vec<(usize, usize, u32)> {
    let over = COORDINATE_LIMIT + 1;
    let mut bad = vec![
        (NODES, 6, SIMPLE << 30 | 1 << 28),
        (NODES, 7, 1),
        (NODES, 8, 1),
        (EDGES, 4, 0),
        (EDGES, 4, path_flags(6)),
        (EDGES, 4, path_flags(7)),
        (EDGES, 4, path_flags(DIRECT) | 1 << 21),
        (EDGES, 5, 1),
        (EDGES, 6, 1),
        (EDGES, 7, 1),
        (EDGES, 8, 1),
        (EDGES, 9, 1),
        (SUBGRAPHS, 6, 1 << 28),
        (PLACED_LABELS, 0, 1_024),
        (PLACED_LABELS, 3, 1 << 29),
        (ELEMENTS, 0, 3),
        (ELEMENTS, 0, u32::MAX),
        (ELEMENTS, 1, 1_024),
        (GLYPHS, 0, 0xD800),
        (GLYPHS, 0, 0xDFFF),
        (GLYPHS, 0, CODE_POINT_LIMIT + 1),
        (WIDTH_RANGES, 0, CODE_POINT_LIMIT + 1),
        (WIDTH_RANGES, 1, CODE_POINT_LIMIT + 1),
        (WIDTH_RANGES, 2, 1),
        (WIDTH_RANGES, 2, 3),
    ];
    let with_four_coordinates = [NODES, EDGES, SUBGRAPHS];
    for table in with_four_coordinates {
        bad.extend((0..4).map(|field| (table, field, over)));
    }
    bad.extend([(PLACED_LABELS, 1, over), (PLACED_LABELS, 2, over)]);
    bad.extend([(ELEMENTS, 2, over), (ELEMENTS, 3, over)]);
    bad.extend([(POINTS, 0, over), (POINTS, 1, over)]);
    bad
}

fn targets_of_code_4_records(dice: &mut Dice, base: &Draft) -> Vec<Vec<u32>> {
    let spoil = |(table, field, value): (usize, usize, u32)| {
        let mut record = harmless_record(table);
        record[field] = value;
        with_record(base, table, &record)
    };
    let mut images: Vec<Vec<u32>> = bad_fields().into_iter().map(spoil).collect();
    let over = COORDINATE_LIMIT + 1 + dice.below(1 << 31);
    let blank_with_loop = BLANK << 30 | SELF_LOOP_BIT;
    for (x, y) in [(over, 0), (0, over)] {
        let node = [0, 0, 0, 0, 0, 0, blank_with_loop, x, y];
        images.push(with_record(base, NODES, &node));
    }
    for (path, fields) in [
        (CORNER, [over, 0, 0]),
        (CORNER, [0, 1, 0]),
        (CORNER, [0, 0, 1]),
        (SIDE_CHANNEL, [over, 0, 0]),
        (SIDE_CHANNEL, [0, over, 0]),
        (SIDE_CHANNEL, [0, 0, over]),
        (MULTI_SEGMENT, [0, 0, over]),
        (ORTHOGONAL, [0, 0, 1]),
        (SPLINE, [1, 0, 0]),
    ] {
        images.push(with_record(
            base,
            EDGES,
            &edge_record([0; 4], path_flags(path), fields),
        ));
    }
    images
}

/// Spans that leave their table by one, by far, and by a sum that is 0 or 1
/// at 32 bits.
fn targets_of_code_4_spans(base: &Draft) -> Vec<Vec<u32>> {
    let leaving = |size: u32| {
        [
            (size, 1),
            (size + 1, 0),
            (0, size + 1),
            (u32::MAX, 1),
            (u32::MAX, 2),
            (1, u32::MAX),
            (0, u32::MAX),
            (1 << 31, 1 << 31),
        ]
    };
    let mut images = Vec::new();
    for (start, count) in leaving(base.count(GLYPHS)) {
        for table in [NODES, SUBGRAPHS] {
            let mut record = harmless_record(table);
            (record[4], record[5]) = (start, count);
            images.push(with_record(base, table, &record));
        }
        let mut edge = edge_record([0; 4], path_flags(DIRECT) | LABEL_PRESENT_BIT, [0; 3]);
        (edge[8], edge[9]) = (start, count);
        images.push(with_record(base, EDGES, &edge));
    }
    for (start, count) in leaving(base.count(POINTS)) {
        for path in [MULTI_SEGMENT, ORTHOGONAL] {
            let edge = edge_record([0; 4], path_flags(path), [start, count, 0]);
            images.push(with_record(base, EDGES, &edge));
        }
    }
    images
}

fn targets_of_code_5(dice: &mut Dice, base: &Draft) -> Vec<Vec<u32>> {
    let width = 2 * dice.below(2);
    let only = |ranges: &[[u32; 3]]| {
        changed(base, |draft| {
            draft.tables[WIDTH_RANGES] = ranges.iter().map(|range| range.to_vec()).collect();
        })
    };
    let mut images = vec![
        only(&[[0x301, 0x300, width]]),
        only(&[[0x300, 0x310, width], [0x310, 0x320, 2 - width]]),
        only(&[[0x300, 0x310, width], [0x2FF, 0x2FF, width]]),
        only(&[[0x300, 0x300, width], [0x300, 0x300, width]]),
        only(&[[0, CODE_POINT_LIMIT, width]]),
    ];
    for fixed in [0x20, 0x22, 0x5B, 0x5D] {
        images.push(only(&[[fixed, fixed, width]]));
        images.push(only(&[[fixed - 1, fixed, width]]));
        images.push(only(&[[0, 1, width], [fixed, fixed + 1, width]]));
    }
    images
}

/// "MultiSegment (2,3), point (2,0), to (0,2): 6", on both axes, and by the
/// first leg's offset.
fn targets_of_code_6(base: &Draft) -> Vec<Vec<u32>> {
    let first_point = base.count(POINTS);
    let mut images = Vec::new();
    for x_flow in [0, X_FLOW_BIT] {
        let flags = path_flags(MULTI_SEGMENT) | x_flow;
        let (ends, point) = if x_flow == 0 {
            ([2, 3, 0, 2], [2, 0])
        } else {
            ([3, 2, 2, 0], [0, 2])
        };
        images.push(changed(base, |draft| {
            draft.add(POINTS, &point);
            draft.add(EDGES, &edge_record(ends, flags, [first_point, 1, 0]));
        }));
        for offset in [3, COORDINATE_LIMIT] {
            let by_offset = edge_record([3, 3, 1, 1], flags, [0, 0, offset]);
            images.push(with_record(base, EDGES, &by_offset));
        }
    }
    images
}

/// Adds a blank node, which makes no ink, and answers its index.
fn add_blank_node(draft: &mut Draft) -> u32 {
    draft.add(NODES, &harmless_record(NODES))
}

fn targets_of_code_7(dice: &mut Dice, base: &Draft) -> Vec<Vec<u32>> {
    let twice = changed(base, |draft| {
        let index = add_blank_node(draft);
        draft.list(NODES, index, COORDINATE_LIMIT, COORDINATE_LIMIT);
        draft.list(NODES, index, COORDINATE_LIMIT, COORDINATE_LIMIT);
    });
    // Rows against the order besides: code 7 comes before code 8.
    let twice_out_of_order = changed(base, |draft| {
        let index = add_blank_node(draft);
        draft.list(NODES, index, 9, 3);
        draft.list(NODES, index, 0, 0);
    });
    let mut images = vec![twice, twice_out_of_order];
    if base.count(ELEMENTS) > 0 {
        images.push(changed(base, |draft| {
            let place = dice.index(draft.tables[ELEMENTS].len());
            let again = draft.tables[ELEMENTS][place].clone();
            draft.tables[ELEMENTS].push(again);
        }));
    }
    images
}

fn targets_of_code_8(base: &Draft) -> Vec<Vec<u32>> {
    let last_before_first = changed(base, |draft| {
        let index = add_blank_node(draft);
        draft.list(NODES, index, COORDINATE_LIMIT, COORDINATE_LIMIT - 1);
    });
    let below_the_previous = changed(base, |draft| {
        let one = add_blank_node(draft);
        let other = add_blank_node(draft);
        draft.list(NODES, one, COORDINATE_LIMIT, COORDINATE_LIMIT);
        draft.list(NODES, other, COORDINATE_LIMIT - 1, COORDINATE_LIMIT);
    });
    vec![last_before_first, below_the_previous]
}

/// A thing: its table, its record, and the first and last row that it inks
/// on a sheet of at least four rows.
type Inked = (usize, Vec<u32>, (u32, u32));

/// Nodes and subgraphs; the label is the glyph at this place, of width 1.
fn inked_boxes(glyph: u32) -> Vec<Inked> {
    let far = COORDINATE_LIMIT;
    let looped_blank = BLANK << 30 | SELF_LOOP_BIT;
    vec![
        (NODES, vec![far, 3, 0, 9, 0, 0, SIMPLE << 30, 0, 0], (3, 3)),
        (NODES, vec![0, 1, 1, 3, 0, 0, BOXED << 30, 0, 0], (1, 1)),
        (NODES, vec![0, 1, 2, 2, 0, 0, BOXED << 30, 0, 0], (1, 1)),
        (NODES, vec![0, 1, 2, 3, 0, 0, BOXED << 30, 0, 0], (1, 3)),
        (NODES, vec![0, 0, 0, 0, 0, 0, looped_blank, 9, 2], (2, 2)),
        (SUBGRAPHS, vec![far, 1, 2, 2, 0, 0, 1 << 30, 0], (1, 2)),
        (SUBGRAPHS, vec![0, 0, 5, 4, glyph, 1, 0, 0], (1, 1)),
        (
            SUBGRAPHS,
            vec![0, 1, 5, 4, glyph, 1, INSIDE_BOTTOM_BIT, 0],
            (3, 3),
        ),
        (SUBGRAPHS, vec![far, 1, far, 3, glyph, 1, 0, 0], (2, 2)),
    ]
}

/// Edges of which a single line or stroke decides the first or last row.
/// The point at this place is (1,3).
fn inked_edges(point: u32) -> Vec<Inked> {
    let edge = |ends: [u32; 4], flags: u32, abc: [u32; 3], rows: (u32, u32)| {
        (EDGES, edge_record(ends, flags, abc), rows)
    };
    let y_flow = path_flags;
    let x_flow = |path: u32| path_flags(path) | X_FLOW_BIT;
    vec![
        edge([0, 0, 9, 4], y_flow(DIRECT), [0, 0, 0], (1, 3)),
        edge([0, 4, 9, 0], y_flow(SPLINE), [0, 0, 0], (1, 3)),
        edge([0, 3, 2, 9], x_flow(DIRECT), [0, 0, 0], (3, 3)),
        edge([0, 0, 1, 3], y_flow(CORNER), [3, 0, 0], (1, 3)),
        edge([0, 1, 1, 4], y_flow(CORNER), [2, 0, 0], (2, 3)),
        edge([0, 3, 2, 3], x_flow(CORNER), [2, 0, 0], (3, 3)),
        edge([1, 3, 3, 3], x_flow(CORNER), [1, 0, 0], (3, 3)),
        edge([0, 1, 9, 3], x_flow(CORNER), [4, 0, 0], (1, 3)),
        edge([1, 0, 1, 4], y_flow(SIDE_CHANNEL), [1, 1, 1], (2, 3)),
        edge([1, 0, 1, 4], y_flow(SIDE_CHANNEL), [1, 0, 4], (1, 3)),
        edge([0, 0, 0, 2], y_flow(SIDE_CHANNEL), [1, 3, 2], (2, 3)),
        edge([0, 3, 2, 3], x_flow(SIDE_CHANNEL), [3, 2, 2], (3, 3)),
        edge([2, 3, 4, 3], x_flow(SIDE_CHANNEL), [3, 2, 2], (3, 3)),
        edge([2, 3, 4, 3], x_flow(SIDE_CHANNEL), [3, 2, 4], (3, 3)),
        edge([0, 0, 1, 3], y_flow(MULTI_SEGMENT), [0, 0, 1], (1, 2)),
        edge([0, 4, 1, 0], y_flow(MULTI_SEGMENT), [0, 0, 1], (1, 3)),
        edge([1, 2, 1, 4], y_flow(MULTI_SEGMENT), [point, 1, 9], (3, 3)),
        edge([0, 3, 2, 3], x_flow(MULTI_SEGMENT), [point, 1, 9], (3, 3)),
        edge([0, 1, 0, 3], x_flow(MULTI_SEGMENT), [0, 0, 0], (1, 3)),
        edge([0, 3, 2, 3], y_flow(ORTHOGONAL), [point, 1, 0], (3, 3)),
        edge([0, 0, 3, 0], x_flow(ORTHOGONAL), [point, 1, 0], (3, 3)),
        edge([0, 0, 0, 4], x_flow(ORTHOGONAL), [0, 0, 0], (1, 3)),
    ]
}

/// Things whose rows are told by hand: refused where they are not listed or
/// listed short of one row, accepted where they are listed exactly.
fn targets_by_hand(base: &Draft) -> Vec<(u32, Vec<u32>)> {
    let mut base = base.clone();
    base.head[RUN_CAPACITY_WORD] = HEADER_LIMITS[RUN_CAPACITY_WORD];
    base.tables[GLYPHS].push(vec![0x5B]);
    base.tables[POINTS].push(vec![1, 3]);
    let mut things = inked_boxes(base.count(GLYPHS) - 1);
    things.extend(inked_edges(base.count(POINTS) - 1));
    let mut targets = Vec::new();
    for (table, record, rows) in things {
        targets.push((9, with_record(&base, table, &record)));
        let short_above = just_short_of(rows, true);
        let short_below = just_short_of(rows, false);
        for (code, listed) in [(0, rows), (9, short_above), (9, short_below)] {
            let image = changed(&base, |draft| {
                draft.tables[table].push(record.clone());
                let index = draft.count(table) - 1;
                draft.list(table, index, listed.0, listed.1);
                draft.sort_elements();
            });
            targets.push((code, image));
        }
    }
    targets
}

/// Every thing and its touched rows, for those which touch any.
fn touching_things(base: &Draft) -> Vec<(usize, u32, (u32, u32))> {
    let things = all_touched_rows(&base.to_words()).into_iter();
    things
        .filter_map(|(kind, index, touched)| Some((kind, index, touched?)))
        .collect()
}

/// For every thing, a listing that lacks one row of what it touches.
fn targets_of_code_9_by_one_row(base: &Draft) -> Vec<Vec<u32>> {
    let mut images = Vec::new();
    for (kind, index, touched) in touching_things(base) {
        for lacks_first in [true, false] {
            images.push(changed(base, |draft| {
                let (first_row, last_row) = just_short_of(touched, lacks_first);
                draft.tables[ELEMENTS].retain(|element| element[..2] != [kind as u32, index]);
                draft.list(kind, index, first_row, last_row);
                draft.sort_elements();
            }));
        }
    }
    images
}

/// The shortest list: only what touches the sheet, and no row too many.
fn listed_exactly(base: &Draft) -> Draft {
    let mut draft = base.clone();
    draft.tables[ELEMENTS].clear();
    for (kind, index, (first_row, last_row)) in touching_things(base) {
        draft.list(kind, index, first_row, last_row);
    }
    draft.sort_elements();
    draft
}

/// With that list and the run capacity that the slow check finds right.
#[cfg(original)]
pub fn accepted_draft(base: &Draft) -> Draft {
    let mut draft = listed_exactly(base);
    draft.head[RUN_CAPACITY_WORD] = HEADER_LIMITS[RUN_CAPACITY_WORD];
    draft.head[RUN_CAPACITY_WORD] = answer_to(&draft).runs;
    draft
}

#[cfg(original)]
pub fn accepted(base: &Draft) -> Vec<u32> {
    accepted_draft(base).to_words()
}

/// An edge with one run more than the capacity holds.
fn targets_of_code_10(base: &Draft) -> Vec<Vec<u32>> {
    let with_run = edge_record([0, 0, 2, 2], path_flags(CORNER), [1, 0, 0]);
    vec![changed(base, |draft| {
        draft.head[RUN_CAPACITY_WORD] = answer_to(base).runs;
        draft.tables[EDGES].push(with_run);
        let index = draft.count(EDGES) - 1;
        draft.list(EDGES, index, 0, 3);
        draft.sort_elements();
    })]
}

/// What is just inside a limit is accepted.
fn targets_at_the_limits(base: &Draft) -> Vec<(u32, Vec<u32>)> {
    let (glyphs, points) = (base.count(GLYPHS), base.count(POINTS));
    let far_blank = vec![
        COORDINATE_LIMIT,
        COORDINATE_LIMIT,
        COORDINATE_LIMIT,
        COORDINATE_LIMIT,
        glyphs,
        0,
        BLANK << 30,
        0,
        0,
    ];
    let empty_path = edge_record(
        [0; 4],
        path_flags(MULTI_SEGMENT),
        [points, 0, COORDINATE_LIMIT],
    );
    let touching = vec![vec![0x300, 0x30F, 0], vec![0x310, 0x310, 2]];
    vec![
        (0, changed(base, |draft| draft.head[0] = 1_024)),
        (0, changed(base, |draft| draft.head[2] = 16_384)),
        (0, with_record(base, NODES, &far_blank)),
        (0, with_record(base, EDGES, &empty_path)),
        (0, with_record(base, GLYPHS, &[0xE000])),
        (0, with_record(base, POINTS, &[COORDINATE_LIMIT; 2])),
        (
            0,
            changed(&Draft::blank_sheet(1, 1), |draft| {
                draft.tables[WIDTH_RANGES] = touching;
            }),
        ),
    ]
}

/// The cases that document 01 marks "Run only", and its example.
fn targets_named_in_the_text() -> Vec<(u32, Vec<u32>)> {
    let sheet = Draft::blank_sheet(4, 4);
    let listed = |edge: Vec<u32>, point: Option<Vec<u32>>, rows: (u32, u32)| {
        changed(&sheet, |draft| {
            draft.tables[EDGES].push(edge);
            draft.tables[POINTS].extend(point);
            draft.list(EDGES, 0, rows.0, rows.1);
        })
    };
    let both_arrows = path_flags(DIRECT) | 3 << 25;
    let direct = edge_record([1, 0, 1, 2], both_arrows, [0; 3]);
    let backward = edge_record([2, 3, 0, 2], path_flags(MULTI_SEGMENT), [0, 1, 0]);
    let with_capacity = |mut words: Vec<u32>| {
        words[RUN_CAPACITY_WORD] = 1;
        words
    };
    vec![
        (0, listed(direct.clone(), None, (1, 1))),
        (9, listed(direct, None, (0, 0))),
        (6, listed(backward.clone(), Some(vec![2, 0]), (0, 3))),
        (
            0,
            with_capacity(listed(backward.clone(), Some(vec![2, 1]), (0, 3))),
        ),
        (10, listed(backward, Some(vec![2, 1]), (0, 3))),
        (0, Draft::blank_sheet(1_024, 0).to_words()),
        (2, Draft::blank_sheet(1_025, 0).to_words()),
        (
            0,
            vec![
                3, 1, 0, 0, 1, 0, 0, 0, 1, 0, 1, 0, 0, 0, 3, 1, 0, 1, 0, 0, 0, 0, 0, 0, 0, 65,
            ],
        ),
    ]
}

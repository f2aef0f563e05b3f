//! A band as text, written a second time: from the cells and colours that the original
//! painted, by request #101 and, where it leaves a choice, by `docs/TEXT.md`. It shares no
//! text with the product: the character of a stroke is looked for among those that the Box
//! Drawing block has, each known by its arms.

use std::sync::OnceLock;

/// The weights by document 01's numbers; the heavier is the greater.
#[derive(Clone, Copy, PartialEq, Eq, PartialOrd, Ord)]
enum Weight {
    None,
    Dashed,
    Light,
    Double,
}

use Weight::{Dashed, Double, Light};

/// Up, down, left and right.
type Arms = [Weight; 4];

// ---- The block -------------------------------------------------------------

/// Where lines meet, by their arms, in the order of the block.
const JOINTS: [&str; 9] = ["DR", "DL", "UR", "UL", "UDR", "UDL", "DLR", "ULR", "UDLR"];

/// The first four of them are corners.
const CORNERS: u32 = 4;

/// Each corner is there in four mixtures of light and heavy, each other joint in eight, the
/// light one first.
fn light_joint(nth: u32) -> u32 {
    match nth {
        0..CORNERS => 0x250C + 4 * nth,
        _ => 0x251C + 8 * (nth - CORNERS),
    }
}

/// Double joints stand in the same order: the level lines double, the upright ones, all.
const FIRST_DOUBLE_JOINT: u32 = 0x2552;
const DOUBLE_JOINTS: [[Weight; 2]; 3] = [[Light, Double], [Double, Light], [Double, Double]];

/// Level and upright. Of the dashed ones those with four dashes.
const LINES: [(Weight, [u32; 2]); 3] = [
    (Light, [0x2500, 0x2502]),
    (Dashed, [0x2508, 0x250A]),
    (Double, [0x2550, 0x2551]),
];

/// Light arms alone, in the order of the block.
const FIRST_ALONE: u32 = 0x2574;
const ALONE: [&str; 4] = ["L", "U", "R", "D"];

/// The arms of these letters, upright and level ones of a weight each.
fn arms_of(letters: &str, [upright, level]: [Weight; 2]) -> Arms {
    let arms = [('U', upright), ('D', upright), ('L', level), ('R', level)];
    arms.map(|(letter, weight)| match letters.contains(letter) {
        true => weight,
        false => Weight::None,
    })
}

/// The characters that have arms of our weights alone. (The block has heavy ones, arcs and
/// other dashes besides.)
fn block() -> Vec<(Arms, u32)> {
    let mut block = Vec::new();
    for (nth, joint) in (0..).zip(JOINTS) {
        block.push((arms_of(joint, [Light; 2]), light_joint(nth)));
        for (mixture, weights) in (0..).zip(DOUBLE_JOINTS) {
            let point = FIRST_DOUBLE_JOINT + 3 * nth + mixture;
            block.push((arms_of(joint, weights), point));
        }
    }
    for (weight, [level, upright]) in LINES {
        block.push((arms_of("LR", [weight; 2]), level));
        block.push((arms_of("UD", [weight; 2]), upright));
    }
    for (nth, letter) in (0..).zip(ALONE) {
        block.push((arms_of(letter, [Light; 2]), FIRST_ALONE + nth));
    }
    block
}

// ---- Strokes ---------------------------------------------------------------

/// Where the block has no such character: Dashed as Light, both arms of a line as the
/// heavier, an arm that is alone as Light.
fn instead_of(arms: Arms) -> Arms {
    let [up, down, left, right] = arms.map(|weight| match weight {
        Dashed => Light,
        other => other,
    });
    let alike = |one: Weight, other: Weight| match one.min(other) {
        Weight::None => [one, other],
        _ => [one.max(other); 2],
    };
    let ([up, down], [left, right]) = (alike(up, down), alike(left, right));
    let arms = [up, down, left, right];
    let is_there = |weight: &&Weight| **weight != Weight::None;
    match arms.iter().filter(is_there).count() {
        1 => arms.map(|weight| weight.min(Light)),
        _ => arms,
    }
}

/// "one with just those arms and weights where the block has it"; none for no arms.
fn stroke_among(block: &[(Arms, u32)], arms: Arms) -> Option<char> {
    let with = |wanted: Arms| block.iter().find(|(arms, _)| *arms == wanted);
    let (_, point) = with(arms).or_else(|| with(instead_of(arms)))?;
    char::from_u32(*point)
}

/// How many kinds of strokes there are; 0 is one without arms.
pub const STROKES: usize = 256;

/// The number of a stroke's arms, a quarter of a byte for each.
pub fn stroke_number(cell: u32) -> usize {
    let [up, down, left, right] = [0, 3, 6, 9].map(|bit| (cell >> bit & 7) as usize);
    up + 4 * (down + 4 * (left + 4 * right))
}

fn arms_numbered(number: usize) -> Arms {
    let weight = |nth: usize| [Weight::None, Dashed, Light, Double][number >> (2 * nth) & 3];
    [0, 1, 2, 3].map(weight)
}

/// The characters of all strokes, found once.
fn strokes() -> &'static [Option<char>] {
    static FOUND: OnceLock<Vec<Option<char>>> = OnceLock::new();
    FOUND.get_or_init(|| {
        let block = block();
        let stroke = |number| stroke_among(&block, arms_numbered(number));
        (0..STROKES).map(stroke).collect()
    })
}

// ---- Cells -----------------------------------------------------------------

/// Of a cell's word: "Tag in bits 31..30"; "bit 21 alone is a continuation".
pub const TAG_STEP: u32 = 30;
pub const CONTINUATION: u32 = 1 << TAG_STEP | 1 << 21;

const ARROWS: [char; 4] = ['\u{2191}', '\u{2193}', '\u{2190}', '\u{2192}'];
const SELF_LOOP: char = '\u{21BA}';
const DUMMY: char = '\u{25CD}';

/// "Marker: kind in bits 3..0 (1 Arrow, 2 SelfLoop, 3 Dummy), direction in 5..4"
fn marker(cell: u32) -> Option<char> {
    match cell & 15 {
        1 => Some(ARROWS[(cell >> 4 & 3) as usize]),
        2 => Some(SELF_LOOP),
        3 => Some(DUMMY),
        _ => None,
    }
}

/// "A continuation writes nothing, empty writes a space". A picture holds no cell that is
/// not one of these.
pub fn character(cell: u32) -> Option<char> {
    if cell == CONTINUATION {
        return None;
    }
    let character = match cell >> TAG_STEP {
        0 => Some(' '),
        1 => char::from_u32(cell - (1 << TAG_STEP)),
        2 => strokes()[stroke_number(cell)],
        _ => marker(cell),
    };
    Some(character.unwrap_or_else(|| panic!("cell {cell:08X} in a picture")))
}

// ---- Rows ------------------------------------------------------------------

/// "colour 0, and no other, is the reset"
fn sequence(colour: u32) -> String {
    let [_, red, green, blue] = colour.to_be_bytes();
    match colour {
        0 => "\u{1B}[0m".to_string(),
        1..=7 => format!("\u{1B}[3{colour}m"),
        8..=255 => format!("\u{1B}[38;5;{colour}m"),
        _ => format!("\u{1B}[38;2;{red};{green};{blue}m"),
    }
}

/// Text in the making, and the colour in force at its end.
struct Pen {
    text: String,
    colour: u32,
}

impl Pen {
    /// "only where a written cell's colour changes"
    fn change_to(&mut self, colour: u32) {
        if colour != self.colour {
            self.text += &sequence(colour);
            self.colour = colour;
        }
    }
}

/// So many rows of a band, plain where there are no colours.
pub fn text_of(width: usize, rows: usize, cells: &[u32], colours: Option<&[u32]>) -> Vec<u8> {
    let mut pen = Pen {
        text: String::new(),
        colour: 0,
    };
    for row in 0..rows {
        for place in row * width..(row + 1) * width {
            // The colour of a continuation is not looked at.
            if let Some(character) = character(cells[place]) {
                pen.change_to(colours.map_or(0, |colours| colours[place]));
                pen.text.push(character);
            }
        }
        pen.change_to(0);
        pen.text.push('\n');
    }
    pen.text.into_bytes()
}

/// The bytes that must be lent: "rows × (4 × width + 1)", and for the coloured form
/// rows × (23 × width + 5).
pub fn output_room(width: usize, rows: usize, coloured: bool) -> usize {
    match coloured {
        false => rows * (4 * width + 1),
        true => rows * (23 * width + 5),
    }
}

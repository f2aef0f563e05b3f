//! A sheet with strokes of every kind, by the weights of their four arms.

use crate::as_text::STROKES;
use crate::draft::{edge_record, Draft};
use crate::generate::EDGE_COLOURS;
use crate::layout::{EDGES, ORTHOGONAL};

/// All that four arms can be, sixteen to a row, one colour after the other.
pub fn every_stroke() -> Draft {
    let mut draft = Draft::blank_sheet(18, 18);
    for number in 1..STROKES {
        let place = [1 + number % 16, 1 + number / 16].map(|at| at as u32);
        let colour = EDGE_COLOURS[number % EDGE_COLOURS.len()];
        add_stroke(&mut draft, place, number, colour);
    }
    draft
}

/// Has just the arms of this number, a quarter of a byte for each. A path of two legs, each
/// to a cell beside it, inks the cell of its bend alone, with an arm to each of the two; of
/// one that turns back both are the same.
fn add_stroke(draft: &mut Draft, [x, y]: [u32; 2], number: usize, colour: u32) {
    for weight in 1..=3 {
        let is_of_weight = |nth: &usize| number >> (2 * nth) & 3 == weight;
        let arms: Vec<usize> = (0..4).filter(is_of_weight).collect();
        for two in arms.chunks(2) {
            let ends = [two[0], two[two.len() - 1]].map(|nth| neighbours(x, y)[nth]);
            let [first, count] = draft.add_points([[x, y]]);
            let flags = ORTHOGONAL << 29 | (weight as u32) << 23;
            let mut record = edge_record([0; 4], flags, [first, count, 0]);
            record[..4].copy_from_slice(&ends.concat());
            record[10] = colour;
            draft.add(EDGES, &record);
        }
    }
}

/// The cells beside a cell: up, down, left and right.
fn neighbours(x: u32, y: u32) -> [[u32; 2]; 4] {
    [[x, y - 1], [x, y + 1], [x - 1, y], [x + 1, y]]
}

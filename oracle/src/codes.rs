//! The codes of refusal, in the order in which they are decided, and what an image must
//! get by how it was made. Request #105 put 13 between 5 and 6, request #101 put 20 at the end.

use crate::slow_check::Answer;

/// The check's, after 0 for what is accepted.
pub const CHECK_CODES: [u32; 12] = [0, 1, 2, 3, 4, 5, 13, 6, 7, 8, 9, 10];

/// Those of painting: the check's, then that of the band, that of the room, and that of a
/// text's output.
#[cfg(original)]
pub const PAINT_CODES: [u32; 15] = [0, 1, 2, 3, 4, 5, 13, 6, 7, 8, 9, 10, 11, 12, 20];

/// Where a code stands in such a list.
pub fn nth_of(codes: &[u32], code: u32) -> usize {
    let nth = codes.iter().position(|listed| *listed == code);
    nth.unwrap_or_else(|| panic!("no code {code} is listed"))
}

/// What an image must get by how it was made: the code, and the place where its maker
/// states it.
#[derive(Clone, Copy)]
pub struct Meant {
    pub code: u32,
    place: Option<u32>,
}

impl Meant {
    pub fn code(code: u32) -> Meant {
        let place = None;
        Meant { code, place }
    }

    pub fn at(code: u32, place: u32) -> Meant {
        let place = Some(place);
        Meant { code, place }
    }

    pub fn is_met_by(self, answer: Answer) -> bool {
        let is_the_place = self.place.is_none_or(|place| place == answer.place);
        self.code == answer.code && is_the_place
    }
}

/// An image, and what it must get.
pub type Target = (Meant, Vec<u32>);

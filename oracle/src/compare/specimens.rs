//! The images of `compare`: which image has a number, and what is asked about it.

use super::{BLOCK, MOST};
use crate::band_requests::Asking;
use crate::codes::{Meant, Target};
use crate::generate::{code_targets, damage, random_image};
use crate::structured::{structured_image, FAMILIES};

/// How an image was made.
#[derive(Clone, Copy, PartialEq, Eq)]
pub enum Kind {
    Random,
    Damaged,
    ForACode,
    Structured,
    FullTables,
    EveryStroke,
}

pub const KIND_NAMES: [&str; 6] = [
    "random",
    "damaged",
    "for a code",
    "structured",
    "full tables",
    "every stroke",
];

pub struct Specimen {
    pub kind: Kind,
    pub made: String,
    pub words: Vec<u32>,
    /// What it must get, where its maker knows.
    pub meant: Option<Meant>,
}

impl Specimen {
    /// Its name where images are counted by maker and code: the code is not said twice.
    pub fn maker(&self) -> &str {
        match self.kind {
            Kind::ForACode | Kind::FullTables => KIND_NAMES[self.kind as usize],
            _ => &self.made,
        }
    }
}

/// Of 20 images 8 are random, 4 damaged (2 once, 1 twice, 1 three times), 2 made for a
/// code and 6 structured.
const OF_TWENTY: u64 = 20;
const TARGETS_OF_TWENTY: u64 = 2;

/// The images of a block.
pub struct Block {
    seed: u64,
    number: u64,
    /// Images made for a code; a block takes some of them, evenly, and the next block
    /// those beside them.
    targets: Vec<Target>,
}

impl Block {
    pub fn of(seed: u64, number: u64) -> Block {
        Block {
            seed,
            number,
            targets: code_targets(seed.wrapping_add(number * BLOCK)),
        }
    }

    pub fn specimen(&self, number: u64) -> Specimen {
        let seed = self.seed.wrapping_add(number);
        match number % OF_TWENTY {
            0..=7 => Specimen {
                kind: Kind::Random,
                made: "random".to_string(),
                words: random_image(seed),
                meant: None,
            },
            nth @ 8..=11 => damaged(nth, number, seed),
            nth @ 12..=13 => self.target(number, nth - 12),
            _ => {
                let image = structured_image(seed);
                Specimen {
                    kind: Kind::Structured,
                    made: FAMILIES[image.family].to_string(),
                    words: image.words,
                    meant: Some(image.meant),
                }
            }
        }
    }

    fn target(&self, number: u64, nth: u64) -> Specimen {
        let taken = BLOCK / OF_TWENTY * TARGETS_OF_TWENTY;
        let nth = number % BLOCK / OF_TWENTY * TARGETS_OF_TWENTY + nth;
        let length = self.targets.len() as u64;
        let (meant, words) =
            &self.targets[((nth * length / taken + self.number) % length) as usize];
        Specimen {
            kind: Kind::ForACode,
            made: format!("for code {}", meant.code),
            words: words.clone(),
            meant: Some(*meant),
        }
    }
}

/// Every fourth out of a structured image.
fn damaged(nth: u64, number: u64, seed: u64) -> Specimen {
    let times = [1, 1, 2, 3][(nth - 8) as usize];
    let mut words = match number / OF_TWENTY % 4 {
        0 => structured_image(seed).words,
        _ => random_image(seed),
    };
    damage(&mut words, times, seed);
    Specimen {
        kind: Kind::Damaged,
        made: format!("damages: {times}"),
        words,
        meant: None,
    }
}

/// All that is asked about an image besides the check: four cuttings, whole sheets in bands of
/// three heights, of every second image outputs around the room of a text, and of eight images
/// one for the refusals 11 and 12 and their order. A refused image is asked for more than one
/// band.
pub fn asking_about(words: Vec<u32>, number: u64, seed: u64) -> Asking {
    let mut asking = Asking::about(words, seed.wrapping_add(number), MOST);
    asking.ask_four_cuttings(number);
    if !asking.subject.is_painted() {
        asking.ask_for_no_row();
        return asking;
    }
    asking.ask_sheets();
    if number % 2 == 0 {
        asking.ask_outputs();
    }
    if number % 8 == 1 {
        asking.ask_beyond();
        asking.ask_short_of_room();
        asking.ask_short_of_both();
        asking.ask_sheet_refusals();
    }
    asking
}

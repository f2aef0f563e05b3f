//! `compare-check`: the product's program `checklines` and the slow check, asked
//! the same images.

use crate::asking::{
    count_and_seed, headings_by_code, in_streams, Asked, Comparison, LONGEST_IMAGE,
};
use crate::codes::{nth_of, Meant, Target, CHECK_CODES};
use crate::full::full_images;
use crate::generate::{code_targets, damage, random_image};
use crate::limits::{line_of, stream_of};
use crate::slow_check::slow_check;
use crate::wrong_use;
use std::io;
use std::process::ExitCode;

/// The command that runs the program.
const PROGRAM: &str = "PIVOTDAWN_CHECKLINES";

pub fn command(options: &[String]) -> io::Result<ExitCode> {
    let Some((count, seed)) = count_and_seed(options) else {
        return Ok(wrong_use("compare-check [COUNT] [SEED], two numbers"));
    };
    let Some(mut comparison) = Comparison::with(PROGRAM, headings_by_code(&CHECK_CODES)) else {
        return Ok(wrong_use("start it by oracle/run"));
    };
    comparison.ask_all(streams(count, seed))?;
    let images = comparison.asked();
    comparison.report(&format!("images: {images}, seed: {seed}"))
}

/// What is asked in one run of the program after another.
fn streams(count: usize, seed: u64) -> impl Iterator<Item = Vec<Asked>> {
    let full = full_images().into_iter().map(|(meant, words)| {
        let made = format!("every table full, for code {}", meant.code);
        vec![image(words, made, Some(meant))]
    });
    in_streams(Images::of(seed).take(count))
        .chain(full)
        .chain(endings())
}

/// An image, and what it was made to get, where it was made for a code.
fn image(words: Vec<u32>, made: impl Into<String>, meant: Option<Meant>) -> Asked {
    let (made, answer) = (made.into(), slow_check(&words));
    let expected = line_of(answer);
    let is_at_odds = meant.is_some_and(|meant| !meant.is_met_by(answer));
    Asked {
        bytes: stream_of(&words),
        head_words: 1,
        at_odds: is_at_odds.then(|| format!("{made}: the slow check answers {expected}")),
        expected,
        made,
        heading: nth_of(&CHECK_CODES, answer.code),
        closer: None,
    }
}

fn unread(bytes: Vec<u8>, made: &str) -> Asked {
    Asked::unread(bytes, made, CHECK_CODES.len())
}

/// The images of a seed, without end.
struct Images {
    seed: u64,
    number: u64,
    /// Images made for a code, that were not yet asked.
    targets: std::vec::IntoIter<Target>,
}

impl Images {
    fn of(seed: u64) -> Images {
        Images {
            seed,
            number: 0,
            targets: Vec::new().into_iter(),
        }
    }

    fn next_target(&mut self, seed: u64) -> Target {
        loop {
            if let Some(target) = self.targets.next() {
                return target;
            }
            self.targets = code_targets(seed).into_iter();
        }
    }
}

impl Iterator for Images {
    type Item = Asked;

    /// Of 20 images 6 are whole, 4 damaged once, 3 twice, 3 three times, and 4
    /// are made for a code.
    fn next(&mut self) -> Option<Asked> {
        let number = self.number;
        self.number += 1;
        let seed = self.seed.wrapping_add(number);
        let damages = match number % 20 {
            0..=5 => 0,
            6..=9 => 1,
            10..=12 => 2,
            13..=15 => 3,
            _ => {
                let (meant, words) = self.next_target(seed);
                let made = format!("image {number}, for code {}", meant.code);
                return Some(image(words, made, Some(meant)));
            }
        };
        let mut words = random_image(seed);
        damage(&mut words, damages, seed);
        let made = format!("image {number}, damages: {damages}");
        Some(image(words, made, None))
    }
}

/// Streams that end inside an image or hold one that is too long, and one that
/// holds the longest; the program may not be led to answer more.
fn endings() -> Vec<Vec<Asked>> {
    let whole = || image(vec![0; 12], "12 words", Some(Meant::at(0, 0)));
    let mut broken_off = stream_of(&[0; 12]);
    broken_off.pop();
    let too_long = [stream_of(&vec![0; LONGEST_IMAGE + 1]), whole().bytes].concat();
    let meant = Some(Meant::at(3, 12));
    let longest = image(vec![0; LONGEST_IMAGE], "the longest image", meant);
    vec![
        Vec::new(),
        vec![whole(), unread(broken_off, "a byte missing")],
        vec![whole(), unread(vec![0, 0, 0, 12], "no words")],
        vec![whole(), unread(too_long, "an image too long")],
        vec![longest, whole()],
    ]
}

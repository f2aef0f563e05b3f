//! `compare-paint`: the product's program `paintlines`, asked for bands of random
//! sheets, plain and coloured, as cells and as text, for whole sheets in one call, and for
//! refusals. Every word and byte that was lent is held against the original's picture and the
//! documents.

use crate::asking::{
    count_and_seed, headings_by_code, in_streams, Asked, Comparison, LONGEST_IMAGE,
};
use crate::band_requests::{Asking, Made};
use crate::codes::{Target, PAINT_CODES};
use crate::full::full_images;
use crate::generate::random_image;
use crate::paintlines::{asked, bytes, Form, HEAD_WORDS, MOST, PROGRAM};
use crate::requests::{Request, Rows, Subject};
use crate::wrong_use;
use std::io;
use std::process::ExitCode;
use std::rc::Rc;

pub fn command(options: &[String]) -> io::Result<ExitCode> {
    let Some((count, seed)) = count_and_seed(options) else {
        return Ok(wrong_use("compare-paint [COUNT] [SEED], two numbers"));
    };
    let Some(mut comparison) = Comparison::with(PROGRAM, headings_by_code(&PAINT_CODES)) else {
        return Ok(wrong_use("start it by oracle/run"));
    };
    comparison.ask_all(streams(count, seed))?;
    let requests = comparison.asked();
    comparison.report(&format!(
        "images: {count}, seed: {seed}, requests: {requests}"
    ))
}

/// What is asked in one run of the program after another.
fn streams(count: usize, seed: u64) -> impl Iterator<Item = Vec<Asked>> {
    let random = (0..count as u64).flat_map(move |number| requests_of(number, seed));
    in_streams(random)
        .chain(full_images().into_iter().map(requests_of_full))
        .chain(endings())
}

// ---- The images ----------------------------------------------------------

/// Buffers of more words in all, and outputs of more bytes, are never asked in the long form.
const LONGEST_FORM: usize = 4_096;

/// All that is asked about the image of this number: one cutting into bands plain
/// and one coloured, and two as text; whole sheets; of eight images one for the refusals 11, 12
/// and 20, and two more once damaged. Every seventh is asked in the long form, as far as the
/// buffers are short.
fn requests_of(number: u64, seed: u64) -> Vec<Asked> {
    let seed = seed.wrapping_add(number);
    let mut asking = Asking::about(random_image(seed), seed, MOST);
    asking.ask_four_cuttings(number);
    asking.ask_sheets();
    let whole = asking.requests.len();
    match number % 8 {
        1 => {
            asking.ask_beyond();
            asking.ask_short_of_room();
            asking.ask_outputs();
            asking.ask_short_of_both();
            asking.ask_sheet_refusals();
        }
        2 | 3 => {
            let times = asking.some_damages();
            asking.ask_damaged(times, seed);
        }
        _ => {}
    }
    let is_damaged = |nth: usize| matches!(number % 8, 2 | 3) && nth >= whole;
    let told = |(nth, (how, request)): (usize, Made)| {
        let lent: usize = request.lent.iter().sum();
        let lent = lent.max(request.output.unwrap_or(0));
        let form = match number % 7 == 0 && lent <= LONGEST_FORM {
            true => Form::Long,
            false => Form::Short,
        };
        let damaged = if is_damaged(nth) { ", damaged" } else { "" };
        asked(request, form, &format!("image {number}{damaged}, {how}"))
    };
    asking.requests.into_iter().enumerate().map(told).collect()
}

/// The accepted one in the tallest bands that can be lent, with just the room; the
/// others once.
fn requests_of_full((meant, words): Target) -> Vec<Asked> {
    let mut asking = Asking::about(words, 0, MOST);
    for coloured in [false, true] {
        for as_text in [false, true] {
            for (first, rows) in tallest_bands(&asking, meant.code, coloured, as_text) {
                let (band, lent) = ((first as u64, rows as u64), asking.subject.room(rows));
                let output = asking.subject.output_room(rows, coloured);
                match as_text {
                    true => asking.ask_text("tallest bands", coloured, band, lent, output),
                    false => asking.ask("tallest bands", coloured, band, lent),
                }
            }
        }
    }
    let told = |(how, request): Made| {
        let made = format!("every table full, for code {}, {how}", meant.code);
        asked(request, Form::Short, &made)
    };
    asking.requests.into_iter().map(told).collect()
}

/// First row and rows of each.
fn tallest_bands(asking: &Asking, code: u32, coloured: bool, as_text: bool) -> Vec<(usize, usize)> {
    let by_words = MOST.words / asking.subject.width();
    let most_rows = match as_text {
        true => by_words.min(MOST.bytes / asking.subject.output_room(1, coloured)),
        false => by_words,
    };
    let height = match code {
        0 => asking.subject.height(),
        _ => most_rows,
    };
    let firsts = (0..height).step_by(most_rows);
    firsts
        .map(|first| (first, most_rows.min(height - first)))
        .collect()
}

// ---- The end of a stream -------------------------------------------------

/// Streams that end inside a request or hold one that is over a limit, and those that
/// hold the largest of each kind; the program may not be led to answer more.
fn endings() -> Vec<Vec<Asked>> {
    let two_cells = [BAND, BAND_AS_TEXT, SHEET].map(|(rows, output)| two_cells(rows, output));
    let mut ends = vec![Vec::new()];
    ends.extend(two_cells.iter().map(|one| vec![largest(one), told(one)]));
    for request in &two_cells {
        let bytes = bytes(request, Form::Long);
        for cut in [
            1,
            4,
            11,
            HEAD_WORDS * 4 - 1,
            HEAD_WORDS * 4,
            bytes.len() - 1,
        ] {
            let made = format!("broken off after {cut} bytes");
            ends.push(vec![told(request), unread(bytes[..cut].to_vec(), made)]);
        }
        for (place, value) in over_limits(request) {
            let mut over = bytes.clone();
            over[4 * place..][..4].copy_from_slice(&value.to_be_bytes());
            over.extend(&bytes);
            let made = format!("word {place} is {value}");
            ends.push(vec![told(request), unread(over, made)]);
        }
    }
    ends
}

/// Words of a request that make it one which is not to be answered. Bytes of an output are
/// lent for a text alone, and a sheet is neither a text nor begins below row 0.
fn over_limits(request: &Request) -> Vec<(usize, u32)> {
    let words = MOST.words as u32 + 1;
    let bytes = match request.output {
        Some(_) => MOST.bytes as u32 + 1,
        None => 1,
    };
    let of_a_sheet = [(2, 1), (2, u32::MAX), (3, 1), (3, u32::MAX)];
    let of_a_sheet = of_a_sheet.into_iter().filter(|_| request.is_sheet());
    let of_any = [
        (0, LONGEST_IMAGE as u32 + 1),
        (0, u32::MAX),
        (1, 12),
        (1, 13),
        (1, 15),
        (1, 16),
        (1, 1 << 31),
        (6, words),
        (7, words),
        (8, words),
        (9, words),
        (9, u32::MAX),
        (10, bytes),
        (10, u32::MAX),
        (11, 1),
    ];
    of_any.into_iter().chain(of_a_sheet).collect()
}

/// The row of a sheet of two cells: asked for as a band, as text and as a sheet.
const BAND: (Rows, Option<usize>) = (Rows::Band { first: 0, rows: 1 }, None);
const BAND_AS_TEXT: (Rows, Option<usize>) = (BAND.0, Some(60));
const SHEET: (Rows, Option<usize>) = (Rows::Sheet { band: 1 }, None);

/// A sheet of two cells that holds nothing, coloured.
fn two_cells(rows: Rows, output: Option<usize>) -> Request {
    let words = [&[2, 1][..], &[0; 10]].concat();
    Request {
        subject: Rc::new(Subject::painted(words)),
        rows,
        coloured: true,
        output,
        lent: [3, 2, 4, 1],
    }
}

fn told(two_cells: &Request) -> Asked {
    asked(two_cells.clone(), Form::Long, "two cells")
}

/// As much as there may be, for the same.
fn largest(two_cells: &Request) -> Asked {
    let request = Request {
        subject: Rc::new(Subject::checked(vec![0; LONGEST_IMAGE])),
        output: two_cells.output.map(|_| MOST.bytes),
        lent: [MOST.words; 4],
        ..two_cells.clone()
    };
    let made = "the longest image and the longest buffers";
    asked(request, Form::Short, made)
}

fn unread(bytes: Vec<u8>, made: String) -> Asked {
    Asked::unread(bytes, &made, PAINT_CODES.len())
}

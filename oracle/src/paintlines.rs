//! The program `paintlines`: a request as it stands in a stream, and the lines that
//! must be answered to it.

use crate::asking::{bytes_of, Asked};
use crate::band_requests::Most;
use crate::codes::{nth_of, PAINT_CODES};
use crate::hex_row;
use crate::requests::{Request, Rows, BUFFER_NAMES};

/// The command that runs the program.
pub const PROGRAM: &str = "PIVOTDAWN_PAINTLINES";

/// Words of a request before the image.
pub const HEAD_WORDS: usize = 12;

/// The program answers `unread` where more words of a buffer, or bytes of an output, are to
/// be lent.
pub const MOST: Most = Most {
    words: 147_456,
    bytes: 1_048_576,
};

const COLOURED_BIT: u32 = 1;
const SHORT_BIT: u32 = 2;
const TEXT_BIT: u32 = 4;
const SHEET_BIT: u32 = 8;

/// How the buffers stand in an answer.
#[derive(Clone, Copy, PartialEq, Eq)]
pub enum Form {
    /// Word for word.
    Long,
    /// A checksum of each.
    Short,
}

/// A request as it stands in the stream.
pub fn bytes(request: &Request, form: Form) -> Vec<u8> {
    let halves = |number: u64| [(number >> 32) as u32, number as u32];
    let flags = [
        (request.coloured, COLOURED_BIT),
        (form == Form::Short, SHORT_BIT),
        (request.output.is_some(), TEXT_BIT),
        (request.is_sheet(), SHEET_BIT),
    ];
    let flags = flags.iter().filter(|(is_set, _)| *is_set);
    // A sheet has the first row 0, and its band height where a band has its rows.
    let (first, rows) = match request.rows {
        Rows::Band { first, rows } => (first, rows),
        Rows::Sheet { band } => (0, band),
    };
    let words = &request.subject.words;
    let head = [
        &[words.len() as u32, flags.map(|(_, bit)| bit).sum()][..],
        &halves(first),
        &halves(rows),
        &request.lent.map(|count| count as u32),
        &[request.output.unwrap_or(0) as u32, 0],
    ];
    bytes_of(&[&head.concat(), &words[..]].concat())
}

/// The lines that must be answered.
pub fn answer(request: &Request, form: Form) -> String {
    let (code, place) = request.refusal();
    let text = request.text();
    let mut lines = format!("{code} {place}");
    if request.output.is_some() {
        lines += &format!(" {}", text.len());
    }
    for buffer in request.buffers() {
        let words = request.words_after(*buffer);
        let numbers = words.iter().map(|word| u64::from(*word));
        let shown = shown(form, numbers, || hex_row(&words));
        lines += &format!("\n{}{shown}", BUFFER_NAMES[*buffer]);
    }
    if request.output.is_some() {
        let bytes = request.bytes_after(&text);
        let numbers = bytes.iter().map(|byte| u64::from(*byte));
        let shown = shown(form, numbers, || hex_bytes(&bytes));
        lines += &format!("\nout{shown}");
    }
    lines
}

/// What stands after the name of a buffer.
fn shown(
    form: Form,
    numbers: impl ExactSizeIterator<Item = u64>,
    in_hex: impl Fn() -> String,
) -> String {
    match (form, numbers.len()) {
        (Form::Short, _) => format!(" {:08X}", checksum(numbers)),
        (Form::Long, 0) => String::new(),
        (Form::Long, _) => format!(" {}", in_hex()),
    }
}

/// Bytes as two upper-case hex digits each, single-spaced.
fn hex_bytes(bytes: &[u8]) -> String {
    let hex: Vec<String> = bytes.iter().map(|byte| format!("{byte:02X}")).collect();
    hex.join(" ")
}

/// With how it was made, and the long form to look closer.
pub fn asked(request: Request, form: Form, made: &str) -> Asked {
    Asked {
        bytes: bytes(&request, form),
        head_words: HEAD_WORDS,
        expected: answer(&request, form),
        made: format!("{made}, {request}"),
        heading: nth_of(&PAINT_CODES, request.refusal().0),
        at_odds: None,
        closer: (form == Form::Short).then(|| {
            let again: Box<dyn Fn() -> Asked> =
                Box::new(move || asked(request.clone(), Form::Long, ""));
            again
        }),
    }
}

fn checksum(numbers: impl Iterator<Item = u64>) -> u64 {
    numbers.fold(0, |sum, number| (31 * sum + number + 1) % 4_294_967_291)
}

//! The library called, and what it answers and stores held against what it must.

use super::MOST;
use crate::band_requests::Asking;
use crate::pivotdawn::{
    check, check_into, paint, paint_coloured, paint_coloured_into, paint_into, paint_sheet,
    paint_sheet_coloured, paint_sheet_coloured_into, paint_sheet_into, paint_text,
    paint_text_coloured, paint_text_coloured_into, paint_text_into, Planes,
};
use crate::requests::{Request, Rows, Subject, BUFFER_NAMES, CELLS, COLOURS};

/// A call of the library, which a test of the comparison may spoil.
pub struct Library<'s> {
    spoil: Option<&'s dyn Fn(&mut Called)>,
    called: Called,
}

/// What a call answers, and what is lent for it.
#[derive(Default)]
pub struct Called {
    code: u32,
    answer: Vec<u64>,
    lent: [Vec<u32>; 4],
    output: Vec<u8>,
}

/// Words of an answer before a call.
const UNTOLD: u64 = 0x7E57_7E57_7E57_7E57;

impl<'s> Library<'s> {
    pub fn new() -> Library<'s> {
        Library {
            spoil: None,
            called: Called::default(),
        }
    }

    fn spoil(&mut self) {
        if let Some(spoil) = self.spoil {
            spoil(&mut self.called);
        }
    }

    /// What differs in the check's answer, told in so many words.
    pub fn check_differs(&mut self, subject: &Subject, answer_words: usize) -> Option<String> {
        self.called.answer = vec![UNTOLD; answer_words];
        self.called.check(&subject.words);
        self.spoil();
        let expected = subject.answer;
        let told = [u64::from(expected.place), u64::from(expected.runs)];
        self.called.answer_differs(expected.code, &told)
    }

    /// What differs in the answer to a request or in what was lent for it; `text` is what
    /// must be written.
    pub fn paint_differs(
        &mut self,
        request: &Request,
        text: &[u8],
        answer_words: usize,
    ) -> Option<String> {
        let called = &mut self.called;
        called.lend(request);
        called.answer = vec![UNTOLD; answer_words];
        match (request.rows, request.output) {
            (Rows::Sheet { band }, _) => called.paint_sheet(request, band as usize),
            (_, Some(_)) => called.paint_text(request),
            (_, None) => called.paint(request),
        }
        self.spoil();
        let (code, place) = request.refusal();
        let told = [u64::from(place), text.len() as u64];
        let told = match request.output {
            Some(_) => &told[..],
            None => &told[..1],
        };
        let in_answer = self.called.answer_differs(code, told);
        in_answer.or_else(|| self.called.lent_differs(request, text))
    }

    /// What differs between the sheet that was just painted and the same sheet in bands: by the
    /// library's own calls for a band, joined, and by the original.
    pub fn in_bands_differs(&self, request: &Request) -> Option<String> {
        let Rows::Sheet { band } = request.rows else {
            return None;
        };
        if request.refusal().0 != 0 {
            return None;
        }
        let joined = self.called.joined_differs(request, band as usize);
        joined.or_else(|| swept_differs(request, band))
    }
}

impl Called {
    /// All that a request lends, as it stands before the call.
    fn lend(&mut self, request: &Request) {
        for buffer in request.buffers() {
            self.lent[*buffer].clear();
            self.lent[*buffer].extend(request.words_before(*buffer));
        }
        self.output.clear();
        self.output.extend(request.bytes_before());
    }

    /// Where as many words are lent as the answer has, by the call that answers them.
    fn check(&mut self, words: &[u32]) {
        let [place, runs] = &mut self.answer[..] else {
            self.code = check_into(words, &mut self.answer);
            return;
        };
        let answer = check(words);
        (self.code, *place, *runs) = (answer.code, answer.place, answer.runs);
    }

    /// The same.
    fn paint(&mut self, request: &Request) {
        let (words, answer) = (&request.subject.words, &mut self.answer[..]);
        let (first, rows) = request.first_and_rows();
        let planes = planes(&mut self.lent);
        let outcome = match (request.coloured, answer.len()) {
            (false, 1) => paint(words, first, rows, planes.cells, planes.scratch),
            (true, 1) => paint_coloured(words, first, rows, planes),
            (coloured, _) => {
                self.code = match coloured {
                    false => paint_into(words, first, rows, planes.cells, planes.scratch, answer),
                    true => paint_coloured_into(words, first, rows, planes, answer),
                };
                return;
            }
        };
        (self.code, answer[0]) = (outcome.code, outcome.place);
    }

    /// The same, for a whole sheet.
    fn paint_sheet(&mut self, request: &Request, band: usize) {
        let (words, answer) = (&request.subject.words, &mut self.answer[..]);
        let planes = planes(&mut self.lent);
        let outcome = match (request.coloured, answer.len()) {
            (false, 1) => paint_sheet(words, band, planes.cells, planes.scratch),
            (true, 1) => paint_sheet_coloured(words, band, planes),
            (coloured, _) => {
                self.code = match coloured {
                    false => paint_sheet_into(words, band, planes.cells, planes.scratch, answer),
                    true => paint_sheet_coloured_into(words, band, planes, answer),
                };
                return;
            }
        };
        (self.code, answer[0]) = (outcome.code, outcome.place);
    }

    /// The same, as text.
    fn paint_text(&mut self, request: &Request) {
        let (words, answer) = (&request.subject.words, &mut self.answer[..]);
        let (first, rows) = request.first_and_rows();
        let (planes, out) = (planes(&mut self.lent), &mut self.output[..]);
        let written = match (request.coloured, answer.len()) {
            (false, 2) => paint_text(words, first, rows, planes.cells, planes.scratch, out),
            (true, 2) => paint_text_coloured(words, first, rows, planes, out),
            (coloured, _) => {
                self.code = match coloured {
                    false => paint_text_into(
                        words,
                        first,
                        rows,
                        planes.cells,
                        planes.scratch,
                        out,
                        answer,
                    ),
                    true => paint_text_coloured_into(words, first, rows, planes, out, answer),
                };
                return;
            }
        };
        self.code = written.code;
        answer.copy_from_slice(&[written.place, written.bytes]);
    }

    /// `told` are the answer's first words, as far as there is room.
    fn answer_differs(&self, expected: u32, told: &[u64]) -> Option<String> {
        let code = self.code;
        if code != expected {
            return Some(format!("code {code}, expected {expected}"));
        }
        let told = told.iter().copied().chain(std::iter::repeat(UNTOLD));
        let mut words = self.answer.iter().zip(told).enumerate();
        let (place, (word, told)) = words.find(|(_, (word, told))| *word != told)?;
        Some(format!("answer word {place} is {word}, expected {told}"))
    }

    fn lent_differs(&self, request: &Request, text: &[u8]) -> Option<String> {
        let in_buffer = |buffer: &usize| {
            let (after, expected) = (&self.lent[*buffer], request.words_after(*buffer));
            differs(BUFFER_NAMES[*buffer], "word", 8, after, &expected)
        };
        let in_buffers = request.buffers().iter().find_map(in_buffer);
        let expected = request.bytes_after(text);
        in_buffers.or_else(|| differs("output", "byte", 2, &self.output, &expected))
    }
}

// ---- A sheet and its bands ---------------------------------------------------

/// A sheet is joined of at most so many bands: each is checked anew.
const MOST_JOINED: usize = 40;

/// A word of a joined plane before its band is painted.
const UNPAINTED: u32 = 0x7E57_7E57;

impl Called {
    /// The sheet that was painted beside its bands: of the height that was asked, or of more
    /// where there would be too many of them.
    fn joined_differs(&self, request: &Request, band: usize) -> Option<String> {
        let height = request.subject.height().max(1);
        let band = band.clamp(height.div_ceil(MOST_JOINED), height);
        let joined = match joined(request, band) {
            Ok(joined) => joined,
            Err(code) => return Some(format!("code {code} for a band of {band}")),
        };
        let room = request.room();
        let in_plane = |buffer: usize| {
            let name = format!("{} beside bands of {band},", BUFFER_NAMES[buffer]);
            let sheet = &self.lent[buffer][..room[buffer]];
            differs(&name, "word", 8, sheet, &joined[buffer])
        };
        let in_cells = in_plane(CELLS);
        in_cells.or_else(|| request.coloured.then(|| in_plane(COLOURS)).flatten())
    }
}

/// The original is asked for a sheet in at most so many bands: in each it walks along every
/// line that reaches it.
const MOST_SWEPT: u64 = 100;

/// Whether the original, which carries its own sweep, paints another sheet in these bands.
fn swept_differs(request: &Request, band: u64) -> Option<String> {
    let bands = (request.subject.height() as u64).div_ceil(band);
    let is_asked = 1 < bands && bands <= MOST_SWEPT;
    let differs = is_asked && !request.subject.is_swept_alike(request.coloured, band);
    differs.then(|| "the original paints another sheet in these bands".to_string())
}

/// The four planes after all bands of this height were painted, each into its own part; or the
/// code of the first that is refused.
fn joined(request: &Request, band: usize) -> Result<[Vec<u32>; 4], u32> {
    let Request {
        subject, coloured, ..
    } = request;
    let (width, height) = (subject.width(), subject.height());
    let mut lent = subject.room(height).map(|wanted| vec![UNPAINTED; wanted]);
    for first in (0..height).step_by(band) {
        let rows = band.min(height - first);
        let part = first * width..(first + rows) * width;
        let all = planes(&mut lent);
        let planes = Planes {
            cells: &mut all.cells[part.clone()],
            colours: &mut all.colours[part.clone()],
            stamps: &mut all.stamps[part],
            scratch: all.scratch,
        };
        let words = &subject.words;
        let outcome = match coloured {
            false => paint(words, first, rows, planes.cells, planes.scratch),
            true => paint_coloured(words, first, rows, planes),
        };
        if outcome.code != 0 {
            return Err(outcome.code);
        }
    }
    Ok(lent)
}

fn planes(lent: &mut [Vec<u32>; 4]) -> Planes<'_> {
    let [cells, colours, stamps, scratch] = lent;
    Planes {
        cells,
        colours,
        stamps,
        scratch,
    }
}

/// The first word or byte that differs, in so many hex digits.
fn differs<N>(name: &str, unit: &str, digits: usize, after: &[N], expected: &[N]) -> Option<String>
where
    N: PartialEq + std::fmt::UpperHex,
{
    if after == expected {
        return None;
    }
    let mut numbers = after.iter().zip(expected).enumerate();
    let differs = numbers.find(|(_, (number, expected))| number != expected);
    Some(differs.map_or(
        format!("{name}: another length"),
        |(place, (number, expected))| {
            format!("{name} {unit} {place} is {number:0digits$X}, expected {expected:0digits$X}")
        },
    ))
}

/// So many words are lent for an answer: mostly those that it has, sometimes none, or
/// fewer, or more.
pub fn answer_words(number: u64, usual: usize) -> usize {
    match number % 16 {
        3 => 0,
        7 => 1,
        11 => 5,
        _ => usual,
    }
}

// ---- Whether the comparison notices ----------------------------------------

/// What is changed behind the library's back, and the change.
type Spoil = (&'static str, fn(&mut Called));

const SPOILS: [Spoil; 8] = [
    ("another code", |called| called.code += 1),
    ("another place", |called| called.answer[0] ^= 1),
    ("a word written beyond the answer", |called| {
        called.answer[4] = 0
    }),
    ("a stamp that is left", |called| called.lent[2][0] = 1),
    ("a scratch word that is left", |called| {
        called.lent[3][8] = 1
    }),
    ("a word written beyond the cells", |called| {
        called.lent[0][12] = 0
    }),
    ("a word written beyond the stamps", |called| {
        called.lent[2][12] = 0
    }),
    ("a word written beyond the scratch", |called| {
        called.lent[3][10] = 0
    }),
];

/// What is also seen beside the bands of a sheet.
const SPOILS_OF_PICTURE: [Spoil; 3] = [
    ("another cell", |called| called.lent[0][5] ^= 1),
    ("another last cell", |called| called.lent[0][11] ^= 1 << 31),
    ("another colour", |called| called.lent[1][5] ^= 1),
];

/// A sheet wants a word of scratch more for each element.
const SPOILS_OF_SHEET: [Spoil; 1] = [("an active element that is left", |called| {
    called.lent[3][9] = 1
})];

/// Word 1 of the answer says where the text ends.
const SPOILS_OF_TEXT: [Spoil; 4] = [
    ("another number of bytes", |called| called.answer[1] += 1),
    ("another byte", |called| called.output[5] ^= 1),
    ("another last byte", |called| {
        called.output[called.answer[1] as usize - 1] ^= 1
    }),
    ("a byte written beyond the text", |called| {
        called.output[called.answer[1] as usize] ^= 1
    }),
];

/// A wrong answer that would go unnoticed, if there is one: every kind of word is once
/// changed behind the library's back. This is done before each comparison.
pub fn unnoticed_fault() -> Option<&'static str> {
    // Four by three cells, one run and one element, and an edge that crosses row 1.
    let words = [
        &[4, 3, 1, 0, 0, 1, 0, 0, 1, 0, 0, 0][..],
        &[0, 0, 3, 2, 1 << 29 | 2 << 23, 1, 0, 0, 0, 0, 7, 0],
        &[1, 0, 0, 2],
    ];
    let mut asking = Asking::about(words.concat(), 0, MOST);
    let (band, lent) = ((0, 3), [14, 14, 14, 11]);
    asking.ask("", true, band, lent);
    asking.ask_text("", true, band, lent, 300);
    asking.ask_sheet("", true, 2, lent);
    let [(_, cells), (_, text), (_, sheet)] = &asking.requests[..] else {
        return Some("a request that is not made");
    };
    let of_each = [cells, text, sheet].into_iter().find_map(|request| {
        let unnoticed = unnoticed_in(request, &SPOILS);
        unnoticed.or_else(|| unnoticed_in(request, &SPOILS_OF_PICTURE))
    });
    let unnoticed = of_each.or_else(|| unnoticed_in(text, &SPOILS_OF_TEXT));
    let unnoticed = unnoticed.or_else(|| unnoticed_in(sheet, &SPOILS_OF_SHEET));
    let unnoticed = unnoticed.or_else(|| unnoticed_beside_bands(sheet));
    unnoticed.or_else(|| {
        let mut library = Library::new();
        library.spoil = Some(&|called| called.answer[1] += 1);
        let noticed = library.check_differs(&cells.subject, 2).is_some();
        (!noticed).then_some("another run count")
    })
}

fn unnoticed_in(request: &Request, spoils: &'static [Spoil]) -> Option<&'static str> {
    let (text, mut library) = (request.text(), Library::new());
    if library.paint_differs(request, &text, 5).is_some() {
        return Some("that a sheet of one edge is already answered wrongly");
    }
    for (what, spoil) in spoils {
        library.spoil = Some(spoil);
        if library.paint_differs(request, &text, 5).is_none() {
            return Some(what);
        }
    }
    None
}

/// The same of the comparison of a sheet with its bands.
fn unnoticed_beside_bands(sheet: &Request) -> Option<&'static str> {
    let mut library = Library::new();
    library.paint_differs(sheet, &[], 5);
    if library.in_bands_differs(sheet).is_some() {
        return Some("that a sheet of one edge is not its bands");
    }
    for (what, spoil) in &SPOILS_OF_PICTURE {
        library.spoil = Some(spoil);
        library.paint_differs(sheet, &[], 5);
        if library.in_bands_differs(sheet).is_none() {
            return Some(what);
        }
    }
    None
}

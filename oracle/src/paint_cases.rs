//! `paint-cases`: named requests to the program `paintlines`, which reads them as its
//! stored standard input. What it must answer is what the original paints, the text of
//! that, and what the slow check refuses.
//!
//! Each case also states its code and place, some their text, worked out by hand from how
//! they are made, so that a case cannot quietly come to test something else.

mod bands;
mod edges;
mod refused;
mod sheets;
mod text;
mod things;
mod together;

use crate::cases::{self, Asked};
use crate::codes::PAINT_CODES;
use crate::coverage::Coverage;
use crate::draft::Draft;
use crate::generate::accepted;
use crate::paintlines::{answer, bytes, Form};
use crate::requests::{Request, Rows, Subject};
use crate::sheet_coverage::SheetCoverage;
use crate::stored::{self, Stored};
use crate::text_coverage::TextCoverage;
use crate::wrong_use;
use std::collections::BTreeSet;
use std::io::{self, Write as _};
use std::process::ExitCode;
use std::rc::Rc;

/// The weights of edges and borders.
const WEIGHTS: [(u32, &str); 3] = [(1, "Dashed"), (2, "Light"), (3, "Double")];

struct Case {
    name: String,
    request: Request,
    form: Form,
    /// Code and place.
    stated: (u32, u32),
    /// The text, where it is stated too.
    drawing: Option<&'static str>,
}

#[derive(Default)]
struct Cases {
    list: Vec<Case>,
}

impl Cases {
    fn ask(&mut self, name: impl Into<String>, request: Request, stated: (u32, u32)) {
        let (name, form) = (name.into(), Form::Long);
        self.list.push(Case {
            name,
            request,
            form,
            stated,
            drawing: None,
        });
    }

    /// A band that is written as this text.
    fn ask_drawn(&mut self, name: impl Into<String>, request: Request, drawing: &'static str) {
        self.ask(name, request, (0, 0));
        if let Some(last) = self.list.last_mut() {
            last.drawing = Some(drawing);
        }
    }

    /// A band or a sheet that is painted, in the short form.
    fn ask_short(&mut self, name: impl Into<String>, request: Request) {
        self.ask_in_short(name, request, (0, 0));
    }

    fn ask_in_short(&mut self, name: impl Into<String>, request: Request, stated: (u32, u32)) {
        self.ask(name, request, stated);
        if let Some(last) = self.list.last_mut() {
            last.form = Form::Short;
        }
    }

    /// The whole sheet, coloured, listed exactly, each buffer a word longer than
    /// needed.
    fn painted(&mut self, name: impl Into<String>, draft: &Draft) {
        let request = whole(subject_of(draft), true);
        self.ask(name, request, (0, 0));
    }
}

/// Listed exactly, with just the run capacity that it needs.
fn subject_of(draft: &Draft) -> Rc<Subject> {
    Rc::new(Subject::painted(accepted(draft)))
}

/// All rows.
fn whole(subject: Rc<Subject>, coloured: bool) -> Request {
    let rows = subject.height();
    band(subject, coloured, (0, rows))
}

/// A band that is on the sheet, each buffer a word longer than needed.
fn band(subject: Rc<Subject>, coloured: bool, (first, rows): (usize, usize)) -> Request {
    let lent = subject.room(rows).map(|wanted| wanted + 1);
    let (first, rows) = (first as u64, rows as u64);
    Request {
        subject,
        rows: Rows::Band { first, rows },
        coloured,
        output: None,
        lent,
    }
}

fn all_cases() -> Vec<Case> {
    let mut cases = Cases::default();
    of_the_document(&mut cases);
    edges::add(&mut cases);
    things::add(&mut cases);
    together::add(&mut cases);
    bands::add(&mut cases);
    refused::add(&mut cases);
    text::add(&mut cases);
    sheets::add(&mut cases);
    cases.list
}

/// The images of the proof table and the example, plain and coloured. One of them
/// is refused with code 6.
fn of_the_document(cases: &mut Cases) {
    for case in cases::all() {
        let Asked::Image(words) = case.asked else {
            continue;
        };
        let subject = Rc::new(Subject::painted(words));
        let stated = match case.name {
            "corner-row-below-0" => (6, 12),
            _ => (0, 0),
        };
        for (kind, coloured) in [("plain", false), ("coloured", true)] {
            let request = whole(Rc::clone(&subject), coloured);
            cases.ask(format!("{}, {kind}", case.name), request, stated);
        }
    }
}

pub fn command(options: &[String]) -> io::Result<ExitCode> {
    let Some(writes) = stored::writes(options) else {
        return Ok(wrong_use("paint-cases [--write]"));
    };
    let cases = all_cases();
    let gaps = [
        gaps_of(&cases),
        gaps_of_texts(&cases),
        gaps_of_sheets(&cases),
    ];
    let faults = [faults_of(&cases), gaps.concat()].concat();
    if stored::write_faults(&faults)? {
        return Ok(ExitCode::FAILURE);
    }
    for code in PAINT_CODES {
        let requests = cases.iter().filter(|case| case.stated.0 == code).count();
        writeln!(io::stdout(), "code {code}: {requests}")?;
    }
    stored_of(&cases).finish(writes, "requests")
}

/// Where a case states another code, place or text, and names given twice.
fn faults_of(cases: &[Case]) -> Vec<String> {
    let mut faults = stored::repeated(cases.iter().map(|case| &case.name));
    for case in cases {
        let (stated, answered) = (case.stated, case.request.refusal());
        if stated != answered {
            let name = &case.name;
            faults.push(format!(
                "{name}: {stated:?} is stated, {answered:?} answered"
            ));
        }
        let text = String::from_utf8(case.request.text());
        let is_drawn = |drawing: &str| text.as_deref() == Ok(drawing);
        if case.drawing.is_some_and(|drawing| !is_drawn(drawing)) {
            faults.push(format!("{}: the text is {text:?}", case.name));
        }
        if !is_swept_alike(&case.request) {
            let name = &case.name;
            faults.push(format!("{name}: the original paints other bands"));
        }
    }
    faults
}

/// Whether the original paints the same sheet in the bands that are asked for; of no other
/// request there is anything to say.
fn is_swept_alike(request: &Request) -> bool {
    match request.rows {
        Rows::Sheet { band } if request.refusal().0 == 0 => {
            request.subject.is_swept_alike(request.coloured, band)
        }
        _ => true,
    }
}

/// Bands of so many rows must be asked for.
const BANDS: [usize; 4] = [0, 1, 3, 8];

/// Sheets must be asked for in bands of so many rows, which are for one of them all rows, and
/// must be refused in bands of 0.
const BANDS_OF_SHEETS: [u64; 9] = [
    1,
    3,
    7,
    8,
    9,
    13,
    u32::MAX as u64,
    u32::MAX as u64 + 1,
    u64::MAX,
];

/// What no case paints, plain or coloured, as a band and as a sheet: each path on each flow,
/// weight, look, policy and width, and bands of several heights.
fn gaps_of(cases: &[Case]) -> Vec<String> {
    let mut gaps = Vec::new();
    for (kind, bands) in [
        ("plain", &BANDS[..]),
        ("coloured", &BANDS),
        ("plain sheet", &[]),
        ("coloured sheet", &[]),
    ] {
        let painted = cases.iter().map(|case| &case.request);
        let painted = painted.filter(|one| one.kind() == kind && one.refusal().0 == 0);
        let mut coverage = Coverage::none();
        let mut heights = BTreeSet::new();
        for request in painted {
            let (subject, (_, rows)) = (&request.subject, request.first_and_rows());
            let (words, runs) = (&subject.words, subject.answer.runs);
            heights.insert(rows);
            if rows == subject.height() {
                coverage.count(words, runs, subject.cells());
            }
        }
        let features = coverage.missing().into_iter().map(str::to_string);
        let bands = bands.iter().filter(|rows| !heights.contains(*rows));
        let missing = features.chain(bands.map(|rows| format!("a band of {rows} rows")));
        gaps.extend(missing.map(|what| format!("no case paints {kind}: {what}")));
    }
    gaps
}

/// What no case writes as text: each kind of cell, every stroke by its arms, each kind of
/// colour, and bands of several heights.
fn gaps_of_texts(cases: &[Case]) -> Vec<String> {
    let mut coverage = TextCoverage::none();
    let mut heights = BTreeSet::new();
    let requests = cases.iter().map(|case| &case.request);
    let texts = requests.filter(|one| one.output.is_some() && one.refusal().0 == 0);
    for request in texts {
        coverage.count(request, &request.text());
        heights.insert((request.kind(), request.first_and_rows().1));
    }
    let kinds = ["plain text", "coloured text"];
    let bands = kinds.map(|kind| [0, 1, 2, 3, 9].map(|rows| (kind, rows)));
    let bands = bands.into_iter().flatten();
    let bands = bands.filter(|band| !heights.contains(band));
    let bands = bands.map(|(kind, rows)| format!("a band of {rows} rows as {kind}"));
    let cells = coverage.missing().map(str::to_string);
    let strokes = coverage.missing_strokes().into_iter();
    let strokes = strokes.map(|arms| format!("a stroke of the arms {arms}"));
    cells
        .chain(strokes)
        .chain(bands)
        .map(|what| format!("no case writes: {what}"))
        .collect()
}

/// What no case paints as a sheet in one call: bands of several heights, elements that come and
/// go in each way, and band height 0.
fn gaps_of_sheets(cases: &[Case]) -> Vec<String> {
    let mut gaps = Vec::new();
    for kind in ["plain sheet", "coloured sheet"] {
        let mut coverage = SheetCoverage::none();
        let mut bands = BTreeSet::new();
        let requests = cases.iter().map(|case| &case.request);
        for request in requests.filter(|one| one.kind() == kind) {
            let Rows::Sheet { band } = request.rows else {
                continue;
            };
            match request.refusal() {
                (0, _) => {
                    coverage.count(request);
                    bands.insert(band);
                }
                (11, 1) => _ = bands.insert(0),
                _ => {}
            }
        }
        let wanted = [&[0][..], &BANDS_OF_SHEETS].concat().into_iter();
        let missing = wanted.filter(|band| !bands.contains(band));
        let missing = missing.map(|band| format!("bands of {band}"));
        let missing = coverage.missing().map(str::to_string).chain(missing);
        gaps.extend(missing.map(|what| format!("no case asks for a {kind}: {what}")));
    }
    gaps
}

/// The stream ends inside a request, so the last line is `unread`.
fn stored_of(cases: &[Case]) -> Stored {
    let mut stored = Stored::of("paint-cases", "paintlines");
    for case in cases {
        let (request, form) = (&case.request, case.form);
        let (asked, answered) = (bytes(request, form), answer(request, form));
        // Code and place, of a text the bytes too.
        let told = answered.lines().next().unwrap_or_default();
        stored.take(&case.name, &asked, &answered, told);
    }
    let name = "a request that breaks off inside the last word of its image";
    let mut broken_off = bytes(&cases[0].request, Form::Long);
    broken_off.pop();
    stored.take(name, &broken_off, "unread", "unread");
    stored
}

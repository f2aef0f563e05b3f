//! `compare`: the product's library, called without a process between, held against
//! the original and the slow check on images of every make. Threads share the images
//! out; what an image is and what is asked of it follow from its number and the seed.

mod library;
mod specimens;

use crate::asking::{count_and_seed, shown_image, PROGRESS, SHOWN};
use crate::band_requests::{Asking, Most, SHEET_WAYS};
use crate::codes::{Meant, CHECK_CODES, PAINT_CODES};
use crate::coverage::Coverage;
use crate::every_stroke::every_stroke;
use crate::full::full_images;
use crate::generate::accepted;
use crate::requests::{Request, KINDS};
use crate::sheet_coverage::SheetCoverage;
use crate::text_coverage::TextCoverage;
use crate::wrong_use;
use library::{answer_words, unnoticed_fault, Library};
use specimens::{asking_about, Block, Kind, Specimen, KIND_NAMES};
use std::collections::BTreeMap;
use std::io::{self, Write as _};
use std::process::ExitCode;
use std::sync::atomic::{AtomicU64, Ordering};
use std::sync::mpsc::{channel, RecvTimeoutError};
use std::time::Instant;

/// The most that is lent.
const MOST: Most = Most {
    words: 1_500_010,
    bytes: 8_000_000,
};

/// Images that a thread takes at a time.
const BLOCK: u64 = 1_000;

pub fn command(options: &[String]) -> io::Result<ExitCode> {
    let lists = options.iter().any(|option| option == "--coverage");
    let numbers: Vec<String> = options
        .iter()
        .filter(|o| *o != "--coverage")
        .cloned()
        .collect();
    let Some((count, seed)) = count_and_seed(&numbers) else {
        return Ok(wrong_use(
            "compare [--coverage] [COUNT] [SEED], two numbers",
        ));
    };
    if let Some(unnoticed) = unnoticed_fault() {
        writeln!(io::stdout(), "the comparison does not notice {unnoticed}")?;
        return Ok(ExitCode::FAILURE);
    }
    let tally = compare_all(count as u64, seed);
    tally.report(seed, lists)
}

// ---- The comparison ------------------------------------------------------

/// A difference, as it is shown.
struct Difference {
    number: u64,
    what: String,
    image: String,
}

/// How many images or requests got each code.
type ByCode = BTreeMap<u32, u64>;

/// None of these codes.
fn none_of(codes: &[u32]) -> ByCode {
    codes.iter().map(|code| (*code, 0)).collect()
}

fn add_counts<N: Ord>(sums: &mut BTreeMap<N, u64>, more: BTreeMap<N, u64>) {
    for (name, more) in more {
        *sums.entry(name).or_default() += more;
    }
}

/// What was asked and found.
struct Tally {
    images: [u64; KIND_NAMES.len()],
    checks_by_code: ByCode,
    /// Requests by their kind, and by code.
    requests: BTreeMap<&'static str, ByCode>,
    /// Images by their maker and the check's code, and requests by how they were made.
    makers: BTreeMap<String, ByCode>,
    makings: BTreeMap<&'static str, u64>,
    differences: u64,
    shown: Vec<Difference>,
    coverage: Coverage,
    texts: TextCoverage,
    sheets: SheetCoverage,
}

impl Tally {
    fn none() -> Tally {
        Tally {
            images: [0; KIND_NAMES.len()],
            checks_by_code: none_of(&CHECK_CODES),
            requests: KINDS.map(|kind| (kind, none_of(&PAINT_CODES))).into(),
            makers: BTreeMap::new(),
            makings: SHEET_WAYS.map(|way| (way, 0)).into(),
            differences: 0,
            shown: Vec::new(),
            coverage: Coverage::none(),
            texts: TextCoverage::none(),
            sheets: SheetCoverage::none(),
        }
    }

    fn add(&mut self, other: Tally) {
        for (sum, more) in self.images.iter_mut().zip(other.images) {
            *sum += more;
        }
        add_counts(&mut self.checks_by_code, other.checks_by_code);
        for (kind, more) in other.requests {
            add_counts(self.requests.entry(kind).or_default(), more);
        }
        for (maker, more) in other.makers {
            add_counts(self.makers.entry(maker).or_default(), more);
        }
        add_counts(&mut self.makings, other.makings);
        self.differences += other.differences;
        self.coverage.add(&other.coverage);
        self.texts.add(&other.texts);
        self.sheets.add(&other.sheets);
        self.shown.extend(other.shown);
        self.shown.sort_by_key(|difference| difference.number);
        self.shown.truncate(SHOWN);
    }

    fn done(&self) -> u64 {
        self.images.iter().sum()
    }

    fn requests(&self) -> u64 {
        self.requests.values().flat_map(ByCode::values).sum()
    }

    fn differs(&mut self, number: u64, what: String, words: &[u32]) {
        self.differences += 1;
        // Of an image the first difference.
        let is_shown = self.shown.last().is_some_and(|last| last.number == number);
        if !is_shown && self.shown.len() < SHOWN {
            let image = shown_image(words);
            self.shown.push(Difference {
                number,
                what,
                image,
            });
        }
    }

    /// Checks and paints one image in every way that is asked.
    fn take(&mut self, library: &mut Library<'_>, specimen: Specimen, asking: Asking, number: u64) {
        let Asking {
            subject, requests, ..
        } = asking;
        let (made, code) = (&specimen.made, subject.answer.code);
        self.images[specimen.kind as usize] += 1;
        let of_its_maker = self.makers.entry(specimen.maker().to_string());
        *of_its_maker.or_default().entry(code).or_default() += 1;
        *self.checks_by_code.entry(code).or_default() += 1;
        let answer = subject.answer;
        if specimen.meant.is_some_and(|meant| !meant.is_met_by(answer)) {
            let what = format!("{made}: the slow check answers {answer:?}");
            self.differs(number, what, &subject.words);
        }
        if let Some(what) = library.check_differs(&subject, answer_words(number, 2)) {
            self.differs(number, format!("{made}, check: {what}"), &subject.words);
        }
        for (nth, (how, request)) in requests.into_iter().enumerate() {
            let nth = number.wrapping_add(nth as u64);
            if let Some(what) = self.ask(library, how, &request, nth) {
                let what = format!("{made}, {how}, {request}: {what}");
                self.differs(number, what, &subject.words);
            }
        }
        if subject.is_painted() {
            let (words, runs) = (&subject.words, subject.answer.runs);
            self.coverage.count(words, runs, subject.cells());
        }
    }

    /// What differs in the answer to a request.
    fn ask(
        &mut self,
        library: &mut Library<'_>,
        how: &'static str,
        request: &Request,
        nth: u64,
    ) -> Option<String> {
        let text = request.text();
        self.count(how, request, &text);
        let told = if request.output.is_some() { 2 } else { 1 };
        let differs = library.paint_differs(request, &text, answer_words(nth, told));
        differs.or_else(|| library.in_bands_differs(request))
    }

    /// A request, how it was made, and the text that must be written.
    fn count(&mut self, how: &'static str, request: &Request, text: &[u8]) {
        let code = request.refusal().0;
        let by_code = self.requests.entry(request.kind()).or_default();
        *by_code.entry(code).or_default() += 1;
        *self.makings.entry(how).or_default() += 1;
        if request.output.is_some() && code == 0 {
            self.texts.count(request, text);
        }
        if code == 0 {
            self.sheets.count(request);
        }
    }
}

fn tally_block(block: u64, count: u64, seed: u64) -> Tally {
    let mut tally = Tally::none();
    let mut library = Library::new();
    let images = Block::of(seed, block);
    for number in block * BLOCK..count.min((block + 1) * BLOCK) {
        let mut specimen = images.specimen(number);
        let asking = asking_about(std::mem::take(&mut specimen.words), number, seed);
        tally.take(&mut library, specimen, asking, number);
    }
    tally
}

/// The images with every table at its limit, and the one with every stroke, after all others.
fn tally_last(count: u64) -> Tally {
    let mut tally = Tally::none();
    let mut library = Library::new();
    let full = full_images().into_iter().map(|(meant, words)| Specimen {
        kind: Kind::FullTables,
        made: format!("every table full, for code {}", meant.code),
        words,
        meant: Some(meant),
    });
    let every_stroke = Specimen {
        kind: Kind::EveryStroke,
        made: "every stroke".to_string(),
        words: accepted(&every_stroke()),
        meant: Some(Meant::code(0)),
    };
    for (number, mut specimen) in (count..).zip(full.chain([every_stroke])) {
        let mut asking = Asking::about(std::mem::take(&mut specimen.words), 0, MOST);
        asking.ask_four_cuttings(number);
        asking.ask_sheets();
        tally.take(&mut library, specimen, asking, number);
    }
    tally
}

/// As many threads as there are processors.
fn compare_all(count: u64, seed: u64) -> Tally {
    let blocks = count.div_ceil(BLOCK);
    let next = AtomicU64::new(0);
    let threads = std::thread::available_parallelism().map_or(1, usize::from);
    let mut tally = Tally::none();
    std::thread::scope(|scope| {
        let (sender, done) = channel();
        for _ in 0..threads {
            let (sender, next) = (sender.clone(), &next);
            scope.spawn(move || loop {
                let block = next.fetch_add(1, Ordering::Relaxed);
                let found = match block.cmp(&blocks) {
                    std::cmp::Ordering::Less => tally_block(block, count, seed),
                    std::cmp::Ordering::Equal => tally_last(count),
                    std::cmp::Ordering::Greater => return,
                };
                if sender.send(found).is_err() {
                    return;
                }
            });
        }
        drop(sender);
        let began = Instant::now();
        let mut told = began;
        loop {
            match done.recv_timeout(PROGRESS.saturating_sub(told.elapsed())) {
                Ok(found) => tally.add(found),
                Err(RecvTimeoutError::Timeout) => {}
                Err(RecvTimeoutError::Disconnected) => return,
            }
            if told.elapsed() >= PROGRESS {
                told = Instant::now();
                let (images, differences) = (tally.done(), tally.differences);
                let each_second = images as f64 / began.elapsed().as_secs_f64();
                eprintln!("{images} of {count} images, {each_second:.0} a second, differences: {differences}");
            }
        }
    });
    tally
}

impl Tally {
    /// The differences, the coverage if it is asked for, and one line of result.
    fn report(&self, seed: u64, lists_coverage: bool) -> io::Result<ExitCode> {
        let mut out = io::stdout().lock();
        for difference in &self.shown {
            let Difference {
                number,
                what,
                image,
            } = difference;
            writeln!(out, "difference: image {number}, {what}\nimage {image}")?;
        }
        if lists_coverage {
            self.write_coverage(&mut out)?;
        }
        let kinds = KIND_NAMES.iter().zip(self.images);
        let kinds: Vec<String> = kinds
            .map(|(name, count)| format!("{name} {count}"))
            .collect();
        writeln!(
            out,
            "images: {} ({}), seed: {seed}, requests: {}, differences: {}",
            self.done(),
            kinds.join(", "),
            self.requests(),
            self.differences
        )?;
        match self.differences {
            0 => Ok(ExitCode::SUCCESS),
            _ => Ok(ExitCode::FAILURE),
        }
    }

    fn write_coverage(&self, out: &mut impl io::Write) -> io::Result<()> {
        self.coverage.write(out)?;
        write_counts(out, "images by the check's code", &self.checks_by_code)?;
        writeln!(out, "images by maker, and by the check's code")?;
        for (maker, by_code) in &self.makers {
            let images: u64 = by_code.values().sum();
            write_counts(out, &format!("  {maker}, {images} images"), by_code)?;
        }
        write_counts(out, "requests", &self.makings)?;
        for (kind, by_code) in &self.requests {
            let requests: u64 = by_code.values().sum();
            write_counts(
                out,
                &format!("requests, {kind}, {requests} by code"),
                by_code,
            )?;
        }
        self.texts.write(out)?;
        self.sheets.write(out)?;
        match self.never_met() {
            never if never.is_empty() => Ok(()),
            never => writeln!(out, "never met: {}", never.join(", ")),
        }
    }

    /// Of all that is to be met, what was not.
    fn never_met(&self) -> Vec<&str> {
        let kinds = self.requests.iter();
        let kinds = kinds.filter(|(_, by_code)| by_code.values().all(|requests| *requests == 0));
        let ways = self.makings.iter().filter(|(_, requests)| **requests == 0);
        let names = kinds.map(|(kind, _)| *kind);
        let names = names.chain(ways.map(|(way, _)| *way));
        let things = self.coverage.missing().into_iter();
        names
            .chain(things)
            .chain(self.texts.missing())
            .chain(self.sheets.missing())
            .collect()
    }
}

fn write_counts<N: std::fmt::Display>(
    out: &mut impl io::Write,
    what: &str,
    counts: &BTreeMap<N, u64>,
) -> io::Result<()> {
    let counts = counts.iter().map(|(name, n)| format!("{name}: {n}"));
    let counts: Vec<String> = counts.collect();
    writeln!(out, "{what}: {}", counts.join(", "))
}

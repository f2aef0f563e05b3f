//! `bench`: the product beside the original on the same sheets, as Markdown tables: the
//! check alone, the painting alone, the public call, which does both, the one that writes
//! the band as text too, and the one for a whole sheet. And how the cost of the check, of the
//! painting and of the call for a whole sheet grows, as tables and sheets double.

mod clock;
mod counts;
mod growth;
mod product;
mod sheet_table;

use crate::engine::cell::Cell;
use crate::image::Image;
use crate::in_the_repository;
use crate::paint::Planned;
use crate::sheets::{sheets, Sheet};
use crate::stubs::color::CellColor;
use crate::wrong_use;
use clock::{least_seconds, Work};
use std::fs;
use std::hint::black_box;
use std::io::{self, Write as _};
use std::path::PathBuf;
use std::process::{Command, ExitCode};

pub use counts::once;

/// Where the sheets are put as files, to be looked at or counted on.
const FOLDER: &str = "target/oracle/sheets";

const DEFAULT_ROUNDS: u32 = 40;

/// A sheet painted whole is one band of all its rows.
const ALL_ROWS: usize = usize::MAX;

/// The band heights: a row, the rows of a band on the handheld, and the whole sheet.
const BANDS: [usize; 3] = [1, 8, ALL_ROWS];

// ---- The sides -----------------------------------------------------------

/// How a sheet is painted: in colour or plain, in bands of how many rows.
#[derive(Clone, Copy)]
struct Manner {
    coloured: bool,
    band: usize,
}

/// Whose work is measured on a sheet.
#[derive(Clone, Copy)]
enum Side {
    /// The product's check of the image, once.
    Check,
    /// The product's painting of all bands, the check left out.
    Painting(Manner),
    /// The product's public call for each band, which checks and paints.
    Public(Manner),
    /// The one that writes each band as text too.
    Text(Manner),
    /// The product's public call for the whole sheet, which checks once.
    Sheet(Manner),
    /// The original's painting of all bands.
    Original(Manner),
    /// The same, and no band is left out where instructions are counted: beside the call for
    /// the whole sheet, which can leave none out.
    OriginalSheet(Manner),
}

impl Side {
    /// All that are timed in one manner.
    fn of(manner: Manner) -> [Side; 5] {
        let kinds = [
            Side::Painting,
            Side::Public,
            Side::Text,
            Side::Sheet,
            Side::Original,
        ];
        kinds.map(|kind| kind(manner))
    }

    /// As `bench-once` is told it.
    fn name(self) -> String {
        match self {
            Side::Check => "check".to_string(),
            Side::Painting(manner) => format!("painting-{}", manner.name()),
            Side::Public(manner) => format!("public-{}", manner.name()),
            Side::Text(manner) => format!("text-{}", manner.name()),
            Side::Sheet(manner) => format!("sheet-{}", manner.name()),
            Side::Original(manner) => format!("original-{}", manner.name()),
            Side::OriginalSheet(manner) => format!("original-sheet-{}", manner.name()),
        }
    }

    fn by_name(name: &str) -> Option<Side> {
        let mut sides = vec![Side::Check];
        for manner in manners() {
            sides.extend(Side::of(manner));
            sides.push(Side::OriginalSheet(manner));
        }
        sides.into_iter().find(|side| side.name() == name)
    }

    /// `bands` chooses those that are painted out of all of them.
    fn work<'a>(self, words: &'a [u32], planned: &'a Planned<'a>, bands: Choice) -> Work<'a> {
        match self {
            Side::Check => check_work(words),
            Side::Painting(manner) => {
                let bands = bands(manner.bands(words));
                product::work(words, manner, product::Call::Painting, bands)
            }
            Side::Public(manner) => {
                let bands = bands(manner.bands(words));
                product::work(words, manner, product::Call::Public, bands)
            }
            Side::Text(manner) => {
                let bands = bands(manner.bands(words));
                product::work(words, manner, product::Call::Text, bands)
            }
            Side::Sheet(manner) => product::sheet_work(words, manner),
            Side::Original(manner) => {
                let bands = bands(manner.bands(words));
                Box::new(original_work(planned, manner, bands))
            }
            Side::OriginalSheet(manner) => {
                Box::new(original_work(planned, manner, manner.bands(words)))
            }
        }
    }
}

impl Manner {
    fn name(self) -> String {
        let kind = if self.coloured { "coloured" } else { "plain" };
        match self.band {
            ALL_ROWS => format!("{kind}-whole"),
            band => format!("{kind}-{band}"),
        }
    }

    /// First row and rows of each band of a sheet.
    fn bands(self, words: &[u32]) -> Vec<Band> {
        let height = words[1] as usize;
        let band = self.band.clamp(1, height.max(1));
        let firsts = (0..height).step_by(band);
        firsts
            .map(|first| (first, band.min(height - first)))
            .collect()
    }
}

/// First row and rows.
type Band = (usize, usize);

/// Which bands of a sheet are painted.
type Choice = fn(Vec<Band>) -> Vec<Band>;

fn all_bands(bands: Vec<Band>) -> Vec<Band> {
    bands
}

/// Of many bands four stretches of 25: valgrind would take minutes for all of them.
fn counted_bands(bands: Vec<Band>) -> Vec<Band> {
    const MANY: usize = 150;
    const STRETCH: usize = 25;
    if bands.len() <= MANY {
        return bands;
    }
    let stretches = bands.chunks(bands.len().div_ceil(4));
    let middles = stretches.map(|part| {
        let from = part.len().saturating_sub(STRETCH) / 2;
        &part[from..part.len().min(from + STRETCH)]
    });
    middles.flatten().copied().collect()
}

/// These bands of the sheet. The canvas is emptied for each band, as the original
/// does; its buffers and the scratch are made before the time begins.
fn original_work<'a>(
    planned: &'a Planned<'a>,
    manner: Manner,
    bands: Vec<Band>,
) -> impl FnMut() + 'a {
    let Manner { coloured, band } = manner;
    let mut scratch = planned.scratch(coloured, band);
    let mut cells = vec![Cell::EMPTY; planned.room(band)];
    let mut colours = vec![CellColor::DEFAULT; planned.room(band)];
    move || {
        for rows in &bands {
            let cells = black_box(&mut cells[..]);
            let colours = coloured.then_some(black_box(&mut colours[..]));
            black_box(planned.paint_band(&mut scratch, cells, colours, *rows));
        }
    }
}

fn check_work(words: &[u32]) -> Work<'_> {
    Box::new(move || {
        black_box(product::check(black_box(words)));
    })
}

/// Calls with the image as the original is handed it. The sheets of `bench` can
/// all be read.
fn with_plan<T>(words: &[u32], call: impl FnOnce(&Planned<'_>) -> T) -> T {
    let image = Image::read(words).unwrap_or_else(|why| panic!("a sheet of bench: {why}"));
    let planned = Planned::of(&image).unwrap_or_else(|why| panic!("a sheet of bench: {why}"));
    call(&planned)
}

fn assert_accepted(what: &str, words: &[u32]) {
    assert_eq!(product::check(words), 0, "{what} is refused");
}

// ---- The command ---------------------------------------------------------

pub fn command(options: &[String]) -> io::Result<ExitCode> {
    let rounds = match options {
        [] => Some(DEFAULT_ROUNDS),
        [rounds] => rounds.parse().ok().filter(|&rounds| rounds > 0),
        _ => None,
    };
    let Some(rounds) = rounds else {
        return Ok(wrong_use("bench [ROUNDS], a number above 0"));
    };
    write_machine(rounds)?;
    let counting = counts::valgrind_is_at_hand();
    if !counting {
        writeln!(
            io::stdout(),
            "\nvalgrind is not at hand: no instructions were counted, their columns hold `-`."
        )?;
    }
    let measured: Vec<Measured> = sheets()
        .into_iter()
        .map(|sheet| Measured::of(sheet, rounds, counting))
        .collect::<io::Result<_>>()?;
    write_checks(&measured)?;
    for coloured in [false, true] {
        write_painting(&measured, coloured)?;
    }
    for coloured in [false, true] {
        write_text(&measured, coloured)?;
    }
    for coloured in [false, true] {
        sheet_table::write(&measured, coloured)?;
    }
    growth::write(rounds)?;
    Ok(ExitCode::SUCCESS)
}

fn write_machine(rounds: u32) -> io::Result<()> {
    let said_by = |program: &str, option: &str| {
        let said = Command::new(program).arg(option).output().ok();
        let said = said.filter(|said| said.status.success());
        said.map_or("not at hand".to_string(), |said| {
            String::from_utf8_lossy(&said.stdout).trim().to_string()
        })
    };
    let cores = std::thread::available_parallelism().map_or(1, usize::from);
    let rows = [
        ("processor", processor()),
        ("kind", std::env::consts::ARCH.to_string()),
        ("cores", cores.to_string()),
        ("Rattle", said_by("rt", "version")),
        ("Rust", said_by("rustc", "--version")),
        ("valgrind", said_by("valgrind", "--version")),
        ("rounds", rounds.to_string()),
    ];
    let mut out = io::stdout();
    writeln!(out, "| machine | |\n|---|---|")?;
    for (what, value) in rows {
        writeln!(out, "| {what} | {value} |")?;
    }
    Ok(())
}

/// As the system names it.
fn processor() -> String {
    let listed = Command::new("lscpu").env("LC_ALL", "C").output();
    let text = listed.map(|listed| String::from_utf8_lossy(&listed.stdout).into_owned());
    let text = text.unwrap_or_default();
    let name = text
        .lines()
        .find_map(|line| line.strip_prefix("Model name:"));
    name.map_or("unknown".to_string(), |name| name.trim().to_string())
}

// ---- The sheets ----------------------------------------------------------

/// Seconds and instructions of one work.
#[derive(Clone, Copy)]
struct Cost {
    seconds: f64,
    instructions: Option<u64>,
}

/// What was measured in one manner.
struct Line {
    manner: Manner,
    /// The bands of the sheet, and those whose instructions were counted.
    bands: usize,
    counted_bands: usize,
    /// The cells of the one and of the other.
    cells: usize,
    counted_cells: usize,
    painting: Cost,
    public: Cost,
    text: Cost,
    sheet: Cost,
    original: Cost,
    /// The original's instructions with no band left out.
    original_sheet: Option<u64>,
}

struct Measured {
    sheet: Sheet,
    check: Cost,
    lines: Vec<Line>,
}

impl Measured {
    fn of(sheet: Sheet, rounds: u32, counting: bool) -> io::Result<Measured> {
        assert_accepted(sheet.name, &sheet.words);
        let manners = manners();
        let mut sides = vec![Side::Check];
        for manner in &manners {
            product::assert_painted_alike(&sheet, *manner);
            sides.extend(Side::of(*manner));
        }
        let seconds = with_plan(&sheet.words, |planned| {
            let works = sides
                .iter()
                .map(|side| side.work(&sheet.words, planned, all_bands));
            least_seconds(&mut works.collect::<Vec<_>>(), rounds)
        });
        let counted = count(&sheet, &sides, counting)?;
        let cost = |nth: usize| Cost {
            seconds: seconds[nth],
            instructions: counted[nth],
        };
        let lines = manners.into_iter().enumerate().map(|(nth, manner)| {
            let costs = [1, 2, 3, 4, 5].map(|side| cost(5 * nth + side));
            Line::of(&sheet, manner, costs, counting)
        });
        let lines = lines.collect::<io::Result<_>>()?;
        Ok(Measured {
            check: cost(0),
            lines,
            sheet,
        })
    }
}

impl Line {
    /// The costs are those of the sides in the order of `Side::of`.
    fn of(sheet: &Sheet, manner: Manner, costs: [Cost; 5], counting: bool) -> io::Result<Line> {
        let [painting, public, text, call, original] = costs;
        let bands = manner.bands(&sheet.words);
        let counted = counted_bands(bands.clone());
        let cells_of = |bands: &[Band]| {
            let rows: usize = bands.iter().map(|(_, rows)| rows).sum();
            rows * sheet.words[0] as usize
        };
        let original_sheet = match counted.len() < bands.len() {
            true => count(sheet, &[Side::OriginalSheet(manner)], counting)?[0],
            false => original.instructions,
        };
        Ok(Line {
            manner,
            bands: bands.len(),
            counted_bands: counted.len(),
            cells: cells_of(&bands),
            counted_cells: cells_of(&counted),
            painting,
            public,
            text,
            sheet: call,
            original,
            original_sheet,
        })
    }
}

/// Every manner.
fn manners() -> Vec<Manner> {
    let mut manners = Vec::new();
    for coloured in [false, true] {
        manners.extend(BANDS.map(|band| Manner { coloured, band }));
    }
    manners
}

/// The instructions of each side, where they are counted.
fn count(sheet: &Sheet, sides: &[Side], counting: bool) -> io::Result<Vec<Option<u64>>> {
    let file = write_sheet(sheet.name, &sheet.words)?;
    let counted = |side: &Side| counting.then(|| counts::instructions(*side, &file))?;
    Ok(sides.iter().map(counted).collect())
}

fn write_sheet(name: &str, words: &[u32]) -> io::Result<PathBuf> {
    let folder = in_the_repository(FOLDER);
    fs::create_dir_all(&folder)?;
    let file = folder.join(name).with_extension("img");
    let bytes: Vec<u8> = words.iter().flat_map(|word| word.to_be_bytes()).collect();
    fs::write(&file, bytes)?;
    Ok(file)
}

// ---- The tables ----------------------------------------------------------

fn microseconds(seconds: f64) -> String {
    match seconds * 1e6 {
        small if small < 100.0 => format!("{small:.2}"),
        large => format!("{large:.0}"),
    }
}

fn share(part: f64, whole: f64) -> String {
    format!("{:.3}", part / whole)
}

fn count_share(times: usize, part: Option<u64>, whole: Option<u64>) -> String {
    let both = part.zip(whole);
    both.map_or("-".to_string(), |(part, whole)| {
        share(times as f64 * part as f64, whole as f64)
    })
}

fn write_checks(measured: &[Measured]) -> io::Result<()> {
    let mut out = io::stdout();
    writeln!(
        out,
        "\nOne check of each sheet, and its share of the original's plain painting of the whole \
         sheet:\n\n\
         | sheet | columns | rows | words | time, us | share | instructions | share |\n\
         |---|--:|--:|--:|--:|--:|--:|--:|"
    )?;
    for Measured {
        sheet,
        check,
        lines,
    } in measured
    {
        let whole = lines.iter().find(|line| line.bands == 1);
        let original = whole.map_or(check, |line| &line.original);
        let counted = check
            .instructions
            .map_or("-".to_string(), |n| n.to_string());
        writeln!(
            out,
            "| {} | {} | {} | {} | {} | {} | {counted} | {} |",
            sheet.name,
            sheet.words[0],
            sheet.words[1],
            sheet.words.len(),
            microseconds(check.seconds),
            share(check.seconds, original.seconds),
            count_share(1, check.instructions, original.instructions),
        )?;
    }
    Ok(())
}

fn write_painting(measured: &[Measured], coloured: bool) -> io::Result<()> {
    let mut out = io::stdout();
    let kind = if coloured { "Coloured" } else { "Plain" };
    writeln!(
        out,
        "\n{kind}, the whole sheet in bands of 1 and of 8 rows and as one band. Times in \
         microseconds; the other columns are shares of the original's painting at the same band \
         height. `check` is one check for each band, `painting` leaves the check out, `both` is \
         the public call, which checks at each band. Instructions marked `*` are those of 100 bands \
         of the sheet, four stretches of 25.\n\n\
         | sheet | band | original, us | both, us | check | painting | both \
         | instructions: original | check | painting | both |\n\
         |---|--:|--:|--:|--:|--:|--:|--:|--:|--:|--:|"
    )?;
    for one in measured {
        let lines = one
            .lines
            .iter()
            .filter(|line| line.manner.coloured == coloured);
        for line in lines {
            writeln!(out, "{}", painting_row(one, line))?;
        }
    }
    Ok(())
}

/// As a table has it.
fn band_name(band: usize) -> String {
    match band {
        ALL_ROWS => "whole".to_string(),
        band => band.to_string(),
    }
}

fn painting_row(one: &Measured, line: &Line) -> String {
    let band = band_name(line.manner.band);
    let Line {
        painting,
        public,
        original,
        ..
    } = line;
    let checks = line.bands as f64 * one.check.seconds;
    let mark = if line.counted_bands < line.bands {
        "*"
    } else {
        ""
    };
    let counted = original.instructions;
    let counted = counted.map_or("-".to_string(), |count| format!("{count}{mark}"));
    let of_original =
        |times, cost: &Cost| count_share(times, cost.instructions, original.instructions);
    [
        format!("| {} | {band}", one.sheet.name),
        microseconds(original.seconds),
        microseconds(public.seconds),
        share(checks, original.seconds),
        share(painting.seconds, original.seconds),
        share(public.seconds, original.seconds),
        counted,
        of_original(line.counted_bands, &one.check),
        of_original(1, painting),
        format!("{} |", of_original(1, public)),
    ]
    .join(" | ")
}

fn write_text(measured: &[Measured], coloured: bool) -> io::Result<()> {
    let mut out = io::stdout();
    let kind = if coloured { "Coloured" } else { "Plain" };
    writeln!(
        out,
        "\n{kind} text, the whole sheet in bands of 1 and of 8 rows and as one band. `both` is \
         the public call that checks and paints, `text` the one that writes the band besides; \
         their shares are of the original's painting at the same band height, which writes no \
         text. `writing` is what the one takes more than the other, for a cell; \
         its time is left out where it is under a twentieth of the call's.\n\n\
         | sheet | band | text, us | both | text | writing, ns a cell \
         | instructions: both | text | writing, a cell |\n\
         |---|--:|--:|--:|--:|--:|--:|--:|--:|"
    )?;
    for one in measured {
        let lines = one.lines.iter();
        for line in lines.filter(|line| line.manner.coloured == coloured) {
            writeln!(out, "{}", text_row(one, line))?;
        }
    }
    Ok(())
}

/// A smaller share of a call is lost in how the call's time differs from round to round.
const LEAST_WRITING: f64 = 0.05;

fn text_row(one: &Measured, line: &Line) -> String {
    let Line {
        public,
        text,
        original,
        ..
    } = line;
    let writing = text.seconds - public.seconds;
    let writing = match writing < LEAST_WRITING * text.seconds {
        true => "-".to_string(),
        false => format!("{:.2}", writing * 1e9 / line.cells as f64),
    };
    let both = text.instructions.zip(public.instructions);
    let counted = both.map_or("-".to_string(), |(text, public)| {
        let more = text as f64 - public as f64;
        format!("{:.1}", more / line.counted_cells as f64)
    });
    let of_original = |cost: &Cost| count_share(1, cost.instructions, original.instructions);
    [
        format!("| {} | {}", one.sheet.name, band_name(line.manner.band)),
        microseconds(text.seconds),
        share(public.seconds, original.seconds),
        share(text.seconds, original.seconds),
        writing,
        of_original(public),
        of_original(text),
        format!("{counted} |"),
    ]
    .join(" | ")
}

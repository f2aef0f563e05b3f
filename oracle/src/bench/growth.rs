//! How the cost of the check, of the painting and of the call for a whole sheet grows, as a
//! table or the sheet doubles.

use super::clock::{least_seconds, Work};
use super::product::{self, Call};
use super::{assert_accepted, check_work, Manner, ALL_ROWS};
use crate::sheets::{growing_sheets, growths, taller_sheets, GrowingSheet, Growth};
use std::io::{self, Write as _};

/// The whole sheet as one band, plain.
const WHOLE: Manner = Manner {
    coloured: false,
    band: ALL_ROWS,
};

/// The lowest bands, plain: whatever a band does for the whole sheet is done for each row.
const BY_ROWS: Manner = Manner {
    coloured: false,
    band: 1,
};

/// What is measured on a sheet that grows.
#[derive(Clone, Copy)]
enum Measure {
    Check,
    Painting,
    /// The call for a whole sheet.
    Sheet,
}

impl Measure {
    fn work(self, words: &[u32]) -> Work<'_> {
        match self {
            Measure::Check => check_work(words),
            Measure::Painting => product::work(words, WHOLE, Call::Painting, WHOLE.bands(words)),
            Measure::Sheet => product::sheet_work(words, BY_ROWS),
        }
    }
}

pub fn write(rounds: u32) -> io::Result<()> {
    let mut out = io::stdout();
    for (measure, name) in [(Measure::Check, "check"), (Measure::Painting, "painting")] {
        writeln!(
            out,
            "\nThe time of the {name} for a record as its table grows, the sheet without these \
             records taken off: at the least count in nanoseconds, then as multiples of that; \
             1 is linear.\n\n\
             | records | least | ns each | doubled | twice | three times, the limit |\n\
             |---|--:|--:|--:|--:|--:|"
        )?;
        for growth in growths() {
            writeln!(out, "{}", table_row(&growth, measure, rounds))?;
        }
    }
    write_sheets(rounds)?;
    write_rows(rounds)
}

/// Nanoseconds for a record at the least count, and multiples of it. Where a record costs
/// next to nothing a multiple would tell of chance alone.
fn table_row(growth: &Growth, measure: Measure, rounds: u32) -> String {
    const NEXT_TO_NOTHING: f64 = 0.1;
    let mut works = Vec::new();
    for step in &growth.steps {
        for words in [&step.with, &step.without] {
            assert_accepted(&format!("{} {}", step.count, growth.what), words);
            works.push(measure.work(words));
        }
    }
    let seconds = least_seconds(&mut works, rounds);
    let each = |(step, pair): (&crate::sheets::Step, &[f64])| {
        (pair[0] - pair[1]) * 1e9 / f64::from(step.count)
    };
    let each: Vec<f64> = growth
        .steps
        .iter()
        .zip(seconds.chunks(2))
        .map(each)
        .collect();
    let least = growth.steps[0].count;
    if each
        .iter()
        .all(|nanoseconds| *nanoseconds < NEXT_TO_NOTHING)
    {
        return format!(
            "| {} | {least} | under {NEXT_TO_NOTHING} | - | - | - |",
            growth.what
        );
    }
    format!(
        "| {} | {least} | {:.2} | {} |",
        growth.what,
        each[0],
        multiples(&each)
    )
}

/// Of the first, for the others.
fn multiples(values: &[f64]) -> String {
    let multiples = values[1..]
        .iter()
        .map(|value| format!("{:.2}", value / values[0]));
    multiples.collect::<Vec<String>>().join(" | ")
}

fn write_sheets(rounds: u32) -> io::Result<()> {
    let mut out = io::stdout();
    writeln!(
        out,
        "\nThe time as the sheet doubles under the same records: of the check as a whole, which \
         should stay, and of the painting for a cell.\n\n\
         | what doubles | least sheet | check, ns | doubled | twice | three times | painting, ns a cell \
         | doubled | twice | three times |\n\
         |---|--:|--:|--:|--:|--:|--:|--:|--:|--:|"
    )?;
    for growing in growing_sheets() {
        writeln!(out, "{}", sheet_row(&growing, rounds))?;
    }
    Ok(())
}

/// The seconds of each step of a sheet that grows.
fn seconds_of(growing: &GrowingSheet, measure: Measure, rounds: u32) -> Vec<f64> {
    for words in &growing.sheets {
        assert_accepted(growing.what, words);
    }
    let works = growing.sheets.iter().map(|words| measure.work(words));
    least_seconds(&mut works.collect::<Vec<_>>(), rounds)
}

/// Nanoseconds for each of what a step has so many of.
fn nanoseconds_each(seconds: &[f64], growing: &GrowingSheet, count: fn(&[u32]) -> u32) -> Vec<f64> {
    let counts = growing.sheets.iter().map(|words| f64::from(count(words)));
    let each = seconds.iter().zip(counts);
    each.map(|(seconds, count)| seconds * 1e9 / count).collect()
}

fn sheet_row(growing: &GrowingSheet, rounds: u32) -> String {
    let checks = seconds_of(growing, Measure::Check, rounds);
    let painting = seconds_of(growing, Measure::Painting, rounds);
    let painting = nanoseconds_each(&painting, growing, |words| words[0] * words[1]);
    let least = &growing.sheets[0];
    format!(
        "| {} | {} by {} | {:.0} | {} | {:.3} | {} |",
        growing.what,
        least[0],
        least[1],
        checks[0] * 1e9,
        multiples(&checks),
        painting[0],
        multiples(&painting)
    )
}

fn write_rows(rounds: u32) -> io::Result<()> {
    let mut out = io::stdout();
    writeln!(
        out,
        "\nThe time of the call for a whole sheet in bands of one row, its check counted in, for a \
         row as the height doubles: under the same things, and with as many things more.\n\n\
         | what doubles | least sheet | ns a row | doubled | twice | three times |\n\
         |---|--:|--:|--:|--:|--:|"
    )?;
    for growing in taller_sheets() {
        let seconds = seconds_of(&growing, Measure::Sheet, rounds);
        let rows = nanoseconds_each(&seconds, &growing, |words| words[1]);
        let [width, height] = [growing.sheets[0][0], growing.sheets[0][1]];
        writeln!(
            out,
            "| {} | {width} by {height} | {:.1} | {} |",
            growing.what,
            rows[0],
            multiples(&rows)
        )?;
    }
    Ok(())
}

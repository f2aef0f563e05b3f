//! `vectors`: the original's answer to each named case, held against the cells
//! that document 01 states and against the stored answers.

use crate::cases::{self, Asked, Case, Stated};
use crate::paint::{self, Sheet};
use crate::{hex_row, in_the_repository, wrong_use};
use std::fmt::Write as _;
use std::io::{self, Write as _};
use std::process::ExitCode;

/// The stored answers.
const ANSWERS: &str = "oracle/answers.txt";

pub fn command(options: &[String]) -> io::Result<ExitCode> {
    let stored_at = in_the_repository(ANSWERS);
    let reports: Vec<String> = cases::all().iter().map(report).collect();
    let text = reports.join("\n");
    io::stdout().write_all(text.as_bytes())?;
    match options {
        [] => match std::fs::read_to_string(stored_at) {
            Ok(stored) => compare(&reports, &stored),
            Err(_) => Ok(wrong_use(
                "no answers are stored; vectors --write stores them",
            )),
        },
        [option] if option == "--write" => {
            std::fs::write(stored_at, &text)?;
            writeln!(io::stdout(), "\nanswers written: {}", reports.len())?;
            Ok(ExitCode::SUCCESS)
        }
        _ => Ok(wrong_use("vectors [--write]")),
    }
}

/// Names every answer that is not the stored one, and counts those that are.
fn compare(reports: &[String], stored: &str) -> io::Result<ExitCode> {
    let stored: Vec<&str> = stored.split("\n\n").map(str::trim_end).collect();
    let differing: Vec<&str> = reports
        .iter()
        .map(|report| report.trim_end())
        .filter(|report| !stored.contains(report))
        .filter_map(|report| report.lines().next())
        .collect();
    let mut out = io::stdout();
    writeln!(out)?;
    for case in &differing {
        writeln!(out, "answer differs from the stored one: {case}")?;
    }
    if stored.len() != reports.len() {
        let (now, then) = (reports.len(), stored.len());
        writeln!(out, "{now} cases where {then} are stored")?;
    } else if differing.is_empty() {
        writeln!(out, "answers agree: {}", reports.len())?;
        return Ok(ExitCode::SUCCESS);
    }
    Ok(ExitCode::FAILURE)
}

/// A case as it is printed and stored: lines, no empty one among them.
fn report(case: &Case) -> String {
    let mut lines = format!("case {}\n{}\n", case.name, case.how);
    let rows = match &case.asked {
        Asked::Directly(ask) => {
            let row = ask();
            lines += &format!("row {}\n", hex_row(&row));
            vec![row]
        }
        Asked::Image(words) => report_image(words, &mut lines),
    };
    lines += &match &case.stated {
        Some(stated) => report_stated(stated, &rows),
        None => "document 01 states no cells of it\n".to_string(),
    };
    lines
}

/// Adds the image and what the original made of it; answers the sheet's rows.
fn report_image(words: &[u32], lines: &mut String) -> Vec<Vec<u32>> {
    let _ = writeln!(lines, "image {}", hex_row(words));
    let whole = match paint::paint(words, false, usize::MAX) {
        Ok(sheet) => sheet,
        Err(why) => {
            let _ = writeln!(lines, "unreadable: {why}");
            return Vec::new();
        }
    };
    let _ = writeln!(lines, "sheet {} {}", whole.width, whole.height);
    let row = |y: usize| whole.cells[y * whole.width..][..whole.width].to_vec();
    let rows: Vec<Vec<u32>> = (0..whole.height).map(row).collect();
    for row in &rows {
        let _ = writeln!(lines, "{}", hex_row(row));
    }
    let alike = yes_or_no(alike_however_painted(words, &whole));
    let _ = writeln!(
        lines,
        "the same in bands of 1, 3, 8 and whole, plain and coloured: {alike}"
    );
    rows
}

fn alike_however_painted(words: &[u32], whole: &Sheet) -> bool {
    [1, 3, 8, usize::MAX].into_iter().all(|band| {
        [false, true].into_iter().all(|coloured| {
            paint::paint(words, coloured, band).is_ok_and(|sheet| sheet.cells == whole.cells)
        })
    })
}

fn report_stated(stated: &Stated, rows: &[Vec<u32>]) -> String {
    let answered = rows
        .get(stated.row)
        .and_then(|row| row.get(stated.column..stated.column + stated.cells.len()));
    format!(
        "stated from row {} column {}: {}\nequal to document 01: {}\n",
        stated.row,
        stated.column,
        hex_row(stated.cells),
        yes_or_no(answered == Some(stated.cells))
    )
}

fn yes_or_no(yes: bool) -> &'static str {
    match yes {
        true => "yes",
        false => "no",
    }
}

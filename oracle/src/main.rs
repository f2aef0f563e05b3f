//! The slow check and the original compositor, asked by images of document 01's
//! format. README.md says what each command answers. Compiled without
//! `original`, it leaves out all that needs the original's text; without
//! `product`, what calls the product's library; without `timed`, what is linked to
//! time the check and the painting apart.

extern crate alloc;

#[cfg(original)]
mod as_text;
mod asking;
#[cfg(original)]
mod band_requests;
#[cfg(timed)]
mod bench;
#[cfg(original)]
mod cases;
mod codes;
#[cfg(product)]
mod compare;
mod compare_check;
#[cfg(original)]
mod compare_edges;
#[cfg(original)]
mod compare_paint;
#[cfg(original)]
mod coverage;
mod dice;
mod draft;
#[cfg(original)]
mod engine;
#[cfg(original)]
mod every_stroke;
mod full;
mod generate;
#[cfg(original)]
mod image;
mod layout;
mod limits;
#[cfg(original)]
mod paint;
#[cfg(original)]
mod paint_cases;
#[cfg(original)]
mod paintlines;
#[cfg(product)]
mod pivotdawn;
#[cfg(original)]
mod requests;
#[cfg(original)]
mod sheet_coverage;
#[cfg(timed)]
mod sheets;
mod slow_check;
mod stored;
#[cfg(product)]
mod structured;
#[cfg(original)]
mod stubs;
#[cfg(original)]
mod text_coverage;
#[cfg(original)]
mod vectors;

// Found by the original as `crate::text` and so on.
#[cfg(original)]
use stubs::{graph, ir, text, GraphError, PortAttachment};

use std::path::PathBuf;
use std::process::ExitCode;

fn main() -> ExitCode {
    let arguments: Vec<String> = std::env::args().skip(1).collect();
    let Some((command, rest)) = arguments.split_first() else {
        return wrong_use("no command");
    };
    let done = match command.as_str() {
        #[cfg(original)]
        "paint" => paint::command(rest),
        #[cfg(original)]
        "paint-cases" => paint_cases::command(rest),
        #[cfg(original)]
        "vectors" => vectors::command(rest),
        #[cfg(timed)]
        "bench" => bench::command(rest),
        #[cfg(timed)]
        "bench-once" => bench::once(rest),
        #[cfg(product)]
        "compare" => compare::command(rest),
        "limits" => limits::command(rest),
        "compare-check" => compare_check::command(rest),
        #[cfg(original)]
        "compare-edges" => compare_edges::command(rest),
        #[cfg(original)]
        "compare-paint" => compare_paint::command(rest),
        other => return wrong_use(&format!("no command {other}")),
    };
    // A reader that has seen enough may close the pipe: no reason to panic.
    done.unwrap_or_else(|error| wrong_use(&error.to_string()))
}

pub fn wrong_use(why: &str) -> ExitCode {
    eprintln!("oracle: {why}");
    ExitCode::from(2)
}

/// A file of the repository, whose folder `oracle/run` names.
pub fn in_the_repository(path: &str) -> PathBuf {
    PathBuf::from(std::env::var_os("PIVOTDAWN_ROOT").unwrap_or_default()).join(path)
}

/// Words as document 01 prints cells: "each cell eight upper-case hex digits, single-spaced."
pub fn hex_row(words: &[u32]) -> String {
    let hex: Vec<String> = words.iter().map(|w| format!("{w:08X}")).collect();
    hex.join(" ")
}

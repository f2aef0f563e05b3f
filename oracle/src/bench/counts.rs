//! Instructions: those of one call, counted by valgrind's callgrind.

use super::{counted_bands, with_plan, Side};
use crate::{image, wrong_use};
use std::fs;
use std::io;
use std::path::Path;
use std::process::{Command, ExitCode, Stdio};

/// Collecting begins and ends with this function: valgrind is told its name.
#[no_mangle]
#[inline(never)]
pub fn pivotdawn_counted(work: &mut dyn FnMut()) {
    work();
}

/// `bench-once SIDE FILE`: one call of a side on an image, for valgrind. A call before it
/// does what only a first call has to do; beside hundreds of bands of the original that is
/// nothing, and the call would take minutes.
pub fn once(options: &[String]) -> io::Result<ExitCode> {
    let [name, file] = options else {
        return Ok(wrong_use("bench-once SIDE FILE"));
    };
    let Some(side) = Side::by_name(name) else {
        return Ok(wrong_use("bench-once: no such side"));
    };
    let words = image::words_of(&fs::read(file)?).unwrap_or_default();
    with_plan(&words, |planned| {
        let mut work = side.work(&words, planned, counted_bands);
        if !matches!(side, Side::OriginalSheet(_)) {
            work();
        }
        pivotdawn_counted(&mut work);
    });
    Ok(ExitCode::SUCCESS)
}

pub fn valgrind_is_at_hand() -> bool {
    let asked = Command::new("valgrind")
        .arg("--version")
        .stdout(Stdio::null())
        .status();
    asked.is_ok_and(|status| status.success())
}

/// Has the C library fill and copy by loops: an instruction of x86-64 that does
/// it by itself would be counted once for each byte.
const NO_REPEATED_BYTES: &str = "glibc.cpu.x86_rep_stosb_threshold=1000000000:\
     glibc.cpu.x86_rep_movsb_threshold=1000000000";

/// Instructions of one call; none where valgrind does not tell.
pub fn instructions(side: Side, file: &Path) -> Option<u64> {
    let counts = file.with_extension("counts");
    let mut out_file = std::ffi::OsString::from("--callgrind-out-file=");
    out_file.push(&counts);
    let ended = Command::new("valgrind")
        .args(["--tool=callgrind", "--collect-atstart=no"])
        .arg("--toggle-collect=pivotdawn_counted")
        .arg(out_file)
        .arg(std::env::current_exe().ok()?)
        .args(["bench-once", &side.name()])
        .arg(file)
        .env("GLIBC_TUNABLES", NO_REPEATED_BYTES)
        .stderr(Stdio::null())
        .status();
    if !ended.ok()?.success() {
        return None;
    }
    let text = fs::read_to_string(&counts).ok()?;
    let line = text.lines().find(|line| line.starts_with("totals:"))?;
    line.split_whitespace().nth(1)?.parse().ok()
}

//! The table of the call for a whole sheet, which checks once and carries its sweep from band
//! to band, beside the original's bands, which carry theirs.

use super::{band_name, count_share, microseconds, share, Line, Measured};
use std::io::{self, Write as _};

pub fn write(measured: &[Measured], coloured: bool) -> io::Result<()> {
    let mut out = io::stdout();
    let kind = if coloured { "Coloured" } else { "Plain" };
    writeln!(
        out,
        "\n{kind}, the whole sheet in one call, in bands of 1 and of 8 rows and as one band. Times \
         in microseconds; the other columns are shares of the original's painting at the same band \
         height, which carries its sweep from band to band as the call does. `call` is the public \
         call, with its one check; `less check` is the call less one check as it was measured by \
         itself. No band is left out where instructions are counted.\n\n\
         | sheet | band | original, us | call, us | call | less check \
         | instructions: original | of the call | call | less check |\n\
         |---|--:|--:|--:|--:|--:|--:|--:|--:|--:|"
    )?;
    for one in measured {
        let lines = one.lines.iter();
        for line in lines.filter(|line| line.manner.coloured == coloured) {
            writeln!(out, "{}", row(one, line))?;
        }
    }
    Ok(())
}

fn row(one: &Measured, line: &Line) -> String {
    let Line {
        sheet, original, ..
    } = line;
    let counted = |count: Option<u64>| count.map_or("-".to_string(), |count| count.to_string());
    let both = sheet.instructions.zip(one.check.instructions);
    let less_check = both.map(|(call, check)| call.saturating_sub(check));
    [
        format!("| {} | {}", one.sheet.name, band_name(line.manner.band)),
        microseconds(original.seconds),
        microseconds(sheet.seconds),
        share(sheet.seconds, original.seconds),
        share(sheet.seconds - one.check.seconds, original.seconds),
        counted(line.original_sheet),
        counted(sheet.instructions),
        count_share(1, sheet.instructions, line.original_sheet),
        format!("{} |", count_share(1, less_check, line.original_sheet)),
    ]
    .join(" | ")
}

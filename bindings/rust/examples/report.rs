//! Writes a line for each faulty row of a sheet: its row, its list and index there, what is wrong and what to do about it. A faulty row is skipped and leaves no trace,
//! so that a later row may be faulty for want of it, or in order only while it is not mended: mend the rows, and ask again.
//!
//! ```sh
//! cargo run --example report -- FILE
//! cargo run --example report < FILE
//! ```
//!
//! Behind the rows stands what is wrong with the sheet as a whole, where only the rows that are not faulty count, and last how many rows are faulty. Exit status: 0
//! nothing is wrong, 1 something is, 2 no sheet could be read.

mod command;

use sapyullu::{report, Error};
use std::ffi::OsString;
use std::io::{self, Read, Write};
use std::process::ExitCode;

/// What is wrong, and what to do about it.
fn fault(error: Error) -> String {
    format!("refusal {} ({}): {error}; cure: {}", error.number(), error.name(), error.cure())
}

/// All that is to be said of a sheet, and whether nothing is wrong with it.
fn write_report(sheet: &[u8], out: &mut impl Write) -> io::Result<bool> {
    let found = match report(sheet) {
        Ok(found) => found,
        Err(refusal) => {
            writeln!(out, "{refusal}; cure: {}\nno row is reported", refusal.error.cure())?;
            out.flush()?;
            return Ok(false);
        }
    };
    for faulty in &found.faulty {
        let place = faulty.place.map_or(String::new(), |place| format!(" ({place})"));
        writeln!(out, "row {}{place}: {}", faulty.row, fault(faulty.error))?;
    }
    for (told, error) in [(found.no_platform, Error::NoPlatformHeaders), (found.no_context, Error::NoMatchingVpContext)] {
        if told {
            writeln!(out, "the rows that are not faulty: {}", fault(error))?;
        }
    }
    writeln!(out, "{} of {} rows are faulty", found.faulty.len(), found.rows)?;
    out.flush()?;
    Ok(found.is_accepted())
}

/// The exit status.
pub fn run(arguments: &[OsString], input: &mut impl Read, out: &mut impl Write) -> u8 {
    let sheet = command::sheet(arguments, input, "report [FILE], or report < FILE");
    command::exit_status(sheet.and_then(|sheet| write_report(&sheet, out)))
}

fn main() -> ExitCode {
    let arguments: Vec<OsString> = std::env::args_os().skip(1).collect();
    ExitCode::from(run(&arguments, &mut io::stdin().lock(), &mut io::BufWriter::new(io::stdout().lock())))
}
